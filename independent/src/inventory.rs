//! The printed inventory of a store (request 1).

use crate::contents::{Contents, Installed};
use crate::questions::{number, q1, q2};
use crate::store::ENTRY_HEAD;

/// What the page says of a package.
#[derive(Clone, Copy, Debug, PartialEq, Eq)]
pub struct Line<'a> {
    pub aid: &'a [u8],
    pub domain: &'a [u8],
    /// How many bytes the file has.
    pub bytes: usize,
    /// How many methods its classes have, implemented or not.
    pub methods: usize,
}

impl<'a> Line<'a> {
    fn of(installed: &Installed<'a>) -> Self {
        let Installed {
            domain,
            entry,
            package,
            ..
        } = installed;
        Line {
            aid: package.aid,
            domain,
            bytes: entry.len() - heading(domain),
            methods: package.classes.iter().map(|c| c.methods.len()).sum(),
        }
    }
}

/// What the last line says of all packages.
#[derive(Clone, Copy, Debug, PartialEq, Eq)]
pub struct Totals {
    pub packages: usize,
    pub bytes: usize,
    pub methods: usize,
}

impl Totals {
    pub fn of(lines: &[Line]) -> Self {
        Totals {
            packages: lines.len(),
            bytes: lines.iter().map(|line| line.bytes).sum(),
            methods: lines.iter().map(|line| line.methods).sum(),
        }
    }
}

/// The bytes of a package's entry before its file: kind, length, and the domain's AID with
/// its length.
pub fn heading(domain: &[u8]) -> usize {
    ENTRY_HEAD + 1 + domain.len()
}

/// The page of a store's bytes.
pub fn inventory(store: &[u8]) -> Vec<u8> {
    match judged(store) {
        Ok(contents) => page(&lines(&contents)),
        Err(question) => refusal(question),
    }
}

/// Asks 1 and 2; gives what the store holds.
pub fn judged(store: &[u8]) -> Result<Contents<'_>, u8> {
    number(q1(store), 1)?;
    q2(store).ok_or(2)
}

/// A line for each package, in store order.
pub fn lines<'a>(contents: &Contents<'a>) -> Vec<Line<'a>> {
    contents.packages.iter().map(Line::of).collect()
}

/// These lines and their totals.
pub fn page(lines: &[Line]) -> Vec<u8> {
    page_with(lines, Totals::of(lines))
}

/// These lines, with these totals in the last one.
pub fn page_with(lines: &[Line], totals: Totals) -> Vec<u8> {
    let mut text: String = lines.iter().map(text).collect();
    let Totals {
        packages,
        bytes,
        methods,
    } = totals;
    text += &format!("{packages} {bytes} {methods}\n");
    text.into_bytes()
}

fn text(line: &Line) -> String {
    let (aid, domain) = (digits(line.aid), digits(line.domain));
    format!("{aid} {domain} {} {}\n", line.bytes, line.methods)
}

/// Two capital hex digits for each byte.
fn digits(bytes: &[u8]) -> String {
    bytes.iter().map(|byte| format!("{byte:02X}")).collect()
}

/// The page of a store that fails this question.
pub fn refusal(question: u8) -> Vec<u8> {
    format!("{question}\n").into_bytes()
}
