//! Wrong readings of the printed inventory (request 1).

use crate::contents::{Contents, Installed};
use crate::inventory::{heading, inventory, lines, page, page_with, refusal, Line, Totals};
use crate::package::{self, Class};
use crate::questions::q2;
use crate::store::{self, Body, ENTRY_HEAD};
use std::collections::HashSet;

#[derive(Clone, Copy, Debug, PartialEq, Eq)]
pub enum InventoryMisreading {
    /// Methods count where they are implemented.
    ImplementedAlone,
    /// Methods count where they are visible.
    VisibleAlone,
    /// Methods of interfaces do not count.
    ClassesAlone,
    /// Methods of the first class alone count.
    FirstClassAlone,
    /// A name counts once in a package.
    NamesOnce,
    /// The number of methods is its low byte.
    LowByte,

    /// The length is the whole entry's.
    EntryLength,
    /// The length is that of the entry's body.
    BodyLength,

    /// A domain has a line too.
    DomainLines,
    /// Lines are in the order of the packages' AIDs.
    SortedByAid,
    /// Lines are in the order of the domains, then of the store.
    ByDomain,
    /// The last package comes first.
    LastFirst,
    /// The domain stands before the package.
    DomainFirst,
    /// Hex digits are small letters.
    SmallLetters,

    /// The last line counts domains among the packages.
    DomainsCounted,
    /// The last line has used for the file bytes.
    UsedForBytes,
    /// The last line is about the domain of the last package.
    OneDomain,
    /// A store without packages prints nothing.
    NothingWithout,

    /// A store is sound whose layout holds and whose files read.
    LaidOutAlone,
    /// Question 1 is not asked.
    AnyLength,
    /// What comes after 65,535 bytes is not read.
    CutOff,
    /// The length is counted in two bytes.
    LengthInTwo,
}

use InventoryMisreading::*;

const GREATEST: usize = 65_535;

impl InventoryMisreading {
    pub const ALL: [InventoryMisreading; 22] = [
        ImplementedAlone,
        VisibleAlone,
        ClassesAlone,
        FirstClassAlone,
        NamesOnce,
        LowByte,
        EntryLength,
        BodyLength,
        DomainLines,
        SortedByAid,
        ByDomain,
        LastFirst,
        DomainFirst,
        SmallLetters,
        DomainsCounted,
        UsedForBytes,
        OneDomain,
        NothingWithout,
        LaidOutAlone,
        AnyLength,
        CutOff,
        LengthInTwo,
    ];

    /// The page by this reading; the store has been judged rightly.
    pub fn page(self, store: &[u8], judged: &Result<Contents, u8>) -> Vec<u8> {
        match (self, judged) {
            (_, Ok(contents)) => self.page_of(store, contents),
            (LaidOutAlone, Err(2)) => laid_out(store).unwrap_or_else(|| refusal(2)),
            (AnyLength, Err(1)) => match q2(store) {
                Some(contents) => page(&lines(&contents)),
                None => refusal(2),
            },
            (CutOff, Err(1)) => inventory(&store[..store.len().min(GREATEST)]),
            (LengthInTwo, Err(1)) => inventory(&store[..store.len() & GREATEST]),
            (_, Err(question)) => refusal(*question),
        }
    }

    /// The page of a sound store.
    fn page_of(self, store: &[u8], contents: &Contents) -> Vec<u8> {
        let mut lines = lines(contents);
        for (line, installed) in lines.iter_mut().zip(&contents.packages) {
            self.misread(line, installed);
        }
        match self {
            DomainLines => lines = with_domains(store, &lines),
            SortedByAid => lines.sort_by_key(|line| line.aid),
            ByDomain => lines.sort_by_key(|line| contents.domains[line.domain].entry.start),
            LastFirst => lines.reverse(),
            NothingWithout if lines.is_empty() => return Vec::new(),
            _ => {}
        }
        let page = page_with(&lines, self.totals(store, contents, &lines));
        match self {
            SmallLetters => page.to_ascii_lowercase(),
            _ => page,
        }
    }

    fn misread<'a>(self, line: &mut Line<'a>, installed: &Installed<'a>) {
        let body = 1 + line.domain.len();
        match self {
            EntryLength => line.bytes += ENTRY_HEAD + body,
            BodyLength => line.bytes += body,
            DomainFirst => (line.aid, line.domain) = (line.domain, line.aid),
            _ => line.methods = self.methods(&installed.package.classes),
        }
    }

    fn methods(self, classes: &[Class]) -> usize {
        let methods = || classes.iter().flat_map(|class| &class.methods);
        match self {
            ImplementedAlone => methods().filter(|method| method.implemented()).count(),
            VisibleAlone => methods().filter(|method| method.visible).count(),
            ClassesAlone => {
                let kind_0 = classes.iter().filter(|class| !class.interface);
                kind_0.map(|class| class.methods.len()).sum()
            }
            FirstClassAlone => classes.first().map_or(0, |class| class.methods.len()),
            NamesOnce => {
                let names: HashSet<u16> = methods().map(|method| method.name).collect();
                names.len()
            }
            LowByte => methods().count() & 0xFF,
            _ => methods().count(),
        }
    }

    fn totals(self, store: &[u8], contents: &Contents, lines: &[Line]) -> Totals {
        let right = Totals::of(lines);
        match (self, lines.last()) {
            (DomainLines, _) => Totals {
                packages: contents.packages.len(),
                ..right
            },
            (DomainsCounted, _) => Totals {
                packages: right.packages + contents.domains.len(),
                ..right
            },
            (UsedForBytes, _) => Totals {
                bytes: store::used(store),
                ..right
            },
            (OneDomain, Some(last)) => {
                let same = lines.iter().filter(|line| line.domain == last.domain);
                Totals::of(&same.copied().collect::<Vec<_>>())
            }
            _ => right,
        }
    }
}

/// The page of a store whose layout holds and whose files read.
fn laid_out(store: &[u8]) -> Option<Vec<u8>> {
    let layout = store::layout(store)?;
    let mut lines = Vec::new();
    for entry in &layout.entries {
        if let Body::Package { domain, file } = entry.body {
            let package = package::read(file, layout.version.limits())?;
            lines.push(Line {
                aid: package.aid,
                domain,
                bytes: entry.bytes.len() - heading(domain),
                methods: package.classes.iter().map(|c| c.methods.len()).sum(),
            });
        }
    }
    Some(page(&lines))
}

/// These lines, and one for each domain where its entry stands.
fn with_domains<'a>(store: &'a [u8], lines: &[Line<'a>]) -> Vec<Line<'a>> {
    let entries = store::layout(store).map_or(Vec::new(), |layout| layout.entries);
    let mut packages = lines.iter();
    let line = |body: Body<'a>| match body {
        Body::Domain(_, aid) => Some(Line {
            aid,
            domain: aid,
            bytes: 0,
            methods: 0,
        }),
        Body::Package { .. } => packages.next().copied(),
    };
    entries
        .iter()
        .map(|entry| entry.body)
        .filter_map(line)
        .collect()
}
