//! What inputs of the printed inventory reached, and how often pages tell wrong readings apart.

use crate::bytes::AID_LENGTHS;
use crate::contents::{Contents, Installed};
use crate::inventory::{judged, lines, page, refusal, Line};
use crate::misread_inventory::InventoryMisreading;
use crate::package::Version;
use crate::store::StoreVersion;
use crate::without_int::DomainKind;
use std::fmt;

/// What is counted of a page.
const OF_PAGES: [&str; 13] = [
    "1 for fewer than 64 bytes",
    "1 for more than 65,535 bytes",
    "2",
    "0 0 0 in version 1",
    "0 0 0 in version 2",
    "0 0 0 with domains",
    "packages in version 1",
    "packages in version 2",
    "1 package",
    "2 packages",
    "3 to 9 packages",
    "10 to 99 packages",
    "100 or more packages",
];

/// What is counted of a line.
const OF_LINES: [&str; 19] = [
    "of a file of version 1",
    "of a file of version 2",
    "in a domain with int",
    "in a domain without int",
    "with imports",
    "with FE",
    "with handlers",
    "with implemented methods alone",
    "with unimplemented methods alone",
    "with both",
    "2 digits of length",
    "3 digits of length",
    "4 digits of length",
    "5 digits of length",
    "no method",
    "1 to 9 methods",
    "10 to 99 methods",
    "100 to 999 methods",
    "1,000 or more methods",
];

const READINGS: usize = InventoryMisreading::ALL.len();
const LENGTHS: usize = *AID_LENGTHS.end() - *AID_LENGTHS.start() + 1;

#[derive(Default)]
pub struct InventoryCounts {
    pages: [u64; OF_PAGES.len()],
    lines: [u64; OF_LINES.len()],
    /// Lines by the length of the package's AID and of the domain's.
    packages: [u64; LENGTHS],
    domains: [u64; LENGTHS],
    unimplemented: u64,
    told: [u64; READINGS],
}

impl InventoryCounts {
    /// Notes an input; its page.
    pub fn note(&mut self, store: &[u8]) -> Vec<u8> {
        let judged = judged(store);
        let right = match &judged {
            Ok(contents) => {
                self.note_page(store, contents);
                let lines = lines(contents);
                let both = lines.iter().zip(&contents.packages);
                both.for_each(|(line, package)| self.note_line(line, package, contents));
                page(&lines)
            }
            Err(question) => {
                let place = match question {
                    1 => usize::from(store.len() > 65_535),
                    _ => 2,
                };
                self.pages[place] += 1;
                refusal(*question)
            }
        };
        for (told, wrong) in self.told.iter_mut().zip(InventoryMisreading::ALL) {
            *told += u64::from(wrong.page(store, &judged) != right);
        }
        right
    }

    fn note_page(&mut self, store: &[u8], contents: &Contents) {
        let first = StoreVersion::of(store) == Some(StoreVersion::First);
        let version = usize::from(!first);
        let packages = match contents.packages.len() {
            0 => {
                self.pages[3 + version] += 1;
                self.pages[5] += u64::from(!contents.domains.is_empty());
                return;
            }
            1 => 8,
            2 => 9,
            3..=9 => 10,
            10..=99 => 11,
            _ => 12,
        };
        self.pages[6 + version] += 1;
        self.pages[packages] += 1;
    }

    fn note_line(&mut self, line: &Line, installed: &Installed, contents: &Contents) {
        let package = &installed.package;
        let methods = || package.classes.iter().flat_map(|class| &class.methods);
        let unimplemented = methods().filter(|method| !method.implemented()).count();
        self.unimplemented += unimplemented as u64;
        let second = package.version == Version::Second;
        let without = contents.domains[line.domain].kind == DomainKind::WithoutInt;
        let mut places = vec![usize::from(second), 2 + usize::from(without)];
        places.extend((!package.imports.is_empty()).then_some(4));
        places.extend(methods().any(|m| m.policy.lists_own()).then_some(5));
        places.extend(
            methods()
                .any(|m| m.handlers.iter().next().is_some())
                .then_some(6),
        );
        places.extend(match (line.methods, unimplemented) {
            (0, _) => None,
            (_, 0) => Some(7),
            (all, unimplemented) if all == unimplemented => Some(8),
            _ => Some(9),
        });
        places.push(8 + digits(line.bytes));
        places.push(match line.methods {
            0 => 14,
            methods => 14 + digits(methods).min(4),
        });
        places.iter().for_each(|&place| self.lines[place] += 1);
        let length = |aid: &[u8]| aid.len() - AID_LENGTHS.start();
        self.packages[length(line.aid)] += 1;
        self.domains[length(line.domain)] += 1;
    }

    fn counts(&self) -> impl Iterator<Item = (String, u64)> + '_ {
        let of = |names: &'static [&str], counts: &'static str| {
            names.iter().map(move |name| format!("{counts} {name}"))
        };
        let lengths = |what: &'static str| AID_LENGTHS.map(move |n| format!("{what} of {n} bytes"));
        let readings = InventoryMisreading::ALL.iter();
        let readings = readings.map(|wrong| format!("{wrong:?} told apart"));
        let pages = of(&OF_PAGES, "pages:").zip(self.pages);
        let lines = of(&OF_LINES, "lines:").zip(self.lines);
        let packages = lengths("lines: package AID").zip(self.packages);
        let domains = lengths("lines: domain AID").zip(self.domains);
        let told = readings.zip(self.told);
        let unimplemented = ("unimplemented methods".to_string(), self.unimplemented);
        let aids = packages.chain(domains);
        pages
            .chain(lines)
            .chain([unimplemented])
            .chain(aids)
            .chain(told)
    }

    /// What was counted fewer times than this.
    pub fn shortfalls(&self, least: u64) -> Vec<String> {
        let few = self.counts().filter(|&(_, count)| count < least);
        few.map(|(what, count)| format!("{what} only {count} times"))
            .collect()
    }
}

/// How many decimal digits a figure has that is not 0.
fn digits(figure: usize) -> usize {
    figure.ilog10() as usize + 1
}

impl fmt::Display for InventoryCounts {
    fn fmt(&self, f: &mut fmt::Formatter) -> fmt::Result {
        let all: Vec<String> = self
            .counts()
            .map(|(what, count)| format!("{count:>8}  {what}"))
            .collect();
        write!(f, "{}", all.join("\n"))
    }
}
