//! Questions 1 to 9, 21 and 30, and the orders in which questions are asked.

use crate::bytes::AID_LENGTHS;
use crate::contents::{Contents, Domain, MethodPlace, Place};
use crate::handlers::q24;
use crate::limits::Limits;
use crate::load_questions::{q10, q11, q12, q13, q14, q15, q16, q17, q18, q19, q20, Code};
use crate::misreadings::Misreading;
use crate::package::{Package, Reading};
use crate::store::{self, Body};
use crate::without_int::{q26, DomainKind};
use std::ops::Range;

/// Every number that a call can answer, 0 among them.
pub const NUMBERS: [u8; 25] = [
    0, 1, 2, 3, 4, 5, 6, 7, 8, 9, 10, 11, 12, 13, 14, 15, 16, 17, 18, 19, 20, 21, 24, 26, 30,
];

/// The questions about a file, in the order in which a load asks them.
pub const OF_A_FILE: [u8; 13] = [10, 11, 12, 13, 14, 15, 16, 17, 24, 26, 18, 19, 20];

/// The place of a question about a file in this order.
pub fn asked_place(question: u8) -> usize {
    let place = OF_A_FILE.iter().position(|&asked| asked == question);
    place.expect("a question about a file")
}

/// Has the store 64 to 65,535 bytes?
pub fn q1(store: &[u8]) -> bool {
    (64..=65_535).contains(&store.len())
}

/// Is it sound? If so, what it holds.
pub fn q2(store: &[u8]) -> Option<Contents<'_>> {
    q2_by(store, None)
}

/// The same by a misreading.
pub fn q2_by(store: &[u8], misreading: Option<Misreading>) -> Option<Contents<'_>> {
    let layout = store::layout_by(store, misreading)?;
    let limits = match misreading {
        None => layout.version.limits(),
        Some(wrong) => wrong.limits_of(layout.version),
    };
    let mut contents = Contents::by(limits, misreading);
    let mut used = layout.version.opening();
    for entry in layout.entries {
        let room = Room {
            used,
            length: store.len(),
        };
        match entry.body {
            Body::Domain(kind, aid) => {
                judge_creation(&contents, room, kind, aid).ok()?;
                let entry = entry.bytes.clone();
                contents.domains.insert(aid, Domain { kind, entry });
            }
            Body::Package { domain, file } => {
                judge_load(&mut contents, room, domain, file).ok()?;
            }
        }
        used = entry.bytes.end;
    }
    Some(contents)
}

/// Has every AID given to the call 5 to 16 bytes?
pub fn q3(aids: &[&[u8]]) -> bool {
    aids.iter().all(|aid| AID_LENGTHS.contains(&aid.len()))
}

/// Is the domain new, whatever its kind?
pub fn q4(contents: &Contents, kind: DomainKind, domain: &[u8]) -> bool {
    let same = |found: &Domain| match contents.misreading {
        None => true,
        Some(wrong) => wrong.same_domain(found.kind, kind),
    };
    !contents.domains.get(domain).is_some_and(same)
}

/// Has it been created, as either kind? If so, the domain.
pub fn q5<'c>(contents: &'c Contents, domain: &[u8]) -> Option<&'c Domain> {
    contents.domains.get(domain)
}

/// Does no installed package lie in it?
pub fn q6(contents: &Contents, domain: &[u8]) -> bool {
    contents.packages.iter().all(|p| p.domain != domain)
}

/// Is the package installed? If so, its number.
pub fn q7(contents: &Contents, package: &[u8]) -> Option<usize> {
    contents.package_number(package)
}

/// Does no other installed package import it?
pub fn q8(contents: &Contents, package: usize) -> bool {
    let mut others = contents.packages.iter();
    others.all(|p| !p.imports.contains(&package))
}

/// Does it have this class, and that class this name? If so, that method.
pub fn q9(contents: &Contents, package: usize, class: u8, name: u16) -> Option<MethodPlace> {
    let class = Place {
        package,
        class: usize::from(class),
    };
    let classes = &contents.packages[package].package.classes;
    let method = classes.get(class.class)?.method_named(name)?;
    Some(MethodPlace { class, method })
}

/// Does the entry fit, used not passing the buffer's length?
pub fn q21(room: Room, body: &Body) -> bool {
    room.used + store::entry_length(body) <= room.length
}

/// Is each limit in its range: depth 1 to 16, parents 1 to 8, code length 1 to 32,767?
pub fn q30(limits: Limits) -> bool {
    limits.in_range()
}

/// The bytes used before an entry, and the buffer's length.
#[derive(Clone, Copy)]
pub struct Room {
    pub used: usize,
    pub length: usize,
}

/// The number of a question when its answer is no.
pub fn number(yes: bool, question: u8) -> Result<(), u8> {
    if yes {
        Ok(())
    } else {
        Err(question)
    }
}

/// Asks 3, 4 and 21 of a creation of either kind.
pub fn judge_creation(
    contents: &Contents,
    room: Room,
    kind: DomainKind,
    domain: &[u8],
) -> Result<(), u8> {
    number(q3(&[domain]), 3)?;
    number(q4(contents, kind, domain), 4)?;
    number(q21(room, &Body::Domain(kind, domain)), 21)
}

/// Asks 3, 5 and 6 of a deletion; gives the bytes of the domain's entry.
pub fn judge_deletion(contents: &Contents, domain: &[u8]) -> Result<Range<usize>, u8> {
    number(q3(&[domain]), 3)?;
    let found = q5(contents, domain).ok_or(5)?;
    let overlooks = |wrong: Misreading| wrong.overlooks_in_deletion(found.kind);
    number(!contents.misreading.is_some_and(overlooks), 5)?;
    number(q6(contents, domain), 6)?;
    Ok(found.entry.clone())
}

/// Asks 16, 17 and 24 and, of a load into a domain without int, 26, each of the whole file.
pub fn judge_codes<'a>(package: &Package<'a>, kind: DomainKind) -> Result<Vec<Code<'a>>, u8> {
    let codes = q16(package).ok_or(16)?;
    number(q17(&codes), 17)?;
    number(q24(&codes), 24)?;
    number(kind == DomainKind::WithInt || q26(&codes), 26)?;
    Ok(codes)
}

/// Asks 10 and 11; gives the limits by which the file is judged.
fn judge_file<'a>(contents: &Contents, file: &'a [u8]) -> Result<(Limits, Package<'a>), u8> {
    let misreading = contents.misreading;
    let version = q10(file, misreading).ok_or(10)?;
    let limits = match misreading {
        None => contents.limits,
        Some(wrong) => wrong.limits_for(contents.limits, version),
    };
    let reading = Reading {
        version,
        limits,
        misreading,
    };
    Ok((limits, q11(file, reading).ok_or(11)?))
}

/// Asks 3, 5, 10 to 17, 24, 26 and 18 to 21 of a load. With all yes the package is among
/// the contents and the depth of its deepest class is given, 0 if it has none; with a no
/// the contents are of no further use.
pub fn judge_load<'a>(
    contents: &mut Contents<'a>,
    room: Room,
    domain: &'a [u8],
    file: &'a [u8],
) -> Result<u8, u8> {
    number(q3(&[domain]), 3)?;
    let kind = q5(contents, domain).ok_or(5)?.kind;
    let misreading = contents.misreading;
    let overlooks = |wrong: Misreading| wrong.overlooks_in_load(kind);
    number(!misreading.is_some_and(overlooks), 5)?;
    let (limits, package) = judge_file(contents, file)?;
    number(q12(contents, &package), 12)?;
    let imports = q13(contents, &package).ok_or(13)?;
    let lineages = q14(contents, limits, &package, &imports).ok_or(14)?;
    number(q15(&package), 15)?;
    let (kind, codes) = match misreading {
        None => (kind, judge_codes(&package, kind)?),
        Some(wrong) => {
            let kind = wrong.kind_by_imports(contents, kind, &imports);
            (kind, wrong.judge_codes(&package, kind)?)
        }
    };

    let depth = lineages.iter().map(|l| l.depth).max().unwrap_or(0);
    let body = Body::Package { domain, file };
    let entry = room.used..room.used + store::entry_length(&body);
    let judged = contents.packages.len();
    contents.add(domain, entry, package, imports, lineages);

    misreading.map_or(Ok(()), |wrong| wrong.before_18(contents, kind, &codes))?;
    let calls = q18(contents, judged, &codes).ok_or(18)?;
    misreading.map_or(Ok(()), |wrong| wrong.after_18(kind, &codes))?;
    number(q19(contents, domain, &calls), 19)?;
    number(q20(contents, judged), 20)?;
    number(q21(room, &body), 21)?;
    Ok(depth)
}
