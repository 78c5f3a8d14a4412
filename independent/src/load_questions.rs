//! Questions 10 to 20, asked of a load; `handlers` has 24. Each is asked of the whole file.

use crate::code::{self, CallKind};
use crate::contents::{Contents, Lineage, MethodPlace, Place};
use crate::handlers::Handlers;
use crate::limits::Limits;
use crate::misreadings::Misreading;
use crate::package::{self, Class, Method, Package, Reading, Version};
use crate::policy::Role;
use crate::search::{Meanings, Meant};
use std::borrow::Cow;

/// Does the file begin with mark and version? If so, which version.
pub fn q10(file: &[u8], misreading: Option<Misreading>) -> Option<Version> {
    package::version(file, misreading)
}

/// Does the rest read exactly to its end as laid out, size, counts and ranges included?
pub fn q11(file: &[u8], reading: Reading) -> Option<Package<'_>> {
    package::read_by(file, reading)
}

/// Is the package AID not installed?
pub fn q12(contents: &Contents, package: &Package) -> bool {
    contents.package_number(package.aid).is_none()
}

/// Is each import installed? If so, their numbers.
pub fn q13(contents: &Contents, package: &Package) -> Option<Vec<usize>> {
    let imports = package.imports.iter();
    imports
        .map(|aid| {
            let wrong = contents.misreading;
            let taken = || wrong?.taken_for_import(contents, aid);
            let number = contents.package_number(aid).or_else(taken)?;
            let version = contents.packages[number].package.version;
            let refuses = |wrong: Misreading| wrong.refuses_import(package.version, version);
            (!contents.misreading.is_some_and(refuses)).then_some(number)
        })
        .collect()
}

/// Does each parent exist, an own one with a smaller number; have interfaces only
/// interface parents, classes at most one kind-0 parent, the same one listed twice
/// being two; is each depth at most the store's limit?
pub fn q14(
    contents: &Contents,
    limits: Limits,
    package: &Package,
    imports: &[usize],
) -> Option<Vec<Lineage>> {
    let mut lineages: Vec<Lineage> = Vec::with_capacity(package.classes.len());
    for class in &package.classes {
        let lineage = lineage(contents, package, imports, &lineages, class)?;
        lineages.push(Some(lineage).filter(|found| found.depth <= limits.depth)?);
    }
    Some(lineages)
}

/// The lineage of the class that follows those whose lineages are given.
fn lineage(
    contents: &Contents,
    package: &Package,
    imports: &[usize],
    earlier: &[Lineage],
    class: &Class,
) -> Option<Lineage> {
    let mut parents = Vec::with_capacity(class.parents.len());
    let mut class_parents = 0;
    let mut deepest = 0;
    for &(package_number, class_number) in &class.parents {
        let number = usize::from(class_number);
        let (holder, interface, depth) = if package_number == 0 {
            let depth = earlier.get(number)?.depth;
            let own = contents.packages.len();
            (own, package.classes[number].interface, depth)
        } else {
            let holder = *imports.get(usize::from(package_number) - 1)?;
            let installed = &contents.packages[holder];
            let parent = installed.package.classes.get(number)?;
            (holder, parent.interface, installed.lineages[number].depth)
        };
        class_parents += usize::from(!interface);
        deepest = deepest.max(depth);
        parents.push(Place {
            package: holder,
            class: number,
        });
    }
    let most = if class.interface { 0 } else { 1 };
    let depth = deepest + 1;
    (class_parents <= most).then_some(Lineage { parents, depth })
}

/// Do names differ within each class; is each static method implemented, each
/// interface method neither?
pub fn q15(package: &Package) -> bool {
    package.classes.iter().all(|class| {
        let mut names: Vec<u16> = class.methods.iter().map(|m| m.name).collect();
        names.sort_unstable();
        let differ = names.windows(2).all(|pair| pair[0] != pair[1]);
        let fits_kind = |m: &Method| match class.interface {
            true => !m.is_static && !m.implemented(),
            false => !m.is_static || m.implemented(),
        };
        differ && class.methods.iter().all(fits_kind)
    })
}

/// A code of the file, split into instructions, and its handlers.
pub struct Code<'a> {
    pub class: usize,
    pub method: usize,
    pub bytes: &'a [u8],
    pub starts: Vec<usize>,
    pub handlers: Handlers<'a>,
}

/// Each code of the file, split; `None` for one that does not split.
pub fn codes_of<'p, 'a: 'p>(
    package: &'p Package<'a>,
) -> impl Iterator<Item = Option<Code<'a>>> + 'p {
    let classes = package.classes.iter().enumerate();
    classes.flat_map(|(class, record)| {
        let methods = record.methods.iter().enumerate();
        methods.filter_map(move |(method, declared)| {
            let bytes = declared.code?;
            Some(code::split(bytes).map(|starts| Code {
                class,
                method,
                bytes,
                starts,
                handlers: declared.handlers,
            }))
        })
    })
}

/// Does each code split into instructions from offset 0 to its end, low at most
/// high, the last being 70, 72–7A, 93 or A8?
pub fn q16<'a>(package: &Package<'a>) -> Option<Vec<Code<'a>>> {
    codes_of(package).collect()
}

/// Is each branch target an offset where an instruction starts?
pub fn q17(codes: &[Code]) -> bool {
    codes
        .iter()
        .all(|c| code::branches_land(c.bytes, &c.starts))
}

/// A call in the file: the method whose code has it, and what it means.
pub struct Call {
    pub kind: CallKind,
    pub caller: MethodPlace,
    pub meant: Meant,
}

/// Does each call's reference exist, and does the search from the class that it names end at a
/// declaration, visible if that lies outside the file; for 8B non-static and the class named of
/// kind 0, 8C implemented, 8D static, 8E non-static of kind 1?
pub fn q18(contents: &Contents, judged: usize, codes: &[Code]) -> Option<Vec<Call>> {
    let mut meanings = Meanings::new(contents, judged);
    let package = &contents.packages[judged].package;
    let refuses = |wrong: Misreading| wrong.refuses_references(package);
    if contents.misreading.is_some_and(refuses) {
        return None;
    }
    let mut found = Vec::new();
    for code in codes {
        let caller = MethodPlace {
            class: Place {
                package: judged,
                class: code.class,
            },
            method: code.method,
        };
        let starts = match contents.misreading {
            None => Cow::Borrowed(&code.starts),
            Some(wrong) => Cow::Owned(wrong.looked_at(code)),
        };
        for (kind, index) in code::calls(code.bytes, &starts) {
            let meant = match contents.misreading {
                Some(Misreading::Search(wrong)) => wrong.meant(contents, judged, kind, index)?,
                Some(Misreading::Imports(wrong)) => wrong.meant(contents, judged, kind, index)?,
                _ => Some(meanings.of(index)?).filter(|m| fits(contents, judged, kind, m))?,
            };
            found.push(Call {
                kind,
                caller,
                meant,
            });
        }
    }
    Some(found)
}

/// Is the declaration as the call asks, and visible if it lies outside the file?
pub fn fits(contents: &Contents, judged: usize, kind: CallKind, meant: &Meant) -> bool {
    let outside = meant.declared.class.package != judged;
    let visible = contents.method(meant.declared).visible || !outside;
    visible && formed(contents, kind, meant)
}

/// The same, visibility apart.
pub fn formed(contents: &Contents, kind: CallKind, meant: &Meant) -> bool {
    let method = contents.method(meant.declared);
    let interface = |class: Place| contents.class(class).interface;
    match kind {
        CallKind::Virtual => !method.is_static && !interface(meant.named),
        CallKind::Special => method.implemented(),
        CallKind::Static => method.is_static,
        CallKind::Interface => !method.is_static && interface(meant.declared.class),
    }
}

/// Does the declaration that each call means allow the loading domain and all that the caller
/// allows?
pub fn q19(contents: &Contents, domain: &[u8], calls: &[Call]) -> bool {
    let loading = contents.domain_number(domain);
    calls.iter().all(|call| {
        let declared = call.meant.declared;
        let entered = contents.standing(declared, Role::Entered);
        let allows = entered.allows(loading) && contents.called_allows(declared, call.caller);
        allows || contents.misreading.is_some_and(|w| w.passes_19(call))
    })
}

/// For each own class B and n, does the method that runs allow all that each
/// non-static n of B and its ancestors allows?
pub fn q20(contents: &Contents, judged: usize) -> bool {
    for_all_running(contents, judged, |runs, asked| {
        contents.runs_allows(runs, asked)
    })
}

/// Does this hold of the method that runs for each own class B and n and each non-static
/// n of B and its ancestors?
pub fn for_all_running(
    contents: &Contents,
    judged: usize,
    holds: impl Fn(MethodPlace, MethodPlace) -> bool,
) -> bool {
    let classes = contents.packages[judged].package.classes.iter();
    let mut kind_0 = classes.enumerate().filter(|(_, class)| !class.interface);
    kind_0.all(|(class, _)| {
        let package = judged;
        runs_for_all(contents, Place { package, class }, &holds)
    })
}

/// The same for one kind-0 class.
fn runs_for_all(
    contents: &Contents,
    class: Place,
    holds: &impl Fn(MethodPlace, MethodPlace) -> bool,
) -> bool {
    let running = contents.running(class);
    contents.with_ancestors(class).iter().all(|&holder| {
        let methods = contents.class(holder).methods.iter().enumerate();
        let mut asked = methods.filter(|(_, m)| !m.is_static);
        asked.all(|(method, m)| {
            let found = running.binary_search_by_key(&m.name, |&(name, _)| name);
            match found.ok().and_then(|place| running[place].1) {
                Some(runs) => {
                    let class = holder;
                    holds(runs, MethodPlace { class, method })
                }
                None => true,
            }
        })
    })
}
