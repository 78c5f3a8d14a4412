//! Fixed sequences: short codes, damaged stores, buffer and argument lengths,
//! limits, hostile files.

use super::handler_cases::of_version;
use super::limits::{calling_ladder, chain, count_limits, ladder, method_limits, under_ladder};
use super::model::{ClassModel, FileModel, MethodModel};
use super::own_lists::own_limits;
use super::random::Random;
use super::scene::Scene;
use super::valid::valid_file;
use crate::ledger::Call;
use crate::limits::Limits;
use crate::loader::{Independent, Loader, Sequence, Step};
use crate::package::Version;
use crate::without_int::DomainKind;

pub(super) const DOMAIN: &[u8] = &[0xA0, 0, 0, 0, 0xD1];
pub(super) const OTHER: &[u8] = &[0xA0, 0, 0, 0, 0xD2, 7];
pub(super) const FIRST: &[u8] = &[0xA0, 0, 0, 1, 1];
pub(super) const SECOND: &[u8] = &[0xA0, 0, 0, 1, 2];
pub(super) const THIRD: &[u8] = &[0xA0, 0, 0, 1, 3];

/// Both fresh calls, with the same limits.
pub(super) const BOTH_FRESH: [Call; 2] = [Call::Fresh, Call::FreshLimits(Limits::STANDARD)];

pub(super) fn over(start: Vec<u8>, calls: Vec<Call>) -> Sequence {
    let steps = calls.into_iter().map(Step::Call).collect();
    Sequence { start, steps }
}

/// Fresh, both domains, then these calls.
pub(super) fn after_fresh(length: usize, calls: Vec<Call>) -> Sequence {
    after(Call::Fresh, length, calls)
}

/// The same after either fresh.
pub(super) fn after(first: Call, length: usize, calls: Vec<Call>) -> Sequence {
    let mut all = vec![first];
    all.push(Call::Create(DOMAIN.to_vec()));
    all.push(Call::Create(OTHER.to_vec()));
    all.extend(calls);
    over(vec![0x5A; length], all)
}

pub(super) fn load(model: &FileModel) -> Call {
    load_in(DOMAIN, model)
}

pub(super) fn load_in(domain: &[u8], model: &FileModel) -> Call {
    Call::Load {
        domain: domain.to_vec(),
        file: model.bytes(),
    }
}

fn with_code(version: Version, code: &[u8]) -> FileModel {
    let method = MethodModel::new(0x60, 1, Some(&[]), code);
    FileModel {
        version,
        aid: FIRST.to_vec(),
        classes: vec![ClassModel::new(0, &[], vec![method])],
        ..FileModel::default()
    }
}

/// Each code is loaded, and removed if it was accepted.
fn codes_sequence(version: Version, codes: impl Iterator<Item = Vec<u8>>) -> Sequence {
    let mut calls = Vec::new();
    for code in codes {
        calls.push(load(&with_code(version, &code)));
        calls.push(Call::Remove(FIRST.to_vec()));
    }
    after_fresh(128, calls)
}

/// All codes of one and two bytes, in files of this version.
pub fn short_codes(version: Version) -> impl Iterator<Item = Sequence> {
    let one = codes_sequence(version, (0..=255).map(|a| vec![a]));
    let two = move |a| codes_sequence(version, (0..=255).map(move |b| vec![a, b]));
    std::iter::once(one).chain((0..=255).map(two))
}

/// 256 random codes of three bytes, in files of this version.
pub fn three_byte_codes(version: Version, seed: u64) -> Sequence {
    let mut random = Random::new(seed);
    codes_sequence(version, (0..256).map(move |_| random.bytes(3)))
}

/// A store with a domain of each kind and three packages of both versions, the later ones
/// importing; this fresh made it, with the standard limits.
pub fn test_store(first: &Call) -> Vec<u8> {
    let random = &mut Random::new(12);
    let mut store = vec![0; 2048];
    Independent.call(&mut store, first);
    let mut scene = Scene {
        domain_pool: vec![DOMAIN.to_vec(), OTHER.to_vec(), THIRD.to_vec()],
        ..Scene::default()
    };
    for (domain, kind) in [DOMAIN, OTHER].into_iter().zip(DomainKind::BOTH) {
        Independent.call(&mut store, &Call::create(kind, domain));
        scene.create(kind, domain);
    }
    let (first, second) = (Version::First, Version::Second);
    let packages = [
        (DOMAIN, FIRST, second),
        (OTHER, SECOND, first),
        (DOMAIN, THIRD, second),
    ];
    for (domain, aid, version) in packages {
        loop {
            let model = valid_file(random, &scene, domain, aid);
            let small = model.bytes().len() < 300 && model.version == version;
            let linked = model.imports.len() == scene.packages.len() && model.classes.len() > 2;
            if small && linked && Independent.load(&mut store, domain, &model.bytes()) & 0xFF == 0 {
                scene.install(domain, &model.bytes());
                break;
            }
        }
    }
    store
}

/// Each byte of the test store flipped once, in one bit or all, then one call of each kind.
pub fn damaged_stores() -> impl Iterator<Item = Sequence> {
    BOTH_FRESH.into_iter().flat_map(damaged_by_byte)
}

fn damaged_by_byte(first: Call) -> impl Iterator<Item = Sequence> {
    let store = test_store(&first);
    let used = crate::store::used(&store);
    let calls = every_call(DOMAIN, THIRD, &with_code(Version::Second, &[0x7A]).bytes());
    (0..used + 10).flat_map(move |place| {
        let calls = calls.clone();
        let store = store.clone();
        [1, 0x80, 0xFF].into_iter().map(move |bits| {
            let mut steps = vec![Step::Damage { place, bits }];
            steps.extend(calls.iter().skip(1).cloned().map(Step::Call));
            let start = store.clone();
            Sequence { start, steps }
        })
    })
}

/// One call of each kind with these arguments.
fn every_call(domain: &[u8], package: &[u8], file: &[u8]) -> Vec<Call> {
    let (domain, package, file) = (domain.to_vec(), package.to_vec(), file.to_vec());
    let query = Call::Query {
        domain: domain.clone(),
        package: package.clone(),
        class: 0,
        name: 1,
    };
    vec![
        Call::Fresh,
        Call::Create(domain.clone()),
        query.clone(),
        Call::Load {
            domain: domain.clone(),
            file,
        },
        query,
        Call::Delete(domain.clone()),
        Call::CreateWithoutInt(domain.clone()),
        Call::Remove(package),
        Call::Delete(domain),
    ]
}

/// Buffers and arguments of every length at which something changes.
pub fn lengths() -> Vec<Sequence> {
    let mut sequences = Vec::new();
    let arguments = [0, 1, 4, 5, 16, 17, 255, 256, 65_535, 65_536, 100_000];
    for buffer in [0, 6, 7, 63, 64, 65, 65_535, 65_536, 100_000] {
        for fill in [0, 0xFF] {
            let mut calls = Vec::new();
            for length in arguments {
                calls.extend(every_call(DOMAIN, &vec![1; length], &vec![0x42; length]));
                calls.extend(every_call(&vec![2; length], FIRST, &[]));
            }
            sequences.push(over(vec![fill; buffer], calls));
        }
    }
    sequences
}

/// Every limit at its value and one past it, in files of this version.
pub fn limits(version: Version) -> Sequence {
    let mut calls = vec![load(&of_version(version, chain(SECOND, 1, 7)))];
    let counts = count_limits(FIRST, DOMAIN, Some(SECOND)).into_iter();
    for file in counts.chain(method_limits(FIRST, DOMAIN)) {
        let aid = file.model.aid.clone();
        calls.push(load(&of_version(version, file.model)));
        calls.push(Call::Remove(aid));
    }
    for depth in 7..=9 {
        for kind in 0..=1 {
            calls.push(load(&of_version(version, chain(FIRST, kind, depth))));
            calls.push(Call::Remove(FIRST.to_vec()));
        }
    }
    after_fresh(65_535, calls)
}

/// Lists with FE at their limits and past them, in files with no domain, one and 32.
pub fn own_limit_lists() -> Sequence {
    let mut calls = Vec::new();
    for (domain_count, version) in [0, 1, 32]
        .into_iter()
        .flat_map(|n| Version::BOTH.map(|v| (n, v)))
    {
        for limit in own_limits(version, FIRST, DOMAIN, domain_count) {
            let (domain, file) = (OTHER.to_vec(), limit.file);
            calls.push(Call::Load { domain, file });
            calls.push(Call::Remove(FIRST.to_vec()));
        }
    }
    after_fresh(2048, calls)
}

/// Deep ladders of parents with many methods, and searches through them.
pub fn hostile() -> Vec<Sequence> {
    let (first, second) = (Version::First, Version::Second);
    let ladders = [
        (first, 0, false),
        (first, 1, true),
        (first, 64, false),
        (first, 64, true),
        (second, 64, true),
    ];
    let mut sequences = Vec::new();
    for (version, methods, last_is_class) in ladders {
        let ladder = ladder(FIRST, methods, last_is_class);
        let mut calls = vec![load(&of_version(version, ladder))];
        calls.push(load(&under_ladder(SECOND, FIRST, true)));
        for name in [0, 99] {
            calls.push(load(&calling_ladder(THIRD, FIRST, 800, name)));
            calls.push(Call::Remove(THIRD.to_vec()));
        }
        for number in 0..40 {
            let aid = [0xB0, 0, 0, 0, number];
            calls.push(load(&under_ladder(&aid, FIRST, false)));
        }
        calls.push(Call::Remove(FIRST.to_vec()));
        sequences.push(after_fresh(65_535, calls));
    }
    sequences
}
