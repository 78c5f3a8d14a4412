//! Call sequences over packages with AIDs that are nearly alike: loads of files that import
//! them, removals that move them, and loads of removed ones again.

use super::faults::{add, BARE, BODY, RETURN, STATIC_BODY};
use super::handlers::to_second;
use super::imports::importing_file;
use super::model::{FileModel, MethodModel};
use super::random::Random;
use super::scene::Scene;
use super::sequences::Run;
use super::starts::pools;
use super::without_int::some_kind;
use crate::ledger::Call;
use crate::limits::Limits;
use crate::loader::Sequence;
use crate::package::VISIBLE;

/// The AID of a file that imports and is removed at once; others take one of the pool.
const PASSING: &[u8] = &[0xF0, 1, 2, 3, 4, 5, 6];

/// AIDs of which some begin others, some differ in the last byte or in a zero at the end.
fn near_aids(random: &mut Random) -> Vec<Vec<u8>> {
    let mut long = random.bytes(16);
    long[5] = 7;
    let changed = |length: usize| {
        let mut aid = long[..length].to_vec();
        aid[length - 1] ^= 1;
        aid
    };
    let zero = |length: usize| [&long[..length], &[0]].concat();
    let mut aids = vec![changed(5), changed(6), changed(16), zero(5), zero(15)];
    aids.extend([5, 6, 15, 16].map(|length| long[..length].to_vec()));
    for length in [5, 5, 6, 8, 15, 16, 16] {
        aids.push(random.bytes(length));
    }
    aids
}

/// A package to be imported: a class, and now and then an interface. What it declares, whom that
/// allows and whether it is visible differs from package to package.
fn imported_file(random: &mut Random, aid: &[u8]) -> FileModel {
    let mut model = FileModel {
        aid: aid.to_vec(),
        ..FileModel::default()
    };
    let declared = |random: &mut Random, bits: u8, name: u16| {
        let nobody: Option<&[u8]> = Some(&[]);
        let (bits, allowed) = match random.below(10) {
            0..=4 => (bits, None),
            5..=6 => (bits, nobody),
            7 => (bits & !VISIBLE, None),
            _ => return None,
        };
        Some(MethodModel::new(bits, name, allowed, RETURN))
    };
    let of_class = [(STATIC_BODY, 1), (BODY, 2)];
    let methods = of_class.map(|(bits, name)| declared(random, bits, name));
    add(&mut model, 0, &[], methods.into_iter().flatten().collect());
    if random.chance(60) {
        let methods = declared(random, BARE, 2).into_iter().collect();
        add(&mut model, 1, &[], methods);
    }
    if random.chance(50) {
        to_second(random, &mut model);
    }
    model
}

/// A sequence of them; nothing is damaged.
pub(super) fn import_sequence(random: &mut Random) -> Sequence {
    let scene = Scene {
        package_pool: near_aids(random),
        ..pools(random)
    };
    let length = random.between(2_500, 6_000);
    let first = match random.below(4) {
        0 => Call::FreshLimits(Limits::STANDARD),
        1 => Call::FreshLimits(Limits::GREATEST),
        _ => Call::Fresh,
    };
    let mut run = Run::new(random, vec![0x5A; length], scene);
    run.call(first);
    for place in 0..2 {
        let domain = run.scene.domain_pool[place].clone();
        let kind = some_kind(run.random, 30);
        run.call(Call::create(kind, &domain));
    }
    for _ in 0..run.random.between(6, 20) {
        install(&mut run);
    }
    for _ in 0..run.random.between(8, 16) {
        match run.random.below(100) {
            0..=54 => import(&mut run),
            55..=74 => remove(&mut run),
            75..=89 => install(&mut run),
            _ => {
                let call = run.any_call();
                run.call(call);
            }
        }
    }
    run.finish()
}

/// A created domain, if there is one.
fn home(run: &mut Run) -> Vec<u8> {
    let created = run.random.pick_any(&run.scene.domains).cloned();
    created.unwrap_or_else(|| run.scene.domain_pool[0].clone())
}

/// Loads a package to be imported, if one of the AIDs is free.
fn install(run: &mut Run) {
    let domain = home(run);
    let scene = &run.scene;
    let free = |aid: &&Vec<u8>| scene.package_named(aid).is_none();
    let free: Vec<&Vec<u8>> = scene.package_pool.iter().filter(free).collect();
    if let Some(&aid) = run.random.pick_any(&free) {
        let file = imported_file(run.random, aid).bytes();
        run.call(Call::Load { domain, file });
    }
}

/// Loads a file that imports; most of those that are accepted are removed at once.
fn import(run: &mut Run) {
    let domain = home(run);
    let passing = run.random.chance(80);
    let aid = match passing {
        true => PASSING.to_vec(),
        false => run.random.pick(&run.scene.package_pool).clone(),
    };
    let Some(model) = importing_file(run.random, &run.scene, &domain, &aid) else {
        return;
    };
    let file = model.bytes();
    let number = run.call(Call::Load { domain, file });
    if number == 0 && passing {
        run.call(Call::Remove(aid));
    }
}

/// Removes a package; those of a smaller number move more.
fn remove(run: &mut Run) {
    let packages = &run.scene.packages;
    if packages.is_empty() {
        return;
    }
    let place = match run.random.chance(50) {
        true => run.random.below(packages.len().min(3)),
        false => run.random.below(packages.len()),
    };
    let aid = packages[place].model.aid.clone();
    run.call(Call::Remove(aid));
}
