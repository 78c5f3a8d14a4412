//! Sequences of files with faults, of stores with a fault and of flipped bytes, by a seed.

use independent::generate::faults::faulty_file;
use independent::generate::random::Random;
use independent::generate::scene::Scene;
use independent::generate::stores::planted_store;
use independent::generate::valid::valid_file;
use independent::ledger::Call;
use independent::loader::{Sequence, Step};
use independent::questions::OF_A_FILE;
use independent::without_int::DomainKind;

const DOMAIN: &[u8] = &[0xA0, 0, 0, 0, 0xD1];

/// AIDs of which one begins another, and some serve as both.
fn pools() -> Scene {
    Scene {
        domain_pool: vec![DOMAIN.to_vec(), vec![1; 5], vec![1; 6], vec![2; 16]],
        package_pool: vec![vec![3; 9], vec![1; 5], vec![8; 16]],
        ..Scene::default()
    }
}

fn load(file: Vec<u8>) -> Step {
    let domain = DOMAIN.to_vec();
    Step::Call(Call::Load { domain, file })
}

/// Four packages in a domain of this kind, then files with this many faults for every choice
/// of questions, then the file without a fault.
pub(crate) fn with_faults(seed: u64, kind: DomainKind, faults: usize) -> Sequence {
    let random = &mut Random::new(seed);
    let mut scene = pools();
    scene.create(kind, DOMAIN);
    let mut steps = vec![
        Step::Call(Call::Fresh),
        Step::Call(Call::create(kind, DOMAIN)),
    ];
    for number in 0..4 {
        let file = valid_file(random, &scene, DOMAIN, &[0xB0, 0, 0, 0, number]).bytes();
        scene.install(DOMAIN, &file);
        steps.push(load(file));
    }
    let model = valid_file(random, &scene, DOMAIN, &[0xC0; 6]);
    for (place, &first) in OF_A_FILE.iter().enumerate() {
        let seconds = match faults {
            1 => &OF_A_FILE[place..=place],
            _ => &OF_A_FILE[place + 1..],
        };
        for &second in seconds {
            let questions = [first, second];
            let file = faulty_file(random, &scene, DOMAIN, &model, &questions[..faults]);
            steps.extend(file.map(load));
        }
    }
    steps.push(load(model.bytes()));
    let start = vec![0xEE; 16_384];
    Sequence { start, steps }
}

/// Calls over a store that has a fault for this question, or none.
pub(crate) fn over(seed: u64, question: u8) -> Sequence {
    let random = &mut Random::new(seed);
    let planted = planted_store(random, &pools(), question);
    let scene = &planted.scene;
    // The first package that is there, if any is.
    let (domain, package) = (scene.domains[0].clone(), scene.package_pool[0].clone());
    let file = valid_file(random, scene, &domain, &[0xC0; 6]).bytes();
    let calls = [
        Call::Create(domain.clone()),
        Call::CreateWithoutInt(domain.clone()),
        Call::create(scene.kind(&domain), &[7; 5]),
        query(&domain, &package),
        Call::Load {
            domain: domain.clone(),
            file,
        },
        Call::Delete(domain),
        Call::Remove(package),
        Call::Delete(vec![7; 5]),
    ];
    Sequence {
        start: planted.bytes,
        steps: calls.into_iter().map(Step::Call).collect(),
    }
}

fn query(domain: &[u8], package: &[u8]) -> Call {
    Call::Query {
        domain: domain.to_vec(),
        package: package.to_vec(),
        class: 0,
        name: 1,
    }
}

/// Each byte of a sound store flipped, asked about and flipped back.
pub(crate) fn flipped(seed: u64) -> Sequence {
    let random = &mut Random::new(seed);
    let planted = planted_store(random, &pools(), 0);
    let scene = &planted.scene;
    let call = query(&scene.domains[0], &scene.packages[0].model.aid);
    let mut steps = Vec::new();
    for place in 0..planted.bytes.len() {
        let bits = *random.pick(&[0xFF, 0x01, 0x80, 0x10]);
        let damage = Step::Damage { place, bits };
        steps.extend([damage.clone(), Step::Call(call.clone()), damage]);
    }
    let start = planted.bytes;
    Sequence { start, steps }
}
