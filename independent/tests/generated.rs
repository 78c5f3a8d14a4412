//! What the generators promise, and runs of generated sequences.

mod common;
use common::{answers, numbers};
use independent::generate::faults::faulty_file;
use independent::generate::full_stores::full_stores;
use independent::generate::limit_cases::CHOSEN;
use independent::generate::limits::{count_limits, method_limits};
use independent::generate::lines::line_file;
use independent::generate::random::Random;
use independent::generate::scene::Scene;
use independent::generate::sequences::sequence;
use independent::generate::special;
use independent::generate::stores::planted_store;
use independent::generate::valid::valid_file;
use independent::operations::{create_of, load};
use independent::package::Version;
use independent::questions::{asked_place, q2, OF_A_FILE};
use independent::store::{write_empty, StoreVersion};
use independent::without_int::DomainKind;

const DOMAIN: &[u8] = &[0xA0, 0, 0, 0, 0xD1];

/// How many of 60 files a pair of faults finds a place in, at least.
const LEAST_PLANTED: usize = 40;

/// A store with some generated packages in a domain of this kind, and the scene that goes
/// with it.
fn scene(random: &mut Random, version: StoreVersion, kind: DomainKind) -> (Vec<u8>, Scene) {
    let mut store = vec![0; 65_535];
    write_empty(&mut store, version);
    create_of(&mut store, kind, DOMAIN);
    let mut scene = Scene {
        version,
        domain_pool: vec![DOMAIN.to_vec(), vec![1; 5], vec![1; 6], vec![2; 16]],
        package_pool: vec![vec![3; 9]],
        ..Scene::default()
    };
    scene.create(kind, DOMAIN);
    for number in 0..4 {
        let file = valid_file(random, &scene, DOMAIN, &[0xB0, 0, 0, 0, number]).bytes();
        assert_eq!(load(&mut store, DOMAIN, &file).number, 0);
        scene.install(DOMAIN, &file);
    }
    (store, scene)
}

#[test]
fn valid_files_are_accepted() {
    for kind in DomainKind::BOTH {
        for seed in 0..120 {
            scene(&mut Random::new(seed), StoreVersion::First, kind);
        }
        for (seed, limits) in (0..60).flat_map(|seed| CHOSEN.map(|limits| (seed, limits))) {
            scene(&mut Random::new(seed), StoreVersion::Second(limits), kind);
        }
    }
}

/// How many of 60 files each pair of faults finds a place in, in a domain of this kind; the
/// number is that of the fault asked about first.
fn planted(kind: DomainKind) -> [[usize; OF_A_FILE.len()]; OF_A_FILE.len()] {
    let mut planted = [[0; OF_A_FILE.len()]; OF_A_FILE.len()];
    for seed in 0..60 {
        let random = &mut Random::new(seed);
        let (store, scene) = scene(random, StoreVersion::First, kind);
        let model = valid_file(random, &scene, DOMAIN, &[0xC0; 6]);
        let pairs = OF_A_FILE.iter().flat_map(|&a| OF_A_FILE.map(|b| [a, b]));
        for questions in pairs {
            if let Some(file) = faulty_file(random, &scene, DOMAIN, &model, &questions) {
                let number = load(&mut store.clone(), DOMAIN, &file).number;
                let [first, second] = questions.map(asked_place);
                let right = OF_A_FILE[first.min(second)];
                assert_eq!(number, right, "{kind:?}, seed {seed}, {questions:?}");
                planted[first][second] += 1;
            }
        }
    }
    planted
}

#[test]
fn planted_faults_give_their_number() {
    for kind in DomainKind::BOTH {
        for (first, row) in OF_A_FILE.iter().zip(planted(kind)) {
            for (second, count) in OF_A_FILE.iter().zip(row) {
                let without = kind == DomainKind::WithInt && [first, second].contains(&&26);
                let found = match without {
                    true => count == 0,
                    false => count >= LEAST_PLANTED,
                };
                assert!(found, "{kind:?}: {first}, {second}: {count}");
            }
        }
    }
}

/// One call of each kind: with an AID of this length as the package and a file of such bytes, then as the domain.
fn numbers_by_length(length: usize) -> [u32; 18] {
    let aid = (5..=16).contains(&length);
    let or_3 = |number| if aid { number } else { 3 };
    let (asked, done) = (or_3(7), or_3(0));
    let first = [0, 0, asked, 10, asked, 0, 0, asked, 0];
    let second = [0, done, asked, or_3(10), asked, done, done, 7, done];
    std::array::from_fn(|i| if i < 9 { first[i] } else { second[i - 9] })
}

#[test]
fn lengths_of_buffers_and_arguments() {
    let arguments = [0, 1, 4, 5, 16, 17, 255, 256, 65_535, 65_536, 100_000];
    for sequence in special::lengths() {
        let found = numbers(&sequence);
        let expected: Vec<u32> = match (64..=65_535).contains(&sequence.start.len()) {
            true => arguments.into_iter().flat_map(numbers_by_length).collect(),
            false => vec![1; 18 * arguments.len()],
        };
        assert_eq!(found, expected, "{}", sequence.start.len());
    }
}

#[test]
fn limits_in_a_sequence() {
    const FIRST: &[u8] = &[0xA0, 0, 0, 1, 1];
    const SECOND: &[u8] = &[0xA0, 0, 0, 1, 2];
    let counts = count_limits(FIRST, DOMAIN, Some(SECOND));
    let mut expected = vec![0; 4];
    for file in counts.into_iter().chain(method_limits(FIRST, DOMAIN)) {
        let aid = (5..=16).contains(&file.model.aid.len());
        let refused = if aid { 7 } else { 3 };
        let removed = if file.number == 0 { 0 } else { refused };
        expected.extend([u32::from(file.number), removed]);
    }
    expected.extend([0, 0, 0, 0, 0, 0, 0, 0, 14, 7, 14, 7]);
    for version in Version::BOTH {
        assert_eq!(numbers(&special::limits(version)), expected);
    }
}

#[test]
fn hostile_files() {
    // The ladder and 40 files below it are accepted with depth 8, one too deep is not, and the
    // ladder stays imported. Calls find name 0 where the ladder has methods, and 99 nowhere.
    let accepted = 8 << 8;
    for (number, sequence) in special::hostile().iter().enumerate() {
        let called = if number == 0 { [18, 7] } else { [accepted, 0] };
        let mut expected = vec![0, 0, 0, accepted, 14];
        expected.extend([called, [18, 7]].concat());
        expected.extend([accepted; 40]);
        expected.push(8);
        assert_eq!(answers(sequence), expected);
    }
}

#[test]
fn full_stores_answer_21_one_past() {
    for pair in full_stores().chunks(2) {
        let numbers = [&pair[0], &pair[1]].map(|s| answers(s)[3] & 0xFF);
        assert_eq!(numbers, [0, 21]);
    }
}

#[test]
fn damaged_stores_mostly_are_unsound() {
    let (mut unsound, mut all) = (0, 0);
    for sequence in special::damaged_stores() {
        all += 1;
        unsound += u32::from(answers(&sequence)[0] == 2);
    }
    assert!(all > 600 && 2 * unsound > all, "{unsound} of {all}");
}

#[test]
fn random_sequences_follow_the_ledger() {
    for seed in 0..150 {
        answers(&sequence(seed));
    }
}

#[test]
fn line_files_print_one_line_each() {
    for seed in 0..60 {
        let input = line_file(seed);
        let output = independent::card::run_card(&input);
        let newlines = input.iter().filter(|&&b| b == b'\n').count();
        let rest = usize::from(input.last().is_some_and(|&b| b != b'\n'));
        let printed = output.iter().filter(|&&b| b == b'\n').count();
        assert_eq!(printed, newlines + rest);
    }
}

#[test]
fn planted_stores_are_sound_or_not() {
    let pools = Scene {
        domain_pool: vec![vec![1; 5], vec![1; 6], vec![2; 16], vec![4; 8]],
        package_pool: vec![vec![3; 9], vec![1; 5], vec![8; 16]],
        ..Scene::default()
    };
    let questions: Vec<u8> = (0..=5).chain(OF_A_FILE).chain([30]).collect();
    let mut faulty = vec![0; questions.len()];
    for seed in 0..1000 {
        let place = seed as usize % questions.len();
        let store = planted_store(&mut Random::new(seed), &pools, questions[place]);
        let sound = q2(&store.bytes).is_some();
        assert_eq!(sound, !store.faulty, "seed {seed}");
        faulty[place] += u32::from(store.faulty);
    }
    assert!(faulty[1..].iter().all(|&count| count > 20), "{faulty:?}");
}
