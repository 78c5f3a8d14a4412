//! Two packages whose lists say FE and others in every way, beside sets of domains.

use independent::generate::own_pairs::{
    first, own_pairs, second, List, Meeting, HOMES, LISTS, MEETINGS,
};
use independent::ledger::Ledger;
use independent::loader::{Independent, Loader, Step};
use independent::operations::{create, fresh, load};

/// A set of homes as bits, one more for all other domains.
fn set(list: List, home: usize) -> u8 {
    let bit = |index: &u8| match index {
        0xFE => 1 << home,
        _ => 1 << index,
    };
    list.map_or(7, |indexes| {
        indexes.iter().map(bit).fold(0, |all, bit| all | bit)
    })
}

/// The number that the sets give.
fn expected(meeting: Meeting, first: (List, usize), second: (List, usize)) -> u8 {
    let (have, need) = (set(first.0, first.1), set(second.0, second.1));
    let lacks = |have: u8, need: u8| need & !have != 0;
    match meeting {
        Meeting::Calls if lacks(have, need | 1 << second.1) => 19,
        Meeting::Overrides if lacks(need, have) => 20,
        Meeting::Inherits if lacks(have, need) => 20,
        _ => 0,
    }
}

/// A store with both homes and the first package in one of them.
fn store_with(list: List, home: usize) -> Vec<u8> {
    let mut store = vec![0; 512];
    fresh(&mut store);
    for home in HOMES {
        create(&mut store, home);
    }
    let answer = load(&mut store, HOMES[home], &first(list).bytes());
    assert_eq!(answer.number, 0);
    store
}

#[test]
fn every_pair_of_lists_in_every_pair_of_homes() {
    let mut counts = [0; 21];
    for above in LISTS {
        for (home, other) in [(0, 0), (0, 1), (1, 0), (1, 1)] {
            let store = store_with(above, home);
            for meeting in MEETINGS {
                for below in LISTS {
                    let file = second(meeting, below).bytes();
                    let number = load(&mut store.clone(), HOMES[other], &file).number;
                    let right = expected(meeting, (above, home), (below, other));
                    let lists = (above, below, home, other);
                    assert_eq!(number, right, "{meeting:?}, {lists:02X?}");
                    counts[usize::from(number)] += 1;
                }
            }
        }
    }
    assert!(
        counts[0] > 200 && counts[19] > 100 && counts[20] > 200,
        "{counts:?}"
    );
}

#[test]
fn queries_say_what_the_sets_hold() {
    for list in LISTS {
        for (home, domain) in [(0, 0), (0, 1), (1, 0), (1, 1)] {
            let mut store = store_with(list, home);
            let aid = first(list).aid;
            let answer = Independent.query(&mut store, HOMES[domain], &aid, 0, 2);
            let yes = set(list, home) >> domain & 1;
            assert_eq!(answer, u32::from(yes) << 8, "{list:02X?}, {home}, {domain}");
        }
    }
}

#[test]
fn the_sequences_follow_the_ledger() {
    for sequence in own_pairs() {
        let mut store = sequence.start;
        let mut ledger = Ledger::new(store.len());
        for step in sequence.steps {
            let Step::Call(call) = step else {
                panic!("no call: {step:?}");
            };
            let answer = Independent.call(&mut store, &call);
            assert_eq!(answer, ledger.call(&call).encoded(), "{call:?}");
            assert_eq!(store, ledger.written_out(store.len()));
        }
    }
}
