//! The printed inventory of chosen stores.

mod common;
use common::*;
use independent::generate::crowded::{largest, BOTH_VERSIONS};
use independent::generate::handlers::to_second;
use independent::generate::limits::chain;
use independent::generate::model::FileModel;
use independent::generate::random::Random;
use independent::inventory::inventory;
use independent::limits::Limits;
use independent::operations::{create, create_without_int, delete, load, remove};
use independent::package::Version;
use independent::store::{write_empty, StoreVersion};

fn page(store: &[u8]) -> String {
    String::from_utf8(inventory(store)).expect("text")
}

/// An empty store of this length, or its first bytes.
fn empty(version: StoreVersion, length: usize) -> Vec<u8> {
    let mut store = vec![0; length.max(version.opening())];
    write_empty(&mut store, version);
    store.truncate(length);
    store
}

#[test]
fn lengths_of_the_input() {
    for version in BOTH_VERSIONS {
        for length in [0, 1, 7, 11, 63, 65_536, 65_537, 200_000] {
            assert_eq!(page(&empty(version, length)), "1\n", "{length}");
            assert_eq!(page(&vec![0xFF; length]), "1\n", "{length}");
        }
        for length in [64, 65, 8_192, 65_534, 65_535] {
            assert_eq!(page(&empty(version, length)), "0 0 0\n", "{length}");
            assert_eq!(page(&vec![0xFF; length]), "2\n", "{length}");
            assert_eq!(page(&vec![0; length]), "2\n", "{length}");
        }
    }
}

#[test]
fn domains_have_no_line() {
    let mut store = store_of_both(300);
    assert_eq!(page(&store), "0 0 0\n");
    assert_eq!(load(&mut store, D3, &chain(P1, 0, 0).bytes()).number, 0);
    assert_eq!(create(&mut store, P1).number, 0);
    assert_eq!(create_without_int(&mut store, P2).number, 0);
    assert_eq!(page(&store), "A000000101 A0000000D3 18 0\n1 18 0\n");
}

#[test]
fn the_papers_example() {
    let mut store = vec![0; 8_192];
    write_empty(&mut store, StoreVersion::First);
    let file = chain(P1, 0, 0).bytes();
    assert_eq!(page(&store), "0 0 0\n");
    assert_eq!(create(&mut store, D1).number, 0);
    assert_eq!(load(&mut store, D1, &file).number, 0);
    assert_eq!(page(&store), "A000000101 A0000000D1 18 0\n1 18 0\n");
    assert_eq!(remove(&mut store, P1).number, 0);
    assert_eq!(delete(&mut store, D1).number, 0);
    assert_eq!(page(&store), "0 0 0\n");
}

/// A class of three methods, one of them without a code, an interface of two, a class of none.
fn five_methods(version: Version, aid: &[u8]) -> FileModel {
    let all = Some(&[0, 1][..]);
    let declared = vec![
        method(BODY, 1, all),
        method(STATIC, 2, None),
        method(VISIBLE, 3, all),
    ];
    let asked = vec![method(VISIBLE, 1, all), method(0, 2, Some(&[0xFE]))];
    let classes = vec![
        class(&[], declared),
        interface(&[], asked),
        class(&[], vec![]),
    ];
    let mut model = package(aid, classes);
    if version == Version::Second {
        to_second(&mut Random::new(3), &mut model);
    }
    model
}

#[test]
fn methods_of_every_form_and_version_count() {
    for store_version in [StoreVersion::First, StoreVersion::Second(Limits::STANDARD)] {
        let mut store = empty(store_version, 1_000);
        let (long, short) = (&[0x0F; 16][..], &[0xA0, 0, 0xB, 0, 0xC][..]);
        assert_eq!(create_without_int(&mut store, long).number, 0);
        assert_eq!(create(&mut store, D1).number, 0);
        let [first, second] = Version::BOTH.map(|v| five_methods(v, long).bytes());
        let third = five_methods(Version::First, short).bytes();
        assert!(second.len() > first.len());
        assert_eq!(load(&mut store, D1, &second).number, 0);
        assert_eq!(load(&mut store, long, &third).number, 0);
        let long = "0F".repeat(16);
        let (two, three) = (second.len(), third.len());
        let lines = format!("{long} A0000000D1 {two} 5\nA0000B000C {long} {three} 5\n");
        assert_eq!(page(&store), format!("{lines}2 {} 10\n", two + three));
        // Question 2 alone is answered for a store with one wrong byte at its end.
        *store.last_mut().unwrap() = 1;
        assert_eq!(page(&store), "2\n");
    }
}

#[test]
fn the_largest_stores() {
    let totals = largest().into_iter().map(|store| {
        let page = page(&store);
        let (lines, last) = page.trim_end().rsplit_once('\n').expect("lines");
        let figures: Vec<usize> = last.split(' ').map(|f| f.parse().unwrap()).collect();
        assert_eq!(figures[0], lines.lines().count());
        (figures[0], figures[2])
    });
    // Smallest packages, longest AIDs, methods; a store of version 2 opens with 4 bytes more.
    let of = |methods| [(2_426, 0), (1_336, 0), (8, methods)];
    let expected = [of(16_136), of(16_136), of(16_135), of(16_135)].concat();
    assert_eq!(totals.collect::<Vec<_>>(), expected);
}
