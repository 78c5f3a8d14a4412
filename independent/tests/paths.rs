//! Call paths after generated sequences: the last method of each allows the first one's
//! domain and all that the first one allows.

mod common;
use common::{class, coded, method, package, store_with, BODY, P1, STATIC, VISIBLE};
use independent::code::CallKind;
use independent::contents::{Contents, MethodPlace, Place};
use independent::generate::own_pairs::own_pairs;
use independent::generate::sequences::sequence;
use independent::load_questions::{q16, q18, Call};
use independent::loader::{Independent, Loader, Sequence, Step};
use independent::policy::Role;
use independent::questions::q2;
use independent::search::Meant;

/// All classes that are installed.
fn classes(contents: &Contents) -> Vec<Place> {
    let packages = contents.packages.iter().enumerate();
    let places = packages.flat_map(|(package, installed)| {
        let classes = 0..installed.package.classes.len();
        classes.map(move |class| Place { package, class })
    });
    places.collect()
}

/// The methods that a call calls: the one that 8C or 8D means; for 8B and 8E those that run for
/// the name and a class at or below the one named.
fn called(contents: &Contents, call: &Call) -> Vec<MethodPlace> {
    let Meant { named, declared } = call.meant;
    if matches!(call.kind, CallKind::Special | CallKind::Static) {
        return vec![declared];
    }
    let name = contents.method(declared).name;
    let mut receivers = classes(contents);
    receivers.retain(|&class| {
        !contents.class(class).interface && contents.with_ancestors(class).contains(&named)
    });
    let running = receivers.iter().flat_map(|&class| contents.running(class));
    let by_name = running.filter(|&(runs_for, _)| runs_for == name);
    by_name.filter_map(|(_, runs)| runs).collect()
}

/// Each method that calls, and a method that it calls.
fn edges(contents: &Contents) -> Vec<(MethodPlace, MethodPlace)> {
    let mut found = Vec::new();
    for (number, installed) in contents.packages.iter().enumerate() {
        let codes = q16(&installed.package).expect("sound");
        for call in q18(contents, number, &codes).expect("sound") {
            let called = called(contents, &call).into_iter();
            found.extend(called.map(|method| (call.caller, method)));
        }
    }
    found
}

/// The methods at the ends of paths that begin with this one.
fn ends(edges: &[(MethodPlace, MethodPlace)], first: MethodPlace) -> Vec<MethodPlace> {
    let mut found: Vec<MethodPlace> = Vec::new();
    let mut left = vec![first];
    while let Some(method) = left.pop() {
        for &(_, called) in edges.iter().filter(|edge| edge.0 == method) {
            if !found.contains(&called) {
                found.push(called);
                left.push(called);
            }
        }
    }
    found
}

/// Asserts it of every path in a store; how many pairs of ends lie in two domains with
/// FE in the first one's list or the last one's.
fn paths_allow(store: &[u8]) -> usize {
    let contents = q2(store).expect("a store that calls left is sound");
    let edges = edges(&contents);
    let lists_own = |method| contents.method(method).policy.lists_own();
    let domain = |method: MethodPlace| contents.packages[method.class.package].domain;
    let mut across = 0;
    for &(first, _) in &edges {
        for last in ends(&edges, first) {
            assert!(contents.allows(last, Role::Queried, domain(first)));
            assert!(contents.called_allows(last, first));
            let two = domain(first) != domain(last);
            across += usize::from(two && (lists_own(first) || lists_own(last)));
        }
    }
    across
}

/// The sum of what the stores after each accepted load have.
fn over_loads(sequence: &Sequence) -> usize {
    let mut store = sequence.start.clone();
    let mut across = 0;
    for step in &sequence.steps {
        if let Step::Call(call) = step {
            let answer = Independent.call(&mut store, call);
            let load = matches!(call, independent::ledger::Call::Load { .. });
            if load && answer & 0xFF == 0 {
                across += paths_allow(&store);
            }
        }
    }
    across
}

#[test]
fn the_last_method_allows_the_first_ones_domain_and_all_that_it_allows() {
    let generated = (0..600).map(sequence).filter(Sequence::has_ledger);
    let across: usize = generated.map(|s| over_loads(&s)).sum();
    assert!(across > 300, "{across}");
    let across: usize = own_pairs().iter().map(over_loads).sum();
    assert!(across > 10, "{across}");
}

#[test]
fn receivers_are_at_or_below_the_class_named() {
    // A and its method 7; B and C below it, D below B; B, C and D each may have their own.
    let edges_of = |named: u8, opcode: u8, own: [bool; 3]| {
        let open = || vec![method(VISIBLE | BODY, 7, None)];
        let having = |own: bool| if own { open() } else { vec![] };
        let code = [opcode, 0, 0, 0x7A];
        let mut model = package(
            P1,
            vec![
                class(&[], open()),
                class(&[(0, 0)], having(own[0])),
                class(&[(0, 0)], having(own[1])),
                class(&[(0, 1)], having(own[2])),
                class(&[], vec![coded(STATIC, 1, Some(&[]), &code)]),
            ],
        );
        model.references = vec![(0, named, 7)];
        let store = store_with(&[model]);
        let contents = q2(&store).expect("sound");
        let edges = edges(&contents).into_iter();
        let mut called: Vec<usize> = edges.map(|(_, called)| called.class.class).collect();
        called.sort_unstable();
        called.dedup();
        called
    };
    // B declares none: the call means A's method, which runs for B, and D's for D; C's does not.
    assert_eq!(edges_of(1, 0x8B, [false, true, true]), [0, 3]);
    assert_eq!(edges_of(1, 0x8B, [true, true, true]), [1, 3]);
    assert_eq!(edges_of(0, 0x8B, [false, true, true]), [0, 2, 3]);
    assert_eq!(edges_of(3, 0x8B, [true, true, false]), [1]);
    assert_eq!(edges_of(3, 0x8B, [false, true, false]), [0]);
    // 8C calls the declaration itself.
    assert_eq!(edges_of(1, 0x8C, [false, true, true]), [0]);
    assert_eq!(edges_of(3, 0x8C, [true, true, false]), [1]);
}
