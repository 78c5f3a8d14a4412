//! What the benchmark times is answered as it should be by the independent reader.

use comparison::hostile;
use comparison::inventories;
use comparison::workloads::{self, Workload};
use independent::inventory::judged;
use independent::loader::{Independent, Loader};

fn assert_answered(workloads: &[Workload]) {
    for workload in workloads {
        let answer = Independent.call(&mut workload.store.clone(), &workload.call);
        let (name, size) = (workload.name, &workload.size);
        assert_eq!(answer & 0xFF, workload.number.into(), "{name}, {size}");
    }
}

#[test]
fn workloads_are_answered_as_they_should_be() {
    assert_answered(&workloads::all());
    assert_answered(&hostile::all());
}

#[test]
fn inventories_are_of_sound_stores() {
    for input in inventories::ordinary() {
        assert!(
            judged(&input.store).is_ok(),
            "{}, {}",
            input.name,
            input.size
        );
    }
}
