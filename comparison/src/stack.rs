//! How much stack a call uses: the stack below is painted, and after the call the
//! deepest byte that has changed is looked for.

#![allow(unsafe_code)]

use crate::library::Library;
use independent::ledger::Call;
use independent::limits::Limits;
use independent::loader::{damage, Loader, Sequence, Step};
use independent::store::StoreVersion;

/// The stack of the measuring thread, and how much of it is painted.
const THREAD: usize = 8 << 20;
const PAINTED: usize = 2 << 20;

/// Left unpainted for the frame of `depth` itself.
const MARGIN: usize = 256;

/// Stores to this many bytes have figures of their own.
const SHORT: usize = 8_192;

/// For each operation the stack in bytes: standard limits, stores to 8,192 bytes and longer
/// ones; then larger limits, the same.
pub type Peaks = [[usize; 4]; Call::OPERATIONS.len()];

/// The column of a store: its limits are larger than the standard ones by depth or by code.
fn column(store: &[u8]) -> usize {
    let limits = StoreVersion::of(store).unwrap_or_default().limits();
    let standard = Limits::STANDARD;
    let larger = limits.depth > standard.depth || limits.code > standard.code;
    2 * usize::from(larger) + usize::from(store.len() > SHORT)
}

/// The deepest stack of each operation over all calls of these sequences, counted from the
/// caller's frame: a little more than the operation's own, and never less than `MARGIN`; 0
/// where there was no call.
pub fn peaks(sequences: Vec<Sequence>) -> Peaks {
    let measuring = std::thread::Builder::new()
        .stack_size(THREAD)
        .spawn(move || {
            let mut peaks = Peaks::default();
            sequences.iter().for_each(|s| follow(s, &mut peaks));
            peaks
        });
    measuring
        .and_then(|thread| thread.join().map_err(|_| std::io::Error::other("no depth")))
        .expect("the measuring thread ends")
}

fn follow(sequence: &Sequence, peaks: &mut Peaks) {
    let mut store = sequence.start.clone();
    for step in &sequence.steps {
        match step {
            Step::Damage { place, bits } => damage(&mut store, *place, *bits),
            Step::Call(call) => {
                let mut copy = store.clone();
                let peak = &mut peaks[call.operation()][column(&store)];
                // A byte may be written with the paint's own value: two paints.
                let first = depth(0xA5A5_A5A5_A5A5_A5A5, &mut copy, call);
                let second = depth(0x3C3C_3C3C_3C3C_3C3C, &mut store, call);
                *peak = first.max(second).max(*peak);
            }
        }
    }
}

/// Paints the stack below this frame, calls, and measures.
///
/// Sound because the painted bytes belong to this thread's stack, whose size is
/// `THREAD`, and hold nothing: they lie below every frame in use.
#[inline(never)]
fn depth(paint: u64, store: &mut [u8], call: &Call) -> usize {
    let mark = 0_u8;
    let top = std::ptr::from_ref(std::hint::black_box(&mark)) as usize;
    let end = (top - MARGIN) & !7;
    let begin = end - PAINTED;
    for place in (begin..end).step_by(8) {
        unsafe { (place as *mut u64).write_volatile(paint) };
    }
    std::hint::black_box(Library.call(store, call));
    let mut deepest = begin;
    while deepest < end && unsafe { (deepest as *const u64).read_volatile() } == paint {
        deepest += 8;
    }
    assert!(deepest > begin, "more stack than is painted");
    top - deepest
}
