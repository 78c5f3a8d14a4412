//! Times of both readers, taken in turn.

use crate::library::Library;
use crate::workloads::Workload;
use independent::loader::{Independent, Loader};
use std::time::{Duration, Instant};

/// The times of one reader, the shortest first.
#[derive(Default)]
pub struct Spent(Vec<Duration>);

impl Spent {
    /// In microseconds.
    pub fn best(&self) -> f64 {
        self.0[0].as_secs_f64() * 1e6
    }

    /// In microseconds.
    pub fn median(&self) -> f64 {
        self.0[self.0.len() / 2].as_secs_f64() * 1e6
    }
}

/// The times of one workload.
#[derive(Default)]
pub struct Times {
    pub library: Spent,
    pub independent: Spent,
}

impl Times {
    /// The library's best time by the independent reader's.
    pub fn ratio(&self) -> f64 {
        self.library.best() / self.independent.best()
    }

    pub fn median_ratio(&self) -> f64 {
        self.library.median() / self.independent.median()
    }
}

/// Does the library answer the number that the workload has? Where it does not, says so.
pub fn as_expected(workload: &Workload) -> bool {
    let answer = Library.call(&mut workload.store.clone(), &workload.call);
    let (answered, expected) = (answer & 0xFF, u32::from(workload.number));
    if answered != expected {
        let (name, size) = (workload.name, &workload.size);
        eprintln!("left out: {name}, {size}: the library answers {answered}, not {expected}");
    }
    answered == expected
}

/// Times every workload once a round, with the one and the other reader first.
pub fn measure(workloads: &[Workload], rounds: usize) -> Vec<Times> {
    taken(
        workloads.len(),
        rounds,
        |number| timed(&Library, &workloads[number]),
        |number| timed(&Independent, &workloads[number]),
    )
}

/// The same for so many things, each timed by its number.
pub fn taken(
    count: usize,
    rounds: usize,
    library: impl Fn(usize) -> Duration,
    independent: impl Fn(usize) -> Duration,
) -> Vec<Times> {
    let mut all: Vec<Times> = (0..count).map(|_| Times::default()).collect();
    for round in 0..rounds {
        for (number, times) in all.iter_mut().enumerate() {
            if round % 2 == 0 {
                times.library.0.push(library(number));
            }
            times.independent.0.push(independent(number));
            if round % 2 == 1 {
                times.library.0.push(library(number));
            }
        }
    }
    for times in &mut all {
        times.library.0.sort();
        times.independent.0.sort();
    }
    all
}

/// Calls on a store of less bytes than this take no longer than reading the clock does.
const SHORT: usize = 1_024;

/// So many of these are timed together; each leaves the store as it is.
const TOGETHER: u32 = 1_000;

/// The time of the call alone, over a new copy of the store.
fn timed(loader: &dyn Loader, workload: &Workload) -> Duration {
    let calls = if workload.store.len() < SHORT {
        TOGETHER
    } else {
        1
    };
    called(loader, workload, calls) / calls
}

/// The time of so many calls over a new copy of the store, each with the number that the
/// workload has.
pub fn called(loader: &dyn Loader, workload: &Workload, calls: u32) -> Duration {
    let mut store = workload.store.clone();
    let number = u32::from(workload.number);
    let mut wrong = 0;
    let start = Instant::now();
    for _ in 0..calls {
        let answer = loader.call(&mut store, &workload.call);
        wrong += u32::from(answer & 0xFF != number);
    }
    let spent = start.elapsed();
    assert_eq!(wrong, 0, "{}, {}", workload.name, workload.size);
    spent
}
