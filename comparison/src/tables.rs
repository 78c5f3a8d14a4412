//! The benchmark's tables, as docs/BENCHMARKS.md has them.

use crate::hostile;
use crate::ordinary_handlers as handled;
use crate::ordinary_imports as imports;
use crate::ordinary_kinds as kinds;
use crate::ordinary_limits as limited;
use crate::ordinary_searches as searches;
use crate::stack::Peaks;
use crate::timing::Times;
use crate::workloads::{self as named, Workload};
use independent::ledger::Call;

/// What was timed, and how long it took.
pub struct Measured {
    pub workloads: Vec<Workload>,
    pub times: Vec<Times>,
}

/// An aim: what it is about, the figure, and the most that it may be.
struct Aim {
    about: &'static str,
    figure: f64,
    most: f64,
}

impl Measured {
    fn of(&self, name: &str, size: &str) -> &Times {
        let place = self.workloads.iter().position(|w| {
            let any = size.is_empty();
            w.name == name && (any || w.size == size)
        });
        &self.times[place.expect("it was timed")]
    }

    pub fn print(&self) {
        println!("## Times\n");
        self.print_times();
        self.print_growth();
        print_aims(&self.aims());
    }

    /// The table of a hostile vendor's stores.
    pub fn print_hostile(&self) {
        println!("\n## Hostile stores\n");
        self.print_times();
        println!("\n| Growth of the chain's store | Library | Independent |");
        println!("|---|---:|---:|");
        let of = |kb: usize| {
            let size = format!("{kb} KB");
            let found = |w: &Workload| w.name == hostile::CHAIN && w.size.starts_with(&size);
            &self.times[self.workloads.iter().position(found).expect("it was timed")]
        };
        for pair in hostile::CHAIN_SIZES.windows(2) {
            let (small, large) = (of(pair[0]), of(pair[1]));
            let library = large.library.best() / small.library.best();
            let independent = large.independent.best() / small.independent.best();
            println!(
                "| {} to {} KB | {library:.1} | {independent:.1} |",
                pair[0], pair[1]
            );
        }
    }

    fn print_times(&self) {
        println!("Microseconds; the ratio is the library's time by the independent reader's.\n");
        println!("| What | Size | Library, best | {COLUMNS} |");
        println!("|---|---|---:|---:|---:|---:|---:|---:|");
        for (workload, times) in self.workloads.iter().zip(&self.times) {
            println!("{}", row(workload.name, &workload.size, times));
        }
    }

    /// How many times longer a store of 64 KB takes than one of 8 KB.
    fn print_growth(&self) {
        println!("\n## Growth from 8 to 64 KB, bests\n");
        println!("| What | Library | Independent |");
        println!("|---|---:|---:|");
        for name in [
            named::LOAD,
            named::QUERY,
            named::REMOVE,
            named::OWN_LOAD,
            named::OWN_QUERY,
            handled::LOAD,
            handled::QUERY,
            handled::OVER_FIRST,
            limited::LOAD,
            kinds::QUARTER,
            kinds::HALF,
            kinds::ALL,
            searches::LOAD,
            searches::QUERY,
            imports::QUERY,
        ] {
            // What the library does not answer as it should was left out.
            if !self.workloads.iter().any(|w| w.name == name) {
                continue;
            }
            let (small, large) = (self.of(name, "8 KB"), self.of(name, "64 KB"));
            let library = large.library.best() / small.library.best();
            let independent = large.independent.best() / small.independent.best();
            println!("| {name} | {library:.1} | {independent:.1} |");
        }
    }

    fn aims(&self) -> Vec<Aim> {
        let aim = |about, figure, most| Aim {
            about,
            figure,
            most,
        };
        let load = |size| self.of(named::LOAD, size).ratio();
        let codes = self.of(named::CODES, "").ratio();
        let worst = self.times.iter().map(Times::ratio).fold(0.0, f64::max);
        vec![
            aim("ordinary load, 8 KB: ratio", load("8 KB"), 0.8),
            aim("ordinary load, 64 KB: ratio", load("64 KB"), 0.8),
            aim("codes alone: ratio", codes, 0.9),
            aim("every workload: the greatest ratio", worst, 1.0),
        ]
    }
}

/// The columns of times after the first.
pub const COLUMNS: &str = "median | Independent, best | median | Ratio of bests | of medians";

/// A row of times.
pub fn row(name: &str, size: &str, times: &Times) -> String {
    format!(
        "| {name} | {size} | {} | {} | {} | {} | {:.2} | {:.2} |",
        microseconds(times.library.best()),
        microseconds(times.library.median()),
        microseconds(times.independent.best()),
        microseconds(times.independent.median()),
        times.ratio(),
        times.median_ratio()
    )
}

/// With more places where the time is short.
fn microseconds(time: f64) -> String {
    if time < 1.0 {
        format!("{time:.3}")
    } else {
        format!("{time:.1}")
    }
}

fn print_aims(aims: &[Aim]) {
    println!("\n## Aims, ratios of bests\n");
    println!("| Aim | At most | Measured | Met |");
    println!("|---|---:|---:|---|");
    for aim in aims {
        let met = if aim.figure <= aim.most { "yes" } else { "no" };
        println!(
            "| {} | {} | {:.2} | {met} |",
            aim.about, aim.most, aim.figure
        );
    }
}

pub fn print_stack(peaks: &Peaks) {
    println!("\n## Peak stack of the library\n");
    println!("| Operation | Standard limits, to 8,192 bytes | longer | Larger limits, to 8,192 bytes | longer |");
    println!("|---|---:|---:|---:|---:|");
    for (name, [short, long, larger_short, larger_long]) in Call::OPERATIONS.iter().zip(peaks) {
        println!("| `loader_{name}` | {short} | {long} | {larger_short} | {larger_long} |");
    }
}
