//! How often each operation answered each number, loads by their depth figure, and what
//! FE, handlers, limits, kinds of domains, searches for declarations and places of imports
//! decided.

use independent::depths::DepthCounts;
use independent::handler_counts::HandlerCounts;
use independent::import_counts::ImportCounts;
use independent::int_counts::IntCounts;
use independent::ledger::Call;
use independent::limit_counts::LimitCounts;
use independent::limits::Limits;
use independent::loader::{Independent, Loader};
use independent::own_domain::OwnCounts;
use independent::questions::NUMBERS;
use independent::search_counts::SearchCounts;
use std::cell::RefCell;

const GREATEST: usize = NUMBERS[NUMBERS.len() - 1] as usize;
const LOAD: usize = Call::LOAD;
const QUERY: usize = Call::QUERY;

/// The numbers that each operation can answer.
const CAN_ANSWER: [&[usize]; Call::OPERATIONS.len()] = [
    &[0, 1],
    &[0, 1, 30],
    &CREATION,
    &CREATION,
    &[0, 1, 2, 3, 5, 6],
    &[
        0, 1, 2, 3, 5, 10, 11, 12, 13, 14, 15, 16, 17, 24, 26, 18, 19, 20, 21,
    ],
    &[0, 1, 2, 3, 7, 8],
    &[0, 1, 2, 3, 7, 9],
];
const CREATION: [usize; 6] = [0, 1, 2, 3, 4, 21];

#[derive(Default)]
pub struct Counts {
    answers: [[u64; GREATEST + 1]; Call::OPERATIONS.len()],
    depths: DepthCounts,
    own: OwnCounts,
    handlers: HandlerCounts,
    limits: LimitCounts,
    int: IntCounts,
    search: SearchCounts,
    imports: ImportCounts,
    /// Queries answered yes.
    yes: u64,
}

impl Counts {
    /// Notes a call; the store is as it left it.
    fn note(&mut self, call: &Call, answer: u32, store: &[u8]) {
        let operation = call.operation();
        let (number, figure) = ((answer & 0xFF) as usize, answer >> 8);
        self.answers[operation][number] += 1;
        if matches!(operation, LOAD | QUERY) {
            self.own.note(call, answer, store);
            self.handlers.note(call, answer, store);
            self.search.note(call, answer, store);
        }
        self.limits.note(call, answer, store);
        self.int.note(call, answer, store);
        self.imports.note(call, answer, store);
        match (operation, number) {
            (LOAD, 0) => self.depths.note(figure, store),
            (QUERY, 0) => self.yes += u64::from(figure),
            _ => {}
        }
    }

    pub fn calls(&self) -> u64 {
        self.answers.iter().flatten().sum()
    }

    fn loads(&self) -> u64 {
        self.answers[LOAD].iter().sum()
    }

    /// Rows are operations, columns numbers; a dash where there is nothing to reach.
    pub fn print(&self) {
        print!("{:18}", "");
        NUMBERS.iter().for_each(|number| print!("{number:>7}"));
        println!();
        for (operation, name) in Call::OPERATIONS.iter().enumerate() {
            print!("{name:18}");
            for number in NUMBERS.map(usize::from) {
                match self.answers[operation][number] {
                    0 if !CAN_ANSWER[operation].contains(&number) => print!("{:>7}", "-"),
                    count => print!("{count:>7}"),
                }
            }
            println!();
        }
        let (loads, accepted) = (self.loads(), self.answers[LOAD][0]);
        println!("{accepted} of {loads} loads accepted: {}", self.depths);
        let (yes, queries) = (self.yes, self.answers[QUERY][0]);
        println!("{yes} of {queries} queries answered yes");
        println!("{}\n{}\n{}", self.own, self.handlers, self.limits);
        println!("{}\n{}\n{}", self.int, self.search, self.imports);
    }

    /// What falls short of this many answers of each number, this many accepted loads by
    /// each depth and origin, this many decisions of each kind by FE, by handlers, by limits,
    /// by kinds of domains, by searches and by places of imports, and a fifth of loads accepted.
    pub fn shortfalls(&self, least: u64) -> Vec<String> {
        let mut found = Vec::new();
        for (operation, numbers) in CAN_ANSWER.iter().enumerate() {
            for &number in *numbers {
                let count = self.answers[operation][number];
                if count < least {
                    let name = Call::OPERATIONS[operation];
                    found.push(format!("{name} answered {number} only {count} times"));
                }
            }
        }
        if 5 * self.answers[LOAD][0] < self.loads() {
            found.push("fewer than a fifth of loads were accepted".into());
        }
        found.extend(self.depths.shortfalls(least));
        found.extend(self.own.shortfalls(least));
        found.extend(self.handlers.shortfalls(least));
        found.extend(self.limits.shortfalls(least));
        found.extend(self.int.shortfalls(least));
        found.extend(self.search.shortfalls(least));
        found.extend(self.imports.shortfalls(least));
        found
    }
}

/// The independent reader, its answers counted.
#[derive(Default)]
pub struct Counting {
    counts: RefCell<Counts>,
}

impl Counting {
    pub fn into_counts(self) -> Counts {
        self.counts.into_inner()
    }
}

impl Loader for Counting {
    fn call(&self, store: &mut [u8], call: &Call) -> u32 {
        let answer = Independent.call(store, call);
        self.counts.borrow_mut().note(call, answer, store);
        answer
    }

    fn fresh(&self, store: &mut [u8]) -> u32 {
        self.call(store, &Call::Fresh)
    }

    fn fresh_limits(&self, store: &mut [u8], limits: Limits) -> u32 {
        self.call(store, &Call::FreshLimits(limits))
    }

    fn create(&self, store: &mut [u8], domain: &[u8]) -> u32 {
        self.call(store, &Call::Create(domain.to_vec()))
    }

    fn create_without_int(&self, store: &mut [u8], domain: &[u8]) -> u32 {
        self.call(store, &Call::CreateWithoutInt(domain.to_vec()))
    }

    fn delete(&self, store: &mut [u8], domain: &[u8]) -> u32 {
        self.call(store, &Call::Delete(domain.to_vec()))
    }

    fn load(&self, store: &mut [u8], domain: &[u8], file: &[u8]) -> u32 {
        let (domain, file) = (domain.to_vec(), file.to_vec());
        self.call(store, &Call::Load { domain, file })
    }

    fn remove(&self, store: &mut [u8], package: &[u8]) -> u32 {
        self.call(store, &Call::Remove(package.to_vec()))
    }

    fn query(&self, store: &mut [u8], domain: &[u8], package: &[u8], class: u8, name: u16) -> u32 {
        let (domain, package) = (domain.to_vec(), package.to_vec());
        let call = Call::Query {
            domain,
            package,
            class,
            name,
        };
        self.call(store, &call)
    }
}
