//! The eight operations as a trait, so that two implementations can be compared.

use crate::ledger::Call;
use crate::limits::Limits;
use crate::operations;

/// Each operation gives number + 256 × figure.
pub trait Loader {
    fn fresh(&self, store: &mut [u8]) -> u32;
    fn fresh_limits(&self, store: &mut [u8], limits: Limits) -> u32;
    fn create(&self, store: &mut [u8], domain: &[u8]) -> u32;
    fn create_without_int(&self, store: &mut [u8], domain: &[u8]) -> u32;
    fn delete(&self, store: &mut [u8], domain: &[u8]) -> u32;
    fn load(&self, store: &mut [u8], domain: &[u8], file: &[u8]) -> u32;
    fn remove(&self, store: &mut [u8], package: &[u8]) -> u32;
    /// The store is lent for writing so that a query that writes is found out.
    fn query(&self, store: &mut [u8], domain: &[u8], package: &[u8], class: u8, name: u16) -> u32;

    fn call(&self, store: &mut [u8], call: &Call) -> u32 {
        match call {
            Call::Fresh => self.fresh(store),
            Call::FreshLimits(limits) => self.fresh_limits(store, *limits),
            Call::Create(domain) => self.create(store, domain),
            Call::CreateWithoutInt(domain) => self.create_without_int(store, domain),
            Call::Delete(domain) => self.delete(store, domain),
            Call::Load { domain, file } => self.load(store, domain, file),
            Call::Remove(package) => self.remove(store, package),
            Call::Query {
                domain,
                package,
                class,
                name,
            } => self.query(store, domain, package, *class, *name),
        }
    }
}

/// The operations of this crate.
pub struct Independent;

impl Loader for Independent {
    fn fresh(&self, store: &mut [u8]) -> u32 {
        operations::fresh(store).encoded()
    }

    fn fresh_limits(&self, store: &mut [u8], limits: Limits) -> u32 {
        operations::fresh_limits(store, limits).encoded()
    }

    fn create(&self, store: &mut [u8], domain: &[u8]) -> u32 {
        operations::create(store, domain).encoded()
    }

    fn create_without_int(&self, store: &mut [u8], domain: &[u8]) -> u32 {
        operations::create_without_int(store, domain).encoded()
    }

    fn delete(&self, store: &mut [u8], domain: &[u8]) -> u32 {
        operations::delete(store, domain).encoded()
    }

    fn load(&self, store: &mut [u8], domain: &[u8], file: &[u8]) -> u32 {
        operations::load(store, domain, file).encoded()
    }

    fn remove(&self, store: &mut [u8], package: &[u8]) -> u32 {
        operations::remove(store, package).encoded()
    }

    fn query(&self, store: &mut [u8], domain: &[u8], package: &[u8], class: u8, name: u16) -> u32 {
        operations::query(store, domain, package, class, name).encoded()
    }
}

/// A buffer and what happens to it, in order.
#[derive(Clone, Debug, PartialEq, Eq)]
pub struct Sequence {
    /// The buffer's bytes before the first step.
    pub start: Vec<u8>,
    pub steps: Vec<Step>,
}

#[derive(Clone, Debug, PartialEq, Eq)]
pub enum Step {
    Call(Call),
    /// Bits to flip in one byte of the buffer, if it has that place.
    Damage {
        place: usize,
        bits: u8,
    },
}

impl Sequence {
    /// May a ledger follow it: either fresh first, answered 0, and no damage?
    pub fn has_ledger(&self) -> bool {
        let damaged = |step: &Step| matches!(step, Step::Damage { .. });
        let fresh = match self.steps.first() {
            Some(Step::Call(Call::Fresh)) => true,
            Some(Step::Call(Call::FreshLimits(limits))) => limits.in_range(),
            _ => false,
        };
        fresh && (64..=65_535).contains(&self.start.len()) && !self.steps.iter().any(damaged)
    }
}

pub fn damage(store: &mut [u8], place: usize, bits: u8) {
    if let Some(byte) = store.get_mut(place) {
        *byte ^= bits;
    }
}

/// Where two implementations differ.
#[derive(Debug, PartialEq, Eq)]
pub struct Difference {
    pub step: usize,
    pub ours: u32,
    pub theirs: u32,
    /// The first place where the store's bytes differ.
    pub place: Option<usize>,
}

/// Runs a sequence through both, each over its own buffer; tells the first difference.
pub fn compare(ours: &dyn Loader, theirs: &dyn Loader, sequence: &Sequence) -> Option<Difference> {
    let mut our_store = sequence.start.clone();
    let mut their_store = sequence.start.clone();
    for (number, step) in sequence.steps.iter().enumerate() {
        match step {
            Step::Damage { place, bits } => {
                damage(&mut our_store, *place, *bits);
                damage(&mut their_store, *place, *bits);
            }
            Step::Call(call) => {
                let our = ours.call(&mut our_store, call);
                let their = theirs.call(&mut their_store, call);
                if our != their || our_store != their_store {
                    let mut pairs = our_store.iter().zip(&their_store);
                    return Some(Difference {
                        step: number,
                        ours: our,
                        theirs: their,
                        place: pairs.position(|(a, b)| a != b),
                    });
                }
            }
        }
    }
    None
}

/// A shorter sequence that still fails: steps are left out while it does.
pub fn shrink(sequence: &Sequence, fails: impl Fn(&Sequence) -> bool) -> Sequence {
    let mut shortest = sequence.clone();
    loop {
        let before = shortest.steps.len();
        for place in (0..before).rev() {
            let mut shorter = shortest.clone();
            shorter.steps.remove(place);
            if fails(&shorter) {
                shortest = shorter;
            }
        }
        if shortest.steps.len() == before {
            return shortest;
        }
    }
}
