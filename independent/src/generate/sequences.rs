//! Call sequences over one buffer.

use super::chosen_limits::{bad_limits, good_limits};
use super::damage::any_damage;
use super::files::any_file;
use super::import_sequences::import_sequence;
use super::random::Random;
use super::scene::Scene;
use super::starts::{pools, some_start, Start};
use super::stores::planted_store;
use super::without_int::some_kind;
use crate::ledger::Call;
use crate::loader::{damage, Independent, Loader, Sequence, Step};
use crate::store::{self, StoreVersion};
use crate::without_int::DomainKind;

/// How many of a hundred new domains are without int.
const WITHOUT_INT: usize = 40;

/// One sequence of so many is made for where imports lie.
const OF_IMPORTS: u64 = 16;

/// Builds a sequence while running it, so that later calls suit the store.
pub(super) struct Run<'r> {
    pub random: &'r mut Random,
    start: Vec<u8>,
    store: Vec<u8>,
    pub scene: Scene,
    steps: Vec<Step>,
    /// The last damage, while it has not been undone.
    damaged: Option<(usize, u8)>,
    /// How many of a hundred new domains are without int.
    without_int: usize,
}

/// The sequence for this number; equal numbers give equal sequences.
pub fn sequence(seed: u64) -> Sequence {
    let random = &mut Random::new(seed);
    if seed.is_multiple_of(OF_IMPORTS) {
        return import_sequence(random);
    }
    if random.chance(8) {
        return build_over_store(random);
    }
    let Start { length, first } = some_start(random);
    build(random, length, first, WITHOUT_INT)
}

/// A sequence over a buffer of this length, of version 1 at first, its domains with int.
pub fn sequence_over(length: usize, seed: u64) -> Sequence {
    build(&mut Random::new(seed), length, Call::Fresh, 0)
}

fn build(random: &mut Random, length: usize, first: Call, without_int: usize) -> Sequence {
    let start = match random.below(4) {
        0 => random.bytes(length),
        1 => vec![0xFF; length],
        _ => vec![0; length],
    };
    let scene = pools(random);
    let mut run = Run::new(random, start, scene);
    run.without_int = without_int;
    let refused = match (64..=65_535).contains(&length) {
        true => 2,
        false => 50,
    };
    if run.random.chance(refused) {
        let limits = bad_limits(run.random);
        run.call(Call::FreshLimits(limits));
    }
    if run.random.chance(96) {
        run.call(first);
    }
    run.fill()
}

/// A sequence over a store that is laid out well, sound or with one fault.
fn build_over_store(random: &mut Random) -> Sequence {
    let pools = pools(random);
    let question = *random.pick(&[0, 0, 0, 1, 2, 3, 4, 5, 10, 11, 12, 13, 14, 15, 16]);
    let later = *random.pick(&[16, 17, 24, 24, 26, 26, 26, 18, 19, 20]);
    let question = *random.pick(&[question, question, later, 30, 30]);
    let store = planted_store(random, &pools, question);
    Run::new(random, store.bytes, store.scene).fill()
}

impl<'r> Run<'r> {
    pub fn new(random: &'r mut Random, start: Vec<u8>, scene: Scene) -> Self {
        Run {
            random,
            store: start.clone(),
            start,
            scene,
            steps: Vec::new(),
            damaged: None,
            without_int: WITHOUT_INT,
        }
    }

    fn fill(mut self) -> Sequence {
        let damaging = self.random.chance(12);
        for _ in 0..self.random.between(1, 3) {
            let domain = self.random.pick(&self.scene.domain_pool).clone();
            let call = self.create(&domain);
            self.call(call);
        }
        for _ in 0..self.random.between(5, 25) {
            if damaging && self.random.chance(15) {
                self.damage();
            }
            let call = self.any_call();
            self.call(call);
        }
        self.finish()
    }

    pub fn finish(self) -> Sequence {
        Sequence {
            start: self.start,
            steps: self.steps,
        }
    }

    /// Makes a call; its number.
    pub fn call(&mut self, call: Call) -> u8 {
        let number = Independent.call(&mut self.store, &call) as u8;
        if number == 0 {
            self.note(&call);
        }
        self.steps.push(Step::Call(call));
        number
    }

    /// Keeps the scene up to date with an accepted call.
    fn note(&mut self, call: &Call) {
        let scene = &mut self.scene;
        match call {
            Call::Fresh => scene.empty(StoreVersion::First),
            Call::FreshLimits(limits) => scene.empty(StoreVersion::Second(*limits)),
            Call::Create(domain) => scene.create(DomainKind::WithInt, domain),
            Call::CreateWithoutInt(domain) => scene.create(DomainKind::WithoutInt, domain),
            Call::Delete(domain) => scene.delete(domain),
            Call::Load { domain, file } => scene.install(domain, file),
            Call::Remove(package) => scene.packages.retain(|p| p.model.aid != *package),
            Call::Query { .. } => {}
        }
        scene.free = self.store.len() - store::used(&self.store);
        if matches!(call, Call::Fresh | Call::FreshLimits(_)) {
            self.damaged = None;
        }
    }

    /// Damages a byte, or undoes the last damage.
    fn damage(&mut self) {
        let used = self.store.len() - self.scene.free;
        let (place, bits) = match self.damaged.take() {
            Some(last) => last,
            None if self.store.is_empty() => return,
            None => {
                let new = any_damage(self.random, &self.store, used);
                self.damaged = Some(new);
                new
            }
        };
        damage(&mut self.store, place, bits);
        self.steps.push(Step::Damage { place, bits });
    }

    pub fn any_call(&mut self) -> Call {
        match self.random.below(100) {
            0 => Call::Fresh,
            1..=2 => self.fresh_limits(),
            3..=15 => {
                let domain = self.domain(20, 70);
                self.create(&domain)
            }
            16..=24 => Call::Delete(self.domain(75, 17)),
            25..=70 => {
                let domain = self.domain(92, 5);
                let file = any_file(self.random, &self.scene, &domain);
                Call::Load { domain, file }
            }
            71..=82 => Call::Remove(self.package(75)),
            _ => self.query(),
        }
    }

    /// A creation of either kind.
    fn create(&mut self, domain: &[u8]) -> Call {
        Call::create(some_kind(self.random, self.without_int), domain)
    }

    fn fresh_limits(&mut self) -> Call {
        Call::FreshLimits(match self.random.chance(80) {
            true => bad_limits(self.random),
            false => good_limits(self.random),
        })
    }

    /// A created domain or one from the pool this many times in a hundred; else
    /// bytes of a length that no AID has, now and then.
    pub fn domain(&mut self, created: usize, pool: usize) -> Vec<u8> {
        let choice = self.random.below(100);
        if choice < created {
            if let Some(domain) = self.random.pick_any(&self.scene.domains) {
                return domain.clone();
            }
        }
        if choice < created + pool {
            return self.random.pick(&self.scene.domain_pool).clone();
        }
        self.odd_aid()
    }

    /// An installed package this many times in a hundred.
    pub fn package(&mut self, installed: usize) -> Vec<u8> {
        if self.random.chance(installed) {
            if let Some(package) = self.random.pick_any(&self.scene.packages) {
                return package.model.aid.clone();
            }
        }
        if self.random.chance(60) {
            return self.random.pick(&self.scene.package_pool).clone();
        }
        self.odd_aid()
    }

    fn odd_aid(&mut self) -> Vec<u8> {
        let length = *self
            .random
            .pick(&[0, 1, 4, 4, 5, 16, 17, 17, 255, 256, 300]);
        self.random.bytes(length)
    }
}
