//! What a sequence starts with: a buffer, a fresh call, AIDs to choose from.

use super::chosen_limits::good_limits;
use super::random::Random;
use super::scene::Scene;
use crate::ledger::Call;

/// The buffer's length, and the fresh call that makes it a store.
pub struct Start {
    pub length: usize,
    pub first: Call,
}

/// Either fresh call, in a buffer of any length.
pub fn some_start(random: &mut Random) -> Start {
    let length = buffer_length(random);
    if random.chance(45) {
        let first = Call::Fresh;
        return Start { length, first };
    }
    let limits = good_limits(random);
    // Codes of the greatest length need room.
    let length = match limits.code > 5_000 && random.chance(12) {
        true => random.between(34_000, 65_535),
        false => length,
    };
    let first = Call::FreshLimits(limits);
    Start { length, first }
}

fn buffer_length(random: &mut Random) -> usize {
    match random.below(100) {
        0..=3 => *random.pick(&[0, 1, 6, 7, 32, 63, 65_536, 65_537, 70_000]),
        4..=6 => 64,
        7 => 65_535,
        8..=24 => random.between(65, 500),
        _ => random.between(500, 5000),
    }
}

/// AIDs for domains and for packages: some begin another, some serve as both.
pub fn pools(random: &mut Random) -> Scene {
    let long = random.bytes(16);
    let mut domains = vec![long.clone(), long[..15].to_vec(), long[..5].to_vec()];
    let mut packages = vec![long[..6].to_vec(), long];
    for pool in [&mut domains, &mut packages] {
        for _ in 0..4 {
            let length = *random.pick(&[5, 5, 6, 8, 15, 16]);
            pool.push(random.bytes(length));
        }
    }
    Scene {
        domain_pool: domains,
        package_pool: packages,
        ..Scene::default()
    }
}
