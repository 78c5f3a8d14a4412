//! Policies of generated files, and the lists that say them.

use super::facts::Policy;
use super::random::Random;
use super::scene::Scene;
use crate::package::MAX_DOMAINS;
use crate::policy::{MAX_ALLOWED, OWN};

/// What a method of a file for this domain may allow.
pub fn random_policy(random: &mut Random, scene: &Scene, domain: &[u8]) -> Policy {
    if random.chance(20) {
        return Policy::Every;
    }
    let mut policy = Policy::nobody();
    for _ in 0..*random.pick(&[0, 0, 1, 1, 2, 3]) {
        let aid = match random.pick_any(&scene.domains) {
            Some(created) if random.chance(60) => created,
            _ => random.pick(&scene.domain_pool),
        };
        policy.join(&Policy::Only([aid.clone()].into()));
    }
    if random.chance(50) {
        policy.join(&Policy::Only([domain.to_vec()].into()));
    }
    policy
}

/// The lists of one file, and the domains that they grow.
pub struct Lists<'a> {
    /// The loading domain.
    own: &'a [u8],
    /// The most domains that the file may have.
    most: usize,
    pub domains: Vec<Vec<u8>>,
}

impl<'a> Lists<'a> {
    /// Some domains to begin with; now and then none, for good.
    pub fn new(random: &mut Random, scene: &Scene, own: &'a [u8]) -> Self {
        let most = if random.chance(15) { 0 } else { MAX_DOMAINS };
        let begin = random.below(4).min(most);
        let pool = &scene.domain_pool;
        Lists {
            own,
            most,
            domains: (0..begin).map(|_| random.pick(pool).clone()).collect(),
        }
    }

    /// The policy as indexes. The loading domain is FE, an index or both. A policy that
    /// finds no room becomes FF.
    pub fn allowed(&mut self, random: &mut Random, policy: &mut Policy) -> Option<Vec<u8>> {
        let Policy::Only(aids) = &*policy else {
            return None;
        };
        let mut indexes = Vec::new();
        for aid in aids {
            let own = aid == self.own && (self.most == 0 || random.chance(65));
            if own {
                indexes.push(OWN);
            }
            if !own || (self.most > 0 && random.chance(15)) {
                match self.index(random, aid) {
                    Some(index) => indexes.push(index),
                    None => {
                        *policy = Policy::Every;
                        return None;
                    }
                }
            }
        }
        reshape(random, &mut indexes);
        Some(indexes)
    }

    /// An index of this AID, which may be listed again.
    fn index(&mut self, random: &mut Random, aid: &[u8]) -> Option<u8> {
        let known = self.domains.iter().position(|d| d == aid);
        let repeat = self.domains.len() < 8.min(self.most) && random.chance(10);
        match known {
            Some(index) if !repeat => Some(index as u8),
            _ if self.domains.len() < self.most => {
                self.domains.push(aid.to_vec());
                Some(self.domains.len() as u8 - 1)
            }
            _ => None,
        }
    }
}

/// Repeats some indexes, now and then up to 32, and puts others first.
fn reshape(random: &mut Random, indexes: &mut Vec<u8>) {
    if indexes.is_empty() {
        return;
    }
    let more = match random.below(100) {
        0..=2 => MAX_ALLOWED.saturating_sub(indexes.len()),
        3..=19 if indexes.len() < MAX_ALLOWED => 1,
        _ => 0,
    };
    for _ in 0..more {
        indexes.push(*random.pick(indexes));
    }
    let first = random.below(indexes.len());
    indexes.rotate_left(first);
}
