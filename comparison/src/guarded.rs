//! A loader that is lent copies of the store with guard bytes on both sides.

use independent::limits::Limits;
use independent::loader::Loader;

/// The answer that stands for a call that wrote outside the store.
pub const OUTSIDE: u32 = u32::MAX;

/// How many guard bytes on each side: odd, so that stores begin at odd addresses.
const GUARD: usize = 63;

const FILL: u8 = 0xC3;

pub struct Guarded<L>(pub L);

/// Calls with a copy of the store, then copies it back.
fn within(store: &mut [u8], call: impl FnOnce(&mut [u8]) -> u32) -> u32 {
    let mut lent = vec![FILL; store.len() + 2 * GUARD];
    let inner = GUARD..GUARD + store.len();
    lent[inner.clone()].copy_from_slice(store);
    let answer = call(&mut lent[inner.clone()]);
    store.copy_from_slice(&lent[inner.clone()]);
    let untouched = |bytes: &[u8]| bytes.iter().all(|&b| b == FILL);
    if untouched(&lent[..inner.start]) && untouched(&lent[inner.end..]) {
        answer
    } else {
        OUTSIDE
    }
}

impl<L: Loader> Loader for Guarded<L> {
    fn fresh(&self, store: &mut [u8]) -> u32 {
        within(store, |s| self.0.fresh(s))
    }

    fn fresh_limits(&self, store: &mut [u8], limits: Limits) -> u32 {
        within(store, |s| self.0.fresh_limits(s, limits))
    }

    fn create(&self, store: &mut [u8], domain: &[u8]) -> u32 {
        within(store, |s| self.0.create(s, domain))
    }

    fn create_without_int(&self, store: &mut [u8], domain: &[u8]) -> u32 {
        within(store, |s| self.0.create_without_int(s, domain))
    }

    fn delete(&self, store: &mut [u8], domain: &[u8]) -> u32 {
        within(store, |s| self.0.delete(s, domain))
    }

    fn load(&self, store: &mut [u8], domain: &[u8], file: &[u8]) -> u32 {
        within(store, |s| self.0.load(s, domain, file))
    }

    fn remove(&self, store: &mut [u8], package: &[u8]) -> u32 {
        within(store, |s| self.0.remove(s, package))
    }

    fn query(&self, store: &mut [u8], domain: &[u8], package: &[u8], class: u8, name: u16) -> u32 {
        within(store, |s| self.0.query(s, domain, package, class, name))
    }
}
