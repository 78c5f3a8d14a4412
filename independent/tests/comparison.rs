//! The comparison finds loaders that the buyer will not take.

use independent::contents::{Contents, Place};
use independent::depths::depths_by;
use independent::generate::sequences::sequence;
use independent::limits::Limits;
use independent::loader::{compare, shrink, Independent, Loader, Sequence};
use independent::questions::q2;

/// Among this many generated sequences, one shows that a loader is wrong.
const SEQUENCES: u64 = 50;

/// The most steps that are left of it: three packages in two domains.
const MOST_STEPS: usize = 6;

/// A loader that is right but for one thing.
struct Wrong(&'static str);

/// What may be wrong.
const WRONG: [&str; 14] = [
    "freed bytes stay",
    "stores nothing",
    "always yes",
    "always depth 8",
    "always depth 0",
    "one too large",
    "the first class",
    "the last class",
    "the deepest class of the store",
    "parents in the store not counted",
    "interfaces not counted",
    "the first parent alone",
    "a figure with a refusal",
    "a figure with 21",
];

impl Wrong {
    /// The answer to a load; the store is as the load left it.
    fn answer(&self, store: &[u8], right: u32) -> u32 {
        match (right & 0xFF, self.0) {
            (0, _) => {
                let contents = q2(store).expect("an accepted load leaves a sound store");
                self.depth(&contents, right >> 8) << 8
            }
            (_, "a figure with a refusal") | (21, "a figure with 21") => right + 256,
            _ => right,
        }
    }

    /// The depth figure of the last package.
    fn depth(&self, contents: &Contents, right: u32) -> u32 {
        let own = contents.packages.len() - 1;
        let depths = |package: usize| contents.packages[package].lineages.iter().map(|l| l.depth);
        let by = |counts: &dyn Fn(usize, Place) -> bool| {
            let depths = depths_by(contents, own, counts);
            depths.into_iter().max()
        };
        let wrong = match self.0 {
            "always depth 8" => Some(8),
            "always depth 0" => Some(0),
            "one too large" => return right + 1,
            "the first class" => depths(own).next(),
            "the last class" => depths(own).next_back(),
            "the deepest class of the store" => (0..=own).flat_map(depths).max(),
            "parents in the store not counted" => by(&|_, parent| parent.package == own),
            "interfaces not counted" => by(&|_, parent| !contents.class(parent).interface),
            "the first parent alone" => by(&|index, _| index == 0),
            _ => return right,
        };
        u32::from(wrong.unwrap_or(0))
    }
}

impl Loader for Wrong {
    fn fresh(&self, store: &mut [u8]) -> u32 {
        Independent.fresh(store)
    }

    fn fresh_limits(&self, store: &mut [u8], limits: Limits) -> u32 {
        Independent.fresh_limits(store, limits)
    }

    fn create(&self, store: &mut [u8], domain: &[u8]) -> u32 {
        Independent.create(store, domain)
    }

    fn create_without_int(&self, store: &mut [u8], domain: &[u8]) -> u32 {
        Independent.create_without_int(store, domain)
    }

    fn delete(&self, store: &mut [u8], domain: &[u8]) -> u32 {
        let answer = Independent.delete(store, domain);
        if self.0 == "freed bytes stay" && answer == 0 {
            *store.last_mut().unwrap() = 1;
        }
        answer
    }

    fn load(&self, store: &mut [u8], domain: &[u8], file: &[u8]) -> u32 {
        if self.0 == "stores nothing" {
            return Independent.load(&mut store.to_vec(), domain, file);
        }
        let right = Independent.load(store, domain, file);
        self.answer(store, right)
    }

    fn remove(&self, store: &mut [u8], package: &[u8]) -> u32 {
        Independent.remove(store, package)
    }

    fn query(&self, store: &mut [u8], domain: &[u8], package: &[u8], class: u8, name: u16) -> u32 {
        match self.0 {
            "always yes" => Independent.query(store, domain, package, class, name) | 256,
            _ => Independent.query(store, domain, package, class, name),
        }
    }
}

#[test]
fn wrong_loaders_are_found() {
    for what in WRONG {
        let differs = |s: &Sequence| compare(&Independent, &Wrong(what), s).is_some();
        let found = (0..SEQUENCES).map(sequence).find(differs).expect(what);
        let steps = shrink(&found, differs).steps.len();
        assert!(steps <= MOST_STEPS, "{what}: {steps} steps");
    }
}

#[test]
fn other_bytes_are_found_with_the_same_answer() {
    for what in ["freed bytes stay", "stores nothing"] {
        let mut sequences = (0..SEQUENCES).map(sequence);
        let found = sequences.find_map(|s| compare(&Independent, &Wrong(what), &s));
        let found = found.expect(what);
        assert_eq!(found.ours, found.theirs, "{what}");
        assert!(found.place.is_some(), "{what}");
    }
}

#[test]
fn a_right_loader_is_not_found() {
    for seed in 0..SEQUENCES {
        let right = Wrong("nothing");
        assert_eq!(compare(&Independent, &right, &sequence(seed)), None);
    }
}
