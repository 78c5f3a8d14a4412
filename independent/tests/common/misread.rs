//! A loader that misreads one thing.

use independent::generate::sequences::sequence;
use independent::limits::Limits;
use independent::loader::{compare, shrink, Independent, Loader, Sequence};
use independent::misreadings::Misreading;
use independent::operations::asked::room;
use independent::policy::Role;
use independent::questions::{judge_creation, judge_deletion, judge_load};
use independent::questions::{number, q1, q2_by, q3, q7, q9};
use independent::store::{append, cut, write_empty, Body};
use independent::without_int::DomainKind;
use independent::Answer;

/// A loader that misreads one thing and is right in all else.
pub struct Misread(pub Misreading);

impl Misread {
    /// Either creation.
    fn create(&self, store: &mut [u8], kind: DomainKind, domain: &[u8]) -> Result<u8, u8> {
        number(q1(store), 1)?;
        let contents = q2_by(store, Some(self.0)).ok_or(2)?;
        judge_creation(&contents, room(store), kind, domain)?;
        append(store, &Body::Domain(self.0.entered_kind(kind), domain));
        Ok(0)
    }

    fn delete(&self, store: &mut [u8], domain: &[u8]) -> Result<u8, u8> {
        number(q1(store), 1)?;
        let contents = q2_by(store, Some(self.0)).ok_or(2)?;
        let entry = judge_deletion(&contents, domain)?;
        cut(store, entry);
        Ok(0)
    }

    fn load(&self, store: &[u8], domain: &[u8], file: &[u8]) -> Result<u8, u8> {
        number(q1(store), 1)?;
        let mut contents = q2_by(store, Some(self.0)).ok_or(2)?;
        contents.misreading = self.0.after_soundness();
        judge_load(&mut contents, room(store), domain, file)
    }

    fn query(
        &self,
        store: &[u8],
        domain: &[u8],
        package: &[u8],
        class: u8,
        name: u16,
    ) -> Result<u8, u8> {
        number(q1(store), 1)?;
        let contents = q2_by(store, Some(self.0)).ok_or(2)?;
        number(q3(&[domain, package]), 3)?;
        let package = q7(&contents, package).ok_or(7)?;
        let method = q9(&contents, package, class, name).ok_or(9)?;
        Ok(contents.allows(method, Role::Queried, domain).into())
    }

    /// An answer with question 2 misread; an operation that finds the store sound by the
    /// misreading alone is shown by 0.
    fn unless_unsound(&self, store: &mut [u8], call: impl Fn(&mut [u8]) -> u32) -> u32 {
        if q1(store) && q2_by(store, Some(self.0)).is_none() {
            return 2;
        }
        match call(store) {
            2 => 0,
            answer => answer,
        }
    }
}

impl Loader for Misread {
    fn fresh(&self, store: &mut [u8]) -> u32 {
        let answer = Independent.fresh(store);
        if let (Misreading::Limits(wrong), 0) = (self.0, answer) {
            write_empty(store, wrong.fresh_version());
        }
        answer
    }

    fn fresh_limits(&self, store: &mut [u8], limits: Limits) -> u32 {
        let Misreading::Limits(wrong) = self.0 else {
            return Independent.fresh_limits(store, limits);
        };
        let number = wrong.fresh_number(store, limits);
        if let Some(version) = wrong.fresh_leaves(number, limits) {
            write_empty(store, version);
        }
        number.into()
    }

    fn create(&self, store: &mut [u8], domain: &[u8]) -> u32 {
        Answer::of(self.create(store, DomainKind::WithInt, domain)).encoded()
    }

    fn create_without_int(&self, store: &mut [u8], domain: &[u8]) -> u32 {
        Answer::of(self.create(store, DomainKind::WithoutInt, domain)).encoded()
    }

    fn delete(&self, store: &mut [u8], domain: &[u8]) -> u32 {
        Answer::of(self.delete(store, domain)).encoded()
    }

    fn load(&self, store: &mut [u8], domain: &[u8], file: &[u8]) -> u32 {
        let judged = self.load(store, domain, file);
        if judged.is_ok() {
            append(store, &Body::Package { domain, file });
        }
        Answer::of(judged).encoded()
    }

    fn remove(&self, store: &mut [u8], package: &[u8]) -> u32 {
        self.unless_unsound(store, |s| Independent.remove(s, package))
    }

    fn query(&self, store: &mut [u8], domain: &[u8], package: &[u8], class: u8, name: u16) -> u32 {
        Answer::of(self.query(store, domain, package, class, name)).encoded()
    }
}

/// Does the sequence tell this misreading from the right reading?
pub fn differs(misreading: Misreading, sequence: &Sequence) -> bool {
    compare(&Independent, &Misread(misreading), sequence).is_some()
}

/// Asserts that one of so many generated sequences shows a misreading, and with how few
/// of its steps.
pub fn assert_found(misreading: Misreading, sequences: u64, most_steps: usize) {
    let found = (0..sequences).find(|&seed| differs(misreading, &sequence(seed)));
    let seed = found.unwrap_or_else(|| panic!("{misreading:?} is not found"));
    let shortest = shrink(&sequence(seed), |s| differs(misreading, s));
    let steps = shortest.steps.len();
    println!("{misreading:?}: sequence {}, {steps} steps", seed + 1);
    assert!(steps <= most_steps, "{misreading:?}: {steps} steps");
}
