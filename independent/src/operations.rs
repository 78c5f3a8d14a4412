//! The eight operations on a lent buffer.

use crate::limits::Limits;
use crate::policy::Role;
use crate::questions::Room;
use crate::questions::{judge_creation, judge_deletion, judge_load};
use crate::questions::{number, q1, q2, q3, q30, q7, q8, q9};
use crate::store::{self, Body, StoreVersion};
use crate::without_int::DomainKind;
use crate::Answer;
use std::ops::Range;

/// The questions of each operation: what it would do, or the number of the first no.
pub mod asked {
    use super::*;

    pub fn fresh(store: &[u8]) -> Result<(), u8> {
        number(q1(store), 1)
    }

    pub fn fresh_limits(store: &[u8], limits: Limits) -> Result<(), u8> {
        number(q1(store), 1)?;
        number(q30(limits), 30)
    }

    /// Either creation.
    pub fn create(store: &[u8], kind: DomainKind, domain: &[u8]) -> Result<(), u8> {
        number(q1(store), 1)?;
        let contents = q2(store).ok_or(2)?;
        judge_creation(&contents, room(store), kind, domain)
    }

    /// The bytes of the domain's entry.
    pub fn delete(store: &[u8], domain: &[u8]) -> Result<Range<usize>, u8> {
        number(q1(store), 1)?;
        let contents = q2(store).ok_or(2)?;
        judge_deletion(&contents, domain)
    }

    /// The depth of the deepest own class, 0 if there is none.
    pub fn load(store: &[u8], domain: &[u8], file: &[u8]) -> Result<u8, u8> {
        number(q1(store), 1)?;
        let mut contents = q2(store).ok_or(2)?;
        judge_load(&mut contents, room(store), domain, file)
    }

    /// The bytes of the package's entry.
    pub fn remove(store: &[u8], package: &[u8]) -> Result<Range<usize>, u8> {
        number(q1(store), 1)?;
        let contents = q2(store).ok_or(2)?;
        number(q3(&[package]), 3)?;
        let package = q7(&contents, package).ok_or(7)?;
        number(q8(&contents, package), 8)?;
        Ok(contents.packages[package].entry.clone())
    }

    /// Does that method allow the domain?
    pub fn query(
        store: &[u8],
        domain: &[u8],
        package: &[u8],
        class: u8,
        name: u16,
    ) -> Result<bool, u8> {
        number(q1(store), 1)?;
        let contents = q2(store).ok_or(2)?;
        number(q3(&[domain, package]), 3)?;
        let package = q7(&contents, package).ok_or(7)?;
        let method = q9(&contents, package, class, name).ok_or(9)?;
        Ok(contents.allows(method, Role::Queried, domain))
    }

    /// The room that a sound store has.
    pub fn room(store: &[u8]) -> Room {
        Room {
            used: store::used(store),
            length: store.len(),
        }
    }
}

/// Writes an empty store of version 1.
pub fn fresh(store: &mut [u8]) -> Answer {
    let judged = asked::fresh(store);
    if judged.is_ok() {
        store::write_empty(store, StoreVersion::First);
    }
    Answer::of(judged.map(|()| 0))
}

/// Writes an empty store of version 2 with these limits.
pub fn fresh_limits(store: &mut [u8], limits: Limits) -> Answer {
    let judged = asked::fresh_limits(store, limits);
    if judged.is_ok() {
        store::write_empty(store, StoreVersion::Second(limits));
    }
    Answer::of(judged.map(|()| 0))
}

/// Appends a domain's entry of kind 1.
pub fn create(store: &mut [u8], domain: &[u8]) -> Answer {
    create_of(store, DomainKind::WithInt, domain)
}

/// Appends a domain's entry of kind 3.
pub fn create_without_int(store: &mut [u8], domain: &[u8]) -> Answer {
    create_of(store, DomainKind::WithoutInt, domain)
}

/// Appends a domain's entry of this kind.
pub fn create_of(store: &mut [u8], kind: DomainKind, domain: &[u8]) -> Answer {
    let judged = asked::create(store, kind, domain);
    if judged.is_ok() {
        store::append(store, &Body::Domain(kind, domain));
    }
    Answer::of(judged.map(|()| 0))
}

/// Cuts a domain's entry out.
pub fn delete(store: &mut [u8], domain: &[u8]) -> Answer {
    let judged = asked::delete(store, domain);
    Answer::of(judged.map(|entry| {
        store::cut(store, entry);
        0
    }))
}

/// Appends a package's entry.
pub fn load(store: &mut [u8], domain: &[u8], file: &[u8]) -> Answer {
    let judged = asked::load(store, domain, file);
    if judged.is_ok() {
        store::append(store, &Body::Package { domain, file });
    }
    Answer::of(judged)
}

/// Cuts a package's entry out.
pub fn remove(store: &mut [u8], package: &[u8]) -> Answer {
    let judged = asked::remove(store, package);
    Answer::of(judged.map(|entry| {
        store::cut(store, entry);
        0
    }))
}

/// Says whether a method allows a domain.
pub fn query(store: &[u8], domain: &[u8], package: &[u8], class: u8, name: u16) -> Answer {
    Answer::of(asked::query(store, domain, package, class, name).map(u8::from))
}
