//! Fixed sequences over stores of either version that become full.

use super::files::sized_file;
use super::limits::chain;
use super::special::{after, load, BOTH_FRESH, FIRST, OTHER, SECOND, THIRD};
use crate::ledger::Call;
use crate::limits::{Limits, STANDARD_CODE};
use crate::loader::Sequence;
use crate::package::Version;
use crate::store::StoreVersion;

/// Stores filled to the byte, by one package of each size around the free bytes.
pub fn full_stores() -> Vec<Sequence> {
    let openings = [StoreVersion::First, StoreVersion::Second(Limits::STANDARD)];
    let both = BOTH_FRESH
        .into_iter()
        .zip(openings.map(StoreVersion::opening));
    both.flat_map(|(first, opening)| filled(&first, opening))
        .collect()
}

/// The same after one fresh, whose opening has so many bytes.
fn filled(first: &Call, opening: usize) -> Vec<Sequence> {
    let fill = |version: Version, length: usize, past: usize| {
        // The opening, two domains, and the entry's own bytes before the file.
        let size = length - opening - 8 - 9 - 9 + past;
        let file = sized_file(version, FIRST, size, STANDARD_CODE)?;
        let mut calls = vec![load(&file), Call::Create(THIRD.to_vec())];
        calls.push(Call::CreateWithoutInt(THIRD.to_vec()));
        calls.extend([Call::Delete(OTHER.to_vec()), Call::Create(THIRD.to_vec())]);
        calls.extend([Call::Delete(THIRD.to_vec()), load(&chain(SECOND, 0, 1))]);
        calls.extend([Call::Create(OTHER.to_vec()), Call::Remove(FIRST.to_vec())]);
        Some(after(first.clone(), length, calls))
    };
    let lengths = [57 + opening, 80, 100, 300, 8192, 65_535];
    let cases = lengths.iter().flat_map(|&l| Version::BOTH.map(|v| (v, l)));
    cases
        .flat_map(|(version, l)| [fill(version, l, 0), fill(version, l, 1)])
        .flatten()
        .collect()
}
