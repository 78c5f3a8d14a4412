//! The simulated card.

use crate::operations::{create, delete, fresh, load, remove};
use crate::store;
use crate::Answer;

/// The card's store.
const STORE_BYTES: usize = 8192;

/// The most characters of a line, without the newline.
const LINE_LIMIT: usize = 8000;

#[derive(Debug, PartialEq, Eq)]
enum Line {
    Create(Vec<u8>),
    Delete(Vec<u8>),
    Load(Vec<u8>, Vec<u8>),
    Remove(Vec<u8>),
}

/// What the card prints for this standard input.
pub fn run_card(input: &[u8]) -> Vec<u8> {
    let mut store = [0; STORE_BYTES];
    fresh(&mut store);
    let mut output = String::new();
    for (index, line) in lines(input).enumerate() {
        let number = index + 1;
        match read_line(line) {
            Some(line) => {
                let answer = run_line(&mut store, &line).number;
                let used = store::used(&store);
                output.push_str(&format!("{number} {answer} {used}\n"));
            }
            None => output.push_str(&format!("{number} bad\n")),
        }
    }
    output.into_bytes()
}

/// The lines, each without its newline; the last one may lack it.
fn lines(input: &[u8]) -> impl Iterator<Item = &[u8]> {
    input
        .split_inclusive(|&b| b == b'\n')
        .map(|line| line.strip_suffix(b"\n").unwrap_or(line))
}

fn run_line(store: &mut [u8], line: &Line) -> Answer {
    match line {
        Line::Create(domain) => create(store, domain),
        Line::Delete(domain) => delete(store, domain),
        Line::Load(domain, file) => load(store, domain, file),
        Line::Remove(package) => remove(store, package),
    }
}

/// The line's call, if it has one of the four forms.
fn read_line(line: &[u8]) -> Option<Line> {
    if line.len() > LINE_LIMIT {
        return None;
    }
    let parts: Vec<&[u8]> = line.split(|&b| b == b' ').collect();
    match parts[..] {
        [b"C", domain] => Some(Line::Create(hex(domain)?)),
        [b"D", domain] => Some(Line::Delete(hex(domain)?)),
        [b"L", domain, file] => Some(Line::Load(hex(domain)?, hex(file)?)),
        [b"R", package] => Some(Line::Remove(hex(package)?)),
        _ => None,
    }
}

/// One or more bytes as two capital hex digits each.
fn hex(digits: &[u8]) -> Option<Vec<u8>> {
    if digits.is_empty() || !digits.len().is_multiple_of(2) {
        return None;
    }
    let pairs = digits.chunks_exact(2);
    pairs
        .map(|pair| Some(16 * hex_digit(pair[0])? + hex_digit(pair[1])?))
        .collect()
}

fn hex_digit(digit: u8) -> Option<u8> {
    match digit {
        b'0'..=b'9' => Some(digit - b'0'),
        b'A'..=b'F' => Some(digit - b'A' + 10),
        _ => None,
    }
}
