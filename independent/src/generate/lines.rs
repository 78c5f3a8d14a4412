//! Line files for the simulated card.

use super::random::Random;
use super::sequences::sequence_over;
use crate::ledger::Call;
use crate::loader::Step;

/// The simulated card's store.
const STORE_BYTES: usize = 8192;

/// The line file for this number: calls that suit each other, and lines of other form.
pub fn line_file(seed: u64) -> Vec<u8> {
    let random = &mut Random::new(seed ^ 0x006C_696E_6573);
    if random.chance(5) {
        let length = random.below(300);
        return random.bytes(length);
    }
    let mut file = Vec::new();
    for step in sequence_over(STORE_BYTES, seed).steps {
        if let Step::Call(call) = step {
            let Some(mut line) = line(&call) else {
                continue;
            };
            if random.chance(12) {
                spoil(random, &mut line);
            }
            file.extend(line);
            file.push(b'\n');
            if random.chance(5) {
                file.extend(odd_line(random));
                file.push(b'\n');
            }
        }
    }
    if random.chance(30) {
        file.pop();
    }
    file
}

/// The line of a call, if the card has one for it.
fn line(call: &Call) -> Option<Vec<u8>> {
    let text = match call {
        Call::Create(domain) => format!("C {}", hex(domain)),
        Call::Delete(domain) => format!("D {}", hex(domain)),
        Call::Load { domain, file } => format!("L {} {}", hex(domain), hex(file)),
        Call::Remove(package) => format!("R {}", hex(package)),
        Call::Fresh | Call::FreshLimits(_) | Call::CreateWithoutInt(_) | Call::Query { .. } => {
            return None
        }
    };
    Some(text.into_bytes())
}

fn hex(bytes: &[u8]) -> String {
    bytes.iter().map(|byte| format!("{byte:02X}")).collect()
}

/// Makes a line have another form, mostly.
fn spoil(random: &mut Random, line: &mut Vec<u8>) {
    let place = random.below(line.len());
    match random.below(12) {
        0 => line.push(b'\r'),
        1 => line.push(b' '),
        2 => line.insert(0, b' '),
        3 => line.insert(1, b' '),
        4 => line.make_ascii_lowercase(),
        5 => drop(line.pop()),
        6 => line.push(b'0'),
        7 => line.extend_from_slice(b" A0000000D1"),
        8 => line.truncate(place),
        9 => line[1] = b'\t',
        10 => line[place] = random.byte(),
        _ => line[0] = *random.pick(b"CDLRQKcdlr0"),
    }
}

/// An empty, very long or otherwise odd line.
fn odd_line(random: &mut Random) -> Vec<u8> {
    let digits = |letter: &str, count: usize| {
        let mut line = letter.as_bytes().to_vec();
        line.resize(count, b'A');
        line
    };
    match random.below(12) {
        0 => Vec::new(),
        1 => digits("C ", 8000),
        2 => digits("R ", 8002),
        3 => digits("L A0000000D1 ", 7999),
        4 => digits("L A0000000D1 ", 8001),
        5 => digits("D ", 8001),
        6 => digits("C ", 20_000 + random.below(60_000)),
        7 => b"C A0".to_vec(),
        8 => b"L A0 B0".to_vec(),
        9 => b"C ".to_vec(),
        10 => b"L A0000000D1".to_vec(),
        _ => {
            let length = random.below(40);
            random.bytes(length)
        }
    }
}
