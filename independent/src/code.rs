//! Splitting a code into instructions, its branches and its calls.

use crate::bytes::{s1_at, s2_at, s4_at, u2_at};

/// Opcode ranges, both ends included, and the instruction length.
const RANGES: [(u8, u8, u8); 37] = [
    (0x00, 0x0F, 1),
    (0x10, 0x10, 2),
    (0x11, 0x11, 3),
    (0x12, 0x12, 2),
    (0x13, 0x13, 3),
    (0x14, 0x14, 5),
    (0x15, 0x17, 2),
    (0x18, 0x27, 1),
    (0x28, 0x2A, 2),
    (0x2B, 0x3E, 1),
    (0x3F, 0x40, 2),
    (0x41, 0x58, 1),
    (0x59, 0x5A, 3),
    (0x5B, 0x5F, 1),
    (0x60, 0x70, 2),
    (0x71, 0x71, 3),
    (0x72, 0x72, 2),
    (0x77, 0x7A, 1),
    (0x7B, 0x82, 3),
    (0x83, 0x8A, 2),
    (0x8B, 0x8D, 3),
    (0x8E, 0x8E, 5),
    (0x8F, 0x8F, 3),
    (0x90, 0x90, 2),
    (0x91, 0x91, 3),
    (0x92, 0x93, 1),
    (0x94, 0x97, 4),
    (0x98, 0xA8, 3),
    (0xA9, 0xAC, 3),
    (0xAD, 0xB0, 2),
    (0xB1, 0xB4, 3),
    (0xB5, 0xB8, 2),
    (0x73, 0x73, SWITCH),
    (0x74, 0x74, SWITCH),
    (0x75, 0x75, SWITCH),
    (0x76, 0x76, SWITCH),
    (0xB9, 0xFF, NONE),
];

/// No instruction begins with this opcode.
pub const NONE: u8 = 0;
/// The operands say how long the instruction is.
pub const SWITCH: u8 = 0xFF;

/// The length of every one of the 256 opcodes.
pub const LENGTHS: [u8; 256] = lengths();

const fn lengths() -> [u8; 256] {
    let mut table = [NONE; 256];
    let mut row = 0;
    while row < RANGES.len() {
        let (first, last, length) = RANGES[row];
        let mut opcode = first as usize;
        while opcode <= last as usize {
            table[opcode] = length;
            opcode += 1;
        }
        row += 1;
    }
    table
}

/// The length of the instruction at this offset, if it has one within the code.
fn length_at(code: &[u8], at: usize) -> Option<usize> {
    let length = match LENGTHS[usize::from(*code.get(at)?)] {
        NONE => return None,
        SWITCH => switch_length(code, at)?,
        fixed => u64::from(fixed),
    };
    let left = (code.len() - at) as u64;
    (length <= left).then_some(length as usize)
}

/// Low and high of 73 or 74.
fn bounds(code: &[u8], at: usize) -> Option<(i64, i64)> {
    if code[at] == 0x73 {
        let (low, high) = (s2_at(code, at + 3)?, s2_at(code, at + 5)?);
        Some((low.into(), high.into()))
    } else {
        let (low, high) = (s4_at(code, at + 3)?, s4_at(code, at + 7)?);
        Some((low.into(), high.into()))
    }
}

fn switch_length(code: &[u8], at: usize) -> Option<u64> {
    let count = match code[at] {
        0x73 | 0x74 => {
            let (low, high) = bounds(code, at)?;
            if low > high {
                return None;
            }
            (high - low + 1) as u64
        }
        _ => u64::from(u2_at(code, at + 3)?),
    };
    let layout = switch_layout(code[at]);
    Some(layout.head as u64 + layout.item as u64 * count)
}

struct SwitchLayout {
    /// Bytes before the first item.
    head: usize,
    /// Bytes of a match before the offset in an item.
    before_offset: usize,
    /// Bytes of an item.
    item: usize,
}

fn switch_layout(opcode: u8) -> SwitchLayout {
    let (head, before_offset, item) = match opcode {
        0x73 => (7, 0, 2),
        0x74 => (11, 0, 2),
        0x75 => (5, 2, 4),
        _ => (5, 4, 6),
    };
    SwitchLayout {
        head,
        before_offset,
        item,
    }
}

/// May an instruction with this opcode be the last?
fn may_be_last(opcode: u8) -> bool {
    matches!(opcode, 0x70 | 0x72..=0x7A | 0x93 | 0xA8)
}

/// The offsets where instructions start, if the code splits as question 16 asks.
pub fn split(code: &[u8]) -> Option<Vec<usize>> {
    let mut starts = Vec::with_capacity(code.len() / 2 + 1);
    let mut at = 0;
    while at < code.len() {
        starts.push(at);
        at += length_at(code, at)?;
    }
    let last = *starts.last()?;
    may_be_last(code[last]).then_some(starts)
}

/// Is each branch of a split code to an offset where an instruction starts?
pub fn branches_land(code: &[u8], starts: &[usize]) -> bool {
    let lands = |at: usize, number: i16| {
        let target = at as i64 + i64::from(number);
        usize::try_from(target).is_ok_and(|t| starts.binary_search(&t).is_ok())
    };
    let after_last = [code.len()];
    let ends = starts.iter().skip(1).chain(&after_last);
    starts.iter().zip(ends).all(|(&at, &end)| match code[at] {
        0x60..=0x70 => s1_at(code, at + 1).is_some_and(|n| lands(at, n.into())),
        0x71 | 0x98..=0xA8 => s2_at(code, at + 1).is_some_and(|n| lands(at, n)),
        opcode @ 0x73..=0x76 => {
            let layout = switch_layout(opcode);
            let first = at + layout.head + layout.before_offset;
            let offsets = (first..end).step_by(layout.item);
            std::iter::once(at + 1)
                .chain(offsets)
                .all(|place| s2_at(code, place).is_some_and(|n| lands(at, n)))
        }
        _ => true,
    })
}

#[derive(Clone, Copy, Debug, PartialEq, Eq)]
pub enum CallKind {
    Virtual,
    Special,
    Static,
    Interface,
}

/// The kind and reference index of each call in a split code, in order.
pub fn calls<'a>(
    code: &'a [u8],
    starts: &'a [usize],
) -> impl Iterator<Item = (CallKind, usize)> + 'a {
    starts.iter().filter_map(move |&at| {
        let (kind, place) = match code[at] {
            0x8B => (CallKind::Virtual, at + 1),
            0x8C => (CallKind::Special, at + 1),
            0x8D => (CallKind::Static, at + 1),
            0x8E => (CallKind::Interface, at + 2),
            _ => return None,
        };
        Some((kind, usize::from(u2_at(code, place)?)))
    })
}
