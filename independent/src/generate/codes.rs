//! Codes that pass questions 16 and 17.

use super::random::Random;
use super::without_int::typed_instruction;
use crate::code::{LENGTHS, NONE, SWITCH};
use crate::package::{IMPLEMENTED, STATIC};
use crate::without_int::{barred_at, DomainKind};

/// An instruction, and the place and width of each branch offset in it.
struct Piece {
    bytes: Vec<u8>,
    offsets: Vec<(usize, usize)>,
}

impl Piece {
    fn plain(bytes: Vec<u8>) -> Self {
        let offsets = Vec::new();
        Piece { bytes, offsets }
    }
}

/// A code with random instructions that a domain of this kind takes, and these calls among
/// them.
pub fn valid_code(random: &mut Random, kind: DomainKind, calls: &[Vec<u8>]) -> Vec<u8> {
    let mut pieces: Vec<Piece> = Vec::new();
    for _ in 0..random.below(6) {
        pieces.push(some_piece(random, kind));
    }
    for call in calls {
        let place = random.below(pieces.len() + 1);
        pieces.insert(place, Piece::plain(call.clone()));
    }
    pieces.push(match kind {
        DomainKind::WithInt => last_piece(random),
        DomainKind::WithoutInt => not_barred(random, last_piece),
    });
    assemble(random, pieces)
}

/// An instruction that a domain of this kind takes.
fn some_piece(random: &mut Random, kind: DomainKind) -> Piece {
    let typed = |random: &mut Random| Piece::plain(typed_instruction(random));
    match kind {
        DomainKind::WithInt => random_piece(random),
        DomainKind::WithoutInt if random.chance(8) => not_barred(random, typed),
        DomainKind::WithoutInt => not_barred(random, random_piece),
    }
}

/// The first of these that is not barred.
fn not_barred(random: &mut Random, make: impl Fn(&mut Random) -> Piece) -> Piece {
    loop {
        let piece = make(random);
        if !barred_at(&piece.bytes, 0) {
            return piece;
        }
    }
}

fn assemble(random: &mut Random, pieces: Vec<Piece>) -> Vec<u8> {
    let mut starts = Vec::new();
    let mut code = Vec::new();
    for piece in &pieces {
        starts.push(code.len());
        code.extend_from_slice(&piece.bytes);
    }
    for (piece, &start) in pieces.iter().zip(&starts) {
        for &(place, width) in &piece.offsets {
            let offset = *random.pick(&starts) as i64 - start as i64;
            let at = start + place;
            if width == 2 {
                code[at..at + 2].copy_from_slice(&(offset as i16).to_be_bytes());
            } else {
                // The instruction's own start is always within reach.
                code[at] = i8::try_from(offset).unwrap_or(0) as u8;
            }
        }
    }
    code
}

fn random_piece(random: &mut Random) -> Piece {
    match random.below(10) {
        0 => short_branch(0x60 + random.below(17) as u8),
        1 => {
            let wide = 0x98 + random.below(17) as u8;
            wide_branch(*random.pick(&[0x71, wide, wide, wide]))
        }
        2 => switch(random),
        _ => plain_piece(random),
    }
}

/// Neither branch nor call nor switch; its operands are any bytes.
fn plain_piece(random: &mut Random) -> Piece {
    loop {
        let opcode = random.byte();
        let length = LENGTHS[usize::from(opcode)];
        let special = matches!(opcode, 0x60..=0x71 | 0x8B..=0x8E | 0x98..=0xA8);
        if length != NONE && length != SWITCH && !special {
            let mut bytes = vec![opcode];
            bytes.extend(random.bytes(usize::from(length) - 1));
            return Piece::plain(bytes);
        }
    }
}

fn last_piece(random: &mut Random) -> Piece {
    match random.below(8) {
        0 => short_branch(0x70),
        1 => wide_branch(0xA8),
        2 => switch(random),
        3 => Piece::plain(vec![0x72, random.byte()]),
        4 => Piece::plain(vec![0x93]),
        _ => Piece::plain(vec![0x77 + random.below(4) as u8]),
    }
}

fn short_branch(opcode: u8) -> Piece {
    Piece {
        bytes: vec![opcode, 0],
        offsets: vec![(1, 1)],
    }
}

fn wide_branch(opcode: u8) -> Piece {
    Piece {
        bytes: vec![opcode, 0, 0],
        offsets: vec![(1, 2)],
    }
}

fn switch(random: &mut Random) -> Piece {
    let opcode = 0x73 + random.below(4) as u8;
    let mut bytes = vec![opcode, 0, 0];
    let mut offsets = vec![(1, 2)];
    if opcode <= 0x74 {
        let more = random.below(4) as i64;
        put_bounds(random, &mut bytes, more);
        for _ in 0..=more {
            offsets.push((bytes.len(), 2));
            bytes.extend_from_slice(&[0, 0]);
        }
    } else {
        let count = random.below(4) as u8;
        bytes.extend_from_slice(&[0, count]);
        for _ in 0..count {
            bytes.extend(random.bytes(if opcode == 0x75 { 2 } else { 4 }));
            offsets.push((bytes.len(), 2));
            bytes.extend_from_slice(&[0, 0]);
        }
    }
    Piece { bytes, offsets }
}

/// Low and high of 73 or 74, often at the ends of their range.
fn put_bounds(random: &mut Random, bytes: &mut Vec<u8>, more: i64) {
    let (least, most) = if bytes[0] == 0x73 {
        (i64::from(i16::MIN), i64::from(i16::MAX))
    } else {
        (i64::from(i32::MIN), i64::from(i32::MAX))
    };
    let any = least + (random.number() % (most - least - more) as u64) as i64;
    let low = *random.pick(&[least, most - more, -1, 0, any, any]);
    for bound in [low, low + more] {
        if bytes[0] == 0x73 {
            bytes.extend_from_slice(&(bound as i16).to_be_bytes());
        } else {
            bytes.extend_from_slice(&(bound as i32).to_be_bytes());
        }
    }
}

/// The call opcodes that question 18 accepts for a declaration with these bits, by whether the
/// class named and the one that declares are interfaces.
pub fn call_kinds(named: bool, declaring: bool, bits: u8) -> Vec<u8> {
    let mut kinds = Vec::new();
    if bits & STATIC != 0 {
        kinds.push(0x8D);
    } else {
        kinds.extend((!named).then_some(0x8B));
        kinds.extend(declaring.then_some(0x8E));
    }
    if bits & IMPLEMENTED != 0 {
        kinds.push(0x8C);
    }
    kinds
}

/// A call instruction; the unread operands are any bytes.
pub fn call(random: &mut Random, opcode: u8, index: u16) -> Vec<u8> {
    let [high, low] = index.to_be_bytes();
    if opcode == 0x8E {
        vec![opcode, random.byte(), high, low, random.byte()]
    } else {
        vec![opcode, high, low]
    }
}
