//! Instructions that are barred without int or stand near them, and files that have them.

use super::codes::valid_code;
use super::faults::{add_code, RETURN};
use super::model::FileModel;
use super::random::Random;
use crate::code::LENGTHS;
use crate::limits::Limits;
use crate::package;
use crate::without_int::{has_barred, DomainKind, BARRED, INT, TYPED};

/// A kind for a new domain, this many times in a hundred without int.
pub fn some_kind(random: &mut Random, without: usize) -> DomainKind {
    match random.chance(without) {
        true => DomainKind::WithoutInt,
        false => DomainKind::WithInt,
    }
}

/// The opcodes of instructions that are or may be barred.
pub fn barred_opcodes() -> Vec<u8> {
    let may_be = |opcode: &u8| BARRED[usize::from(*opcode)] || TYPED.contains(opcode);
    (0..=255).filter(may_be).collect()
}

/// 90, 94 or 95, its first operand near the type int, now and then a later one that type.
pub fn typed_instruction(random: &mut Random) -> Vec<u8> {
    let opcode = *random.pick(&TYPED);
    let any = random.byte();
    let mut bytes = vec![
        opcode,
        *random.pick(&[0x0A, 0x0B, 0x0C, 0x0C, INT, 0x0E, any]),
    ];
    while bytes.len() < usize::from(LENGTHS[usize::from(opcode)]) {
        let any = random.byte();
        bytes.push(*random.pick(&[INT, any, any]));
    }
    bytes
}

/// A barred instruction with this opcode; a switch leads to itself.
pub fn barred_instruction(random: &mut Random, opcode: u8) -> Vec<u8> {
    let mut bytes = match opcode {
        0x74 => vec![opcode, 0, 0, 0, 0, 0, 7, 0, 0, 0, 7, 0, 0],
        0x76 => vec![opcode, 0, 0, 0, 1, 0, 0, 0, 9, 0, 0],
        _ if TYPED.contains(&opcode) => vec![opcode, INT],
        _ => vec![opcode],
    };
    let length = match opcode {
        0x74 | 0x76 => bytes.len(),
        _ => LENGTHS[usize::from(opcode)].into(),
    };
    bytes.extend(random.bytes(length - bytes.len()));
    bytes
}

/// Question 26: a code with one barred instruction, at its start, where no branch leads, as
/// the last one where it may be, or alone before a return.
pub fn plant_26(random: &mut Random, model: &mut FileModel) {
    let opcode = *random.pick(&barred_opcodes());
    let barred = barred_instruction(random, opcode);
    let others = valid_code(random, DomainKind::WithoutInt, &[]);
    let last = matches!(opcode, 0x74 | 0x76 | 0x79) && random.chance(70);
    let code = match random.below(8) {
        _ if last => [&others[..], &barred].concat(),
        0..=1 => [&barred[..], &others].concat(),
        2..=3 => [&others[..], &barred, RETURN].concat(),
        4 => [RETURN, &barred, RETURN].concat(),
        _ => [&barred[..], RETURN].concat(),
    };
    add_code(model, &code);
}

/// Does a file have a barred instruction?
pub fn file_has_barred(file: &[u8]) -> bool {
    let package = package::read(file, Limits::GREATEST);
    package.as_ref().is_some_and(has_barred)
}
