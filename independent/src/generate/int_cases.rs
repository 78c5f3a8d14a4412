//! Fixed sequences of request 9: every instruction in domains of both kinds, and faults of
//! codes in every order.

use super::faults::{add, add_code, BARE, BODY, RETURN, STATIC_BODY};
use super::handler_cases::with_code_faults;
use super::model::{FileModel, MethodModel};
use super::special::{after, load_in, BOTH_FRESH, DOMAIN, FIRST};
use crate::code::{LENGTHS, NONE};
use crate::ledger::Call;
use crate::loader::Sequence;
use crate::package::Version;
use crate::without_int::TYPED;

/// A domain without int; `DOMAIN` and `OTHER` are with.
pub const WITHOUT: &[u8] = &[0xA0, 0, 0, 0, 0xD3];

/// After either fresh: the domains, then these calls.
pub(super) fn after_both(length: usize, calls: &[Call]) -> impl Iterator<Item = Sequence> + '_ {
    BOTH_FRESH.into_iter().map(move |first| {
        let mut all = vec![Call::CreateWithoutInt(WITHOUT.to_vec())];
        all.extend_from_slice(calls);
        after(first, length, all)
    })
}

/// A load in the domain without int and one in a domain with int, each with its removal.
fn in_both(model: &FileModel) -> [Call; 4] {
    let remove = || Call::Remove(model.aid.clone());
    let [without, with] = [WITHOUT, DOMAIN].map(|domain| load_in(domain, model));
    [without, remove(), with, remove()]
}

/// An instruction with this opcode: a branch or a switch leads to itself, a call names a
/// method of `with_code` that it may call.
pub fn instruction(opcode: u8) -> Vec<u8> {
    match opcode {
        0x73 => vec![opcode, 0, 0, 0, 0, 0, 0, 0, 0],
        0x74 => vec![opcode, 0, 0, 0, 0, 0, 0, 0, 0, 0, 0, 0, 0],
        0x75 | 0x76 => vec![opcode, 0, 0, 0, 0],
        0x8D => vec![opcode, 0, 1],
        0x8E => vec![opcode, 0, 0, 2, 0],
        _ => {
            let mut bytes = vec![0; LENGTHS[usize::from(opcode)].into()];
            bytes[0] = opcode;
            bytes
        }
    }
}

/// A file with methods that calls name, and this code.
pub fn with_code(version: Version, code: &[u8]) -> FileModel {
    let method = |bits, name| MethodModel::new(bits, name, None, RETURN);
    let mut model = FileModel {
        version,
        aid: FIRST.to_vec(),
        references: vec![(0, 0, 1), (0, 0, 2), (0, 1, 3)],
        ..FileModel::default()
    };
    add(
        &mut model,
        0,
        &[],
        vec![method(BODY, 1), method(STATIC_BODY, 2)],
    );
    add(&mut model, 1, &[], vec![method(BARE, 3)]);
    add_code(&mut model, code);
    model
}

/// The opcodes that instructions have.
pub fn opcodes() -> impl Iterator<Item = u8> {
    (0..=255).filter(|&opcode| LENGTHS[usize::from(opcode)] != NONE)
}

/// 90, 94 and 95 with every first operand, the others near the type int.
pub fn typed() -> impl Iterator<Item = Vec<u8>> {
    let all = TYPED
        .into_iter()
        .flat_map(|opcode| (0..=255).map(move |kind| (opcode, kind)));
    all.flat_map(|(opcode, kind)| {
        let length = usize::from(LENGTHS[usize::from(opcode)]);
        [0x0C, 0x0D].map(|later| {
            let mut bytes = vec![opcode, kind];
            bytes.resize(length, later);
            bytes
        })
    })
}

/// Every instruction before a return, behind one and last, and every byte as an operand.
pub fn instructions() -> Vec<Sequence> {
    let mut codes: Vec<Vec<u8>> = Vec::new();
    for bytes in opcodes().map(instruction).chain(typed()) {
        codes.push([&bytes[..], RETURN].concat());
        codes.push([RETURN, &bytes, RETURN].concat());
        codes.push(bytes);
    }
    codes.extend((0..=255).map(|byte| vec![0x11, byte, byte, 0x10, byte, 0x7A]));
    let of = |version: Version| {
        let files = codes.iter().map(|code| with_code(version, code));
        let calls: Vec<Call> = files.flat_map(|model| in_both(&model)).collect();
        after_both(256, &calls).collect::<Vec<_>>()
    };
    Version::BOTH.into_iter().flat_map(of).collect()
}

/// The questions of a code that three methods get a fault for, and 0 for none.
pub const FAULTS: [u8; 7] = [0, 16, 17, 24, 26, 18, 19];

/// Every way of three.
pub fn three_faults() -> impl Iterator<Item = [u8; 3]> {
    let pairs = FAULTS.iter().flat_map(|&a| FAULTS.map(|b| (a, b)));
    pairs.flat_map(|(a, b)| FAULTS.map(|c| [a, b, c]))
}

/// Three methods with a fault each or none, in every way.
pub fn orders() -> Vec<Sequence> {
    let files = three_faults().map(|faults| with_code_faults(&faults));
    let calls: Vec<Call> = files.flat_map(|model| in_both(&model)).collect();
    after_both(256, &calls).collect()
}
