//! Calls of name 7, and classes that declare it.

use super::*;
use independent::generate::model::{ClassModel, FileModel, MethodModel};

pub const ALL: Option<&[u8]> = None;
pub const NOBODY: Option<&[u8]> = Some(&[]);

/// The call of the reference at index 0.
pub fn call(opcode: u8) -> Vec<u8> {
    match opcode {
        0x8E => vec![0x8E, 9, 0, 0, 9, 0x7A],
        _ => vec![opcode, 0, 0, 0x7A],
    }
}

/// The package with a class more, whose method allows nobody and calls this reference.
pub fn calling(mut model: FileModel, opcode: u8, reference: (u8, u8, u16)) -> FileModel {
    model.references = vec![reference];
    let caller = coded(STATIC, 1, NOBODY, &call(opcode));
    model.classes.push(class(&[], vec![caller]));
    model
}

/// The number for a call of name 7 that names the last of these classes.
pub fn number(classes: Vec<ClassModel>, opcode: u8) -> u8 {
    let last = classes.len() as u8 - 1;
    judged(&calling(package(P2, classes), opcode, (0, last, 7)))
}

/// Name 7 in an interface, and with a body: open ones allow all, closed ones nobody. A call
/// that means a closed one is 19.
pub fn open() -> Vec<MethodModel> {
    vec![method(VISIBLE, 7, ALL)]
}

pub fn closed() -> Vec<MethodModel> {
    vec![method(VISIBLE, 7, NOBODY)]
}

pub fn body(allowed: Option<&[u8]>) -> Vec<MethodModel> {
    vec![method(VISIBLE | BODY, 7, allowed)]
}
