//! Handlers of generated codes: good ones, and ones with one fault.

use super::codes::valid_code;
use super::faults::{add, RETURN, STATIC_BODY};
use super::limits::plain_code;
use super::model::{set_size, FileModel, MethodModel};
use super::random::Random;
use crate::code::split;
use crate::handler_faults::HandlerFault;
use crate::handlers::{Handler, HANDLER_BYTES, MAX_HANDLERS};
use crate::limits::STANDARD_CODE;
use crate::package::{Version, IMPLEMENTED};
use crate::without_int::DomainKind;

/// Makes a file one of version 2, and gives handlers to codes that have none.
pub fn to_second(random: &mut Random, model: &mut FileModel) {
    model.version = Version::Second;
    let methods = model
        .classes
        .iter_mut()
        .flat_map(|class| &mut class.methods);
    for method in methods.filter(|m| m.bits & IMPLEMENTED != 0 && m.handlers.is_empty()) {
        // The longest codes mostly have the most handlers.
        let most = if method.code.len() >= STANDARD_CODE {
            80
        } else {
            3
        };
        let count = match random.chance(most) {
            true => MAX_HANDLERS,
            false => *random.pick(&[0, 0, 1, 1, 2, 3]),
        };
        method.handlers = some_handlers(random, &method.code, count);
    }
}

/// So many handlers of a code, good if it splits, some repeated.
fn some_handlers(random: &mut Random, code: &[u8], count: usize) -> Vec<Handler> {
    let starts = split(code);
    let mut handlers = Vec::new();
    for _ in 0..count {
        let new = match &starts {
            Some(starts) => good_handler(random, code.len(), starts),
            None => Handler::new(0, random.byte().into(), random.byte().into()),
        };
        let repeated = random.pick_any(&handlers).copied();
        handlers.push(repeated.filter(|_| random.chance(10)).unwrap_or(new));
    }
    handlers
}

/// So many good handlers of a code that splits.
pub fn good_handlers(random: &mut Random, code: &[u8], count: usize) -> Vec<Handler> {
    let starts = split(code).expect("a code that splits");
    (0..count)
        .map(|_| good_handler(random, code.len(), &starts))
        .collect()
}

fn good_handler(random: &mut Random, length: usize, starts: &[usize]) -> Handler {
    let first = random.below(starts.len());
    let after = random.between(first + 1, starts.len());
    let end = starts.get(after).copied().unwrap_or(length);
    handler(starts[first], end, *random.pick(starts))
}

fn handler(start: usize, end: usize, target: usize) -> Handler {
    Handler::new(start as u16, end as u16, target as u16)
}

/// A handler of a code that splits, with this fault alone; `None` if the code has no
/// place for it.
pub fn bad_handler(random: &mut Random, code: &[u8], fault: HandlerFault) -> Option<Handler> {
    let length = code.len();
    let starts = split(code)?;
    let splits = |at: &usize| starts.binary_search(at).is_err();
    let inside: Vec<usize> = (0..length).filter(splits).collect();
    let mut bad = good_handler(random, length, &starts);
    let far = 0x7FFF.max(length + 1);
    let past = *random.pick(&[length + 1, length + 2, length + 256, far, 0xFFFF]) as u16;
    match fault {
        HandlerFault::Empty => bad.end = bad.start,
        HandlerFault::Turned => {
            let last = starts.len() - 1;
            let later = random.between(last.min(1), last);
            bad.start = *starts.get(later).filter(|&&start| start > 0)? as u16;
            bad.end = starts[random.below(later)] as u16;
        }
        HandlerFault::EndPast => bad.end = past,
        HandlerFault::StartInside => {
            let at = *random.pick_any(&inside)?;
            let mut ends: Vec<usize> = starts.into_iter().filter(|&s| s > at).collect();
            ends.push(length);
            bad.start = at as u16;
            bad.end = *random.pick(&ends) as u16;
        }
        HandlerFault::EndInside => {
            let at = *random.pick_any(&inside)?;
            let before: Vec<usize> = starts.into_iter().filter(|&s| s < at).collect();
            bad.start = *random.pick(&before) as u16;
            bad.end = at as u16;
        }
        HandlerFault::TargetInside => bad.target = *random.pick_any(&inside)? as u16,
        HandlerFault::TargetAtEnd => bad.target = length as u16,
        HandlerFault::TargetPast => bad.target = past,
        HandlerFault::StartPast => return None,
    }
    Some(bad)
}

/// Adds a class with one method that has this code and these handlers, and allows nobody.
fn add_handled(model: &mut FileModel, code: &[u8], handlers: &[Handler]) {
    let method = MethodModel::new(STATIC_BODY, 1, Some(&[]), code).handled(handlers);
    add(model, 0, &[], vec![method]);
}

/// Question 24: a code with one bad handler, among good ones or alone.
pub fn plant_24(random: &mut Random, kind: DomainKind, model: &mut FileModel) {
    model.version = Version::Second;
    let fault = *random.pick(&HandlerFault::ALONE);
    let (code, bad) = loop {
        let code = valid_code(random, kind, &[]);
        if let Some(bad) = bad_handler(random, &code, fault) {
            break (code, bad);
        }
    };
    let beside = *random.pick(&[0, 0, 1, 2, MAX_HANDLERS - 1]);
    let mut handlers = good_handlers(random, &code, beside);
    handlers.insert(random.below(beside + 1), bad);
    add_handled(model, &code, &handlers);
}

/// Question 11: a code with more than 16 handlers, all good.
pub fn too_many(random: &mut Random, mut model: FileModel) -> Vec<u8> {
    model.version = Version::Second;
    let count = *random.pick(&[MAX_HANDLERS + 1, MAX_HANDLERS + 1, MAX_HANDLERS + 2, 255]);
    let handlers = good_handlers(random, RETURN, count);
    add_handled(&mut model, RETURN, &handlers);
    model.bytes()
}

/// Question 11: the file ends in its last handlers; the size is right.
pub fn cut_off(random: &mut Random, mut model: FileModel) -> Vec<u8> {
    model.version = Version::Second;
    let count = *random.pick(&[1, 1, 2, MAX_HANDLERS]);
    let handlers = good_handlers(random, RETURN, count);
    add_handled(&mut model, RETURN, &handlers);
    let mut file = model.bytes();
    let cut = random.between(1, HANDLER_BYTES * count);
    file.truncate(file.len() - cut);
    set_size(&mut file);
    file
}

/// A file with a code of this length and 16 handlers, now and then one of them bad.
pub fn longest_file(random: &mut Random, kind: DomainKind, aid: &[u8], length: usize) -> FileModel {
    let code = long_code(random, kind, length);
    let mut handlers = good_handlers(random, &code, MAX_HANDLERS);
    if random.chance(30) {
        let fault = *random.pick(&HandlerFault::ALONE);
        if let Some(bad) = bad_handler(random, &code, fault) {
            handlers[random.below(MAX_HANDLERS)] = bad;
        }
    }
    let mut model = FileModel {
        version: Version::Second,
        aid: aid.to_vec(),
        ..FileModel::default()
    };
    add_handled(&mut model, &code, &handlers);
    model
}

/// A code of this length: codes that pass by themselves, one after the other, and a short
/// rest.
pub fn long_code(random: &mut Random, kind: DomainKind, length: usize) -> Vec<u8> {
    let mut code = Vec::new();
    loop {
        let next = valid_code(random, kind, &[]);
        if code.len() + next.len() >= length {
            code.extend(plain_code(length - code.len()));
            return code;
        }
        code.extend(next);
    }
}
