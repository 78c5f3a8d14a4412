//! Versions and handlers on both sides of each edge.

use super::faults::{BARE, STATIC_BODY};
use super::limits::plain_code;
use super::model::{set_size, ClassModel, FileModel, MethodModel};
use crate::handlers::{Handler, HANDLER_BYTES, MAX_HANDLERS};
use crate::limits::STANDARD_CODE;
use crate::package::{Version, HEAD, MARK};

/// A file, the case and the number that a load with room for it answers.
pub struct HandlerLimit {
    pub name: String,
    pub number: u8,
    pub file: Vec<u8>,
}

impl HandlerLimit {
    fn new(name: &str, number: u8, file: Vec<u8>) -> Self {
        let name = name.to_string();
        HandlerLimit { name, number, file }
    }
}

/// Instructions of three, two, one and one bytes, at 0, 3, 5 and 6; the first operand
/// looks like a call.
pub const CODE: &[u8] = &[0x11, 0x8D, 0x00, 0x10, 0x05, 0x00, 0x7A];

/// Start, end and target.
type Fields = (u16, u16, u16);

fn handler((start, end, target): Fields) -> Handler {
    Handler::new(start, end, target)
}

/// A method without a code, then one with this code and these handlers.
fn with_handlers(version: Version, aid: &[u8], code: &[u8], handlers: &[Handler]) -> FileModel {
    let methods = vec![
        MethodModel::new(BARE, 1, None, &[]),
        MethodModel::new(STATIC_BODY, 2, None, code).handled(handlers),
    ];
    FileModel {
        version,
        aid: aid.to_vec(),
        classes: vec![ClassModel::new(0, &[], methods)],
        ..FileModel::default()
    }
}

/// All of them.
pub fn handler_limits(aid: &[u8]) -> Vec<HandlerLimit> {
    let mut files = points(aid);
    files.extend(counts(aid));
    files.extend(longest(aid));
    files.extend(after_longest(aid));
    files.extend(layouts(aid));
    files.extend(versions(aid));
    files
}

/// One handler, on each side of each point that question 24 asks about.
fn points(aid: &[u8]) -> Vec<HandlerLimit> {
    let cases: [(&str, u8, Fields); 24] = [
        ("the whole code, its first instruction", 0, (0, 7, 0)),
        ("the whole code, its last instruction", 0, (0, 7, 6)),
        ("one instruction", 0, (3, 5, 6)),
        ("the last instruction, itself", 0, (6, 7, 6)),
        ("a target before the range", 0, (5, 6, 3)),
        ("a target that is the end", 0, (0, 3, 3)),
        ("start is end", 24, (3, 3, 0)),
        ("start and end are 0", 24, (0, 0, 0)),
        ("start and end are the length", 24, (7, 7, 0)),
        ("start past end", 24, (5, 3, 0)),
        ("start past end by the whole code", 24, (6, 0, 0)),
        ("end past the code", 24, (0, 8, 0)),
        ("end FFFF", 24, (0, 0xFFFF, 0)),
        ("end past by 256", 24, (0, 0x0107, 0)),
        ("start inside the first instruction", 24, (1, 7, 0)),
        ("start inside the second", 24, (4, 5, 0)),
        ("start FFFF", 24, (0xFFFF, 7, 0)),
        ("end inside the first instruction", 24, (0, 2, 0)),
        ("end inside the second", 24, (3, 4, 0)),
        ("target inside the first instruction", 24, (0, 7, 1)),
        ("target inside the second", 24, (0, 7, 4)),
        ("target the code's length", 24, (0, 7, 7)),
        ("target past the code", 24, (0, 7, 8)),
        ("target FFFF", 24, (0, 7, 0xFFFF)),
    ];
    let build = |(name, number, fields): (&str, u8, Fields)| {
        let model = with_handlers(Version::Second, aid, CODE, &[handler(fields)]);
        HandlerLimit::new(name, number, model.bytes())
    };
    cases.into_iter().map(build).collect()
}

/// So many handlers, in any order, one bad at the ends of the list.
fn counts(aid: &[u8]) -> Vec<HandlerLimit> {
    let good = handler((0, 7, 0));
    let bad = handler((0, 7, 7));
    let among = |place: usize| {
        let mut handlers = vec![good; MAX_HANDLERS];
        handlers[place] = bad;
        handlers
    };
    let any_order = [(5, 7, 0), (0, 6, 3), (0, 7, 6), (0, 6, 3), (3, 5, 3)];
    let cases = [
        ("no handler", 0, vec![]),
        ("16 handlers", 0, vec![good; MAX_HANDLERS]),
        ("17 handlers", 11, vec![good; MAX_HANDLERS + 1]),
        ("255 handlers", 11, vec![good; 255]),
        ("17 bad handlers", 11, vec![bad; MAX_HANDLERS + 1]),
        ("in any order", 0, any_order.map(handler).to_vec()),
        ("the first of 16 is bad", 24, among(0)),
        ("the last of 16 is bad", 24, among(MAX_HANDLERS - 1)),
    ];
    let build = |(name, number, handlers): (&str, u8, Vec<Handler>)| {
        let model = with_handlers(Version::Second, aid, CODE, &handlers);
        HandlerLimit::new(name, number, model.bytes())
    };
    cases.into_iter().map(build).collect()
}

/// The longest code by the standard limits, of one-byte instructions.
fn longest_code() -> Vec<u8> {
    plain_code(STANDARD_CODE)
}

/// The longest code and the shortest, 16 handlers each.
fn longest(aid: &[u8]) -> Vec<HandlerLimit> {
    let most = STANDARD_CODE as u16;
    let long = longest_code();
    let short = [0x7A];
    let cases: [(&str, u8, &[u8], Fields); 10] = [
        ("the longest code", 0, &long, (0, most, most - 1)),
        ("its last instruction", 0, &long, (most - 1, most, most - 1)),
        ("its length as target", 24, &long, (0, most, most)),
        ("an end past it", 24, &long, (0, most + 1, 0)),
        ("target FFFF", 24, &long, (0, most, 0xFFFF)),
        ("end FFFF", 24, &long, (0, 0xFFFF, 0)),
        ("start and end past it", 24, &long, (most, most + 1, 0)),
        ("the shortest code", 0, &short, (0, 1, 0)),
        ("its length as target", 24, &short, (0, 1, 1)),
        ("an end past it", 24, &short, (0, 2, 0)),
    ];
    let build = |(name, number, code, fields): (&str, u8, &[u8], Fields)| {
        let handlers = [handler(fields); MAX_HANDLERS];
        let model = with_handlers(Version::Second, aid, code, &handlers);
        HandlerLimit::new(name, number, model.bytes())
    };
    cases.into_iter().map(build).collect()
}

/// Handlers of a short code whose offsets begin instructions of the longest code, which
/// stands before it or after it.
fn after_longest(aid: &[u8]) -> Vec<HandlerLimit> {
    let cases: [(&str, u8, Fields); 7] = [
        ("good", 0, (0, 7, 6)),
        ("start inside", 24, (1, 7, 0)),
        ("end inside", 24, (0, 4, 0)),
        ("target inside", 24, (0, 7, 2)),
        ("target the length", 24, (0, 7, 7)),
        ("end past", 24, (0, 8, 0)),
        ("target past", 24, (0, 7, 9)),
    ];
    let mut files = Vec::new();
    for (name, number, fields) in cases {
        let model = with_handlers(Version::Second, aid, CODE, &[handler(fields)]);
        let long = MethodModel::new(STATIC_BODY, 3, None, &longest_code());
        for place in [1, 2] {
            let mut beside = model.clone();
            beside.classes[0].methods.insert(place, long.clone());
            let name = format!("beside the longest code: {name}");
            files.push(HandlerLimit::new(&name, number, beside.bytes()));
        }
    }
    files
}

/// Counts where there are none, none where there is one, and handlers cut off.
fn layouts(aid: &[u8]) -> Vec<HandlerLimit> {
    let [first, second] = Version::BOTH.map(|v| with_handlers(v, aid, CODE, &[]).bytes());
    let relabelled = |file: &[u8], version: Version| {
        let mut file = file.to_vec();
        file[MARK.len()..HEAD].copy_from_slice(&version.field());
        file
    };
    let mut bare = with_handlers(Version::Second, aid, CODE, &[]);
    bare.classes[0].methods.truncate(1);
    let bare = bare.bytes();
    let mut counted = [&bare[..], &[0]].concat();
    set_size(&mut counted);
    let mut files = vec![
        HandlerLimit::new("version 1", 0, first.clone()),
        HandlerLimit::new(
            "a count in version 1",
            11,
            relabelled(&second, Version::First),
        ),
        HandlerLimit::new(
            "no count in version 2",
            11,
            relabelled(&first, Version::Second),
        ),
        HandlerLimit::new("no code in version 2", 0, bare),
        HandlerLimit::new("a count without a code", 11, counted),
    ];
    let two = with_handlers(Version::Second, aid, CODE, &[handler((0, 7, 0)); 2]).bytes();
    for cut in 1..=2 * HANDLER_BYTES {
        let mut file = two[..two.len() - cut].to_vec();
        set_size(&mut file);
        files.push(HandlerLimit::new("handlers cut off", 11, file));
    }
    files
}

/// Version fields near 1 and 2, in files laid out as either version.
fn versions(aid: &[u8]) -> Vec<HandlerLimit> {
    let mut files = Vec::new();
    for layout in Version::BOTH {
        let model = with_handlers(layout, aid, CODE, &[handler((0, 7, 0))]);
        for field in [
            0, 3, 4, 0xFF, 0x100, 0x101, 0x102, 0x200, 0x201, 0x8002, 0xFFFF,
        ] {
            let mut file = model.bytes();
            file[MARK.len()..HEAD].copy_from_slice(&u16::to_be_bytes(field));
            files.push(HandlerLimit::new(&format!("version {field:04X}"), 10, file));
        }
    }
    files
}
