//! Handlers of a code (request 7): how a file holds them, and question 24.

use crate::bytes::Reader;
use crate::load_questions::Code;
use crate::misreadings::Misreading;
use crate::package::Version;

pub const MAX_HANDLERS: usize = 16;

/// Start, end and target, two bytes each.
pub const HANDLER_BYTES: usize = 6;

/// Offsets in a code: where the range begins, where it ends, where the handler begins.
#[derive(Clone, Copy, Debug, PartialEq, Eq)]
pub struct Handler {
    pub start: u16,
    pub end: u16,
    pub target: u16,
}

impl Handler {
    pub fn new(start: u16, end: u16, target: u16) -> Self {
        Handler { start, end, target }
    }

    fn of(fields: &[u8]) -> Self {
        let at = |place: usize| u16::from_be_bytes([fields[place], fields[place + 1]]);
        Handler::new(at(0), at(2), at(4))
    }

    pub fn bytes(self) -> [u8; HANDLER_BYTES] {
        let [start, end, target] = [self.start, self.end, self.target].map(u16::to_be_bytes);
        [start[0], start[1], end[0], end[1], target[0], target[1]]
    }

    /// Is start below end, end at most the code's length, do start and target begin an
    /// instruction, and does end begin one or equal the length?
    pub fn is_good(self, length: usize, starts: &[usize]) -> bool {
        let [start, end, target] = [self.start, self.end, self.target].map(usize::from);
        let begins = |offset: usize| starts.binary_search(&offset).is_ok();
        start < end
            && end <= length
            && begins(start)
            && begins(target)
            && (begins(end) || end == length)
    }
}

/// The handlers of one code as the file holds them.
#[derive(Clone, Copy, Debug, Default)]
pub struct Handlers<'a>(&'a [u8]);

impl<'a> Handlers<'a> {
    pub fn iter(self) -> impl Iterator<Item = Handler> + 'a {
        self.0.chunks_exact(HANDLER_BYTES).map(Handler::of)
    }
}

/// Reads the handlers of a file's methods.
pub struct HandlerReader {
    pub version: Version,
    pub misreading: Option<Misreading>,
}

impl HandlerReader {
    /// A handler count, 0 to 16, and that many handlers, if the file has them after this
    /// method's code; none if it has not.
    pub fn read<'a>(&self, reader: &mut Reader<'a>, code: Option<&[u8]>) -> Option<Handlers<'a>> {
        if !self.follow(code.is_some()) {
            return Some(Handlers::default());
        }
        let count = reader.count1(self.most())?;
        let handlers = match self.misreading {
            None => Handlers(reader.take(HANDLER_BYTES * count)?),
            Some(wrong) => Handlers(wrong.handler_bytes(reader, HANDLER_BYTES * count)?),
        };
        let refused = |wrong: Misreading| wrong.refuses_handlers(handlers, code);
        (!self.misreading.is_some_and(refused)).then_some(handlers)
    }

    /// They follow each code of the second version; where there is no code, nothing does.
    fn follow(&self, implemented: bool) -> bool {
        match self.misreading {
            None => implemented && self.version == Version::Second,
            Some(wrong) => wrong.handlers_follow(implemented, self.version),
        }
    }

    fn most(&self) -> usize {
        self.misreading
            .map_or(MAX_HANDLERS, Misreading::most_handlers)
    }
}

/// Question 24: is each handler good?
pub fn q24(codes: &[Code]) -> bool {
    let good = |code: &Code| {
        let mut handlers = code.handlers.iter();
        handlers.all(|handler| handler.is_good(code.bytes.len(), &code.starts))
    };
    codes.iter().all(good)
}
