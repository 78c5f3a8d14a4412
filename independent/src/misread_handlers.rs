//! Wrong readings of version 2 and its handlers (request 7).

use crate::bytes::Reader;
use crate::handler_faults::HandlerFault;
use crate::handlers::{Handler, Handlers, MAX_HANDLERS};
use crate::load_questions::{codes_of, q16, q17, Code};
use crate::misread_int::IntMisreading;
use crate::misread_limits::LimitMisreading;
use crate::misreadings::Misreading;
use crate::package::{Package, Version};
use crate::questions::number;
use crate::without_int::{q26, DomainKind};
use std::slice;

impl Misreading {
    pub const HANDLERS: [Misreading; 31] = [
        Misreading::Forgiven(HandlerFault::Empty),
        Misreading::Forgiven(HandlerFault::Turned),
        Misreading::Forgiven(HandlerFault::EndPast),
        Misreading::Forgiven(HandlerFault::StartInside),
        Misreading::Forgiven(HandlerFault::EndInside),
        Misreading::Forgiven(HandlerFault::TargetInside),
        Misreading::Forgiven(HandlerFault::TargetAtEnd),
        Misreading::Forgiven(HandlerFault::TargetPast),
        Misreading::EndBelowLength,
        Misreading::TargetOutside,
        Misreading::InOrder,
        Misreading::Apart,
        Misreading::Once,
        Misreading::FirstAlone,
        Misreading::VersionZero,
        Misreading::VersionThree,
        Misreading::LowByteAlone,
        Misreading::HandlersInFirst,
        Misreading::NoneInSecond,
        Misreading::CountOfEach,
        Misreading::Most17,
        Misreading::Most15,
        Misreading::CutOff,
        Misreading::OffsetsIn11,
        Misreading::Before17,
        Misreading::After18,
        Misreading::MethodByMethod,
        Misreading::NotInSoundness,
        Misreading::RangeUncalled,
        Misreading::HandlerUncalled,
        Misreading::VersionsApart,
    ];

    /// The version that the field is taken for.
    pub fn version(self, field: [u8; 2]) -> Option<Version> {
        let right = Version::of(field);
        match (self, field) {
            (Misreading::FirstAlone, _) => right.filter(|&v| v == Version::First),
            (Misreading::VersionZero, [0, 0]) => Some(Version::First),
            (Misreading::VersionThree, [0, 3]) => Some(Version::Second),
            (Misreading::LowByteAlone, [_, low]) => Version::of([0, low]),
            _ => right,
        }
    }

    /// Are handlers taken to follow a method, with a code or without?
    pub fn handlers_follow(self, implemented: bool, version: Version) -> bool {
        match self {
            Misreading::HandlersInFirst => implemented,
            Misreading::NoneInSecond => false,
            Misreading::CountOfEach => version == Version::Second,
            _ => implemented && version == Version::Second,
        }
    }

    pub fn most_handlers(self) -> usize {
        match self {
            Misreading::Most17 => MAX_HANDLERS + 1,
            Misreading::Most15 => MAX_HANDLERS - 1,
            _ => MAX_HANDLERS,
        }
    }

    /// The bytes of the handlers; those that are left, where too few are.
    pub fn handler_bytes<'a>(self, reader: &mut Reader<'a>, count: usize) -> Option<&'a [u8]> {
        let left = reader.rest().len();
        match self == Misreading::CutOff && left < count {
            true => reader.take(left),
            false => reader.take(count),
        }
    }

    /// Are handlers refused by question 11?
    pub fn refuses_handlers(self, handlers: Handlers, code: Option<&[u8]>) -> bool {
        let length = code.map_or(0, <[u8]>::len);
        let past = |h: Handler| {
            [h.start, h.end, h.target]
                .map(usize::from)
                .into_iter()
                .max()
        };
        let mut past = handlers.iter().map(past);
        self == Misreading::OffsetsIn11 && past.any(|offset| offset > Some(length))
    }

    /// Questions 16, 17, 24 and 26 as this reading asks them.
    pub fn judge_codes<'a>(
        self,
        package: &Package<'a>,
        kind: DomainKind,
    ) -> Result<Vec<Code<'a>>, u8> {
        let codes = match self {
            Misreading::WithoutInt(wrong) => return wrong.judge_codes(package, kind),
            Misreading::MethodByMethod => self.judge_by_method(package)?,
            _ => self.judge_handlers(package)?,
        };
        number(kind == DomainKind::WithInt || q26(&codes), 26)?;
        Ok(codes)
    }

    fn judge_handlers<'a>(self, package: &Package<'a>) -> Result<Vec<Code<'a>>, u8> {
        let codes = q16(package).ok_or(16)?;
        if self == Misreading::Before17 {
            number(self.q24(&codes), 24)?;
        }
        number(q17(&codes), 17)?;
        if !matches!(self, Misreading::After18 | Misreading::NotInSoundness) {
            number(self.q24(&codes), 24)?;
        }
        Ok(codes)
    }

    fn judge_by_method<'a>(self, package: &Package<'a>) -> Result<Vec<Code<'a>>, u8> {
        let mut codes = Vec::new();
        for code in codes_of(package) {
            let code = code.ok_or(16)?;
            number(q17(slice::from_ref(&code)), 17)?;
            number(self.q24(slice::from_ref(&code)), 24)?;
            codes.push(code);
        }
        Ok(codes)
    }

    /// Question 24 or 26 where it is asked after 18.
    pub fn after_18(self, kind: DomainKind, codes: &[Code]) -> Result<(), u8> {
        match self {
            Misreading::After18 => number(self.q24(codes), 24),
            Misreading::WithoutInt(wrong @ IntMisreading::After18) => {
                number(wrong.keeps(kind, codes), 26)
            }
            _ => Ok(()),
        }
    }

    fn q24(self, codes: &[Code]) -> bool {
        codes.iter().all(|code| {
            let handlers: Vec<Handler> = code.handlers.iter().collect();
            let mut each = handlers.iter();
            each.all(|&handler| self.takes(handler, code)) && self.takes_all(&handlers)
        })
    }

    /// Is one handler taken for good?
    fn takes(self, handler: Handler, code: &Code) -> bool {
        let length = code.bytes.len();
        let faults = HandlerFault::of(handler, length, &code.starts);
        let forgiven = |&fault: &HandlerFault| self == Misreading::Forgiven(fault);
        let further = match self {
            Misreading::EndBelowLength => usize::from(handler.end) < length,
            Misreading::TargetOutside => !(handler.start..handler.end).contains(&handler.target),
            _ => true,
        };
        faults.iter().all(forgiven) && further
    }

    /// Are the handlers of a code taken for good beside each other?
    fn takes_all(self, handlers: &[Handler]) -> bool {
        let mut pairs = handlers.windows(2);
        match self {
            Misreading::InOrder => pairs.all(|pair| pair[0].start <= pair[1].start),
            Misreading::Apart => every_two(handlers, |a, b| a.end <= b.start || b.end <= a.start),
            Misreading::Once => every_two(handlers, |a, b| a != b),
            _ => true,
        }
    }

    /// The instructions of a code that are looked at for calls.
    pub fn looked_at(self, code: &Code) -> Vec<usize> {
        let skipped = |at: usize| {
            let mut handlers = code.handlers.iter();
            handlers.any(|handler| match self {
                Misreading::RangeUncalled => {
                    (usize::from(handler.start)..usize::from(handler.end)).contains(&at)
                }
                Misreading::HandlerUncalled => usize::from(handler.target) <= at,
                _ => false,
            })
        };
        let starts = code.starts.iter().copied();
        starts.filter(|&at| !skipped(at)).collect()
    }

    /// Is an installed package no import of a file, for its version?
    pub fn refuses_import(self, importing: Version, imported: Version) -> bool {
        self == Misreading::VersionsApart && importing != imported
    }

    /// What is left of it once question 2 has been asked.
    pub fn after_soundness(self) -> Option<Self> {
        let of_soundness = [
            Misreading::NotInSoundness,
            Misreading::Limits(LimitMisreading::NotInSoundness),
            Misreading::WithoutInt(IntMisreading::NotInSoundness),
        ];
        (!of_soundness.contains(&self)).then_some(self)
    }
}

fn every_two(handlers: &[Handler], holds: impl Fn(Handler, Handler) -> bool) -> bool {
    let after = |place: usize| &handlers[place + 1..];
    let mut places = 0..handlers.len();
    places.all(|place| {
        after(place)
            .iter()
            .all(|&other| holds(handlers[place], other))
    })
}
