//! Domains without int (request 9): their kind, the instructions barred there, question 26.

use crate::load_questions::{q16, Code};
use crate::package::Package;
use crate::store::{Body, Layout};

/// The kind of a domain.
#[derive(Clone, Copy, Debug, Default, PartialEq, Eq)]
pub enum DomainKind {
    /// Entry kind 1.
    #[default]
    WithInt,
    /// Entry kind 3: its packages keep to the subset without int.
    WithoutInt,
}

impl DomainKind {
    pub const BOTH: [DomainKind; 2] = [DomainKind::WithInt, DomainKind::WithoutInt];

    /// The kind of domain that an entry of this kind is, if it is one.
    pub fn of(kind: u8) -> Option<Self> {
        DomainKind::BOTH
            .into_iter()
            .find(|d| d.entry_kind() == kind)
    }

    pub fn entry_kind(self) -> u8 {
        match self {
            DomainKind::WithInt => 1,
            DomainKind::WithoutInt => 3,
        }
    }
}

impl Layout<'_> {
    /// The kind of the domain with this AID, if the store has one.
    pub fn kind(&self, domain: &[u8]) -> Option<DomainKind> {
        let mut entries = self.entries.iter();
        entries.find_map(|entry| match entry.body {
            Body::Domain(kind, aid) if aid == domain => Some(kind),
            _ => None,
        })
    }

    /// Is there a domain without int?
    pub fn has_third(&self) -> bool {
        let third = |body: Body| matches!(body, Body::Domain(DomainKind::WithoutInt, _));
        self.entries.iter().any(|entry| third(entry.body))
    }
}

/// The opcodes that are barred whatever follows, both ends of each range included; the even
/// ones from 42 to 58 come to them.
const RANGES: [(u8, u8); 22] = [
    (0x09, 0x0F),
    (0x12, 0x14),
    (0x17, 0x17),
    (0x20, 0x23),
    (0x27, 0x27),
    (0x2A, 0x2A),
    (0x33, 0x36),
    (0x3A, 0x3A),
    (0x5A, 0x5A),
    (0x5C, 0x5F),
    (0x74, 0x74),
    (0x76, 0x76),
    (0x79, 0x79),
    (0x7E, 0x7E),
    (0x82, 0x82),
    (0x86, 0x86),
    (0x8A, 0x8A),
    (0x97, 0x97),
    (0xAC, 0xAC),
    (0xB0, 0xB0),
    (0xB4, 0xB4),
    (0xB8, 0xB8),
];
const EVEN: (u8, u8) = (0x42, 0x58);

/// The opcodes that are barred where their first operand is `INT`.
pub const TYPED: [u8; 3] = [0x90, 0x94, 0x95];

/// The type int as an operand.
pub const INT: u8 = 0x0D;

/// Is an opcode barred whatever follows?
pub const BARRED: [bool; 256] = barred();

const fn barred() -> [bool; 256] {
    let mut table = [false; 256];
    let mut row = 0;
    while row < RANGES.len() {
        let (first, last) = RANGES[row];
        let mut opcode = first as usize;
        while opcode <= last as usize {
            table[opcode] = true;
            opcode += 1;
        }
        row += 1;
    }
    let mut even = EVEN.0 as usize;
    while even <= EVEN.1 as usize {
        table[even] = true;
        even += 2;
    }
    table
}

/// Is the instruction at this offset of a code barred?
pub fn barred_at(code: &[u8], at: usize) -> bool {
    let opcode = code[at];
    BARRED[usize::from(opcode)] || (TYPED.contains(&opcode) && code.get(at + 1) == Some(&INT))
}

/// Question 26: does no code have a barred instruction?
pub fn q26(codes: &[Code]) -> bool {
    codes.iter().all(|code| {
        let mut starts = code.starts.iter();
        !starts.any(|&at| barred_at(code.bytes, at))
    })
}

/// Does a package whose codes split have a barred instruction?
pub fn has_barred(package: &Package) -> bool {
    q16(package).is_some_and(|codes| !q26(&codes))
}
