//! Wrong readings of domains without int and of the instructions barred there (request 9).

use crate::load_questions::Code;
use crate::without_int::{barred_at, DomainKind, INT, TYPED};

#[derive(Clone, Copy, Debug, PartialEq, Eq)]
pub enum IntMisreading {
    /// This opcode is barred where it is not, passed where it is; 90, 94 and 95 are passed.
    Opcode(u8),
    /// 90, 94 or 95 is barred whatever its first operand.
    AnyType(u8),
    /// 90, 94 or 95 is barred with 0C too.
    Type0C(u8),
    /// 94 or 95 is barred by 0D as a later operand byte too.
    LaterType(u8),
    /// The odd opcodes from 43 to 57 are barred too.
    OddToo,
    /// Operand bytes are looked at as opcodes are.
    Operands,
    /// What follows the first return of a code without branches is passed over.
    DeadPassed,
    /// The last instruction of a code is passed over.
    LastPassed,
    /// The first code of a file is the only one asked.
    FirstCode,

    /// 26 is asked of every load.
    EveryDomain,
    /// 26 is asked of none.
    NotAsked,
    /// 26 is asked of a file that imports a package of a kind-3 domain too.
    OfImporters,
    /// What a package of a kind-3 domain imports must keep to the subset too.
    OfImports,
    /// The kind is that of the first import's domain, where there is one.
    KindOfImport,

    /// Entry kind 3 is none.
    NoThird,
    /// Entry kind 0 is read as 1.
    ZeroIsFirst,
    /// Entry kind 4 is read as 3.
    FourIsThird,
    /// 4 looks at domains of the kind that is created alone.
    ApartIn4,
    /// 5 of a deletion looks at kind 1 alone.
    DeletesFirst,
    /// 5 of a load looks at kind 1 alone.
    LoadsFirst,
    /// The second creation enters kind 1.
    WritesFirst,

    /// 26 is asked before 17.
    Before17,
    /// 26 is asked before 24.
    Before24,
    /// 26 is asked after 18.
    After18,
    /// 26 and 18 are asked of one code after the other.
    With18,
    /// 16, 17, 24 and 26 are asked of one code after the other.
    MethodByMethod,
    /// 26 is not asked of a store's packages.
    NotInSoundness,
}

use IntMisreading::*;

impl IntMisreading {
    /// All but those of single opcodes.
    pub const ALL: [IntMisreading; 31] = [
        AnyType(TYPED[0]),
        AnyType(TYPED[1]),
        AnyType(TYPED[2]),
        Type0C(TYPED[0]),
        Type0C(TYPED[1]),
        Type0C(TYPED[2]),
        LaterType(TYPED[1]),
        LaterType(TYPED[2]),
        OddToo,
        Operands,
        DeadPassed,
        LastPassed,
        FirstCode,
        EveryDomain,
        NotAsked,
        OfImporters,
        OfImports,
        KindOfImport,
        NoThird,
        ZeroIsFirst,
        FourIsThird,
        ApartIn4,
        DeletesFirst,
        LoadsFirst,
        WritesFirst,
        Before17,
        Before24,
        After18,
        With18,
        MethodByMethod,
        NotInSoundness,
    ];

    /// Is the instruction at this offset taken for barred?
    fn bars(self, code: &[u8], at: usize) -> bool {
        let (opcode, right) = (code[at], barred_at(code, at));
        let first = code.get(at + 1);
        match self {
            Opcode(other) if opcode == other => !right && !TYPED.contains(&opcode),
            AnyType(typed) => right || opcode == typed,
            Type0C(typed) => right || (opcode == typed && first == Some(&0x0C)),
            LaterType(typed) => right || (opcode == typed && code[at + 2..at + 4].contains(&INT)),
            OddToo => right || (matches!(opcode, 0x42..=0x58) && opcode % 2 == 1),
            _ => right,
        }
    }

    /// Does a code have what is taken for a barred instruction?
    fn bars_one(self, code: &Code) -> bool {
        let starts = &code.starts[..];
        let bars = |at: usize| self.bars(code.bytes, at);
        match self {
            Operands => (0..code.bytes.len()).any(bars),
            DeadPassed => live(code).iter().any(|&at| bars(at)),
            LastPassed => starts[..starts.len() - 1].iter().any(|&at| bars(at)),
            _ => starts.iter().any(|&at| bars(at)),
        }
    }

    /// Question 26 of a load into a domain of this kind.
    pub fn keeps(self, kind: DomainKind, codes: &[Code]) -> bool {
        let asked = match self {
            EveryDomain => true,
            NotAsked | NotInSoundness => false,
            _ => kind == DomainKind::WithoutInt,
        };
        let most = match self {
            FirstCode => 1,
            _ => codes.len(),
        };
        !asked || !codes.iter().take(most).any(|code| self.bars_one(code))
    }
}

/// The instructions of a code up to its first return, or all if it has branches or handlers.
fn live<'c>(code: &'c Code) -> &'c [usize] {
    let starts = &code.starts;
    let opcode = |at: &usize| code.bytes[*at];
    let branches = |at| matches!(opcode(at), 0x60..=0x71 | 0x73..=0x76 | 0x98..=0xA8);
    let ends = |at| matches!(opcode(at), 0x72 | 0x77..=0x7A | 0x93);
    match starts.iter().position(ends) {
        Some(place) if !starts.iter().any(branches) && code.handlers.iter().next().is_none() => {
            &starts[..=place]
        }
        _ => starts,
    }
}
