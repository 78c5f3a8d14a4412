//! What wrong readings of domains without int say: the kind of a domain, and when 26 is asked.

use crate::contents::Contents;
use crate::handlers::q24;
use crate::load_questions::{codes_of, q16, q17, q18, Code};
use crate::misread_int::IntMisreading;
use crate::misreadings::Misreading;
use crate::package::Package;
use crate::questions::number;
use crate::without_int::{has_barred, DomainKind};
use std::slice;
use IntMisreading::*;

impl IntMisreading {
    /// Questions 16, 17, 24 and 26 as this reading asks them.
    pub fn judge_codes<'a>(
        self,
        package: &Package<'a>,
        kind: DomainKind,
    ) -> Result<Vec<Code<'a>>, u8> {
        if self == MethodByMethod {
            return self.judge_by_method(package, kind);
        }
        let codes = q16(package).ok_or(16)?;
        let asked = || number(self.keeps(kind, &codes), 26);
        if self == Before17 {
            asked()?;
        }
        number(q17(&codes), 17)?;
        if self == Before24 {
            asked()?;
        }
        number(q24(&codes), 24)?;
        if !matches!(self, After18 | With18) {
            asked()?;
        }
        Ok(codes)
    }

    fn judge_by_method<'a>(
        self,
        package: &Package<'a>,
        kind: DomainKind,
    ) -> Result<Vec<Code<'a>>, u8> {
        let mut codes = Vec::new();
        for code in codes_of(package) {
            let code = code.ok_or(16)?;
            let alone = slice::from_ref(&code);
            number(q17(alone), 17)?;
            number(q24(alone), 24)?;
            number(self.keeps(kind, alone), 26)?;
            codes.push(code);
        }
        Ok(codes)
    }

    /// What is asked between 24 and 18 of the package that is added last.
    fn before_18(self, contents: &Contents, kind: DomainKind, codes: &[Code]) -> Result<(), u8> {
        let judged = contents.packages.len() - 1;
        match self {
            With18 => codes.iter().try_for_each(|code| {
                let alone = slice::from_ref(code);
                number(self.keeps(kind, alone), 26)?;
                number(q18(contents, judged, alone).is_some(), 18)
            }),
            OfImports if kind == DomainKind::WithoutInt => {
                let packages = &contents.packages;
                let mut imports = packages[judged].imports.iter();
                let barred = imports.any(|&import| has_barred(&packages[import].package));
                number(!barred, 26)
            }
            _ => Ok(()),
        }
    }
}

impl Misreading {
    fn of_int(self) -> Option<IntMisreading> {
        match self {
            Misreading::WithoutInt(wrong) => Some(wrong),
            _ => None,
        }
    }

    /// The kind of domain that an entry of this kind is taken for.
    pub fn domain_kind(self, kind: u8) -> Option<DomainKind> {
        match (self.of_int(), kind) {
            (Some(NoThird), 3) => None,
            (Some(ZeroIsFirst), 0) => Some(DomainKind::WithInt),
            (Some(FourIsThird), 4) => Some(DomainKind::WithoutInt),
            _ => DomainKind::of(kind),
        }
    }

    /// Is a domain of the one kind taken for one of the other with its AID?
    pub fn same_domain(self, found: DomainKind, created: DomainKind) -> bool {
        self.of_int() != Some(ApartIn4) || found == created
    }

    /// Is a created domain of this kind not found in a deletion?
    pub fn overlooks_in_deletion(self, kind: DomainKind) -> bool {
        self.of_int() == Some(DeletesFirst) && kind == DomainKind::WithoutInt
    }

    /// The same in a load.
    pub fn overlooks_in_load(self, kind: DomainKind) -> bool {
        self.of_int() == Some(LoadsFirst) && kind == DomainKind::WithoutInt
    }

    /// The kind that a creation of this kind enters.
    pub fn entered_kind(self, kind: DomainKind) -> DomainKind {
        match self.of_int() {
            Some(WritesFirst) => DomainKind::WithInt,
            _ => kind,
        }
    }

    /// The kind by which a file with these imports is judged.
    pub fn kind_by_imports(
        self,
        contents: &Contents,
        kind: DomainKind,
        imports: &[usize],
    ) -> DomainKind {
        let mut kinds = imports.iter().map(|&import| contents.kind_of(import));
        match self.of_int() {
            Some(OfImporters) if kinds.any(|k| k == DomainKind::WithoutInt) => {
                DomainKind::WithoutInt
            }
            Some(KindOfImport) => kinds.next().unwrap_or(kind),
            _ => kind,
        }
    }

    /// What is asked between 24 and 18, where a reading asks something else there.
    pub fn before_18(
        self,
        contents: &Contents,
        kind: DomainKind,
        codes: &[Code],
    ) -> Result<(), u8> {
        let wrong = self.of_int();
        wrong.map_or(Ok(()), |wrong| wrong.before_18(contents, kind, codes))
    }
}
