//! Counts of answers that hang on the kind of a domain and on barred instructions.

use crate::code::{LENGTHS, NONE};
use crate::int_load_counts::Load;
use crate::ledger::Call;
use crate::misread_int::IntMisreading;
use crate::misreadings::Misreading;
use crate::questions::{q1, q2_by};
use crate::store::{self, Layout};
use crate::without_int::DomainKind;
use std::fmt;
use IntMisreading::*;

/// Calls that are counted by what they meet.
#[derive(Clone, Copy)]
pub(crate) enum Shape {
    /// The first of four: files of either version in stores of either version.
    Loaded,
    LoadedWithInt = 4,
    CallsWithInt,
    FirstOverThird,
    ThirdOverFirst,
}

const SHAPES: [&str; 8] = [
    "files of version 1 were accepted without int in stores of version 1",
    "files of version 2 were accepted without int in stores of version 1",
    "files of version 1 were accepted without int in stores of version 2",
    "files of version 2 were accepted without int in stores of version 2",
    "files with a barred instruction were accepted with int",
    "files without int that call one with int were accepted",
    "kind 1 was not created over kind 3",
    "kind 3 was not created over kind 1",
];

/// For each wrong reading and for each opcode taken the other way, how many answers it would
/// have changed; and the shapes.
pub struct IntCounts {
    told: [u64; IntMisreading::ALL.len()],
    pub(crate) opcodes: [u64; 256],
    pub(crate) shapes: [u64; SHAPES.len()],
}

impl Default for IntCounts {
    fn default() -> Self {
        IntCounts {
            told: [0; IntMisreading::ALL.len()],
            opcodes: [0; 256],
            shapes: [0; SHAPES.len()],
        }
    }
}

impl IntCounts {
    /// Notes a call; the store is as it left it.
    pub fn note(&mut self, call: &Call, answer: u32, store: &[u8]) {
        let number = answer as u8;
        if !q1(store) || matches!(call, Call::Fresh | Call::FreshLimits(_)) {
            return;
        }
        let layout = store::layout(store);
        if number == 2 {
            self.note_unsound(store, layout);
            return;
        }
        let Some(layout) = layout else { return };
        match call {
            Call::Create(domain) => {
                self.note_creation(&layout, DomainKind::WithInt, domain, number)
            }
            Call::CreateWithoutInt(domain) => {
                self.note_creation(&layout, DomainKind::WithoutInt, domain, number);
            }
            Call::Delete(domain) if layout.kind(domain) == Some(DomainKind::WithoutInt) => {
                self.tell(DeletesFirst);
            }
            Call::Load { domain, file } => {
                if let Some(kind) = layout.kind(domain) {
                    self.note_load(&Load {
                        kind,
                        domain,
                        file,
                        number,
                        store,
                    });
                }
            }
            _ => {}
        }
        if number != 0 && layout.has_third() {
            self.tell(NoThird);
        }
    }

    pub(crate) fn tell(&mut self, misreading: IntMisreading) {
        let mut all = IntMisreading::ALL.iter();
        if let Some(place) = all.position(|&m| m == misreading) {
            self.told[place] += 1;
        }
    }

    /// Counts those of these readings of which this holds.
    pub(crate) fn tell_where(
        &mut self,
        among: &[IntMisreading],
        holds: impl Fn(IntMisreading) -> bool,
    ) {
        let held = among.iter().filter(|&&m| holds(m));
        held.for_each(|&misreading| self.tell(misreading));
    }

    pub(crate) fn add(&mut self, shape: Shape) {
        self.shapes[shape as usize] += 1;
    }

    /// Counts the readings by which a store that is not sound is.
    fn note_unsound(&mut self, store: &[u8], layout: Option<Layout>) {
        let among: &[IntMisreading] = match layout {
            None => &[ZeroIsFirst, FourIsThird],
            Some(layout) if layout.has_third() => &[NotInSoundness, ApartIn4],
            Some(_) => &[],
        };
        self.tell_where(among, |m| {
            q2_by(store, Some(Misreading::WithoutInt(m))).is_some()
        });
    }

    fn note_creation(&mut self, layout: &Layout, kind: DomainKind, domain: &[u8], number: u8) {
        let over = layout.kind(domain);
        match (number, kind) {
            (4, _) if over == Some(kind) => {}
            (4, DomainKind::WithInt) => {
                self.add(Shape::FirstOverThird);
                self.tell(ApartIn4);
            }
            (4, DomainKind::WithoutInt) => {
                self.add(Shape::ThirdOverFirst);
                self.tell(ApartIn4);
            }
            (0, DomainKind::WithoutInt) => self.tell(WritesFirst),
            _ => {}
        }
    }

    fn counts(&self) -> Vec<(String, u64)> {
        let shapes = SHAPES.iter().zip(self.shapes);
        let shapes = shapes.map(|(name, count)| (name.to_string(), count));
        let told = IntMisreading::ALL.iter().zip(self.told);
        let told = told.map(|(m, count)| (format!("{m:?}"), count));
        let opcodes = (0..=255).filter(|&opcode: &usize| LENGTHS[opcode] != NONE);
        let opcodes = opcodes.map(|opcode| (format!("{opcode:02X}"), self.opcodes[opcode]));
        shapes.chain(told).chain(opcodes).collect()
    }

    /// What was counted fewer times than this.
    pub fn shortfalls(&self, least: u64) -> Vec<String> {
        let counts = self.counts().into_iter();
        let few = counts.filter(|&(_, count)| count < least);
        few.map(|(what, count)| format!("{what}: only {count} times"))
            .collect()
    }
}

impl fmt::Display for IntCounts {
    fn fmt(&self, f: &mut fmt::Formatter) -> fmt::Result {
        let counts = self.counts();
        let (shapes, readings) = counts.split_at(SHAPES.len());
        for (name, count) in shapes {
            writeln!(f, "{name}: {count}")?;
        }
        let readings = readings
            .iter()
            .map(|(what, count)| format!("{what} {count}"));
        let readings: Vec<String> = readings.collect();
        let readings = readings.join(", ");
        write!(f, "answers that tell readings of kinds apart: {readings}")
    }
}
