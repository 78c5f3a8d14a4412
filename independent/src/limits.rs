//! The limits of a store (request 12): how deep a class may be, how many parents it may
//! have, how long a code may be.

/// One of the three.
#[derive(Clone, Copy, Debug, PartialEq, Eq, PartialOrd, Ord)]
pub enum Limit {
    Depth,
    Parents,
    Code,
}

impl Limit {
    pub const ALL: [Limit; 3] = [Limit::Depth, Limit::Parents, Limit::Code];
}

#[derive(Clone, Copy, Debug, PartialEq, Eq)]
pub struct Limits {
    pub depth: u8,
    pub parents: u8,
    pub code: u16,
}

/// The longest code by the standard limits.
pub const STANDARD_CODE: usize = Limits::STANDARD.code as usize;

impl Limits {
    /// What a store of version 1 means.
    pub const STANDARD: Limits = Limits::new(8, 4, 4_096);

    pub const LEAST: Limits = Limits::new(1, 1, 1);
    pub const GREATEST: Limits = Limits::new(16, 8, 32_767);

    /// The bytes that hold them.
    pub const BYTES: usize = 4;

    pub const fn new(depth: u8, parents: u8, code: u16) -> Self {
        Limits {
            depth,
            parents,
            code,
        }
    }

    /// Is each in its range?
    pub fn in_range(self) -> bool {
        Limit::ALL.into_iter().all(|limit| self.fits(limit))
    }

    /// Is this one in its range?
    pub fn fits(self, limit: Limit) -> bool {
        let (least, most) = (Limits::LEAST.of(limit), Limits::GREATEST.of(limit));
        (least..=most).contains(&self.of(limit))
    }

    pub fn of(self, limit: Limit) -> u16 {
        match limit {
            Limit::Depth => self.depth.into(),
            Limit::Parents => self.parents.into(),
            Limit::Code => self.code,
        }
    }

    /// The same with another number for one limit; depth and parents keep its low byte.
    pub fn with(self, limit: Limit, number: u16) -> Self {
        let mut changed = self;
        match limit {
            Limit::Depth => changed.depth = number as u8,
            Limit::Parents => changed.parents = number as u8,
            Limit::Code => changed.code = number,
        }
        changed
    }

    /// As a store holds them, the high byte of the code length first.
    pub fn bytes(self) -> [u8; Limits::BYTES] {
        let [high, low] = self.code.to_be_bytes();
        [self.depth, self.parents, high, low]
    }

    pub fn read(bytes: [u8; Limits::BYTES]) -> Self {
        let [depth, parents, high, low] = bytes;
        Limits::new(depth, parents, u16::from_be_bytes([high, low]))
    }
}

impl Default for Limits {
    fn default() -> Self {
        Limits::STANDARD
    }
}
