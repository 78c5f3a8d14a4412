//! Wrong readings of stores of version 2 and their limits (request 12).

use crate::limits::{Limit, Limits};
use crate::misreadings::Misreading;
use crate::package;
use crate::questions::{number, q1};
use crate::store::{self, Begin, StoreVersion, HEAD};

#[derive(Clone, Copy, Debug, PartialEq, Eq)]
pub enum LimitMisreading {
    /// A file of version 1 is read by the standard limits in every store.
    OfTheFile,
    /// A store of version 1 means the greatest limits.
    GreatestInFirst,
    /// Version 2 is none.
    FirstAlone,
    /// Version 3 is read as 2.
    VersionThree,
    /// The version is its low byte.
    LowByteAlone,
    /// Used may be 7 to 10 in version 2.
    UsedFrom7,
    /// The entries of version 2 begin at byte 7.
    EntriesFrom7,
    /// Parents stand before depth.
    Swapped,
    /// The low byte of the code length comes first.
    LowByteFirst,
    /// This limit is one less than it says.
    OneLess(Limit),
    /// This limit is one more than it says.
    OneMore(Limit),
    /// This limit is 8, 4 or 4,096 in every store.
    Standard(Limit),
    /// A stored limit of 0 is in range.
    StoredZero(Limit),
    /// A stored limit past the greatest is in range.
    StoredPast(Limit),
    /// A given limit of 0 is in range.
    GivenZero(Limit),
    /// A given limit past the greatest is in range.
    GivenPast(Limit),
    /// The greatest of this limit is out of range, stored and given.
    GreatestOut(Limit),
    /// A limit of 1 is out of range, stored and given.
    OneOut(Limit),
    /// Fresh without limits writes version 2 with the standard ones.
    AlwaysSecond,
    /// Fresh with the standard limits writes version 1.
    StandardIsFirst,
    /// 30 writes what it was given.
    WritesAt30,
    /// 30 is asked before 1.
    Before1,
    /// The store's packages are judged by the greatest limits.
    NotInSoundness,
}

use LimitMisreading::*;

/// Those that are not about one of the limits.
const OF_ALL: [LimitMisreading; 14] = [
    OfTheFile,
    GreatestInFirst,
    FirstAlone,
    VersionThree,
    LowByteAlone,
    UsedFrom7,
    EntriesFrom7,
    Swapped,
    LowByteFirst,
    AlwaysSecond,
    StandardIsFirst,
    WritesAt30,
    Before1,
    NotInSoundness,
];

/// Those about one limit.
const OF_ONE: [fn(Limit) -> LimitMisreading; 9] = [
    OneLess,
    OneMore,
    Standard,
    StoredZero,
    StoredPast,
    GivenZero,
    GivenPast,
    GreatestOut,
    OneOut,
];

impl LimitMisreading {
    /// How many there are.
    pub const COUNT: usize = OF_ALL.len() + OF_ONE.len() * Limit::ALL.len();

    pub fn all() -> impl Iterator<Item = LimitMisreading> {
        let of_one = OF_ONE
            .into_iter()
            .flat_map(|make| Limit::ALL.into_iter().map(make));
        OF_ALL.into_iter().chain(of_one)
    }

    /// The version that a store's bytes are taken for.
    fn store_version(self, store: &[u8]) -> Option<StoreVersion> {
        let (field, stored) = store::fields(store)?;
        let field = match (self, field) {
            (FirstAlone, [0, 2]) => return None,
            (VersionThree, [0, 3]) => [0, 2],
            (LowByteAlone, [_, low]) => [0, low],
            _ => field,
        };
        match field {
            [0, 1] => Some(StoreVersion::First),
            [0, 2] if self.takes_stored(stored) => Some(StoreVersion::Second(stored)),
            _ => None,
        }
    }

    fn takes_stored(self, limits: Limits) -> bool {
        self.in_range(self.swapped(limits), StoredZero, StoredPast)
    }

    fn takes_given(self, limits: Limits) -> bool {
        self.in_range(limits, GivenZero, GivenPast)
    }

    /// Is each limit taken to be in its range? These readings let 0 or what is past it in.
    fn in_range(
        self,
        limits: Limits,
        zero: fn(Limit) -> LimitMisreading,
        past: fn(Limit) -> LimitMisreading,
    ) -> bool {
        Limit::ALL.into_iter().all(|limit| {
            let (number, greatest) = (limits.of(limit), Limits::GREATEST.of(limit));
            let let_in =
                (self == zero(limit) && number == 0) || (self == past(limit) && number > greatest);
            let kept_out = (self == GreatestOut(limit) && number == greatest)
                || (self == OneOut(limit) && number == 1);
            let_in || (limits.fits(limit) && !kept_out)
        })
    }

    fn swapped(self, stored: Limits) -> Limits {
        match self {
            Swapped => Limits::new(stored.parents, stored.depth, stored.code),
            _ => stored,
        }
    }

    /// The limits that a store of this version is taken to have.
    fn limits_of(self, version: StoreVersion) -> Limits {
        let stored = version.limits();
        match self {
            GreatestInFirst if version == StoreVersion::First => Limits::GREATEST,
            _ if version == StoreVersion::First => stored,
            Swapped => self.swapped(stored),
            LowByteFirst => stored.with(Limit::Code, stored.code.swap_bytes()),
            OneLess(limit) => stored.with(limit, stored.of(limit) - 1),
            OneMore(limit) => stored.with(limit, stored.of(limit) + 1),
            Standard(limit) => stored.with(limit, Limits::STANDARD.of(limit)),
            _ => stored,
        }
    }

    /// Is a store taken to have the version, the limits and the entries that it has? Its
    /// packages may still be judged otherwise.
    pub fn reads_alike(self, store: &[u8]) -> bool {
        let right = StoreVersion::of(store);
        let of_packages = matches!(self, OfTheFile | NotInSoundness | UsedFrom7 | EntriesFrom7);
        !of_packages
            && self.store_version(store) == right
            && right.is_none_or(|version| self.limits_of(version) == version.limits())
    }

    /// The number that fresh with limits answers.
    pub fn fresh_number(self, store: &[u8], limits: Limits) -> u8 {
        let by_30 = || number(self.takes_given(limits), 30);
        let asked = match self {
            Before1 => by_30().and_then(|()| number(q1(store), 1)),
            _ => number(q1(store), 1).and_then(|()| by_30()),
        };
        asked.err().unwrap_or(0)
    }

    /// What fresh with limits leaves in place of the store, if it writes there.
    pub fn fresh_leaves(self, number: u8, limits: Limits) -> Option<StoreVersion> {
        match (self, number) {
            (StandardIsFirst, 0) if limits == Limits::STANDARD => Some(StoreVersion::First),
            (_, 0) | (WritesAt30, 30) => Some(StoreVersion::Second(limits)),
            _ => None,
        }
    }

    /// What fresh without limits writes.
    pub fn fresh_version(self) -> StoreVersion {
        match self {
            AlwaysSecond => StoreVersion::Second(Limits::STANDARD),
            _ => StoreVersion::First,
        }
    }
}

impl Misreading {
    pub fn store_version(self, store: &[u8]) -> Option<StoreVersion> {
        match self {
            Misreading::Limits(wrong) => wrong.store_version(store),
            _ => StoreVersion::of(store),
        }
    }

    pub fn limits_of(self, version: StoreVersion) -> Limits {
        match self {
            Misreading::Limits(wrong) => wrong.limits_of(version),
            _ => version.limits(),
        }
    }

    /// Where the entries of a store of this version are taken to begin.
    pub fn begin(self, version: StoreVersion) -> Begin {
        let opening = match self {
            Misreading::Limits(EntriesFrom7) => HEAD,
            _ => version.opening(),
        };
        Begin {
            entries: opening,
            used: match self {
                Misreading::Limits(UsedFrom7) => HEAD,
                _ => opening,
            },
        }
    }

    /// The limits by which a file of this version is judged.
    pub fn limits_for(self, limits: Limits, version: package::Version) -> Limits {
        match (self, version) {
            (Misreading::Limits(OfTheFile), package::Version::First) => Limits::STANDARD,
            (Misreading::Limits(NotInSoundness), _) => Limits::GREATEST,
            _ => limits,
        }
    }
}
