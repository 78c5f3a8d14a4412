//! Wrong readings of FE, of handlers, of limits, of domains without int, of the search for
//! declarations and of where imports lie. Tests show that generated sequences find them, and counts ask by them on what
//! an answer hangs; the loader itself uses none.

use crate::handler_faults::HandlerFault;
use crate::misread_imports::ImportMisreading;
use crate::misread_int::IntMisreading;
use crate::misread_limits::LimitMisreading;
use crate::misread_search::SearchMisreading;
use crate::policy::{Policy, Role, Standing, OWN};

#[derive(Clone, Copy, Debug, PartialEq, Eq)]
pub enum Misreading {
    /// FE is in every file the domain that is loading.
    NowLoading,
    /// FE is every domain.
    EveryDomain,
    /// FE is no index of a file without domains.
    NotWithoutDomains,
    /// FE is another right than the same AID by index.
    ApartFromIndex,
    /// FE is no domain.
    NoDomain,
    /// FE is a policy as an allowed count too, alone as FF is.
    CountToo,
    /// FE is the domain that a query asks for.
    AskedFor,
    /// FE is nothing in the list of a method that calls (question 19).
    NotOfCallers,
    /// FE is nothing in the list of a class's or an ancestor's method (question 20).
    NotOfAncestors,

    /// A handler with this fault alone is good.
    Forgiven(HandlerFault),
    /// A handler whose end is the code's length is bad.
    EndBelowLength,
    /// A handler whose target lies in its range is bad.
    TargetOutside,
    /// Handlers that do not come in the order of their starts are bad.
    InOrder,
    /// Handlers that overlap are bad.
    Apart,
    /// A handler that is repeated is bad.
    Once,
    /// Version 2 is none.
    FirstAlone,
    /// Version 0 is read as 1.
    VersionZero,
    /// Version 3 is read as 2.
    VersionThree,
    /// The version is its low byte.
    LowByteAlone,
    /// Version 1 has handlers.
    HandlersInFirst,
    /// Version 2 has no handlers.
    NoneInSecond,
    /// A method without a code has a handler count too.
    CountOfEach,
    /// 17 handlers are no more than there may be.
    Most17,
    /// 16 handlers are more than there may be.
    Most15,
    /// Handlers that the file's end cuts off are left out.
    CutOff,
    /// An offset past the code is a matter of question 11.
    OffsetsIn11,
    /// 24 is asked before 17.
    Before17,
    /// 24 is asked after 18.
    After18,
    /// 16, 17 and 24 are asked of one method after the other.
    MethodByMethod,
    /// 24 is not asked of a store's packages.
    NotInSoundness,
    /// Calls in a handler's range are none.
    RangeUncalled,
    /// Calls from a handler's target on are none.
    HandlerUncalled,
    /// A package of another version is no import.
    VersionsApart,

    /// Something about the limits of a store.
    Limits(LimitMisreading),

    /// Something about domains without int.
    WithoutInt(IntMisreading),

    /// Something about the search for declarations.
    Search(SearchMisreading),

    /// Something about where imports lie.
    Imports(ImportMisreading),
}

impl Misreading {
    pub const OWN_DOMAIN: [Misreading; 9] = [
        Misreading::NowLoading,
        Misreading::EveryDomain,
        Misreading::NotWithoutDomains,
        Misreading::ApartFromIndex,
        Misreading::NoDomain,
        Misreading::CountToo,
        Misreading::AskedFor,
        Misreading::NotOfCallers,
        Misreading::NotOfAncestors,
    ];

    /// The policy that an allowed count alone is taken for.
    pub fn alone(self, count: u8) -> Option<Policy<'static>> {
        let taken = self == Misreading::CountToo && count == OWN;
        taken.then_some(Policy::Listed(&[OWN]))
    }

    /// Is a list refused that reads?
    pub fn refuses(self, indexes: &[u8], domain_count: usize) -> bool {
        let without = domain_count == 0 && indexes.contains(&OWN);
        self == Misreading::NotWithoutDomains && without
    }

    /// What a method is taken to allow.
    pub fn standing<'a>(self, right: Standing<'a>, role: Role, loading: usize) -> Standing<'a> {
        Standing {
            policy: match right.policy.lists_own() && self.opens(role) {
                true => Policy::Every,
                false => right.policy,
            },
            own: self.own(right.own, role, loading),
            ..right
        }
    }

    /// Is a list with FE taken for FF?
    fn opens(self, role: Role) -> bool {
        match self {
            Misreading::EveryDomain => true,
            Misreading::AskedFor => role == Role::Queried,
            _ => false,
        }
    }

    /// The domain that FE is taken for.
    fn own(self, right: Option<usize>, role: Role, loading: usize) -> Option<usize> {
        match (self, role) {
            (Misreading::NowLoading, Role::Queried) => right,
            (Misreading::NowLoading, _) => Some(loading),
            (Misreading::ApartFromIndex, Role::Queried | Role::Entered) => right,
            (Misreading::ApartFromIndex, _) => right.map(|domain| usize::MAX - domain),
            (Misreading::NoDomain, _) => None,
            (Misreading::NotOfCallers, Role::Caller) => None,
            (Misreading::NotOfAncestors, Role::Ancestor) => None,
            _ => right,
        }
    }
}
