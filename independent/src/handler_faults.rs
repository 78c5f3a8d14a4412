//! What can be wrong with a handler, point by point: for generators, counts and misreadings.

use crate::handlers::Handler;

#[derive(Clone, Copy, Debug, PartialEq, Eq)]
pub enum HandlerFault {
    /// Start equals end.
    Empty,
    /// Start is past end.
    Turned,
    /// End is past the code.
    EndPast,
    /// Start lies inside an instruction.
    StartInside,
    /// End lies inside an instruction.
    EndInside,
    /// Target lies inside an instruction.
    TargetInside,
    /// Target is the code's length.
    TargetAtEnd,
    /// Target is past the code.
    TargetPast,
    /// Start is the code's length or past it; then end is not above it or past the code too.
    StartPast,
}

use HandlerFault::*;

impl HandlerFault {
    /// Those that a handler can have alone.
    pub const ALONE: [HandlerFault; 8] = [
        Empty,
        Turned,
        EndPast,
        StartInside,
        EndInside,
        TargetInside,
        TargetAtEnd,
        TargetPast,
    ];

    /// What is wrong with a handler of a code of this length, split at these offsets.
    pub fn of(handler: Handler, length: usize, starts: &[usize]) -> Vec<Self> {
        let [start, end, target] = [handler.start, handler.end, handler.target].map(usize::from);
        let inside = |offset: usize| offset < length && starts.binary_search(&offset).is_err();
        let points = [
            (Empty, start == end),
            (Turned, start > end),
            (EndPast, end > length),
            (StartInside, inside(start)),
            (EndInside, inside(end)),
            (TargetInside, inside(target)),
            (TargetAtEnd, target == length),
            (TargetPast, target > length),
            (StartPast, start >= length),
        ];
        let found = points.into_iter().filter(|&(_, wrong)| wrong);
        found.map(|(fault, _)| fault).collect()
    }
}
