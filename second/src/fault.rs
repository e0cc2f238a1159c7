//! The "Errors that look right" of document 01, errors of the bands, one of the pass, errors of request 6, errors that request 3's counts
//! of ones and trailing zeros invite, and errors of the held resources, each to be planted alone.

/// A planted error. The rules without one take `None`.
#[derive(Clone, Copy, Debug, PartialEq, Eq)]
pub enum Fault {
    /// "Counting a negative height while the task may still go elsewhere: plans
    /// are lost." A negative hope counts although r is not the only resource.
    NegativeElsewhere,
    /// "Treating end as a covered day: two jobs back to back seem to clash."
    /// i <= end where the rule says i < end.
    EndCovered,
    /// "Checking bare days as if the level held there (case 6)." Shortfall and
    /// need speak on every day from the first origin to before the last end.
    BareDays,
    /// "Closing a range round a barred middle, dropping one side (case 8)." The
    /// range stops at the first barred value after its smallest value left.
    ClosedMiddle,
    /// "Requiring a sure task before barring: a task that covers a day makes that
    /// day count by itself."
    BarNeedsSure,
    /// "Taking a task's own height out of the sum to get others when it was
    /// never added, as for a negative one that isn't sure."
    OwnNeverAdded,
    /// A band taken from the day after its first day.
    BandDayLate,
    /// The RS limit forgotten: a resource's first band is taken before its first day too.
    FirstBandAlways,
    /// The call of one pass takes the resources from the last to the first. Settling's passes stay right: no comparison but that of a pass
    /// by itself sees this error.
    PassBackwards,
    /// The bound of request 6 without its 1: the pass that changes nothing forgotten.
    BoundWithoutOne,
    /// One of the "four ranges", duration, left out of the bound.
    RangeLeftOut,
    /// Settling within a number of passes makes one more than asked.
    PassTooMany,
    /// Trailing zeros looked at, ones not counted: r is taken for a task's only resource where it is the lowest of several.
    LowestOnly,
    /// The zeros of a 64-bit set counted for its ones: a task's number of resources is 64 minus the right one. So a task with one resource
    /// is not seen as placed, and the bound of request 6 is too large.
    ZerosCounted,
    /// A pass that has taken a resource's step goes on at the second place after it: the resource at the next place is left out. Settling's
    /// passes have it too.
    NeighbourSkipped,
    /// A held day counts only where a task is sure: in the steps a held resource is as a plain one.
    HeldAsPlain,
    /// "tasks of duration 0 taking part in both" forgotten: a task whose only duration is 0 holds no day.
    ZeroLeftOut,
    /// A task that could go elsewhere holds days too, where "one task with only that resource" is asked for: plans are lost.
    HeldElsewhere,
}

/// Every fault with the name the command line knows it by.
pub const FAULTS: &[(&str, Fault)] = &[
    ("negative-elsewhere", Fault::NegativeElsewhere),
    ("end-covered", Fault::EndCovered),
    ("bare-days", Fault::BareDays),
    ("closed-middle", Fault::ClosedMiddle),
    ("bar-needs-sure", Fault::BarNeedsSure),
    ("own-never-added", Fault::OwnNeverAdded),
    ("band-day-late", Fault::BandDayLate),
    ("first-band-always", Fault::FirstBandAlways),
    ("pass-backwards", Fault::PassBackwards),
    ("bound-without-one", Fault::BoundWithoutOne),
    ("range-left-out", Fault::RangeLeftOut),
    ("pass-too-many", Fault::PassTooMany),
    ("lowest-only", Fault::LowestOnly),
    ("zeros-counted", Fault::ZerosCounted),
    ("neighbour-skipped", Fault::NeighbourSkipped),
    ("held-as-plain", Fault::HeldAsPlain),
    ("zero-left-out", Fault::ZeroLeftOut),
    ("held-elsewhere", Fault::HeldElsewhere),
];

pub fn names() -> Vec<&'static str> {
    FAULTS.iter().map(|(name, _)| *name).collect()
}

/// The fault of that name, if there is one.
pub fn named(name: &str) -> Option<Fault> {
    let known = FAULTS.iter().find(|(known, _)| *known == name);
    known.map(|(_, fault)| *fault)
}
