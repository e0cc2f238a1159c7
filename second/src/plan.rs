//! What a plan holds: sense, resources, bands, tasks; how many there are, and the ends of values.
//!
//! "A day number is never added to a power"; both are plain numbers here, and
//! the kinds that keep them apart are the engine's.

use crate::fault::Fault;
use std::ops::RangeInclusive;

/// "1 to 16 resources".
pub const MOST_RESOURCES: usize = 16;
/// "A plan may carry up to 64 bands".
pub const MOST_BANDS: usize = 64;
/// "0 to 256 tasks".
pub const MOST_TASKS: usize = 256;
/// The ends of "origin, end (day number)", and of a band's first day.
pub const DAYS: Range = Range::new(-100_000, 100_000);
/// The ends of "duration".
pub const DURATIONS: Range = Range::new(0, 10_000);
/// The ends of "height, limit", and of a band's limit.
pub const POWERS: Range = Range::new(-1_000_000, 1_000_000);

/// One plan: lists of any length and contents until `entry::check` has passed.
#[derive(Clone, Debug, PartialEq, Eq)]
pub struct Plan {
    pub sense: Sense,
    pub resources: Vec<Resource>,
    pub bands: Vec<Band>,
    pub tasks: Vec<Task>,
}

impl Plan {
    /// "The steps and the allowed plans read that day's limit": of the resource's
    /// bands that have begun by this day the last one's. "Before a resource's first
    /// band its RS limit stands."
    pub fn limit_on(&self, place: usize, day: i64) -> i64 {
        let begun = self.bands_of(place).filter(|band| band.from <= day);
        begun
            .last()
            .map_or(self.resources[place].limit, |band| band.limit)
    }

    /// The bands of the resource at this place, in their order.
    pub fn bands_of(&self, place: usize) -> impl Iterator<Item = &Band> {
        self.bands.iter().filter(move |band| band.place == place)
    }

    /// The same plan in the other sense: "every height and limit negated and
    /// each height's two ends swapped"; a band's limit is a limit.
    pub fn negated(&self) -> Plan {
        Plan {
            sense: self.sense.other(),
            resources: self.resources.iter().map(Resource::negated).collect(),
            bands: self.bands.iter().map(Band::negated).collect(),
            tasks: self.tasks.iter().map(Task::negated).collect(),
        }
    }
}

/// "A sense for the whole plan: 0 at most, 1 at least (outside files a two-valued
/// kind, so lists need no refusal for it)."
#[derive(Clone, Copy, Debug, PartialEq, Eq)]
pub enum Sense {
    AtMost = 0,
    AtLeast = 1,
}

impl Sense {
    /// The sense with that number; none "above 1".
    pub fn numbered(number: u8) -> Option<Sense> {
        let senses = [Sense::AtMost, Sense::AtLeast];
        senses.into_iter().find(|sense| *sense as u8 == number)
    }

    fn other(self) -> Sense {
        match self {
            Sense::AtMost => Sense::AtLeast,
            Sense::AtLeast => Sense::AtMost,
        }
    }
}

/// "Each has an identifier (any signed 32-bit number, each different) and a limit";
/// "A resource gets a kind".
#[derive(Clone, Copy, Debug, PartialEq, Eq)]
pub struct Resource {
    pub id: i32,
    pub limit: i64,
    pub kind: Kind,
}

impl Resource {
    pub const fn new(id: i32, limit: i64, kind: Kind) -> Resource {
        Resource { id, limit, kind }
    }

    pub const fn plain(id: i32, limit: i64) -> Resource {
        Resource::new(id, limit, Kind::Plain)
    }

    pub const fn held(id: i32, limit: i64) -> Resource {
        Resource::new(id, limit, Kind::Held)
    }

    pub fn is_held(&self) -> bool {
        self.kind == Kind::Held
    }

    /// The kind stays: which days are checked is not a matter of the sense.
    fn negated(&self) -> Resource {
        Resource {
            limit: -self.limit,
            ..*self
        }
    }
}

/// "A resource gets a kind, plain or held."
#[derive(Clone, Copy, Debug, PartialEq, Eq)]
pub enum Kind {
    /// A day is checked where a task covers it.
    Plain,
    /// The level "must hold from the first start to the last end on it".
    Held,
}

impl Kind {
    pub fn other(self) -> Kind {
        match self {
            Kind::Plain => Kind::Held,
            Kind::Held => Kind::Plain,
        }
    }
}

/// "resource place (2 bytes), first day (4), limit (4)": from that day on, until
/// the resource's next band, the resource has that limit.
#[derive(Clone, Copy, Debug, PartialEq, Eq)]
pub struct Band {
    pub place: usize,
    pub from: i64,
    pub limit: i64,
}

impl Band {
    fn negated(&self) -> Band {
        Band {
            limit: -self.limit,
            ..*self
        }
    }
}

/// "Each has a non-empty set of resources it may be placed on, and a lowest and
/// highest value (inclusive, lowest not above highest) for origin, duration, end
/// and height."
#[derive(Clone, Copy, Debug, PartialEq, Eq)]
pub struct Task {
    pub set: Set,
    pub origin: Range,
    pub duration: Range,
    pub end: Range,
    pub height: Range,
}

impl Task {
    /// "origin, duration, end, height", the order in which files and answers list them.
    pub fn ranges(&self) -> [Range; 4] {
        [self.origin, self.duration, self.end, self.height]
    }

    pub fn negated(&self) -> Task {
        Task {
            height: self.height.negated(),
            ..*self
        }
    }
}

/// A set of places in the resource list: "bit k is resource k".
#[derive(Clone, Copy, Debug, PartialEq, Eq)]
pub struct Set(pub u64);

impl Set {
    pub const EMPTY: Set = Set(0);

    /// The set of this place alone.
    pub const fn only(place: usize) -> Set {
        Set(1 << place)
    }

    /// Every place of a list of this length.
    pub const fn all(length: usize) -> Set {
        Set(((1u128 << length) - 1) as u64)
    }

    pub fn has(self, place: usize) -> bool {
        self.common(Set::only(place)) != Set::EMPTY
    }

    /// The places in it, in rising order.
    pub fn places(self) -> impl Iterator<Item = usize> {
        (0..u64::BITS as usize).filter(move |place| self.has(*place))
    }

    /// How many places are in it.
    pub fn count(self, fault: Option<Fault>) -> u64 {
        let ones = self.places().count() as u64;
        match fault {
            Some(Fault::ZerosCounted) => u64::from(u64::BITS) - ones,
            _ => ones,
        }
    }

    /// What is in both sets.
    pub fn common(self, other: Set) -> Set {
        Set(self.0 & other.0)
    }

    /// What is in either set.
    pub fn joined(self, other: Set) -> Set {
        Set(self.0 | other.0)
    }

    pub fn with(self, place: usize) -> Set {
        self.joined(Set::only(place))
    }

    pub fn without(self, place: usize) -> Set {
        Set(self.0 & !Set::only(place).0)
    }
}

/// "a lowest and highest value", both in it.
#[derive(Clone, Copy, Debug, PartialEq, Eq)]
pub struct Range {
    pub low: i64,
    pub high: i64,
}

impl Range {
    pub const fn new(low: i64, high: i64) -> Range {
        Range { low, high }
    }

    /// The range of one value.
    pub const fn single(value: i64) -> Range {
        Range::new(value, value)
    }

    /// Every value, from the lowest to the highest; none if low is above high.
    pub fn values(self) -> RangeInclusive<i64> {
        self.low..=self.high
    }

    /// How many values there are.
    pub fn count(self) -> u64 {
        (self.high - self.low + 1).max(0) as u64
    }

    /// "high minus low": how many values can be removed until one is left.
    pub fn width(self) -> u64 {
        (self.high - self.low) as u64
    }

    /// Not "outside its ends, or low above high".
    pub fn stands_within(self, ends: Range) -> bool {
        ends.low <= self.low && self.low <= self.high && self.high <= ends.high
    }

    /// Every sum of a value of this range and one of the other.
    pub fn plus(self, other: Range) -> Range {
        Range::new(self.low + other.low, self.high + other.high)
    }

    /// Every difference of a value of this range and one of the other.
    pub fn minus(self, other: Range) -> Range {
        Range::new(self.low - other.high, self.high - other.low)
    }

    /// Every value negated, the "two ends swapped".
    pub fn negated(self) -> Range {
        Range::new(-self.high, -self.low)
    }
}
