//! What the rules leave of a task: its set, and the values of each range, listed one by one.

use crate::fault::Fault;
use crate::plan::{Range, Set, Task};
use crate::refusal::Refusal;

/// "the new set or range keeps what every rule leaves".
pub struct Left {
    pub set: Set,
    pub origin: Values,
    pub duration: Values,
    pub end: Values,
    pub height: Values,
}

impl Left {
    /// All of the task: no rule has spoken yet.
    pub fn all_of(task: &Task) -> Left {
        Left {
            set: task.set,
            origin: Values::of(task.origin),
            duration: Values::of(task.duration),
            end: Values::of(task.end),
            height: Values::of(task.height),
        }
    }

    /// The task with what is left. "A set or range left empty means no plan."
    pub fn task(&self, fault: Option<Fault>) -> Result<Task, Refusal> {
        if self.set == Set::EMPTY {
            return Err(Refusal::NO_PLAN);
        }
        let range = |values: &Values| values.left(fault).ok_or(Refusal::NO_PLAN);
        Ok(Task {
            set: self.set,
            origin: range(&self.origin)?,
            duration: range(&self.duration)?,
            end: range(&self.end)?,
            height: range(&self.height)?,
        })
    }
}

/// Every value of a range, and which of them the rules have barred.
///
/// Barring values notes only where the bar begins and where it has ended;
/// `kept` then walks every value and counts the bars that lie on it.
pub struct Values {
    all: Range,
    /// One place per value and one after the last; empty while nothing is barred.
    edges: Vec<i32>,
}

impl Values {
    fn of(range: Range) -> Values {
        Values {
            all: range,
            edges: Vec::new(),
        }
    }

    /// Bars the values of a range; none if its low is above its high.
    pub fn bar(&mut self, barred: Range) {
        let from = barred.low.max(self.all.low);
        let to = barred.high.min(self.all.high);
        if from > to {
            return;
        }
        if self.edges.is_empty() {
            self.edges = vec![0; self.all.count() as usize + 1];
        }
        self.edges[(from - self.all.low) as usize] += 1;
        self.edges[(to - self.all.low + 1) as usize] -= 1;
    }

    /// Bars all values that are not within this range.
    pub fn keep_within(&mut self, kept: Range) {
        self.keep_at_least(kept.low);
        self.keep_at_most(kept.high);
    }

    pub fn keep_at_least(&mut self, least: i64) {
        self.bar(Range::new(self.all.low, least - 1));
    }

    pub fn keep_at_most(&mut self, most: i64) {
        self.bar(Range::new(most + 1, self.all.high));
    }

    /// The values left, one by one in rising order.
    fn kept(&self) -> impl Iterator<Item = i64> + '_ {
        let mut bars = 0;
        let each = self.all.values().zip(&self.edges);
        each.filter_map(move |(value, edge)| {
            bars += edge;
            (bars == 0).then_some(value)
        })
    }

    /// "After bars, an origin or end range runs from its smallest to its largest
    /// value left; values barred in between stay inside." None if nothing is left.
    fn left(&self, fault: Option<Fault>) -> Option<Range> {
        if self.edges.is_empty() {
            return Some(self.all);
        }
        let mut left: Option<Range> = None;
        for value in self.kept() {
            left = match left {
                None => Some(Range::single(value)),
                Some(left) if fault == Some(Fault::ClosedMiddle) && value > left.high + 1 => break,
                Some(left) => Some(Range::new(left.low, value)),
            };
        }
        left
    }
}
