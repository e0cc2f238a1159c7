//! The rules of a resource step, taken day by day: shortfall, need, bar, height.
//!
//! They come from report T2001:11 (the cumulatives constraint). "Where that
//! report's procedure and this page differ, this page decides": "The report's own
//! duration rule in Algorithm 2 is left out, since balance then gives at least as
//! much. Its saving on check events (only tasks below max(0, L)) isn't taken:
//! every sure task counts, since the height rule and an unbalanced origin can need
//! it." No day is left out here either: "The sweep jumps between days where
//! something starts or ends; its result equals the rules taken day by day."
//!
//! Which days count for shortfall and need is a matter of the resource's kind. "The
//! rules for bar and height stay."

use crate::fault::Fault;
use crate::left::Left;
use crate::plan::{Kind, Plan, Range, Set, Task};
use crate::refusal::Refusal;

/// "Resource step, sense at least, resource r, limit L, day i": what its rules
/// are taken from on every day. L is that day's.
pub struct Step<'a> {
    /// The plan in sense at least, "the ranges as they entered that step".
    pub plan: &'a Plan,
    /// The place of r.
    pub place: usize,
    /// The error that is planted, if any.
    pub fault: Option<Fault>,
}

/// What is the same for every task on one day i.
struct Day {
    number: i64,
    limit: i64,
    /// Whether the day counts for shortfall and need.
    counts: bool,
    /// "all hopes together".
    hopes: i64,
}

impl Step<'_> {
    /// The tasks as the step leaves them.
    pub fn tasks(&self) -> Result<Vec<Task>, Refusal> {
        let days = self.days();
        // Shortfall: the day counts "and all hopes together are below L: no plan."
        if days.iter().any(|day| day.counts && day.hopes < day.limit) {
            return Err(Refusal::NO_PLAN);
        }
        let narrowed = |task| self.narrowed(task, &days);
        self.plan.tasks.iter().map(narrowed).collect()
    }

    /// Every day from the least origin low to the greatest end high: no task is
    /// possible on any other day, and none of the others is held. Of these some may be
    /// held although no task is possible on them.
    fn days(&self) -> Vec<Day> {
        let tasks = self.plan.tasks.iter();
        let first = tasks.clone().map(|task| task.origin.low).min();
        let last = tasks.map(|task| task.end.high).max();
        let (Some(first), Some(last)) = (first, last) else {
            return Vec::new();
        };
        let mut days: Vec<Day> = (first..=last).map(|i| self.day(i)).collect();
        if self.is_planted(Fault::BareDays) {
            let before_last = days.iter_mut().filter(|day| day.number < last);
            before_last.for_each(|day| day.counts = true);
        }
        days
    }

    fn day(&self, i: i64) -> Day {
        let tasks = self.plan.tasks.iter();
        Day {
            number: i,
            limit: self.limit_on(i),
            counts: self.counts(i),
            hopes: tasks.map(|task| self.hope(task, i)).sum(),
        }
    }

    /// Whether day i counts for shortfall and need.
    fn counts(&self, i: i64) -> bool {
        match self.plan.resources[self.place].kind {
            Kind::Held if !self.is_planted(Fault::HeldAsPlain) => self.is_held(i),
            // "some task is sure on i"
            _ => self.plan.tasks.iter().any(|task| self.is_sure(task, i)),
        }
    }

    /// "a held day counts when one task with only that resource has origin high <= day
    /// and one such task has end low > day": one and the same, or two.
    fn is_held(&self, i: i64) -> bool {
        let mut holding = self.plan.tasks.iter().filter(|task| self.holds(task));
        let is_begun = holding.clone().any(|task| task.origin.high <= i);
        is_begun && holding.any(|task| self.is_before(i, task.end.low))
    }

    /// "one task with only that resource", "tasks of duration 0 taking part".
    fn holds(&self, task: &Task) -> bool {
        match self.fault {
            Some(Fault::HeldElsewhere) => self.is_among(task),
            Some(Fault::ZeroLeftOut) => self.is_only(task) && task.duration.high > 0,
            _ => self.is_only(task),
        }
    }

    /// L on day i.
    fn limit_on(&self, i: i64) -> i64 {
        if self.is_planted(Fault::BandDayLate) {
            // What stood on the day before is what a band taken a day late leaves here.
            return self.plan.limit_on(self.place, i - 1);
        }
        let first = self.plan.bands_of(self.place).next();
        if let (Some(first), true) = (first, self.is_planted(Fault::FirstBandAlways)) {
            return self.plan.limit_on(self.place, i.max(first.from));
        }
        self.plan.limit_on(self.place, i)
    }

    /// "its highest height" on day i: the same on every day.
    fn highest_on(&self, task: &Task, _i: i64) -> i64 {
        task.height.high
    }

    fn is_planted(&self, fault: Fault) -> bool {
        self.fault == Some(fault)
    }

    // ---- A task on a day ----

    /// "A task is sure on i if r is its only resource and origin high <= i < end low."
    fn is_sure(&self, task: &Task, i: i64) -> bool {
        self.is_only(task) && self.always_covers(task, i)
    }

    /// "It is possible if r is among its resources and origin low <= i < end high."
    fn is_possible(&self, task: &Task, i: i64) -> bool {
        self.is_among(task) && task.origin.low <= i && self.is_before(i, task.end.high)
    }

    /// "r is its only resource".
    fn is_only(&self, task: &Task) -> bool {
        match self.fault {
            Some(Fault::LowestOnly) => task.set.places().next() == Some(self.place),
            Some(Fault::ZerosCounted) => self.is_among(task) && task.set.count(self.fault) == 1,
            _ => task.set == Set::only(self.place),
        }
    }

    /// "r is among its resources".
    fn is_among(&self, task: &Task) -> bool {
        task.set.has(self.place)
    }

    /// "origin high <= i < end low": whatever values it gets, the task covers i.
    fn always_covers(&self, task: &Task, i: i64) -> bool {
        task.origin.high <= i && self.is_before(i, task.end.low)
    }

    /// "i < end": "A task covers the days from origin to end - 1."
    fn is_before(&self, i: i64, end: i64) -> bool {
        i < end || (self.is_planted(Fault::EndCovered) && i == end)
    }

    /// "Its hope on i: its highest height, if that is positive and the task is
    /// possible; its highest height, if that is negative and the task is sure;
    /// otherwise 0."
    fn hope(&self, task: &Task, i: i64) -> i64 {
        let highest = self.highest_on(task, i);
        let is_sure = || self.is_sure(task, i) || self.is_sure_but_for_elsewhere(task, i);
        if (highest > 0 && self.is_possible(task, i)) || (highest < 0 && is_sure()) {
            highest
        } else {
            0
        }
    }

    /// Only with the fault `NegativeElsewhere`: r need not be the only resource.
    fn is_sure_but_for_elsewhere(&self, task: &Task, i: i64) -> bool {
        self.is_planted(Fault::NegativeElsewhere)
            && self.is_among(task)
            && self.always_covers(task, i)
    }

    /// "Others means the hopes of all other tasks added up": all hopes without this task's own.
    fn others(&self, task: &Task, day: &Day) -> i64 {
        if self.is_planted(Fault::OwnNeverAdded) {
            return day.hopes - self.highest_on(task, day.number);
        }
        day.hopes - self.hope(task, day.number)
    }

    // ---- What the rules leave of a task ----

    /// "All days and rules are joined: the new set or range keeps what every rule leaves."
    fn narrowed(&self, task: &Task, days: &[Day]) -> Result<Task, Refusal> {
        let mut left = Left::all_of(task);
        // Each rule below speaks only of a task possible on i or sure on i.
        let spoken_of =
            |day: &&Day| self.is_possible(task, day.number) || self.is_sure(task, day.number);
        for day in days.iter().filter(spoken_of) {
            let others = self.others(task, day);
            self.need(task, day, others, &mut left);
            self.bar(task, day, others, &mut left);
            self.height(task, day, others, &mut left);
        }
        left.task(self.fault)
    }

    /// Need: the day counts, "and a task possible on i with positive highest height
    /// has others < L".
    fn need(&self, task: &Task, day: &Day, others: i64, left: &mut Left) {
        let i = day.number;
        let is_positive = self.highest_on(task, i) > 0;
        let is_needed = self.is_possible(task, i) && is_positive && others < day.limit;
        if !day.counts || !is_needed {
            return;
        }
        let longest = task.duration.high;
        // "it gets r as its only resource"
        left.set = left.set.common(Set::only(self.place));
        // "origin within i - duration high + 1 .. i"
        left.origin.keep_within(Range::new(i - longest + 1, i));
        // "end within i + 1 .. i + duration high"
        left.end.keep_within(Range::new(i + 1, i + longest));
    }

    /// Bar: "a task possible on i has others + its highest height < L: it can't
    /// cover i on r."
    fn bar(&self, task: &Task, day: &Day, others: i64, left: &mut Left) {
        let i = day.number;
        let is_low = others + self.highest_on(task, i) < day.limit;
        let is_spared = self.is_planted(Fault::BarNeedsSure) && !day.counts;
        if self.is_possible(task, i) && is_low && !is_spared {
            self.bar_day(task, i, left);
        }
    }

    /// What is left of a task that "can't cover i on r".
    fn bar_day(&self, task: &Task, i: i64, left: &mut Left) {
        // "If origin high <= i < end low, r leaves its set."
        if self.always_covers(task, i) {
            left.set = left.set.without(self.place);
        }
        // "If r is its only resource, origins i - duration low + 1 .. i and ends
        // i + 1 .. i + duration low are barred (none if duration low is 0), and
        // duration is at most the larger of i - origin low and end high - i - 1."
        if self.is_only(task) {
            let shortest = task.duration.low;
            left.origin.bar(Range::new(i - shortest + 1, i));
            left.end.bar(Range::new(i + 1, i + shortest));
            let most = (i - task.origin.low).max(task.end.high - i - 1);
            left.duration.keep_at_most(most);
        }
    }

    /// Height: "a task sure on i has height at least L - others."
    fn height(&self, task: &Task, day: &Day, others: i64, left: &mut Left) {
        if self.is_sure(task, day.number) {
            left.height.keep_at_least(day.limit - others);
        }
    }
}
