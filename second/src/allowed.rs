//! Allowed plans by plain listing: every choice for every task, each looked at.

use crate::entry;
use crate::plan::*;
use crate::refusal::Refusal;
use std::ops::RangeInclusive;

/// "It chooses for each task one resource and one value in each range". "Two
/// plans are the same if all five values of all tasks are."
#[derive(Clone, Copy, Debug, PartialEq, Eq)]
pub struct Choice {
    /// The place of the resource.
    pub place: usize,
    pub origin: i64,
    pub duration: i64,
    pub end: i64,
    pub height: i64,
}

impl Choice {
    /// "A task covers the days from origin to end - 1. So a task of duration 0
    /// covers none."
    pub fn days(&self) -> RangeInclusive<i64> {
        self.origin..=self.end - 1
    }
}

/// The number of allowed plans. The entry checks first.
pub fn count(plan: &Plan) -> Result<u64, Refusal> {
    entry::check(plan)?;
    let choices: Vec<Vec<Choice>> = plan.tasks.iter().map(choices).collect();
    Ok(count_from(plan, &choices, &mut Vec::new()))
}

/// Every choice for one task, "so that origin + duration = end for each task".
fn choices(task: &Task) -> Vec<Choice> {
    let mut list = Vec::new();
    for place in task.set.places() {
        for origin in task.origin.values() {
            for duration in task.duration.values() {
                for end in task.end.values() {
                    if origin + duration != end {
                        continue;
                    }
                    list.extend(task.height.values().map(|height| Choice {
                        place,
                        origin,
                        duration,
                        end,
                        height,
                    }));
                }
            }
        }
    }
    list
}

/// Adds each choice of the next task in turn to those chosen already.
fn count_from(plan: &Plan, choices: &[Vec<Choice>], chosen: &mut Vec<Choice>) -> u64 {
    if chosen.len() == choices.len() {
        return u64::from(levels_hold(plan, chosen));
    }
    let mut count = 0;
    for choice in &choices[chosen.len()] {
        chosen.push(*choice);
        count += count_from(plan, choices, chosen);
        chosen.pop();
    }
    count
}

/// On every resource and every day that is checked there, "the heights of all
/// tasks covering that day on that resource add up to at least (or at most) the
/// limit", and that is the day's.
fn levels_hold(plan: &Plan, chosen: &[Choice]) -> bool {
    let mut resources = plan.resources.iter().enumerate();
    resources.all(|(place, resource)| {
        let days = checked_days(chosen, place, resource.kind);
        days.iter().all(|day| {
            let level = level_on(chosen, place, *day);
            let limit = plan.limit_on(place, *day);
            match plan.sense {
                Sense::AtLeast => level >= limit,
                Sense::AtMost => level <= limit,
            }
        })
    })
}

/// The days that are checked on the resource at this place; of a plain one, a day
/// that several tasks cover comes up for each of them.
pub fn checked_days(chosen: &[Choice], place: usize, kind: Kind) -> Vec<i64> {
    let there = chosen.iter().filter(|choice| choice.place == place);
    match kind {
        // "every day covered there by at least one task"; "A day that no task covers
        // is not checked (report, condition 4)."
        Kind::Plain => there.flat_map(Choice::days).collect(),
        // "the days from the least origin to one before the greatest end of the tasks
        // placed there are all checked, tasks of duration 0 taking part in both": of
        // no task, none.
        Kind::Held => {
            let least_origin = there.clone().map(|choice| choice.origin).min();
            let greatest_end = there.map(|choice| choice.end).max();
            let ends = least_origin.zip(greatest_end);
            ends.map_or(Vec::new(), |(origin, end)| (origin..end).collect())
        }
    }
}

/// "the heights of all tasks covering that day on that resource" added up.
pub fn level_on(chosen: &[Choice], place: usize, day: i64) -> i64 {
    let covering = |choice: &&Choice| choice.place == place && choice.days().contains(&day);
    let covering = chosen.iter().filter(covering);
    covering.map(|choice| choice.height).sum()
}

/// How much `count` lists.
pub struct ListingSize {
    /// The most combinations of values that are tried for one task.
    pub values: u128,
    /// The number of plans before any is looked at.
    pub plans: u128,
}

impl ListingSize {
    pub fn most(&self) -> u128 {
        self.values.max(self.plans)
    }
}

pub fn listing_size(plan: &Plan) -> ListingSize {
    let count = |range: Range| u128::from(range.count());
    let mut size = ListingSize {
        values: 0,
        plans: 1,
    };
    for task in &plan.tasks {
        let places = task.set.places().count() as u128;
        let sums = places * count(task.origin) * count(task.duration);
        let tried = sums * count(task.end).max(count(task.height));
        size.values = size.values.max(tried);
        size.plans = size.plans.saturating_mul(sums * count(task.height));
    }
    size
}
