//! Valid plans: random ones, ones with an allowed plan inside, large ones.

use super::parts::*;
use crate::allowed::{checked_days, level_on, Choice};
use crate::plan::*;
use crate::random::{Aside, Random};
use crate::steps;

/// A small number of resources, now and then up to all there may be.
fn resource_count(random: &mut Random) -> usize {
    if random.one_in(8) {
        random.count(1, MOST_RESOURCES)
    } else {
        random.count(1, 3)
    }
}

// ---- Plans with an allowed plan inside ----

/// How large a plan is made: its origins lie within 0..days.
struct Size {
    resources: usize,
    days: i64,
    tasks: usize,
}

impl Size {
    fn small(random: &mut Random) -> Size {
        Size {
            resources: resource_count(random),
            days: random.within(2, 9),
            tasks: random.count(1, 6),
        }
    }

    /// Every resource plain.
    fn all_plain(&self) -> Vec<Kind> {
        vec![Kind::Plain; self.resources]
    }
}

/// A plan made around a choice for each task: the limits, those of bands too, are
/// what that choice reaches (less some slack), plus `beyond`; the ranges are widened.
pub fn with_allowed_plan(random: &mut Random, beyond: i64) -> Plan {
    let size = Size::small(random);
    around_allowed_plan(random, &size, &size.all_plain(), beyond)
}

/// The same with resources of which every second one is held.
pub fn with_allowed_held_plan(random: &mut Random, beyond: i64) -> Plan {
    let size = Size::small(random);
    let kinds: Vec<Kind> = (0..size.resources)
        .map(|_| random.pick(&[Kind::Plain, Kind::Held]))
        .collect();
    around_allowed_plan(random, &size, &kinds, beyond)
}

fn around_allowed_plan(random: &mut Random, size: &Size, kinds: &[Kind], beyond: i64) -> Plan {
    let chosen: Vec<Choice> = (0..size.tasks).map(|_| choice(random, size)).collect();
    let checked: Vec<Vec<i64>> = (0..size.resources)
        .map(|place| checked_days(&chosen, place, kinds[place]))
        .collect();
    let slack = random.pick(&[0, 0, 0, 1, 3]);
    let reached = |random: &mut Random, place: usize, days: Range| {
        let least = least_level(&chosen, place, &checked[place], days);
        let of_none = || random.within(-4, 8);
        least.map_or_else(of_none, |level| level - slack + beyond)
    };
    let aside = &mut random.aside(Aside::Bands);
    let starts = band_starts(aside, &checked);
    let limits: Vec<i64> = (0..size.resources)
        .map(|place| reached(random, place, stretch(&starts, place, DAYS.low)))
        .collect();
    let bands = starts
        .iter()
        .map(|(place, from)| Band {
            place: *place,
            from: *from,
            limit: reached(aside, *place, stretch(&starts, *place, *from)),
        })
        .collect();
    let most = random.within(0, 3);
    let tasks = chosen
        .iter()
        .map(|choice| widened(random, choice, size.resources, most))
        .collect();
    let mut plan = at_least(random, &limits, tasks);
    for (resource, kind) in plan.resources.iter_mut().zip(kinds) {
        resource.kind = *kind;
    }
    Plan { bands, ..plan }
}

/// Place and first day of each band, in order: for one plan in three, on some of
/// the days that are checked on each resource.
fn band_starts(random: &mut Random, checked: &[Vec<i64>]) -> Vec<(usize, i64)> {
    let mut starts = Vec::new();
    if !random.one_in(3) {
        return starts;
    }
    for (place, days) in checked.iter().enumerate() {
        if !days.is_empty() {
            // At most four each, so that there are never more than 64.
            let some = (0..random.within(0, 4)).map(|_| (place, random.pick(days)));
            starts.extend(some);
        }
    }
    starts.sort();
    starts.dedup();
    starts
}

/// The days from this one to before the resource's next band.
fn stretch(starts: &[(usize, i64)], place: usize, from: i64) -> Range {
    let next = starts
        .iter()
        .find(|start| start.0 == place && start.1 > from);
    Range::new(from, next.map_or(DAYS.high, |start| start.1 - 1))
}

fn choice(random: &mut Random, size: &Size) -> Choice {
    let origin = random.within(0, size.days);
    let duration = random.within(0, 4);
    let height = random.within(-3, 6);
    Choice {
        place: random.place(size.resources),
        origin,
        duration,
        end: origin + duration,
        height,
    }
}

/// The least level on a resource over all of these days that are checked there, if any is.
fn least_level(chosen: &[Choice], place: usize, checked: &[i64], days: Range) -> Option<i64> {
    let within = checked.iter().filter(|day| days.values().contains(day));
    within.map(|day| level_on(chosen, place, *day)).min()
}

/// The task of a choice, with more values beside the chosen ones.
fn widened(random: &mut Random, choice: &Choice, resources: usize, most: i64) -> Task {
    let wider = if random.one_in(3) { 0 } else { most };
    let mut set = Set::only(choice.place);
    if random.one_in(3) {
        set = set.with(random.place(resources));
    }
    if random.one_in(6) {
        set = set.joined(any_places(random, resources));
    }
    let origin = around(random, choice.origin, wider, DAYS);
    let duration = around(random, choice.duration, (wider + 1) / 2, DURATIONS);
    let height = around(random, choice.height, most, POWERS);
    let mut task = balanced_task(set, origin, duration, height);
    if random.one_in(4) {
        task.end = around(random, choice.end, wider, DAYS);
    }
    task
}

/// A plan that changes no more: one with an allowed plan inside, settled.
pub fn already_settled(random: &mut Random) -> Plan {
    let mut plan = with_allowed_plan(random, 0);
    steps::settle(&mut plan, None).expect("an allowed plan is inside");
    plan
}

/// A plan that had settled, until one limit or one range was changed a little.
pub fn nearly_settled(random: &mut Random) -> Plan {
    let mut plan = already_settled(random);
    let place = random.place(plan.tasks.len());
    let task = &mut plan.tasks[place];
    match random.within(0, 4) {
        0 => task.origin.low = random.value(task.origin),
        1 => task.end.high = random.value(task.end),
        2 => task.height.high = random.value(task.height),
        3 => task.duration.low = random.value(task.duration),
        _ => plan.resources[0].limit += 1,
    }
    plan
}

/// One value in each range and one resource per task, allowed or just not.
pub fn single_values(random: &mut Random) -> Plan {
    let beyond = random.within(0, 1);
    let mut plan = with_allowed_plan(random, beyond);
    for task in &mut plan.tasks {
        let place = task.set.places().next().unwrap_or(0);
        let (origin, duration) = (task.origin.low, task.duration.low);
        *task = single_task(place, origin, duration, task.height.high);
    }
    if random.one_in(8) && !plan.tasks.is_empty() {
        let place = random.place(plan.tasks.len());
        let end = &mut plan.tasks[place].end;
        *end = end.plus(Range::single(1));
    }
    plan
}

// ---- Random plans ----

/// Random ranges that fit each other, random limits.
pub fn balanced(random: &mut Random) -> Plan {
    let count = resource_count(random);
    let limits: Vec<i64> = (0..count).map(|_| random.within(-6, 5)).collect();
    let mut tasks = Vec::new();
    for _ in 0..random.within(0, 7) {
        let origin = random.range(-6, 6, 6);
        let duration = random.range(0, 4, 3);
        let height = random.range(-5, 4, 4);
        tasks.push(balanced_task(
            some_set(random, count),
            origin,
            duration,
            height,
        ));
    }
    at_least(random, &limits, tasks)
}

/// Random ranges that need not fit each other.
pub fn unbalanced(random: &mut Random) -> Plan {
    let mut plan = balanced(random);
    for task in &mut plan.tasks {
        if random.one_in(4) {
            task.end = random.range(-4, 12, 8);
        } else if random.one_in(2) {
            let end = random.value(task.end);
            task.end = around(random, end, 5, DAYS);
            let duration = random.value(task.duration);
            task.duration = around(random, duration, 6, DURATIONS);
        }
    }
    plan
}

/// Limits so low that nothing is narrowed, or very little.
pub fn low_limits(random: &mut Random) -> Plan {
    let mut plan = balanced(random);
    for resource in &mut plan.resources {
        resource.limit = random.within(-40, -8);
    }
    plan
}

/// Powers of two, each twice, and what is next to them: a program may change its way of working there.
const NEAR_POWERS: [usize; 12] = [15, 16, 16, 17, 63, 64, 64, 65, 127, 128, 128, 129];

/// Many tasks, many resources, or both.
pub fn large(random: &mut Random, turn: u64) -> Plan {
    let (resources, tasks) = match turn % 6 {
        0 => (MOST_RESOURCES, MOST_TASKS),
        1 => (1, MOST_TASKS),
        2 => (MOST_RESOURCES, random.count(1, 40)),
        3 => (
            random.count(1, MOST_RESOURCES),
            random.count(100, MOST_TASKS),
        ),
        4 => (
            random.count(MOST_RESOURCES / 2 + 1, MOST_RESOURCES),
            random.count(0, 12),
        ),
        _ => (random.count(1, 4), random.pick(&NEAR_POWERS)),
    };
    if random.one_in(2) && tasks > 0 {
        let size = Size {
            resources,
            days: random.within(1, 60),
            tasks,
        };
        let beyond = random.pick(&[0, 0, 0, 1]);
        return around_allowed_plan(random, &size, &size.all_plain(), beyond);
    }
    large_balanced(random, resources, tasks)
}

/// Many random tasks, of small powers or of the largest.
fn large_balanced(random: &mut Random, resources: usize, tasks: usize) -> Plan {
    let largest = if random.one_in(3) { POWERS.high } else { 6 };
    let last_origin = random.pick(&[4, 12, 40]);
    let mut list = Vec::new();
    for _ in 0..tasks {
        let origin = random.range(0, last_origin, 3);
        let duration = random.range(0, 3, 2);
        let low = random.within(-largest, largest);
        let height = Range::new(low, random.within(low, largest));
        list.push(balanced_task(
            some_set(random, resources),
            origin,
            duration,
            height,
        ));
    }
    let factor = random.pick(&[-4, -1, 0, 0, 2]);
    let limits: Vec<i64> = (0..resources)
        .map(|_| factor * largest + random.within(-largest, largest / 2))
        .map(|limit| limit.clamp(POWERS.low, POWERS.high))
        .collect();
    at_least(random, &limits, list)
}
