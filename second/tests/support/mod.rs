//! What several tests use: short ways to write plans, and small random plans.
#![allow(dead_code)]

use second::random::Random;
use second::{Band, Kind, Plan, Range, Resource, Sense, Set, Task};

/// The range that document 01 writes as "0..9".
pub fn to(low: i64, high: i64) -> Range {
    Range::new(low, high)
}

/// A task "written origin / duration / end / height", one value each, on resource 0.
pub fn single(origin: i64, duration: i64, end: i64, height: i64) -> Task {
    wide(
        1,
        Range::single(origin),
        Range::single(duration),
        Range::single(end),
        Range::single(height),
    )
}

/// A task with this set, "set as a number".
pub fn wide(set: u64, origin: Range, duration: Range, end: Range, height: Range) -> Task {
    Task {
        set: Set(set),
        origin,
        duration,
        end,
        height,
    }
}

/// A plan without bands whose resources are plain and have identifiers 1, 2, 3 ...
pub fn plan(sense: Sense, limits: &[i64], tasks: &[Task]) -> Plan {
    let resource = |(place, limit): (usize, &i64)| Resource::plain(place as i32 + 1, *limit);
    Plan {
        sense,
        resources: limits.iter().enumerate().map(resource).collect(),
        bands: Vec::new(),
        tasks: tasks.to_vec(),
    }
}

pub fn at_least(limit: i64, tasks: &[Task]) -> Plan {
    plan(Sense::AtLeast, &[limit], tasks)
}

/// The same plan with the resources at these places held.
pub fn with_held(mut plan: Plan, places: &[usize]) -> Plan {
    for place in places {
        plan.resources[*place].kind = Kind::Held;
    }
    plan
}

/// Case 9 of document 01, "whole output".
pub fn case_9() -> Plan {
    Plan {
        sense: Sense::AtLeast,
        resources: vec![Resource::plain(7, 4), Resource::plain(9, 3)],
        bands: Vec::new(),
        tasks: vec![
            wide(1, to(1, 2), to(2, 2), to(3, 4), to(0, 1)),
            wide(3, to(0, 6), to(2, 2), to(2, 8), to(0, 4)),
        ],
    }
}

/// A band "place, first day, limit".
pub fn band(place: usize, from: i64, limit: i64) -> Band {
    Band { place, from, limit }
}

/// The same plan with these bands, each written as place, first day, limit.
pub fn with_bands(plan: Plan, bands: &[(usize, i64, i64)]) -> Plan {
    let bands = bands.iter();
    Plan {
        bands: bands
            .map(|(place, from, limit)| band(*place, *from, *limit))
            .collect(),
        ..plan
    }
}

/// No bands for every second plan; for the others up to three on each resource, in order, on its days.
fn some_bands(random: &mut Random, resources: usize) -> Vec<Band> {
    let mut bands = Vec::new();
    if random.one_in(2) {
        return bands;
    }
    for place in 0..resources {
        let mut from = random.within(-2, 4);
        for _ in 0..random.within(0, 3) {
            bands.push(band(place, from, random.within(-3, 3)));
            from += random.within(1, 3);
        }
    }
    bands
}

/// The same plan with some of its resources held, of three plans in five.
fn with_some_held(random: &mut Random, mut plan: Plan) -> Plan {
    let kinds = random.pick(&[
        [Kind::Plain; 2],
        [Kind::Plain; 2],
        [Kind::Plain, Kind::Held],
        [Kind::Plain, Kind::Held],
        [Kind::Held; 2],
    ]);
    for resource in &mut plan.resources {
        resource.kind = random.pick(&kinds);
    }
    plan
}

fn sense(random: &mut Random) -> Sense {
    random.pick(&[Sense::AtMost, Sense::AtLeast])
}

/// A plan small enough to list: up to 3 tasks, up to 2 resources, few values.
pub fn small_plan(random: &mut Random) -> Plan {
    let count = random.within(1, 2) as usize;
    let limits: Vec<i64> = (0..count).map(|_| random.within(-3, 3)).collect();
    let mut tasks = Vec::new();
    for _ in 0..random.within(0, 3) {
        let set = random.set(count);
        let origin = random.range(0, 4, 3);
        let duration = random.range(0, 3, 2);
        let height = random.range(-3, 3, 1);
        let end = if random.one_in(2) {
            origin.plus(duration)
        } else {
            random.range(1, 6, 4)
        };
        tasks.push(wide(set.0, origin, duration, end, height));
    }
    let plan = Plan {
        bands: some_bands(random, count),
        ..plan(sense(random), &limits, &tasks)
    };
    with_some_held(random, plan)
}

/// A plan with one value in each range and one resource in each set.
pub fn single_value_plan(random: &mut Random) -> Plan {
    let count = random.within(1, 3) as usize;
    let limits: Vec<i64> = (0..count).map(|_| random.within(-3, 3)).collect();
    let mut tasks = Vec::new();
    for _ in 0..random.within(0, 4) {
        let origin = random.within(0, 4);
        let duration = random.within(0, 3);
        let end = if random.one_in(12) {
            origin + duration + 1
        } else {
            origin + duration
        };
        let mut task = single(origin, duration, end, random.within(-3, 4));
        task.set = Set::only(random.place(count));
        tasks.push(task);
    }
    let plan = Plan {
        bands: some_bands(random, count),
        ..plan(sense(random), &limits, &tasks)
    };
    with_some_held(random, plan)
}
