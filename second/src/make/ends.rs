//! Plans at the ends of every range: first and last day, longest duration, largest powers.

use super::parts::*;
use super::{plans, rules};
use crate::plan::*;
use crate::random::Random;

/// The largest power; the least is as far below 0.
const LARGEST: i64 = POWERS.high;

/// How many kinds take turns.
const KINDS: u64 = 9;

/// One kind after another.
pub fn at_ends(random: &mut Random, turn: u64) -> Plan {
    // Slow day by day, so it comes up in one round of five.
    let many_days_due = (turn / KINDS).is_multiple_of(5);
    match turn % KINDS {
        0 => small_at_first_day(random),
        1 => small_at_last_day(random),
        2 => longest_durations(random, DAYS.low),
        3 => longest_durations(random, DAYS.high - DURATIONS.high),
        4 => largest_powers(random),
        5 => whole_ranges(random),
        6 => largest_sums(random),
        7 if many_days_due => whole_days_of_many(random),
        7 => zero_durations_at_ends(random),
        _ => long_over_the_middle(random),
    }
}

/// Any small plan, moved so that its least day is the first there is.
fn small_at_first_day(random: &mut Random) -> Plan {
    let plan = small(random);
    let lows = |task: &Task| task.origin.low.min(task.end.low);
    let least = plan.tasks.iter().map(lows).min().unwrap_or(0);
    moved(plan, DAYS.low - least)
}

/// Any small plan, moved so that its greatest day is the last there is.
fn small_at_last_day(random: &mut Random) -> Plan {
    let plan = small(random);
    let highs = |task: &Task| task.origin.high.max(task.end.high);
    let greatest = plan.tasks.iter().map(highs).max().unwrap_or(0);
    moved(plan, DAYS.high - greatest)
}

fn small(random: &mut Random) -> Plan {
    match random.within(0, 3) {
        0 => plans::with_allowed_plan(random, 0),
        1 => plans::balanced(random),
        2 => plans::unbalanced(random),
        _ => rules::sure_and_wide(random),
    }
}

/// Tasks that last up to the longest duration, all within so many days after `first`.
fn longest_durations(random: &mut Random, first: i64) -> Plan {
    let longest = DURATIONS.high;
    let days = Range::new(first, first + longest);
    let limit = random.within(-2, 2);
    let shortest = random.pick(&[0, 1, longest / 2, longest - 10, longest]);
    let all = Task {
        set: Set::only(0),
        origin: days,
        duration: Range::new(shortest, longest),
        end: days,
        height: random.range(-3, 2, 3),
    };
    let start = random.within(days.low, days.high - 1);
    let lasts = random.within(1, days.high - start);
    let sure = single_task(0, start, lasts, limit + random.within(-1, 2));
    let mut tasks = vec![all, sure];
    if random.one_in(2) {
        tasks.push(single_task(0, first, longest, random.within(-1, 2)));
    }
    at_least(random, &[limit], tasks)
}

/// Heights and limits at the ends of powers and next to them, both signs.
fn largest_powers(random: &mut Random) -> Plan {
    let mut plan = if random.one_in(2) {
        plans::balanced(random)
    } else {
        plans::with_allowed_plan(random, 0)
    };
    let limits = [-LARGEST, -LARGEST, 1 - LARGEST, 0, LARGEST - 1, LARGEST];
    for resource in &mut plan.resources {
        resource.limit = random.pick(&limits);
    }
    for task in &mut plan.tasks {
        let one = random.pick(&[-LARGEST, -LARGEST, -1, 0, LARGEST]);
        let other = random.pick(&[-LARGEST, 0, 1, LARGEST - 1, LARGEST, LARGEST]);
        task.height = Range::new(one.min(other), one.max(other));
    }
    plan
}

/// Tasks that hold every value of some ranges, with one sure task to push them.
fn whole_ranges(random: &mut Random) -> Plan {
    let start = random.pick(&[DAYS.low, -1, 0, DAYS.high - 1_000, DAYS.high - 3]);
    let lasts = random.within(1, 3);
    let sure_height = random.pick(&[-LARGEST, -2, 0, 1, LARGEST]);
    let limit = random.pick(&[-LARGEST, -2, 0, 1, 2, LARGEST]);
    let whole = Task {
        set: random.pick(&[Set::only(0), Set::all(2)]),
        origin: DAYS,
        duration: random.pick(&[
            DURATIONS,
            Range::new(0, 2),
            Range::new(1, 5),
            Range::single(DURATIONS.high),
        ]),
        end: DAYS,
        height: random.pick(&[
            POWERS,
            POWERS,
            Range::new(0, 2),
            Range::new(-3, -2),
            Range::single(LARGEST),
        ]),
    };
    let mut tasks = vec![whole, single_task(0, start, lasts, sure_height)];
    if random.one_in(3) {
        tasks.push(whole);
    }
    let other = random.pick(&[-LARGEST, 0, LARGEST]);
    at_least(random, &[limit, other], tasks)
}

/// "the largest sum has a size of 256,000,000": sums up to it either way on a few days.
fn largest_sums(random: &mut Random) -> Plan {
    let (least, most) = (Range::single(-LARGEST), Range::single(LARGEST));
    let height = random.pick(&[least, most, POWERS]);
    let limit = random.pick(&[-LARGEST, 0, LARGEST]);
    let first = random.pick(&[DAYS.low, DAYS.high - 2, 0]);
    let task = Task {
        height,
        ..single_task(0, first, 2, 0)
    };
    let mut tasks = vec![task; MOST_TASKS];
    if random.one_in(2) {
        tasks[MOST_TASKS - 1].height = Range::new(-LARGEST, LARGEST - 1);
    }
    if random.one_in(2) {
        // Half of them pull the level down as far as the others can lift it.
        let (skip, step) = random.pick(&[(1, 2), (MOST_TASKS / 2, 1)]);
        let low = LARGEST - random.within(0, 2_000);
        for task in &mut tasks {
            task.height = Range::new(low, LARGEST);
        }
        for task in tasks.iter_mut().skip(skip).step_by(step) {
            task.height = least;
        }
    }
    at_least(random, &[limit], tasks)
}

/// Many tasks over every day there is.
fn whole_days_of_many(random: &mut Random) -> Plan {
    let wide = Task {
        set: Set::only(0),
        origin: DAYS,
        duration: Range::new(0, 3),
        end: DAYS,
        height: Range::new(-1, 1),
    };
    let mut tasks = vec![wide; random.count(20, 60)];
    let start = random.within(DAYS.low + 10_000, DAYS.high - 10_000);
    tasks.push(single_task(0, start, 2, random.within(0, 2)));
    at_least(random, &[2], tasks)
}

/// Tasks of duration 0 at the first and the last day cover nothing.
fn zero_durations_at_ends(random: &mut Random) -> Plan {
    let day = random.pick(&[DAYS.low, DAYS.high]);
    let mut tasks = vec![
        single_task(0, day, 0, -LARGEST),
        single_task(0, day, 0, LARGEST),
    ];
    let near = if day == DAYS.low {
        Range::new(day, day + 1)
    } else {
        Range::new(day - 1, day)
    };
    tasks.push(Task {
        set: Set::only(0),
        origin: near,
        duration: Range::new(0, 1),
        end: near,
        height: random.range(-1, 0, 2),
    });
    let limit = random.within(-1, 1);
    at_least(random, &[limit], tasks)
}

/// A long task whose middle is barred: many origins, ends and durations go.
fn long_over_the_middle(random: &mut Random) -> Plan {
    let first = random.within(-3_000, 3_000);
    let shortest = random.within(0, 400);
    let longest = random.within(500, 2_000);
    let before = random.within(0, longest);
    let days = Range::new(first, first + longest);
    let tasks = vec![
        single_task(0, first, before, 2),
        single_task(0, first + before + 1, longest - before, 2),
        Task {
            set: random.pick(&[Set::only(0), Set::only(0), Set::all(2)]),
            origin: days,
            duration: Range::new(shortest, longest),
            end: days,
            height: Range::new(-2, random.within(-1, 1)),
        },
    ];
    at_least(random, &[0, -5], tasks)
}
