//! Plans in which each rule speaks alone, and plans in which they meet.

use super::parts::*;
use crate::plan::*;
use crate::random::Random;

/// The resource on which a rule is to speak, in a list of so many.
struct Target {
    place: usize,
    count: usize,
}

impl Target {
    /// One alone, or one of several.
    fn pick(random: &mut Random) -> Target {
        let count = random.pick(&[1, 1, 2, 3, 5]);
        Target {
            place: random.place(count),
            count,
        }
    }

    /// A plan with this limit here, and limits that nobody notices elsewhere.
    fn plan(&self, random: &mut Random, limit: i64, tasks: Vec<Task>) -> Plan {
        let quiet = random.pick(&[-100, -100, -3, 0]);
        let mut limits = vec![quiet; self.count];
        limits[self.place] = limit;
        at_least(random, &limits, tasks)
    }
}

// ---- One rule alone ----

/// Need: a sure task too low for the limit, and wide positive ones to help it.
pub fn need(random: &mut Random) -> Plan {
    let target = Target::pick(random);
    let sure_height = random.within(-3, 2);
    let help = random.within(1, 6);
    let limit = sure_height + random.within(0, help);
    let start = random.within(2, 8);
    let lasts = random.within(1, 3);
    let mut tasks = vec![single_task(target.place, start, lasts, sure_height)];
    for _ in 0..random.within(1, 2) {
        let duration = random.range(0, 3, 3);
        let height = Range::new(random.within(-1, help), help);
        let set = some_set(random, target.count).with(target.place);
        let origin = random.range(0, 3, 9);
        tasks.push(balanced_task(set, origin, duration, height));
    }
    target.plan(random, limit, tasks)
}

/// Bar, "r leaves its set": a task whose days are known is too low on one of its resources.
pub fn bar_leaves_set(random: &mut Random) -> Plan {
    let count = random.count(2, MOST_RESOURCES);
    let place = random.place(count);
    let limit = random.within(-2, 4);
    let set = match random.within(0, 5) {
        0 => Set::only(place),
        1 => Set::all(count),
        _ => Set::only(place).with(random.place(count)),
    };
    let origin = random.range(0, 5, 2);
    let duration = random.range(1, 4, 2);
    let highest = limit - random.within(0, 3);
    let height = Range::new(highest - random.within(0, 2), highest);
    let mut tasks = vec![balanced_task(set, origin, duration, height)];
    if random.one_in(2) {
        let start = random.within(0, 5);
        let help = limit.max(0) + random.within(0, 2);
        tasks.push(single_task(place, start, random.within(1, 3), help));
    }
    Target { place, count }.plan(random, limit, tasks)
}

/// Bar on origins and ends: a low wide task among sure ones with gaps between them.
pub fn bar_origins_and_ends(random: &mut Random) -> Plan {
    let target = Target::pick(random);
    let limit = random.within(-1, 2);
    let highest = limit - random.within(1, 3);
    let help = limit.max(0) + random.within(1, 4);
    let mut tasks = Vec::new();
    let mut day = random.within(0, 3);
    for _ in 0..random.within(1, 3) {
        let lasts = random.within(1, 4);
        tasks.push(single_task(target.place, day, lasts, help));
        day += lasts + random.within(0, 3);
    }
    for _ in 0..random.within(1, 2) {
        let duration = random.range(0, 3, 2);
        let set = if random.one_in(4) {
            some_set(random, target.count).with(target.place)
        } else {
            Set::only(target.place)
        };
        let origin = random.range(-1, 3, 12);
        let height = Range::new(highest - 1, highest);
        tasks.push(balanced_task(set, origin, duration, height));
    }
    target.plan(random, limit, tasks)
}

/// Bar on durations: sure tasks on both sides of a middle that a long task can't cover.
pub fn bar_durations(random: &mut Random) -> Plan {
    let target = Target::pick(random);
    let limit = random.within(-1, 1);
    let before = random.within(1, 6);
    let after = random.within(1, 6);
    let gap = random.within(1, 2);
    let help = limit.max(0) + 2;
    let more_help = help + random.within(0, 1);
    let mut tasks = vec![
        single_task(target.place, 0, before, help),
        single_task(target.place, before + gap, after, more_help),
    ];
    let highest = limit - random.within(1, 2);
    let last = before + gap + after;
    let shortest = random.within(0, 1);
    let longest = random.within(2, last);
    let end_low = if random.one_in(2) {
        shortest
    } else {
        random.within(0, last)
    };
    tasks.push(Task {
        set: Set::only(target.place),
        origin: Range::new(0, last - shortest),
        duration: Range::new(shortest, longest),
        end: Range::new(end_low, last),
        height: Range::new(highest - random.within(0, 1), highest),
    });
    target.plan(random, limit, tasks)
}

/// Height alone, or a shortfall if the highest heights fall one short.
pub fn height_or_shortfall(random: &mut Random) -> Plan {
    let target = Target::pick(random);
    let origin = random.within(-5, 5);
    let mut tasks = Vec::new();
    let mut hopes = 0;
    for _ in 0..random.within(1, 4) {
        let height = random.range(-6, 4, 6);
        hopes += height.high;
        let duration = random.within(1, 4);
        tasks.push(Task {
            height,
            ..single_task(target.place, origin, duration, 0)
        });
    }
    let longest = tasks.iter().max_by_key(|task| task.duration.low);
    let hope_of_longest = longest.map_or(0, |task| task.height.high);
    let limit = random.pick(&[hopes, hopes - 2, hopes + 1, hope_of_longest]);
    target.plan(random, limit.min(hopes + 1), tasks)
}

// ---- Rules that meet ----

/// Everything together: sure tasks of any height tile the days of several
/// resources, wide tasks of any height and set lie over them, so that needs
/// push into barred middles.
pub fn sure_and_wide(random: &mut Random) -> Plan {
    let count = random.pick(&[1, 1, 2, 2, 3]);
    let mut tasks = Vec::new();
    for place in 0..count {
        tile(random, place, &mut tasks);
    }
    for _ in 0..random.within(1, 3) {
        let set = if random.one_in(2) {
            Set::only(random.place(count))
        } else {
            some_set(random, count)
        };
        let duration = random.range(0, 4, 4);
        let height = random.range(-4, 3, 3);
        let origin = random.range(-2, 5, 12);
        tasks.push(balanced_task(set, origin, duration, height));
    }
    if random.one_in(3) {
        tasks.push(lowering_wherever(random, count));
    }
    let limits: Vec<i64> = (0..count).map(|_| random.within(-3, 3)).collect();
    at_least(random, &limits, tasks)
}

/// Sure tasks one after another, now and then with a gap, on the resource at `place`.
fn tile(random: &mut Random, place: usize, tasks: &mut Vec<Task>) {
    let mut day = random.within(0, 4);
    for _ in 0..random.within(1, 3) {
        let lasts = random.within(1, 4);
        let mut task = single_task(place, day, lasts, random.within(-2, 4));
        if random.one_in(4) {
            task.height.high += random.within(0, 3);
        }
        tasks.push(task);
        day += lasts + random.within(0, 2);
    }
}

/// A task whose days are known and whose resource is not, and that lowers whichever it takes.
fn lowering_wherever(random: &mut Random, count: usize) -> Task {
    let origin = random.within(0, 6);
    let duration = random.within(1, 3);
    Task {
        set: Set::all(count),
        ..single_task(0, origin, duration, random.within(-3, -1))
    }
}

/// Chains in which one need makes the next, so that settling takes many passes:
/// from resource to resource against the list order, or from day to day.
pub fn chain(random: &mut Random) -> Plan {
    let mut plan = if random.one_in(2) {
        resource_chain(random)
    } else {
        day_chain(random)
    };
    if random.one_in(4) {
        // One link less, or one that holds already.
        let place = random.place(plan.tasks.len());
        plan.tasks[place].height = Range::new(-1, random.within(0, 2));
    }
    if random.one_in(3) {
        plan.tasks.reverse();
    }
    plan
}

/// Every resource has a sure task that needs one more; task k may help at k or k + 1.
fn resource_chain(random: &mut Random) -> Plan {
    let count = random.count(3, MOST_RESOURCES);
    let mut tasks = Vec::new();
    for place in 0..count {
        tasks.push(single_task(place, 5, 2, 0));
        if place + 1 < count {
            let set = Set::only(place).with(place + 1);
            let origin = Range::new(5 - random.within(0, 1), 5);
            let (duration, height) = (Range::new(2, 3), Range::new(0, 1));
            tasks.push(balanced_task(set, origin, duration, height));
        }
    }
    let mut limits = vec![1; count];
    // With the same limit on the first resource there is one task too few to help.
    limits[0] = if random.one_in(4) { 1 } else { 0 };
    at_least(random, &limits, tasks)
}

/// Every day has a sure task that needs one more; task k may help on day k or k + 1.
fn day_chain(random: &mut Random) -> Plan {
    let links = random.within(2, 40);
    let mut tasks = vec![single_task(0, 0, links, 0)];
    let highest = random.within(1, 2);
    for day in 0..links {
        let origin = Range::new(day, day + 1);
        let duration = Range::new(random.within(0, 1), 1);
        let height = Range::new(-1, highest);
        tasks.push(balanced_task(Set::only(0), origin, duration, height));
    }
    at_least(random, &[1], tasks)
}
