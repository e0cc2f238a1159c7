//! Plans in which it matters that a resource is held: bare days between tasks, tasks of duration 0 at the ends, tasks that could go
//! elsewhere.

use super::parts::*;
use super::plans;
use crate::plan::*;
use crate::random::Random;

/// The plan with one resource held, and perhaps others; every second one with tasks of duration 0 there.
pub fn some_held(random: &mut Random, mut plan: Plan) -> Plan {
    let one = random.place(plan.resources.len());
    let more = random.pick(&[1, 3, 3]);
    for (place, resource) in plan.resources.iter_mut().enumerate() {
        if place == one || random.one_in(more) {
            resource.kind = Kind::Held;
        }
    }
    if random.one_in(2) {
        plan = with_ends(random, plan, one);
    }
    plan
}

/// The plan with up to two tasks more, as far as there may be: of duration 0 and on this resource only, most often on the first origin and
/// on the last end. They cover no day, and hold those between them and the other tasks.
fn with_ends(random: &mut Random, mut plan: Plan, place: usize) -> Plan {
    let tasks = plan.tasks.iter();
    let first = tasks.clone().map(|task| task.origin.low).min();
    let last = tasks.map(|task| task.end.high).max();
    let (Some(first), Some(last)) = (first, last) else {
        return plan;
    };
    let days = Range::new(first.min(last), first.max(last));
    for end in [days.low, days.high] {
        if plan.tasks.len() < MOST_TASKS && !random.one_in(4) {
            let any = random.value(days);
            let day = random.pick(&[end, end, any]);
            let height = random.within(-2, 2);
            plan.tasks.push(single_task(place, day, 0, height));
        }
    }
    plan
}

/// A plan made so that held days count.
pub fn held(random: &mut Random) -> Plan {
    match random.within(0, 12) {
        0 => plans::with_allowed_held_plan(random, 0),
        1 => plans::with_allowed_held_plan(random, 1),
        2..=5 => one_after_another(random),
        6..=8 => between_posts(random),
        9 | 10 => band_between_posts(random),
        _ => post_elsewhere(random),
    }
}

/// Tasks one after another as high as the limit, each with days to move in, between two whose days are known: every day in between counts,
/// though no task need be sure there, and one need makes the next.
fn one_after_another(random: &mut Random) -> Plan {
    let count = random.count(1, 2);
    let place = random.place(count);
    let limit = random.within(1, 3);
    let mut day = random.within(0, 3);
    let mut tasks = vec![single_task(place, day, 0, random.within(-2, 2))];
    for _ in 0..random.within(1, 4) {
        let set = random.pick(&[Set::only(place), Set::only(place), Set::all(count)]);
        let task = moving(random, day, limit);
        tasks.push(Task { set, ..task });
        day += task.duration.low;
    }
    tasks.push(single_task(place, day, random.within(0, 1), limit));
    let mut limits = vec![random.pick(&[-9, 1]); count];
    limits[place] = limit;
    let mut plan = at_least(random, &limits, tasks);
    plan.resources[place].kind = Kind::Held;
    plan
}

/// A task with origins around this day and heights around the limit.
fn moving(random: &mut Random, day: i64, limit: i64) -> Task {
    let shortest = random.within(1, 3);
    let longest = shortest + random.pick(&[0, 0, 1]);
    let most = random.within(0, 3);
    let origin = around(random, day, most, DAYS);
    let height = around(random, limit, 1, POWERS);
    let duration = Range::new(shortest, longest);
    balanced_task(Set::only(0), origin, duration, height)
}

/// A held resource with a task at either end of a stretch of days that no other task need cover.
struct Stretch {
    place: usize,
    /// How many resources there are.
    count: usize,
    /// The days between the two.
    days: Range,
}

impl Stretch {
    fn pick(random: &mut Random, least: usize) -> Stretch {
        let count = random.count(least, 3);
        let first = random.within(0, 4);
        Stretch {
            place: random.place(count),
            count,
            days: Range::new(first, first + random.within(0, 6)),
        }
    }

    /// The tasks at the ends: from the one's latest origin to the other's earliest end the days are held.
    fn posts(&self, random: &mut Random, limit: i64) -> Vec<Task> {
        let (before, after) = (self.post(random, limit), self.post(random, limit));
        let latest = self.days.low - before.duration.low;
        let earliest = self.days.high + 1;
        let apart = [0, 0, 1, 2];
        vec![
            starting(before, Range::new(latest - random.pick(&apart), latest)),
            starting(after, Range::new(earliest, earliest + random.pick(&apart))),
        ]
    }

    /// A task for an end, its resource known: often of duration 0, which covers no day; else as high as the limit, or just not.
    fn post(&self, random: &mut Random, limit: i64) -> Task {
        let shortest = random.pick(&[0, 0, 0, 1, 2]);
        let low = limit + random.pick(&[-1, 0, 0, 0, 1]);
        let duration = Range::new(shortest, shortest + random.pick(&[0, 0, 0, 1]));
        let height = Range::new(low, low + random.within(0, 1));
        balanced_task(Set::only(self.place), self.days, duration, height)
    }

    /// A task that may cover the days between, as high as the limit or just not.
    fn filler(&self, random: &mut Random, limit: i64) -> Task {
        let lasts = self.days.count() as i64;
        let shortest = (lasts + random.within(-2, 1)).max(0);
        let highest = limit.max(1) + random.pick(&[-1, 0, 0, 0, 1]);
        let early = random.within(0, 4);
        let low = self.days.low - early;
        let set = match random.within(0, 2) {
            0 => some_set(random, self.count).with(self.place),
            _ => Set::only(self.place),
        };
        balanced_task(
            set,
            Range::new(low, low + early + random.within(0, 3)),
            Range::new(shortest, shortest + random.within(0, 2)),
            Range::new(highest - random.within(0, 2), highest),
        )
    }

    /// One of them, or two, or none.
    fn fillers(&self, random: &mut Random, limit: i64) -> Vec<Task> {
        let count = random.pick(&[0, 1, 1, 1, 2, 2]);
        (0..count).map(|_| self.filler(random, limit)).collect()
    }

    /// A plan with this limit here, and elsewhere plain or held resources with another.
    fn plan(&self, random: &mut Random, limit: i64, elsewhere: i64, tasks: Vec<Task>) -> Plan {
        let mut limits = vec![elsewhere; self.count];
        limits[self.place] = limit;
        let mut plan = at_least(random, &limits, tasks);
        for resource in &mut plan.resources {
            resource.kind = random.pick(&[Kind::Plain, Kind::Plain, Kind::Held]);
        }
        plan.resources[self.place].kind = Kind::Held;
        plan
    }
}

/// The same task with these origins.
fn starting(task: Task, origin: Range) -> Task {
    balanced_task(task.set, origin, task.duration, task.height)
}

/// One limit for all days: up to 0 bare days keep it by themselves, above 0 only a task can make them.
fn between_posts(random: &mut Random) -> Plan {
    let stretch = Stretch::pick(random, 1);
    let limit = random.pick(&[-1, 0, 1, 1, 1, 2, 2, 3]);
    let mut tasks = stretch.posts(random, limit);
    tasks.extend(stretch.fillers(random, limit));
    let elsewhere = random.pick(&[-100, -2, 0]);
    stretch.plan(random, limit, elsewhere, tasks)
}

/// A limit that bare days keep, and a band inside the stretch that asks for more on some of them.
fn band_between_posts(random: &mut Random) -> Plan {
    let stretch = Stretch::pick(random, 1);
    let limit = random.within(-2, 0);
    let more = random.within(1, 3);
    let mut tasks = stretch.posts(random, limit);
    tasks.extend(stretch.fillers(random, more));
    let from = random.value(stretch.days) + random.pick(&[-1, 0, 0, 0]);
    let until = from + random.within(1, 3);
    let place = stretch.place;
    let bands = [(from, more), (until, limit)].map(|(from, limit)| Band { place, from, limit });
    Plan {
        bands: bands.to_vec(),
        ..stretch.plan(random, limit, -100, tasks)
    }
}

/// A task at one end that could go elsewhere, and so holds no day; until it is barred elsewhere, if it is too low there.
fn post_elsewhere(random: &mut Random) -> Plan {
    let stretch = Stretch::pick(random, 2);
    let limit = random.pick(&[0, 1, 1, 2]);
    let mut tasks = stretch.posts(random, limit);
    tasks.extend(stretch.fillers(random, limit.max(1)));
    let other = (stretch.place + 1) % stretch.count;
    let moving = random.place(2);
    tasks[moving].set = tasks[moving].set.with(other);
    if random.one_in(2) {
        // Its days are known: too low for a limit, it leaves that resource.
        tasks[moving].duration = Range::single(random.within(1, 2));
        tasks[moving] = starting(tasks[moving], Range::single(tasks[moving].origin.low));
    }
    let too_high = tasks[moving].height.high + 1;
    let elsewhere = random.pick(&[-100, too_high, too_high]);
    stretch.plan(random, limit, elsewhere, tasks)
}
