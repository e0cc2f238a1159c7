//! Held resources against plain listing: no step loses an allowed plan, and single values decide; small random plans made so that days
//! without a sure task count.

mod support;

use second::random::Random;
use second::steps::{balance, pass, resource_step, settle};
use second::{allowed, Band, Fault, Kind, Plan, Range, Refusal, Sense, Set, Task};
use support::*;

/// A plan small enough to list: on the first resource, which is held, two tasks at the ends, of duration 0 or not; one or two that may
/// cover what is between them, on that resource or on either; with bands or without.
fn held_plan(random: &mut Random) -> Plan {
    let count = random.count(1, 2);
    let days = to(1, random.within(2, 5));
    let mut tasks = vec![
        end_task(random, days.low - 1, count),
        end_task(random, days.high + 1, count),
    ];
    for _ in 0..random.within(1, 2) {
        tasks.push(middle_task(random, days, count));
    }
    let limits: Vec<i64> = (0..count).map(|_| random.within(-1, 2)).collect();
    let mut plan = plan(Sense::AtLeast, &limits, &tasks);
    plan.resources[0].kind = Kind::Held;
    if random.one_in(2) {
        plan.resources[count - 1].kind = Kind::Held;
    }
    if random.one_in(2) {
        plan.bands = bands_between(random, days);
    }
    if random.one_in(2) {
        plan = plan.negated();
    }
    plan
}

/// A task at an end, now and then one that could go elsewhere.
fn end_task(random: &mut Random, day: i64, count: usize) -> Task {
    let origin = Range::new(day - random.within(0, 1), day);
    let duration = random.pick(&[0, 0, 1]);
    let ends = origin.plus(Range::single(duration));
    let height = random.range(0, 2, 1);
    let set = random.pick(&[Set::only(0), Set::only(0), Set::only(0), Set::all(count)]);
    wide(set.0, origin, Range::single(duration), ends, height)
}

/// A task that may cover the days between, or some of them.
fn middle_task(random: &mut Random, days: Range, count: usize) -> Task {
    let origin = random.range(-1, 2, 3);
    let duration = random.range(0, days.count() as i64 + 1, 1);
    let height = random.range(-1, 2, 1);
    let set = random.pick(&[Set::only(0), Set::all(count)]);
    wide(set.0, origin, duration, origin.plus(duration), height)
}

/// One or two bands of the first resource inside these days.
fn bands_between(random: &mut Random, days: Range) -> Vec<Band> {
    let from = random.value(days);
    let mut bands = vec![band(0, from, random.within(-1, 2))];
    if random.one_in(2) {
        bands.push(band(0, from + random.within(1, 2), random.within(-1, 1)));
    }
    bands
}

/// How much was tried, to see that held days matter.
#[derive(Debug, Default)]
struct Tried {
    narrowed: u32,
    no_plan: u32,
    /// Of those the ones that a plain resource gives another answer to.
    by_held_days: u32,
}

/// A step of the plan, and whether it would do the same if held resources were plain.
fn step(plan: &mut Plan, random: &mut Random, tried: &mut Tried) -> Result<(), Refusal> {
    let (kind, place) = (random.within(0, 3), random.place(plan.resources.len()));
    let made = |plan: &mut Plan, fault| match kind {
        0 => balance(plan),
        1 => pass(plan, fault),
        _ => resource_step(plan, place, fault),
    };
    let mut plain = plan.clone();
    let result_if_plain = made(&mut plain, Some(Fault::HeldAsPlain));
    let result = made(plan, None);
    tried.by_held_days += u32::from(result != result_if_plain || *plan != plain);
    result
}

#[test]
fn every_step_keeps_the_number_of_allowed_plans() {
    let mut tried = Tried::default();
    for n in 0..10_000 {
        let random = &mut Random::new(41, n);
        let entry = held_plan(random);
        let count = allowed::count(&entry).unwrap();
        let mut plan = entry.clone();
        for _ in 0..5 {
            let before = plan.clone();
            let result = step(&mut plan, random, &mut tried);
            if result.is_err() {
                assert_eq!(result, Err(Refusal::NO_PLAN));
                assert_eq!(count, 0, "a step found no plan, listing did: {entry:?}");
                assert_eq!(plan, before);
                tried.no_plan += 1;
                break;
            }
            if plan != before {
                tried.narrowed += 1;
                let left = allowed::count(&plan);
                assert_eq!(left, Ok(count), "{before:?} became {plan:?}");
            }
        }
    }
    assert!(tried.narrowed > 1_500 && tried.no_plan > 1_500, "{tried:?}");
    assert!(tried.by_held_days > 1_500, "{tried:?}");
}

#[test]
fn settling_keeps_the_number_of_allowed_plans() {
    let (mut settled, mut none) = ([0, 0], [0, 0]);
    for n in 0..10_000 {
        let entry = held_plan(&mut Random::new(42, n));
        let count = allowed::count(&entry).unwrap();
        let sense = entry.sense as usize;
        let mut plan = entry.clone();
        match settle(&mut plan, None) {
            Ok(_) => {
                let left = allowed::count(&plan);
                assert_eq!(left, Ok(count), "{entry:?} became {plan:?}");
                settled[sense] += 1;
            }
            Err(_) => {
                assert_eq!(count, 0, "{entry:?}");
                none[sense] += 1;
            }
        }
    }
    let enough = |counts: [u32; 2]| counts.iter().all(|count| *count > 1_000);
    assert!(enough(settled) && enough(none), "{settled:?}, {none:?}");
}

// ---- Single values ----

/// The limit on a day, found by walking all bands.
fn limit_on(plan: &Plan, place: usize, day: i64) -> i64 {
    let mut limit = plan.resources[place].limit;
    for band in &plan.bands {
        if band.place == place && band.from <= day {
            limit = band.limit;
        }
    }
    limit
}

/// Whether the level on a day, if the day is checked, is beyond the limit; of a plan with single values alone.
fn is_broken_on(plan: &Plan, place: usize, day: i64) -> bool {
    let there = plan.tasks.iter().filter(|task| task.set.has(place));
    let begun = |task: &&Task| task.origin.low <= day;
    let unended = |task: &&Task| day < task.end.low;
    let covering: Vec<&Task> = there.clone().filter(begun).filter(unended).collect();
    let is_checked = match plan.resources[place].kind {
        Kind::Plain => !covering.is_empty(),
        Kind::Held => {
            there.clone().any(|task| begun(&task)) && there.clone().any(|task| unended(&task))
        }
    };
    let level: i64 = covering.iter().map(|task| task.height.low).sum();
    let limit = limit_on(plan, place, day);
    let holds = match plan.sense {
        Sense::AtLeast => level >= limit,
        Sense::AtMost => level <= limit,
    };
    is_checked && !holds
}

/// Whether the one choice that there is breaks a rule.
fn is_broken(plan: &Plan) -> bool {
    let ends_fit = |task: &Task| task.origin.low + task.duration.low == task.end.low;
    let places = 0..plan.resources.len();
    let mut days = places.flat_map(|place| (-9..=20).map(move |day| (place, day)));
    !plan.tasks.iter().all(ends_fit) || days.any(|(place, day)| is_broken_on(plan, place, day))
}

/// A pass, settling and listing all say so; a held resource decides often enough.
#[test]
fn single_values_a_pass_refuses_exactly_what_breaks_a_rule() {
    let (mut broken, mut stands, mut by_held_days) = (0, 0, 0);
    for n in 0..6_000 {
        let random = &mut Random::new(43, n);
        let entry = match n % 2 {
            0 => single_value_plan(random),
            _ => fixed(random),
        };
        let is_broken = is_broken(&entry);
        let due = if is_broken {
            Err(Refusal::NO_PLAN)
        } else {
            Ok(1)
        };
        let mut plan = entry.clone();
        assert_eq!(pass(&mut plan, None), due.map(|_| ()), "{entry:?}");
        assert_eq!(settle(&mut plan, None), due, "{entry:?}");
        assert_eq!(plan, entry);
        assert_eq!(
            allowed::count(&entry),
            Ok(u64::from(!is_broken)),
            "{entry:?}"
        );
        if is_broken {
            broken += 1;
            by_held_days += u32::from(pass(&mut plan, Some(Fault::HeldAsPlain)).is_ok());
        } else {
            stands += 1;
        }
    }
    let counts = format!("{broken} broken, {by_held_days} of them by held days, {stands} not");
    assert!(
        broken > 1_000 && stands > 1_000 && by_held_days > 300,
        "{counts}"
    );
}

/// One of the choices that a held plan leaves, as a plan.
fn fixed(random: &mut Random) -> Plan {
    let mut plan = held_plan(random);
    for task in &mut plan.tasks {
        let places: Vec<usize> = task.set.places().collect();
        task.set = Set::only(random.pick(&places));
        let [origin, duration, _, height] = task.ranges().map(|range| random.value(range));
        task.origin = Range::single(origin);
        task.duration = Range::single(duration);
        task.end = Range::single(origin + duration);
        task.height = Range::single(height);
    }
    plan
}
