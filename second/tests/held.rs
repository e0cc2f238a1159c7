//! Held resources by cases worked out by hand: which days are checked, which of them count for shortfall and need, and what stays.

mod support;

use second::steps::{pass, resource_step, settle};
use second::{allowed, file, program, words, Fault, Plan, Refusal, Resource, Sense, Set, Task};
use support::*;

/// Settles in so many passes, with these tasks, and has so many allowed plans before and after.
fn settles_to(mut plan: Plan, passes: u64, tasks: &[Task], count: u64) {
    assert_eq!(allowed::count(&plan), Ok(count));
    let resources = plan.resources.clone();
    assert_eq!(settle(&mut plan, None), Ok(passes));
    assert_eq!(plan.tasks, tasks);
    assert_eq!(plan.resources, resources);
    assert_eq!(allowed::count(&plan), Ok(count));
}

/// Settles in one pass, so changes nothing, and has so many allowed plans.
fn stays(plan: Plan, count: u64) {
    let tasks = plan.tasks.clone();
    settles_to(plan, 1, &tasks, count);
}

/// No plan.
fn refuses(plan: Plan) {
    let mut after = plan.clone();
    assert_eq!(settle(&mut after, None), Err(Refusal::new(7, 0)));
    assert_eq!(after, plan);
    assert_eq!(allowed::count(&plan), Ok(0));
}

/// One held resource, sense at least.
fn held(limit: i64, tasks: &[Task]) -> Plan {
    with_held(at_least(limit, tasks), &[0])
}

/// A task of one resource set, duration and height whose ends follow from its origins.
fn moving(set: u64, origin: (i64, i64), duration: i64, height: i64) -> Task {
    let (low, high) = origin;
    let ends = to(low + duration, high + duration);
    let (duration, height) = (to(duration, duration), to(height, height));
    wide(set, to(low, high), duration, ends, height)
}

/// A task of duration 0 on a known day.
fn post(day: i64) -> Task {
    single(day, 0, day, 0)
}

/// Two of them: days 0 to 3 are held.
fn posts() -> [Task; 2] {
    [post(0), post(4)]
}

/// The two and one more.
fn posts_and(task: Task) -> [Task; 3] {
    let [first, last] = posts();
    [first, last, task]
}

// ---- Which days are checked ----

/// "Case 6 on a held resource is refusal 7." Days 3 and 4, on which no task is possible, have level 0.
#[test]
fn case_6() {
    let tasks = [single(1, 2, 3, 2), single(5, 2, 7, 2)];
    refuses(held(2, &tasks));
    refuses(held(1, &tasks));
    stays(held(0, &tasks), 1);
    stays(at_least(2, &tasks), 1);
    // Back to back there is no bare day.
    stays(held(2, &[single(1, 2, 3, 2), single(3, 2, 5, 2)]), 1);
}

/// "tasks of duration 0 taking part in both": a shortfall on day 0, and on days 1 to 3, but not on day 4.
#[test]
fn two_tasks_of_duration_0() {
    refuses(held(1, &posts()));
    stays(held(0, &posts()), 1);
    stays(at_least(1, &posts()), 1);
    let [first, last] = posts();
    refuses(held(1, &[last, first]));
    for day in 0..4 {
        let bands = [(0, day, 1), (0, day + 1, 0)];
        refuses(with_bands(held(0, &posts()), &bands));
    }
    stays(with_bands(held(0, &posts()), &[(0, 4, 1)]), 1);
    stays(with_bands(held(1, &posts()), &[(0, 0, 0)]), 1);
    // On one day they hold none.
    stays(held(5, &[first, first]), 1);
}

/// The least origin is at least the greatest end: no day.
#[test]
fn one_task_of_duration_0_alone() {
    stays(held(5, &[post(3)]), 1);
    stays(held(5, &[moving(1, (-2, 3), 0, -9)]), 6);
    // Case 1: with no task nothing is checked.
    stays(held(3, &[]), 1);
}

/// A task of duration 0 before or after one that covers days 3 and 4.
#[test]
fn duration_0_on_one_side() {
    let long = single(3, 2, 5, 2);
    for day in [0, 2, 6, 9] {
        refuses(held(1, &[post(day), long]));
        refuses(held(1, &[long, post(day)]));
        stays(held(0, &[post(day), long]), 1);
    }
    // At its first day, inside and at its end nothing is bare.
    for day in [3, 4, 5] {
        stays(held(2, &[post(day), long]), 1);
    }
}

/// The same tasks on a plain and on a held resource: each has its own kind.
#[test]
fn each_resource_has_its_kind() {
    let on = |set: u64, task: Task| wide(set, task.origin, task.duration, task.end, task.height);
    let [first, last] = posts();
    let apart = plan(Sense::AtLeast, &[1, 1], &[on(1, first), on(2, last)]);
    stays(with_held(apart, &[0, 1]), 1);
    let together = plan(Sense::AtLeast, &[1, 1], &[on(2, first), on(2, last)]);
    stays(with_held(together.clone(), &[0]), 1);
    refuses(with_held(together.clone(), &[1]));
    refuses(with_held(together, &[0, 1]));
}

/// Where no bare day lies between tasks the kind changes nothing: cases 2 to 5, 7, 8 and 9.
#[test]
fn the_other_cases() {
    refuses(held(0, &[single(5, 1, 6, -1)]));
    stays(held(0, &[single(5, 1, 6, 0)]), 1);
    stays(held(0, &[single(5, 0, 5, -1)]), 1);
    refuses(held(0, &[single(5, 1, 7, 0)]));
    let two = |height| [single(1, 1, 2, 2), single(1, 1, 2, height)];
    let at_most = |height| with_held(plan(Sense::AtMost, &[4], &two(height)), &[0]);
    stays(at_most(2), 1);
    refuses(at_most(3));
    let sure = single(3, 2, 5, 2);
    let case_7 = held(0, &[sure, moving(1, (0, 9), 1, -2)]);
    settles_to(case_7, 2, &[sure, moving(1, (3, 4), 1, -2)], 2);
    let case_8 = [single(2, 1, 3, -2), moving(1, (1, 3), 1, -2)];
    stays(held(-3, &case_8), 2);
    let needed = wide(1, to(1, 2), to(2, 2), to(3, 4), to(3, 4));
    let tasks = [case_9().tasks[0], needed];
    settles_to(with_held(case_9(), &[0, 1]), 3, &tasks, 6);
}

// ---- Which days count ----

/// Only what lies between the latest first origin and the earliest last end is known: days 0 to 3. The limit is 1 on one day.
#[test]
fn origins_and_ends_not_known_yet() {
    let tasks = [moving(1, (-2, 0), 0, 0), moving(1, (4, 7), 0, 0)];
    let on = |day: i64| with_bands(held(0, &tasks), &[(0, day, 1), (0, day + 1, 0)]);
    for day in 0..4 {
        refuses(on(day));
    }
    // Day -1 is checked in the plans where the first origin is -1 or -2, day 4 where the last end is past it.
    stays(on(-1), 4);
    stays(on(-2), 8);
    stays(on(-3), 12);
    stays(on(4), 3);
    stays(on(6), 9);
    stays(on(7), 12);
}

/// Neither task is sure on any day; days 3 to 5 are held, from the latest origin of the one to the earliest end of the other.
#[test]
fn two_tasks_of_which_none_is_sure() {
    let b = moving(1, (5, 8), 1, 1);
    let tasks = [moving(1, (0, 3), 1, 1), b];
    stays(held(0, &tasks), 16);
    // On day 4 nothing is possible.
    refuses(held(1, &tasks));
    let on = |day: i64| with_bands(held(0, &tasks), &[(0, day, 1), (0, day + 1, 0)]);
    settles_to(on(3), 2, &[moving(1, (3, 3), 1, 1), b], 4);
    settles_to(on(5), 2, &[tasks[0], moving(1, (5, 5), 1, 1)], 4);
    // Day 2 is checked only if the first begins by then, and day 6 only if the second ends after it.
    stays(on(2), 8);
    stays(on(6), 8);
}

/// "one task with only that resource": one that could go to the plain resource holds nothing, though it would break the limit here.
#[test]
fn a_task_that_could_go_elsewhere() {
    let [first, last] = posts();
    let elsewhere = Task {
        set: Set(3),
        ..last
    };
    let entry = plan(Sense::AtLeast, &[1, -9], &[first, elsewhere]);
    stays(with_held(entry.clone(), &[0]), 1);
    stays(entry, 2);
    // The other way round, and both.
    let elsewhere = Task {
        set: Set(3),
        ..first
    };
    let entry = plan(Sense::AtLeast, &[1, -9], &[elsewhere, last]);
    stays(with_held(entry.clone(), &[0]), 1);
    let both = [
        elsewhere,
        Task {
            set: Set(3),
            ..last
        },
    ];
    let entry = plan(Sense::AtLeast, &[1, -9], &both);
    stays(with_held(entry, &[0]), 3);
}

/// Too low for the other resource, the task leaves it in the first pass; in the second it holds days 0 to 4.
#[test]
fn a_task_that_is_barred_elsewhere() {
    let barred = |set| wide(set, to(4, 4), to(1, 1), to(5, 5), to(0, 0));
    let entry = plan(Sense::AtLeast, &[0, 1], &[post(0), barred(3)]);
    let entry = with_held(entry, &[0]);
    let left = [post(0), barred(1)];
    settles_to(entry.clone(), 2, &left, 1);
    let entry = with_bands(entry, &[(0, 1, 1), (0, 4, 0)]);
    let mut after = entry.clone();
    assert_eq!(pass(&mut after, None), Ok(()));
    assert_eq!(after.tasks, left);
    assert_eq!(pass(&mut after, None), Err(Refusal::new(7, 0)));
    refuses(entry);
}

// ---- Need ----

/// Limit 1 on days 0 to 3, all of them bare but for a task of 4 days: it begins on day 0.
#[test]
fn a_need_on_bare_days() {
    let needed = posts_and(moving(1, (0, 0), 4, 1));
    settles_to(held(1, &posts_and(moving(1, (-3, 6), 4, 1))), 2, &needed, 1);
    stays(at_least(1, &posts_and(moving(1, (-3, 6), 4, 1))), 10);
    // With 5 days it begins on day -1 or 0.
    let longer = posts_and(moving(1, (-1, 0), 5, 1));
    settles_to(held(1, &posts_and(moving(1, (-3, 6), 5, 1))), 2, &longer, 2);
    // With 3 there is always a bare day left.
    refuses(held(1, &posts_and(moving(1, (-3, 6), 3, 1))));
    refuses(held(2, &posts_and(moving(1, (-3, 6), 4, 1))));
}

/// The task that is needed "gets r as its only resource".
#[test]
fn a_need_places_a_task() {
    let entry = |set| {
        plan(
            Sense::AtLeast,
            &[1, -9],
            &posts_and(moving(set, (0, 0), 4, 1)),
        )
    };
    settles_to(with_held(entry(3), &[0]), 2, &entry(1).tasks, 1);
    stays(entry(3), 2);
}

/// Two tasks of two days: each day could be covered by either, so none is needed on any, and two of nine plans are allowed.
#[test]
fn no_need_where_others_reach_the_limit() {
    let [first, last] = posts();
    let half = moving(1, (0, 2), 2, 1);
    stays(held(1, &[first, last, half, half]), 2);
    // The one placed first, the other is needed on days 2 and 3.
    let (early, late) = (moving(1, (0, 0), 2, 1), moving(1, (2, 2), 2, 1));
    let placed = held(1, &[first, last, early, half]);
    settles_to(placed, 2, &[first, last, early, late], 1);
}

/// In the first pass the task is needed, and not sure; in the second it is sure and its height goes up. "The rules for bar and height
/// stay."
#[test]
fn height_only_where_the_task_is_sure() {
    let task = |origin, end, low| wide(1, origin, to(4, 4), end, to(low, 1));
    let mut plan = held(1, &posts_and(task(to(-3, 6), to(1, 10), 0)));
    assert_eq!(allowed::count(&plan), Ok(1));
    let needed = posts_and(task(to(0, 0), to(4, 4), 0));
    let lifted = posts_and(task(to(0, 0), to(4, 4), 1));
    for tasks in [needed, lifted, lifted] {
        assert_eq!(pass(&mut plan, None), Ok(()));
        assert_eq!(plan.tasks, tasks);
    }
}

/// A task of height -1 can't cover a day of limit 0, held or not: days 0 to 3 go, and origins 4 and -1 stay.
#[test]
fn bar_as_on_a_plain_one() {
    let low = posts_and(moving(1, (0, 3), 1, -1));
    refuses(held(0, &low));
    refuses(at_least(0, &low));
    let bands = [(0, 0, 0), (0, 4, -1)];
    let left = posts_and(moving(1, (-1, 4), 1, -1));
    stays(with_bands(held(-1, &left), &bands), 2);
    stays(with_bands(at_least(-1, &left), &bands), 2);
}

// ---- With bands, and at most ----

/// Day 2 alone asks for 1.
#[test]
fn a_need_that_a_band_between_tasks_causes() {
    let bands = [(0, 2, 1), (0, 3, 0)];
    let entry = held(0, &posts_and(moving(1, (-3, 6), 1, 1)));
    stays(entry.clone(), 10);
    let needed = posts_and(moving(1, (2, 2), 1, 1));
    settles_to(with_bands(entry.clone(), &bands), 2, &needed, 1);
    // On two days one is bare.
    refuses(with_bands(entry, &[(0, 2, 1), (0, 4, 0)]));
    // Case 6 with limit 2 only where tasks cover.
    let case_6 = [single(1, 2, 3, 2), single(5, 2, 7, 2)];
    let bands = [(0, 3, 0), (0, 5, 2), (0, 7, 9)];
    stays(with_bands(held(2, &case_6), &bands), 1);
    refuses(with_bands(held(2, &case_6), &[(0, 4, 0), (0, 5, 2)]));
}

/// The same in the other sense: a bare day's level 0 is too much where the limit is -1.
#[test]
fn sense_at_most() {
    let at_most = |limit, tasks: &[Task]| with_held(plan(Sense::AtMost, &[limit], tasks), &[0]);
    refuses(at_most(-1, &posts()));
    stays(at_most(0, &posts()), 1);
    stays(plan(Sense::AtMost, &[-1], &posts()), 1);
    let case_6 = |height| [single(1, 2, 3, height), single(5, 2, 7, height)];
    stays(at_most(2, &case_6(2)), 1);
    refuses(at_most(-2, &case_6(-2)));
    let needed = posts_and(moving(1, (0, 0), 4, -1));
    let entry = at_most(-1, &posts_and(moving(1, (-3, 6), 4, -1)));
    settles_to(entry, 2, &needed, 1);
    let banded = with_bands(at_most(0, &posts()), &[(0, 3, -1)]);
    refuses(banded);
}

// ---- A step by itself ----

/// The step of the one resource reads its kind, and no other step does.
#[test]
fn the_step_of_a_held_resource() {
    let on_second = |task: Task| Task {
        set: Set(2),
        ..task
    };
    let tasks = posts().map(on_second);
    let entry = with_held(plan(Sense::AtLeast, &[1, 1], &tasks), &[1]);
    let mut after = entry.clone();
    assert_eq!(resource_step(&mut after, 0, None), Ok(()));
    assert_eq!(resource_step(&mut after, 1, None), Err(Refusal::new(7, 0)));
    assert_eq!(resource_step(&mut after, 2, None), Err(Refusal::new(12, 0)));
    assert_eq!(after, entry);
}

/// At the first and the last day there is.
#[test]
fn at_the_ends_of_days() {
    let ends = [post(-100_000), post(100_000)];
    stays(held(0, &ends), 1);
    let on = |day| with_bands(held(0, &ends), &[(0, day, 1)]);
    refuses(on(-100_000));
    refuses(on(99_999));
    stays(on(100_000), 1);
}

// ---- What is printed ----

#[test]
fn whole_output_and_words() {
    let mut entry = held(1, &posts_and(moving(1, (-3, 6), 4, 1)));
    entry.resources.push(Resource::plain(5, -2));
    let bytes = file::unchecked_bytes(&entry);
    assert_eq!(
        program::answer(&bytes, None),
        "settled 2\n0 1 0 0 0 0 0 0 0 0\n1 1 4 4 0 0 4 4 0 0\n2 1 0 0 4 4 4 4 1 1\n"
    );
    assert_eq!(
        words::of_plan(&entry),
        "sense at least, resources 2, bands 0, tasks 3\n\
         resource 0: identifier 1, limit 1, held\n\
         resource 1: identifier 5, limit -2\n\
         task 0: set {0}, origin 0, duration 0, end 0, height 0\n\
         task 1: set {0}, origin 4, duration 0, end 4, height 0\n\
         task 2: set {0}, origin -3..6, duration 4, end 1..10, height 1\n"
    );
}

// ---- Planted errors ----

/// What settling says of the plan with the fault.
fn settled(plan: &Plan, fault: Fault) -> Result<u64, Refusal> {
    settle(&mut plan.clone(), Some(fault))
}

/// Each hides a shortfall, or sees one where plans are allowed; where nothing is held nothing is wrong.
#[test]
fn errors_of_held_resources() {
    let no_plan = Err(Refusal::new(7, 0));
    let case_6 = held(2, &[single(1, 2, 3, 2), single(5, 2, 7, 2)]);
    let zeros = held(1, &posts());
    assert_eq!(settled(&case_6, Fault::HeldAsPlain), Ok(1));
    assert_eq!(settled(&zeros, Fault::HeldAsPlain), Ok(1));
    assert_eq!(settled(&case_6, Fault::ZeroLeftOut), no_plan);
    assert_eq!(settled(&zeros, Fault::ZeroLeftOut), Ok(1));
    let elsewhere = Task {
        set: Set(3),
        ..post(4)
    };
    let entry = plan(Sense::AtLeast, &[1, -9], &[post(0), elsewhere]);
    assert_eq!(settled(&entry, Fault::HeldElsewhere), Ok(1));
    let entry = with_held(entry, &[0]);
    assert_eq!(allowed::count(&entry), Ok(1));
    assert_eq!(settled(&entry, Fault::HeldElsewhere), no_plan);
}
