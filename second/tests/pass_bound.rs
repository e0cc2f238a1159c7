//! Request 6, "How many passes at most", by cases worked out by hand: the bound, and settling within a number of passes.

mod support;

use second::bound::most_passes;
use second::plan::{DAYS, DURATIONS, MOST_RESOURCES, MOST_TASKS, POWERS};
use second::random::Random;
use second::steps::{pass, settle, settle_within};
use second::{file, make, program, Fault, Plan, Refusal, Sense, Set, Task};
use support::*;

fn bound(plan: &Plan) -> u64 {
    most_passes(plan, None).unwrap()
}

/// What a call reports, and the tasks that it leaves.
type Left<T> = (Result<T, Refusal>, Vec<Task>);

fn within(entry: &Plan, most: u64) -> Left<Option<u64>> {
    let mut plan = entry.clone();
    (settle_within(&mut plan, most, None), plan.tasks)
}

fn settled(entry: &Plan) -> Left<u64> {
    let mut plan = entry.clone();
    (settle(&mut plan, None), plan.tasks)
}

/// "no plan", and the tasks as they entered.
fn no_plan<T>(entry: &Plan) -> Left<T> {
    (Err(Refusal::new(7, 0)), entry.tasks.clone())
}

// ---- The bound ----

#[test]
fn no_task() {
    let plan = at_least(3, &[]);
    assert_eq!(bound(&plan), 1);
    assert_eq!(within(&plan, 0), (Ok(None), Vec::new()));
    assert_eq!(within(&plan, 1), (Ok(Some(1)), Vec::new()));
}

/// Nothing could be removed: the 1 alone, and one pass is all that settling takes, or the one that fails (case 2).
#[test]
fn single_values() {
    let stays = at_least(0, &[single(5, 1, 6, 0)]);
    assert_eq!(bound(&stays), 1);
    assert_eq!(within(&stays, 1), (Ok(Some(1)), stays.tasks.clone()));
    let fails = at_least(0, &[single(5, 1, 6, -1)]);
    assert_eq!(bound(&fails), 1, "the bound takes no step");
    assert_eq!(within(&fails, 0), (Ok(None), fails.tasks.clone()));
    assert_eq!(within(&fails, 1), no_plan(&fails));
}

/// One range open, the three others single, whether they fit each other or not; values below 0, on both sides of it and at their ends.
#[test]
fn each_of_the_four_ranges() {
    let (origin, duration, end, height) = (to(5, 5), to(2, 2), to(7, 7), to(1, 1));
    for (task, removable) in [
        (wide(1, to(3, 7), duration, end, height), 4),
        (wide(1, to(-9, -6), duration, end, height), 3),
        (wide(1, DAYS, duration, end, height), 200_000),
        (wide(1, origin, to(2, 3), end, height), 1),
        (wide(1, origin, DURATIONS, end, height), 10_000),
        (wide(1, origin, duration, to(-5, 6), height), 11),
        (wide(1, origin, duration, DAYS, height), 200_000),
        (wide(1, origin, duration, end, to(-7, -3)), 4),
        (wide(1, origin, duration, end, to(-7, 3)), 10),
        (wide(1, origin, duration, end, POWERS), 2_000_000),
    ] {
        assert_eq!(bound(&at_least(0, &[task])), 1 + removable, "{task:?}");
    }
}

/// "its number of resources less one": 2 for a set of three, wherever they stand in the list; 15 for all sixteen.
#[test]
fn sets() {
    let alone = |set| {
        let task = wide(set, to(5, 5), to(2, 2), to(7, 7), to(1, 1));
        bound(&plan(Sense::AtLeast, &[0; MOST_RESOURCES], &[task]))
    };
    assert_eq!(alone(0b1), 1);
    assert_eq!(alone(1 << 15), 1);
    assert_eq!(alone(0b101), 1 + 1);
    assert_eq!(alone(0b111), 1 + 2);
    assert_eq!(alone(0b1000_0001_0010_0000), 1 + 2);
    assert_eq!(alone(0xFFFF), 1 + 15);
}

/// A set of three, origins 4, durations 2, ends 8, heights 5 apart: 2 + 4 + 2 + 8 + 5 = 21; then one with heights alone, 3 apart.
#[test]
fn tasks_are_added_up() {
    let first = wide(0b1011, to(-2, 2), to(1, 3), to(-3, 5), to(-6, -1));
    let second = wide(0b0100, to(0, 0), to(1, 1), to(1, 1), to(-2, 1));
    let both = |sense, limits| bound(&plan(sense, limits, &[first, second]));
    assert_eq!(both(Sense::AtLeast, &[0; 4]), 1 + 21 + 3);
    // The sense, the limits, and resources that no task has, do not count.
    assert_eq!(both(Sense::AtMost, &[0; 4]), 1 + 21 + 3);
    assert_eq!(both(Sense::AtLeast, &[-9, 4, 0, 1_000_000, 3]), 1 + 21 + 3);
}

/// Nor do bands.
#[test]
fn bands_do_not_count() {
    let plan = at_least(0, &[single(3, 3, 6, 0), single(0, 1, 1, 2)]);
    assert_eq!(bound(&with_bands(plan, &[(0, 4, 2), (0, 5, 0)])), 1);
}

/// Task 0, one resource: origin 1..2, 1; duration 0; end 3..4, 1; height 0..1, 1: together 3. Task 1, two resources, 1; origin 0..6, 6;
/// duration 0; end 2..8, 6; height 0..4, 4: together 17.
#[test]
fn case_9_at_most_21_passes() {
    assert_eq!(bound(&case_9()), 1 + 3 + 17);
}

/// 200,000 + 10,000 + 200,000 + 2,000,000 + 15 = 2,410,015 for each of 256 tasks; an answer has room for it.
#[test]
fn the_largest_bound() {
    let task = wide(0xFFFF, DAYS, DURATIONS, DAYS, POWERS);
    let tasks = vec![task; MOST_TASKS];
    let largest = plan(Sense::AtMost, &[0; MOST_RESOURCES], &tasks);
    assert_eq!(bound(&largest), 1 + 256 * 2_410_015);
    assert_eq!(bound(&largest), 616_963_841);
}

// ---- Settling within a number of passes ----

/// As case 9 goes pass by pass: needed on the first resource, then lifted, then nothing.
#[test]
fn case_9_within() {
    let entered = case_9().tasks;
    let needed = wide(1, to(1, 2), to(2, 2), to(3, 4), to(0, 4));
    let lifted = wide(1, to(1, 2), to(2, 2), to(3, 4), to(3, 4));
    let after = |task| vec![entered[0], task];
    assert_eq!(within(&case_9(), 0), (Ok(None), entered.clone()));
    assert_eq!(within(&case_9(), 1), (Ok(None), after(needed)));
    assert_eq!(within(&case_9(), 2), (Ok(None), after(lifted)));
    for most in [3, 4, 20, 21, 1 << 32, u64::MAX] {
        assert_eq!(within(&case_9(), most), (Ok(Some(3)), after(lifted)));
    }
}

/// A task that covers day 5 alone.
fn on_day_5(set: Set, height: i64) -> Task {
    let task = single(5, 1, 6, height);
    Task { set, ..task }
}

/// On each resource a task of height 0 that is sure on day 5, then these.
fn with_sure_tasks(limits: &[i64], tasks: &[Task]) -> Plan {
    let sure = (0..limits.len()).map(|place| on_day_5(Set::only(place), 0));
    let tasks: Vec<Task> = sure.chain(tasks.iter().copied()).collect();
    plan(Sense::AtLeast, limits, &tasks)
}

/// A task of height 1 that may lift the resource at this place or the next one.
fn helper(place: usize) -> Task {
    on_day_5(Set::only(place).with(place + 1), 1)
}

/// Two resources, limits 1 and 2, two tasks that may lift either. First pass: the first resource could do without the one or the other,
/// the second needs both. Second pass: on the first resource nothing lifts the sure task.
#[test]
fn no_plan_in_the_second_pass() {
    let entry = with_sure_tasks(&[1, 2], &[helper(0), helper(0)]);
    let mut after = entry.tasks.clone();
    after[2].set = Set::only(1);
    after[3].set = Set::only(1);
    assert_eq!(within(&entry, 0), (Ok(None), entry.tasks.clone()));
    assert_eq!(within(&entry, 1), (Ok(None), after));
    for most in [2, bound(&entry), 4, u64::MAX] {
        assert_eq!(within(&entry, most), no_plan(&entry));
    }
    assert_eq!(settled(&entry), no_plan(&entry));
    assert_eq!(bound(&entry), 3);
}

/// Sixteen resources, limit 1 on all but the first; fifteen tasks, each of which may lift its resource or the next. In the first pass only
/// the last resource needs one, its only helper; in the second the one before it, whose other helper is gone; and so on, one place removed
/// in each pass until the fifteenth. The sixteenth changes nothing, and 1 + 15 is the bound.
#[test]
fn the_bound_is_reached() {
    let mut limits = [1; 16];
    limits[0] = 0;
    let helpers: Vec<Task> = (0..15).map(helper).collect();
    let entry = with_sure_tasks(&limits, &helpers);
    assert_eq!(bound(&entry), 16);
    for passes in 0..=15 {
        let mut due = entry.tasks.clone();
        for place in 15 - passes..15 {
            due[16 + place].set = Set::only(place + 1);
        }
        assert_eq!(within(&entry, passes as u64), (Ok(None), due));
    }
    let (count, tasks) = settled(&entry);
    assert_eq!(count, Ok(16));
    assert_eq!(within(&entry, 16), (Ok(Some(16)), tasks.clone()));
    assert_eq!(within(&entry, u64::MAX), (Ok(Some(16)), tasks));
}

/// The same for no plan, one pass short of the bound: the two resources of `no_plan_in_the_second_pass` in front, fourteen more behind
/// them. Fourteen passes remove one place each, the fifteenth two, the sixteenth fails; and 1 + 14 + 2 is the bound.
#[test]
fn no_plan_one_pass_before_the_bound() {
    let mut limits = [1; 16];
    limits[1] = 2;
    let mut helpers = vec![helper(0)];
    helpers.extend((0..15).map(helper));
    let entry = with_sure_tasks(&limits, &helpers);
    assert_eq!(bound(&entry), 17);
    let mut placed = entry.tasks.clone();
    for (k, place) in [0].into_iter().chain(0..15).enumerate() {
        placed[16 + k].set = Set::only(place + 1);
    }
    assert_ne!(within(&entry, 14).1, placed);
    assert_eq!(within(&entry, 15), (Ok(None), placed));
    for most in [16, 17, u64::MAX] {
        assert_eq!(within(&entry, most), no_plan(&entry));
    }
}

// ---- What has to hold of every plan ----

/// So many passes, each a call by itself, until one changes nothing.
fn passes(entry: &Plan, most: u64) -> Left<Option<u64>> {
    let mut plan = entry.clone();
    for passes in 1..=most {
        let before = plan.clone();
        if let Err(refusal) = pass(&mut plan, None) {
            return (Err(refusal), entry.tasks.clone());
        }
        if plan == before {
            return (Ok(Some(passes)), plan.tasks);
        }
    }
    (Ok(None), plan.tasks)
}

/// Settling within `most` passes, again and again on what it left, until it reports a count: all passes added up.
fn again_and_again(entry: &Plan, most: u64) -> Left<u64> {
    let mut plan = entry.clone();
    let mut before = 0;
    loop {
        match settle_within(&mut plan, most, None) {
            Ok(None) => before += most,
            Ok(Some(last)) => return (Ok(before + last), plan.tasks),
            Err(refusal) => return (Err(refusal), entry.tasks.clone()),
        }
    }
}

/// "It holds for any plan that settles; where settling ends in no plan, the failing pass comes within the same number."
fn holds(entry: &Plan) {
    let most = bound(entry);
    let (result, tasks) = settled(entry);
    let count = result.unwrap_or(0);
    assert!(count <= most, "{entry:?}");
    for most in [most, most + 1, u64::MAX] {
        let within = within(entry, most);
        assert_eq!(within, (result.map(Some), tasks.clone()), "{entry:?}");
    }
}

#[test]
fn small_plans() {
    let mut long = 0;
    for n in 0..6_000 {
        let entry = small_plan(&mut Random::new(61, n));
        holds(&entry);
        for most in 0..5 {
            assert_eq!(within(&entry, most), passes(&entry, most), "{entry:?}");
        }
        for most in 1..4 {
            assert_eq!(again_and_again(&entry, most), settled(&entry), "{entry:?}");
        }
        long += u32::from(within(&entry, 2).0 == Ok(None));
    }
    assert!(long > 100, "{long}");
}

/// Sound plans of a made stream, but for those that take long day by day.
fn made_plans() -> impl Iterator<Item = Plan> {
    let numbers = (0..8_000).filter(|n| !make::LONG_KINDS.contains(&(n % make::KINDS)));
    numbers.filter_map(|n| file::read(&make::plan_file(6, n)).ok())
}

#[test]
fn a_made_stream() {
    let (mut unsettled, mut failing) = (0, 0);
    for (n, entry) in made_plans().enumerate() {
        holds(&entry);
        let most = 1 + n as u64 % 5;
        assert_eq!(within(&entry, most), passes(&entry, most), "{entry:?}");
        assert_eq!(again_and_again(&entry, most), settled(&entry), "{entry:?}");
        if within(&entry, most).0 == Ok(None) {
            unsettled += 1;
            failing += u32::from(settled(&entry).0.is_err());
        }
    }
    let counts = format!("{unsettled} unsettled, {failing} of them without a plan");
    assert!(unsettled > 500 && failing > 5, "{counts}");
}

// ---- What is printed ----

#[test]
fn case_9_printed() {
    let bytes = file::unchecked_bytes(&case_9());
    let within = |most| program::answer_within(&bytes, most, None);
    assert_eq!(
        within(0),
        "unsettled 0\n0 1 1 2 2 2 3 4 0 1\n1 3 0 6 2 2 2 8 0 4\n"
    );
    assert_eq!(
        within(2),
        "unsettled 2\n0 1 1 2 2 2 3 4 0 1\n1 1 1 2 2 2 3 4 3 4\n"
    );
    assert_eq!(within(3), program::answer(&bytes, None));
    assert_eq!(within(u64::MAX), program::answer(&bytes, None));
    assert_eq!(program::most_passes(&bytes, None), "21\n");
}

#[test]
fn refusals_printed() {
    let bytes = file::unchecked_bytes(&at_least(0, &[single(5, 1, 6, -1)]));
    assert_eq!(program::answer_within(&bytes, 1, None), "refused 7 0\n");
    assert_eq!(program::most_passes(&bytes, None), "1\n");
    let cut = &bytes[..20];
    assert_eq!(program::answer_within(cut, 0, None), "refused 9 16\n");
    assert_eq!(program::most_passes(cut, None), "refused 9 16\n");
}

// ---- Planted errors ----

/// The bound without its 1 is wrong for every plan.
#[test]
fn bound_without_one() {
    assert_eq!(most_passes(&case_9(), Some(Fault::BoundWithoutOne)), Ok(20));
    assert_eq!(
        most_passes(&at_least(3, &[]), Some(Fault::BoundWithoutOne)),
        Ok(0)
    );
}

/// The bound without durations is wrong for every plan that has an open one.
#[test]
fn range_left_out() {
    let open = |task: &Task| task.duration.width() > 0;
    let mut wrong = 0;
    for plan in made_plans() {
        let differs = most_passes(&plan, Some(Fault::RangeLeftOut)) != Ok(bound(&plan));
        assert_eq!(differs, plan.tasks.iter().any(open), "{plan:?}");
        wrong += u32::from(differs);
    }
    assert!(wrong > 3_000, "{wrong}");
}

/// One pass where none is asked for shows on every plan: it changes something, reports a count, or finds no plan.
#[test]
fn pass_too_many() {
    for plan in made_plans() {
        let mut after = plan.clone();
        let result = settle_within(&mut after, 0, Some(Fault::PassTooMany));
        assert_ne!((result, &after), (Ok(None), &plan));
    }
}

/// Zeros counted for ones give each task too much: of case 9's, 64 - 1 - 1 = 62 in place of 0 and 64 - 2 - 1 = 61 in place of 1.
#[test]
fn zeros_counted() {
    let wrong = |plan: &Plan| most_passes(plan, Some(Fault::ZerosCounted)).unwrap();
    assert_eq!(wrong(&case_9()), 21 + 62 + 60);
    assert_eq!(wrong(&at_least(3, &[])), 1);
    for plan in made_plans().filter(|plan| !plan.tasks.is_empty()) {
        assert!(wrong(&plan) > bound(&plan), "{plan:?}");
    }
}
