//! The errors that request 3's counts of ones and trailing zeros invite, planted: what each makes of plans worked out by hand, and where it
//! can't be seen.

mod support;

use second::random::Random;
use second::steps::{pass, resource_step, settle, settle_within};
use second::{Fault, Plan, Refusal, Sense, Set, Task};
use support::*;

/// What settling reports, and the tasks that it leaves.
type Settled = (Result<u64, Refusal>, Vec<Task>);

fn settled(entry: &Plan, fault: Option<Fault>) -> Settled {
    let mut plan = entry.clone();
    (settle(&mut plan, fault), plan.tasks)
}

/// "no plan", and the tasks as they entered.
fn no_plan(entry: &Plan) -> Settled {
    (Err(Refusal::new(7, 0)), entry.tasks.clone())
}

/// A task that covers day 5 alone.
fn on_day_5(set: Set, low: i64, high: i64) -> Task {
    wide(set.0, to(5, 5), to(1, 1), to(6, 6), to(low, high))
}

// ---- The lowest resource taken for the only one ----

/// Four resources, limit 0 at this place and one that nobody notices elsewhere; a task of height -1 with two of them, 1 and 3.
fn too_low_at(place: usize) -> Plan {
    let mut limits = [-9; 4];
    limits[place] = 0;
    let task = on_day_5(Set::only(1).with(3), -1, -1);
    plan(Sense::AtLeast, &limits, &[task])
}

/// The task is barred from the resource on which it is too low and keeps the other. Taken for sure on the lower one, it falls short there;
/// on the higher one nothing is wrong.
#[test]
fn lowest_only() {
    let fault = Some(Fault::LowestOnly);
    let left_on = |place| (Ok(2), vec![on_day_5(Set::only(place), -1, -1)]);
    assert_eq!(settled(&too_low_at(1), None), left_on(3));
    assert_eq!(settled(&too_low_at(1), fault), no_plan(&too_low_at(1)));
    assert_eq!(settled(&too_low_at(3), None), left_on(1));
    assert_eq!(settled(&too_low_at(3), fault), left_on(1));
}

/// The lowest of one is the only one.
#[test]
fn lowest_only_of_one() {
    for n in 0..2_000 {
        let plan = single_value_plan(&mut Random::new(71, n));
        let wrong = settled(&plan, Some(Fault::LowestOnly));
        assert_eq!(wrong, settled(&plan, None), "{plan:?}");
    }
}

// ---- Zeros counted for ones ----

/// A sure task has height at least the limit; no task is sure where zeros are counted.
#[test]
fn zeros_counted_lift_no_height() {
    let entry = at_least(1, &[on_day_5(Set::only(0), 0, 2)]);
    let lifted = vec![on_day_5(Set::only(0), 1, 2)];
    assert_eq!(settled(&entry, None), (Ok(2), lifted));
    let wrong = settled(&entry, Some(Fault::ZerosCounted));
    assert_eq!(wrong, (Ok(1), entry.tasks));
}

/// Case 5: 2 and 3 on one day where 4 is the most. Each by itself is within the limit.
#[test]
fn zeros_counted_see_no_shortfall() {
    let tasks = [single(1, 1, 2, 2), single(1, 1, 2, 3)];
    let entry = plan(Sense::AtMost, &[4], &tasks);
    assert_eq!(settled(&entry, None), no_plan(&entry));
    let wrong = settled(&entry, Some(Fault::ZerosCounted));
    assert_eq!(wrong, (Ok(1), entry.tasks));
}

// ---- The next resource left out ----

/// On each of so many resources, limit 1, a task that is sure on day 5; its height has this low.
fn sure_tasks(lows: &[i64]) -> Plan {
    let sure = |(place, low): (usize, &i64)| on_day_5(Set::only(place), *low, 2);
    let tasks: Vec<Task> = lows.iter().enumerate().map(sure).collect();
    plan(Sense::AtLeast, &vec![1; lows.len()], &tasks)
}

/// Each resource's step lifts its task to 1. Left out are the second and the fourth, in a pass, in settling, and in settling within passes.
#[test]
fn neighbour_skipped() {
    let entry = sure_tasks(&[0, 0, 0, 0, 0]);
    for (fault, lows) in [
        (None, [1, 1, 1, 1, 1]),
        (Some(Fault::NeighbourSkipped), [1, 0, 1, 0, 1]),
    ] {
        let due = sure_tasks(&lows);
        let mut after = entry.clone();
        assert_eq!((pass(&mut after, fault), &after), (Ok(()), &due));
        assert_eq!(settled(&entry, fault), (Ok(2), due.tasks.clone()));
        after = entry.clone();
        let within = settle_within(&mut after, 1, fault);
        assert_eq!((within, &after), (Ok(None), &due));
    }
}

/// A resource's step by itself goes to no other.
#[test]
fn neighbour_skipped_in_no_step() {
    let mut plan = sure_tasks(&[0, 0, 0]);
    let fault = Some(Fault::NeighbourSkipped);
    assert_eq!(resource_step(&mut plan, 1, fault), Ok(()));
    assert_eq!(plan, sure_tasks(&[0, 1, 0]));
}

/// One resource has no neighbour.
#[test]
fn neighbour_skipped_of_one() {
    let plans = (0..4_000).map(|n| small_plan(&mut Random::new(73, n)));
    for plan in plans.filter(|plan| plan.resources.len() == 1) {
        let wrong = settled(&plan, Some(Fault::NeighbourSkipped));
        assert_eq!(wrong, settled(&plan, None), "{plan:?}");
    }
}
