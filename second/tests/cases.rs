//! Cases 1 to 9 of document 01, "Days tried on both sides", both halves.

mod support;

use second::steps::{pass, settle};
use second::{allowed, file, program, Plan, Refusal, Sense};
use support::*;

fn settles(mut plan: Plan, passes: u64) -> Plan {
    assert_eq!(settle(&mut plan, None), Ok(passes));
    plan
}

/// Settles in so many passes and changes nothing.
fn stays(plan: Plan, passes: u64) {
    assert_eq!(settles(plan.clone(), passes), plan);
}

fn refuses(plan: Plan) {
    let mut after = plan.clone();
    assert_eq!(settle(&mut after, None), Err(Refusal::new(7, 0)));
    assert_eq!(
        after, plan,
        "on a refusal the task list keeps its entry contents"
    );
    assert_eq!(allowed::count(&plan), Ok(0));
}

#[test]
fn case_1_no_task() {
    stays(at_least(3, &[]), 1);
}

#[test]
fn case_2_one_task_below_and_at_the_limit() {
    refuses(at_least(0, &[single(5, 1, 6, -1)]));
    stays(at_least(0, &[single(5, 1, 6, 0)]), 1);
}

#[test]
fn case_3_duration_0_covers_no_day() {
    stays(at_least(0, &[single(5, 0, 5, -1)]), 1);
}

#[test]
fn case_4_origin_and_duration_miss_the_end() {
    refuses(at_least(0, &[single(5, 1, 7, 0)]));
}

#[test]
fn case_5_at_most() {
    let two = |height| {
        plan(
            Sense::AtMost,
            &[4],
            &[single(1, 1, 2, 2), single(1, 1, 2, height)],
        )
    };
    stays(two(2), 1);
    refuses(two(3));
}

#[test]
fn case_6_bare_days() {
    stays(at_least(2, &[single(1, 2, 3, 2), single(5, 2, 7, 2)]), 1);
}

#[test]
fn case_7_bars_on_both_sides() {
    let b = wide(1, to(0, 9), to(1, 1), to(1, 10), to(-2, -2));
    let settled = settles(at_least(0, &[single(3, 2, 5, 2), b]), 2);
    let left = wide(1, to(3, 4), to(1, 1), to(4, 5), to(-2, -2));
    assert_eq!(settled.tasks, [single(3, 2, 5, 2), left]);
}

#[test]
fn case_8_barred_middle_stays_inside() {
    let b = wide(1, to(1, 3), to(1, 1), to(2, 4), to(-2, -2));
    let plan = at_least(-3, &[single(2, 1, 3, -2), b]);
    assert_eq!(allowed::count(&plan), Ok(2));
    stays(plan, 1);
}

#[test]
fn case_9_six_allowed_plans_before_and_after() {
    assert_eq!(allowed::count(&case_9()), Ok(6));
    assert_eq!(allowed::count(&settles(case_9(), 3)), Ok(6));
}

/// By hand. First pass: on day 2, where task 0 is sure, task 1 is needed on the first resource. Second: task 1 is sure there, so its height is
/// at least 4 - 1. Third: nothing.
#[test]
fn case_9_pass_by_pass() {
    let needed = wide(1, to(1, 2), to(2, 2), to(3, 4), to(0, 4));
    let lifted = wide(1, to(1, 2), to(2, 2), to(3, 4), to(3, 4));
    let mut plan = case_9();
    for task in [needed, lifted.clone(), lifted] {
        assert_eq!(pass(&mut plan, None), Ok(()));
        assert_eq!(plan.tasks, [case_9().tasks[0].clone(), task]);
    }
}

#[test]
fn case_9_whole_output() {
    let mut buffer = [0; 200];
    let length = file::write(&case_9(), &mut buffer).unwrap();
    let output = program::answer(&buffer[..length], None);
    assert_eq!(
        output,
        "settled 3\n0 1 1 2 2 2 3 4 0 1\n1 1 1 2 2 2 3 4 3 4\n"
    );
}

#[test]
fn refusal_output() {
    let plan = at_least(0, &[single(5, 1, 6, -1)]);
    assert_eq!(
        program::answer(&file::unchecked_bytes(&plan), None),
        "refused 7 0\n"
    );
}
