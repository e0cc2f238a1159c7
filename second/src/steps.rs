//! Balance, resource step, pass and settling, by document 01's words; settling within a number of passes.
//!
//! "Everything in one step is worked out from the ranges as they entered that
//! step. The report prunes while it sweeps; we do not." "Every public call checks its own input. On each refusal, task lists
//! and buffers keep their entry contents."

use crate::entry;
use crate::fault::Fault;
use crate::left::Left;
use crate::plan::*;
use crate::refusal::Refusal;
use crate::rules::Step;

/// The balance step.
pub fn balance(plan: &mut Plan) -> Result<(), Refusal> {
    entry::check(plan)?;
    plan.tasks = balanced(&plan.tasks)?;
    Ok(())
}

/// "Balance. For every task": each range cut by the two others.
fn balanced(tasks: &[Task]) -> Result<Vec<Task>, Refusal> {
    tasks.iter().map(balanced_task).collect()
}

fn balanced_task(task: &Task) -> Result<Task, Refusal> {
    let mut left = Left::all_of(task);
    // "origin is cut to (end low - duration high) .. (end high - duration low)"
    left.origin.keep_within(task.end.minus(task.duration));
    // "end to (origin low + duration low) .. (origin high + duration high)"
    left.end.keep_within(task.origin.plus(task.duration));
    // "duration to (end low - origin high) .. (end high - origin low)"
    left.duration.keep_within(task.end.minus(task.origin));
    left.task(None)
}

/// The resource step for the resource at `place`.
pub fn resource_step(plan: &mut Plan, place: usize, fault: Option<Fault>) -> Result<(), Refusal> {
    entry::check(plan)?;
    if place >= plan.resources.len() {
        return Err(Refusal::PLACE_NOT_IN_LIST);
    }
    plan.tasks = stepped(plan, place, fault)?;
    Ok(())
}

/// "Sense at most is the same with every height and limit negated and each
/// height's two ends swapped".
fn stepped(plan: &Plan, place: usize, fault: Option<Fault>) -> Result<Vec<Task>, Refusal> {
    match plan.sense {
        Sense::AtLeast => Step { plan, place, fault }.tasks(),
        Sense::AtMost => {
            let tasks = stepped(&plan.negated(), place, fault)?;
            Ok(tasks.iter().map(Task::negated).collect())
        }
    }
}

/// One pass by itself, as a call.
pub fn pass(plan: &mut Plan, fault: Option<Fault>) -> Result<(), Refusal> {
    entry::check(plan)?;
    let places = 0..plan.resources.len();
    plan.tasks = match fault {
        Some(Fault::PassBackwards) => passed(plan, places.rev(), fault)?,
        _ => passed(plan, places, fault)?,
    };
    Ok(())
}

/// "Pass: balance, then the resource step for each resource in list order."
fn passed(
    plan: &Plan,
    places: impl Iterator<Item = usize>,
    fault: Option<Fault>,
) -> Result<Vec<Task>, Refusal> {
    let mut passed = plan.clone();
    passed.tasks = balanced(&passed.tasks)?;
    let stride = match fault {
        Some(Fault::NeighbourSkipped) => 2,
        _ => 1,
    };
    for place in places.step_by(stride) {
        passed.tasks = stepped(&passed, place, fault)?;
    }
    Ok(passed.tasks)
}

/// "Settling: passes until one changes nothing. The pass count includes that
/// last one and is reported only on success; a refusal reports 0."
pub fn settle(plan: &mut Plan, fault: Option<Fault>) -> Result<u64, Refusal> {
    entry::check(plan)?;
    let mut settled = plan.clone();
    let mut passes = 1;
    while pass_changes(&mut settled, fault)? {
        passes += 1;
    }
    *plan = settled;
    Ok(passes)
}

/// Settling for a host that "cuts off long calls": at most so many passes. The pass
/// count if one of them changes nothing; else none, and the plan is what they left.
pub fn settle_within(
    plan: &mut Plan,
    most: u64,
    fault: Option<Fault>,
) -> Result<Option<u64>, Refusal> {
    entry::check(plan)?;
    let most = match fault {
        Some(Fault::PassTooMany) => most.saturating_add(1),
        _ => most,
    };
    let mut left = plan.clone();
    for passes in 1..=most {
        if !pass_changes(&mut left, fault)? {
            *plan = left;
            return Ok(Some(passes));
        }
    }
    *plan = left;
    Ok(None)
}

/// Makes one of settling's passes and says whether it changes anything.
fn pass_changes(plan: &mut Plan, fault: Option<Fault>) -> Result<bool, Refusal> {
    let after = passed(plan, 0..plan.resources.len(), fault)?;
    let changes = after != plan.tasks;
    plan.tasks = after;
    Ok(changes)
}
