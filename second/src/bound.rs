//! "How many passes at most": request 6's number, added up task by task.

use crate::entry;
use crate::fault::Fault;
use crate::plan::*;
use crate::refusal::Refusal;

/// "the reported pass count at most 1 plus all that could be removed". "It holds
/// for any plan that settles; where settling ends in no plan, the failing pass comes
/// within the same number." The entry checks first; no step is made.
pub fn most_passes(plan: &Plan, fault: Option<Fault>) -> Result<u64, Refusal> {
    entry::check(plan)?;
    let removable = plan.tasks.iter().map(|task| removable(task, fault));
    let one = u64::from(fault != Some(Fault::BoundWithoutOne));
    Ok(one + removable.sum::<u64>())
}

/// "for every task the sum of high minus low over its four ranges, plus its number
/// of resources less one"
fn removable(task: &Task, fault: Option<Fault>) -> u64 {
    let [origin, mut duration, end, height] = task.ranges().map(Range::width);
    if fault == Some(Fault::RangeLeftOut) {
        duration = 0;
    }
    let resources = task.set.count(fault);
    origin + duration + end + height + resources - 1
}
