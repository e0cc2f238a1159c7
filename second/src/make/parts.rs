//! What plans are made of: ranges, sets, tasks, resources; and the same plan in other forms.

use crate::plan::*;
use crate::random::Random;

/// A range around a value, widened by up to `most` on either side, within ends.
pub fn around(random: &mut Random, value: i64, most: i64, ends: Range) -> Range {
    let low = (value - random.within(0, most)).max(ends.low);
    let high = (value + random.within(0, most)).min(ends.high);
    Range::new(low, high)
}

/// Any places below `resources`, or none.
pub fn any_places(random: &mut Random, resources: usize) -> Set {
    Set(random.bits()).common(Set::all(resources))
}

/// A non-empty set of places below `resources`: any, all, or most often one alone.
pub fn some_set(random: &mut Random, resources: usize) -> Set {
    let any = any_places(random, resources);
    match random.within(0, 3) {
        0 if any != Set::EMPTY => any,
        1 => Set::all(resources),
        _ => Set::only(random.place(resources)),
    }
}

/// A task with one value in each range, on one resource.
pub fn single_task(place: usize, origin: i64, duration: i64, height: i64) -> Task {
    balanced_task(
        Set::only(place),
        Range::single(origin),
        Range::single(duration),
        Range::single(height),
    )
}

/// A task whose ends are exactly what its origins and durations give.
pub fn balanced_task(set: Set, origin: Range, duration: Range, height: Range) -> Task {
    Task {
        set,
        origin,
        duration,
        end: origin.plus(duration),
        height,
    }
}

/// Plain resources with different identifiers and these limits.
fn resources(random: &mut Random, limits: &[i64]) -> Vec<Resource> {
    let mut list: Vec<Resource> = Vec::new();
    for limit in limits {
        let any = identifier(random.bits());
        let mut id = random.pick(&[any, any, any, 0, -1, i32::MIN, i32::MAX]);
        while list.iter().any(|earlier| earlier.id == id) {
            id = identifier(random.bits());
        }
        list.push(Resource::plain(id, *limit));
    }
    list
}

/// Any identifier, or one so small that it may come up again.
fn identifier(bits: u64) -> i32 {
    if bits & 1 == 0 {
        bits as i32
    } else {
        (bits % 50) as i32
    }
}

/// An at-least plan of these limits and tasks, its resources plain.
pub fn at_least(random: &mut Random, limits: &[i64], tasks: Vec<Task>) -> Plan {
    Plan {
        sense: Sense::AtLeast,
        resources: resources(random, limits),
        bands: Vec::new(),
        tasks,
    }
}

/// The same plan in the other sense for every second one; all days moved for
/// some; tasks in another order for some.
pub fn varied(random: &mut Random, mut plan: Plan) -> Plan {
    if random.one_in(2) {
        plan = plan.negated();
    }
    if random.one_in(2) {
        let by = random.pick(&[1, -1, 7, -20, 365, -1_000, 40_000, DAYS.low + 1_000]);
        plan = moved(plan, by);
    }
    if random.one_in(3) && !plan.tasks.is_empty() {
        let by = random.place(plan.tasks.len());
        plan.tasks.rotate_left(by);
    }
    plan
}

/// Every origin, end and band moved by so many days; the plan itself if one would leave its ends.
pub fn moved(plan: Plan, by: i64) -> Plan {
    let days = Range::single(by);
    let move_task = |task: &Task| Task {
        origin: task.origin.plus(days),
        end: task.end.plus(days),
        ..*task
    };
    let move_band = |band: &Band| Band {
        from: band.from + by,
        ..*band
    };
    let tasks: Vec<Task> = plan.tasks.iter().map(move_task).collect();
    let bands: Vec<Band> = plan.bands.iter().map(move_band).collect();
    let task_stands = |task: &Task| task.origin.stands_within(DAYS) && task.end.stands_within(DAYS);
    let band_stands = |band: &Band| Range::single(band.from).stands_within(DAYS);
    if tasks.iter().all(task_stands) && bands.iter().all(band_stands) {
        Plan {
            bands,
            tasks,
            ..plan
        }
    } else {
        plan
    }
}
