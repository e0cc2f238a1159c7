//! Entry checks: refusals 1 to 6 and 13 with their places, in the documents' order.

use crate::plan::*;
use crate::refusal::Refusal;

/// "Order for lists: 1, 2, 3 over all resources, 4 over all, then task by task
/// 5 before 6, then 12 or 10, then 7." The last three are the calls' own. 13 comes
/// "after 4 and before 5".
pub fn check(plan: &Plan) -> Result<(), Refusal> {
    check_counts(plan.resources.len(), plan.tasks.len())?;
    check_contents(plan)
}

/// Refusals 1 and 2.
pub fn check_counts(resources: usize, tasks: usize) -> Result<(), Refusal> {
    if tasks > MOST_TASKS {
        return Err(Refusal::TOO_MANY_TASKS);
    }
    if resources == 0 || resources > MOST_RESOURCES {
        return Err(Refusal::NO_RESOURCE_OR_TOO_MANY);
    }
    Ok(())
}

/// Refusals 3, 4, 13, 5 and 6, for lists of resources and tasks whose lengths have been checked.
pub fn check_contents(plan: &Plan) -> Result<(), Refusal> {
    check_identifiers(&plan.resources)?;
    check_limits(&plan.resources)?;
    check_bands(&plan.bands, plan.resources.len())?;
    for (place, task) in plan.tasks.iter().enumerate() {
        if !ranges_stand(task) {
            return Err(Refusal::range_outside(place));
        }
        if !set_stands(task.set, plan.resources.len()) {
            return Err(Refusal::set_empty_or_beyond(place));
        }
    }
    Ok(())
}

fn check_identifiers(resources: &[Resource]) -> Result<(), Refusal> {
    for (place, resource) in resources.iter().enumerate() {
        let mut earlier = resources[..place].iter();
        if earlier.any(|earlier| earlier.id == resource.id) {
            return Err(Refusal::identifier_repeats(place));
        }
    }
    Ok(())
}

fn check_limits(resources: &[Resource]) -> Result<(), Refusal> {
    for (place, resource) in resources.iter().enumerate() {
        if !Range::single(resource.limit).stands_within(POWERS) {
            return Err(Refusal::limit_outside(place));
        }
    }
    Ok(())
}

/// "13 for a band out of order, beyond its ends, naming no resource, or a 65th,
/// place the first such band".
fn check_bands(bands: &[Band], resources: usize) -> Result<(), Refusal> {
    for (place, band) in bands.iter().enumerate() {
        let in_order = bands[..place]
            .last()
            .is_none_or(|before| rises(before, band));
        let is_beyond = place >= MOST_BANDS;
        if !in_order || is_beyond || !band_stands(band, resources) {
            return Err(Refusal::band_outside(place));
        }
    }
    Ok(())
}

/// "strictly rising by place and then by day"
fn rises(before: &Band, band: &Band) -> bool {
    before.place < band.place || (before.place == band.place && before.from < band.from)
}

fn band_stands(band: &Band, resources: usize) -> bool {
    Range::single(band.from).stands_within(DAYS)
        && Range::single(band.limit).stands_within(POWERS)
        && band.place < resources
}

fn ranges_stand(task: &Task) -> bool {
    task.origin.stands_within(DAYS)
        && task.duration.stands_within(DURATIONS)
        && task.end.stands_within(DAYS)
        && task.height.stands_within(POWERS)
}

fn set_stands(set: Set, resources: usize) -> bool {
    set != Set::EMPTY && set.places().all(|place| place < resources)
}
