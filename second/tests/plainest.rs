//! The resource step once more, as plainly as it can be written: others added
//! up task by task, every value in a list, every rule a filter on that list.

// The bounds stand as document 01 writes them, such as i + 1 <= end.
#![allow(clippy::int_plus_one)]

mod support;

use second::random::Random;
use second::steps::resource_step;
use second::{file, make, Kind, Plan, Range, Sense, Set, Task};
use support::*;

fn is_sure(task: &Task, r: usize, i: i64) -> bool {
    task.set.0 == 1 << r && task.origin.high <= i && i < task.end.low
}

fn is_possible(task: &Task, r: usize, i: i64) -> bool {
    task.set.0 >> r & 1 == 1 && task.origin.low <= i && i < task.end.high
}

fn hope(task: &Task, r: usize, i: i64) -> i64 {
    match task.height.high {
        highest if highest > 0 && is_possible(task, r, i) => highest,
        highest if highest < 0 && is_sure(task, r, i) => highest,
        _ => 0,
    }
}

/// The limit on day i, found by walking all bands: each that has begun takes the place of what stood before.
fn limit(plan: &Plan, r: usize, i: i64) -> i64 {
    let mut limit = plan.resources[r].limit;
    for band in &plan.bands {
        if band.place == r && i >= band.from {
            limit = band.limit;
        }
    }
    limit
}

/// Whether day i counts for shortfall and need: of a held resource, every pair of tasks tried.
fn counts(plan: &Plan, r: usize, i: i64) -> bool {
    let tasks = &plan.tasks;
    if plan.resources[r].kind == Kind::Plain {
        return tasks.iter().any(|task| is_sure(task, r, i));
    }
    let only = |task: &Task| task.set.0 == 1 << r;
    let hold = |one: &Task, other: &Task| {
        only(one) && one.origin.high <= i && only(other) && other.end.low > i
    };
    tasks
        .iter()
        .any(|one| tasks.iter().any(|other| hold(one, other)))
}

/// What is left of one task: the set, and a list for each range.
struct Lists {
    set: u64,
    origins: Vec<i64>,
    durations: Vec<i64>,
    ends: Vec<i64>,
    heights: Vec<i64>,
}

impl Lists {
    fn of(task: &Task) -> Lists {
        Lists {
            set: task.set.0,
            origins: task.origin.values().collect(),
            durations: task.duration.values().collect(),
            ends: task.end.values().collect(),
            heights: task.height.values().collect(),
        }
    }

    fn need(&mut self, task: &Task, r: usize, i: i64) {
        let high = task.duration.high;
        self.set &= 1 << r;
        self.origins.retain(|&v| i - high + 1 <= v && v <= i);
        self.ends.retain(|&v| i + 1 <= v && v <= i + high);
    }

    fn bar(&mut self, task: &Task, r: usize, i: i64) {
        if task.origin.high <= i && i < task.end.low {
            self.set &= !(1 << r);
        }
        if task.set.0 == 1 << r {
            let low = task.duration.low;
            self.origins.retain(|&v| !(i - low + 1 <= v && v <= i));
            self.ends.retain(|&v| !(i + 1 <= v && v <= i + low));
            let most = (i - task.origin.low).max(task.end.high - i - 1);
            self.durations.retain(|&v| v <= most);
        }
    }

    /// None if the set or a list is empty.
    fn task(&self) -> Option<Task> {
        let range = |values: &[i64]| Some(Range::new(*values.first()?, *values.last()?));
        (self.set != 0).then_some(Task {
            set: Set(self.set),
            origin: range(&self.origins)?,
            duration: range(&self.durations)?,
            end: range(&self.ends)?,
            height: range(&self.heights)?,
        })
    }
}

/// None if there is no plan.
fn narrowed(plan: &Plan, place: usize, r: usize) -> Option<Task> {
    let tasks = &plan.tasks;
    let task = &tasks[place];
    let mut left = Lists::of(task);
    let first = tasks.iter().map(|task| task.origin.low).min()?;
    let last = tasks.iter().map(|task| task.end.high).max()?;
    for i in first..=last {
        let l = limit(plan, r, i);
        let mut others = 0;
        for (other, task) in tasks.iter().enumerate() {
            if other != place {
                others += hope(task, r, i);
            }
        }
        let counts = counts(plan, r, i);
        let possible = is_possible(task, r, i);
        if counts && others + hope(task, r, i) < l {
            return None;
        }
        if counts && possible && task.height.high > 0 && others < l {
            left.need(task, r, i);
        }
        if possible && others + task.height.high < l {
            left.bar(task, r, i);
        }
        if is_sure(task, r, i) {
            left.heights.retain(|&v| v >= l - others);
        }
    }
    left.task()
}

/// None if there is no plan.
fn plainest_step(plan: &Plan, r: usize) -> Option<Plan> {
    if plan.sense == Sense::AtMost {
        return plainest_step(&plan.negated(), r).map(|stepped| stepped.negated());
    }
    let tasks: Option<Vec<Task>> = (0..plan.tasks.len())
        .map(|place| narrowed(plan, place, r))
        .collect();
    Some(Plan {
        tasks: tasks?,
        ..plan.clone()
    })
}

/// Every resource step of the plan both ways; true if one changed it.
fn compare(plan: &Plan) -> bool {
    let mut changed = false;
    for r in 0..plan.resources.len() {
        let mut stepped = plan.clone();
        let result = resource_step(&mut stepped, r, None);
        let plainest = plainest_step(plan, r);
        assert_eq!(result.is_ok(), plainest.is_some(), "{plan:?}");
        assert_eq!(stepped, plainest.unwrap_or(plan.clone()), "{plan:?}");
        changed |= stepped != *plan;
    }
    changed
}

#[test]
fn the_resource_step_equals_its_plainest_form() {
    let mut changed = 0;
    for n in 0..10_000 {
        changed += u32::from(compare(&small_plan(&mut Random::new(21, n))));
    }
    assert!(changed > 300, "{changed}");
}

/// Few tasks, days and heights: every value is listed for every task.
fn is_small(plan: &Plan) -> bool {
    let few_values =
        |task: &Task| task.end.high - task.origin.low < 200 && task.height.count() <= 100;
    plan.tasks.len() < 50 && plan.tasks.iter().all(few_values)
}

#[test]
fn the_same_on_a_made_stream() {
    let mut changed = 0;
    for n in 0..1_500 {
        match file::read(&make::plan_file(5, n)) {
            Ok(plan) if is_small(&plan) => changed += u32::from(compare(&plan)),
            _ => (),
        }
    }
    assert!(changed > 200, "{changed}");
}
