//! Cases 1 to 9 of document 01, "Days tried on both sides", both halves of each, cases of bands and of held resources.

use super::parts::*;
use crate::plan::*;
use crate::random::{Aside, Random};

/// One case after another, some with a limit one off; now and then a case of bands.
pub fn documented_case(random: &mut Random, turn: u64) -> Plan {
    let aside = &mut random.aside(Aside::Bands);
    if aside.one_in(3) {
        return band_case(aside, turn);
    }
    let mut cases = cases();
    let (limits, tasks) = cases.swap_remove((turn % cases.len() as u64) as usize);
    let mut plan = at_least(random, &limits, tasks);
    if random.one_in(3) {
        let place = random.place(plan.resources.len());
        plan.resources[place].limit += random.within(-1, 1);
    }
    plan
}

/// One case of bands after another, some with a band's day or limit one off.
fn band_case(random: &mut Random, turn: u64) -> Plan {
    let mut cases = band_cases();
    let mut case = cases.swap_remove((turn % cases.len() as u64) as usize);
    let place = random.place(case.bands.len());
    match random.within(0, 5) {
        0 => case.bands[place].limit += random.within(-1, 1),
        // Later than all others, or earlier: they stay in order.
        1 => case.bands.last_mut().expect("there are bands").from += 1,
        2 => case.bands[0].from -= 1,
        _ => (),
    }
    Plan {
        bands: case.bands,
        ..at_least(random, &case.limits, case.tasks)
    }
}

/// One case of a held resource after another, some with its limit one off.
pub fn held_case(random: &mut Random, turn: u64) -> Plan {
    let mut cases = held_cases();
    let mut case = cases.swap_remove((turn % cases.len() as u64) as usize);
    if random.one_in(3) {
        case.limits[0] += random.within(-1, 1);
    }
    let mut plan = Plan {
        bands: case.bands,
        ..at_least(random, &case.limits, case.tasks)
    };
    plan.resources[0].kind = Kind::Held;
    plan
}

/// "task written origin / duration / end / height"
fn written(origin: i64, duration: i64, end: i64, height: i64) -> Task {
    Task {
        end: Range::single(end),
        ..single_task(0, origin, duration, height)
    }
}

/// A task on any of so many resources, of one duration.
fn wide(resources: usize, origin: Range, duration: i64, height: Range) -> Task {
    balanced_task(Set::all(resources), origin, Range::single(duration), height)
}

/// A case of bands, sense at least.
struct BandCase {
    limits: Vec<i64>,
    bands: Vec<Band>,
    tasks: Vec<Task>,
}

/// The case of these limits, bands written as place, first day and limit, and tasks.
fn with_bands(limits: &[i64], bands: &[(usize, i64, i64)], tasks: &[Task]) -> BandCase {
    let band = |(place, from, limit): (usize, i64, i64)| Band { place, from, limit };
    BandCase {
        limits: limits.to_vec(),
        bands: bands.iter().copied().map(band).collect(),
        tasks: tasks.to_vec(),
    }
}

/// The cases that the tests of this program have worked out by hand.
fn band_cases() -> Vec<BandCase> {
    let (to, one) = (Range::new, Range::single);
    let lone = written(1, 2, 3, 0);
    let moving = wide(1, to(0, 4), 1, one(2));
    let negative = wide(1, to(-8, -3), 2, one(1));
    let taking = [written(1, 4, 5, -2), wide(1, to(0, 6), 1, one(-1))];
    let needing = [written(3, 3, 6, 0), wide(1, to(0, 6), 1, one(2))];
    vec![
        // on the first listed day; beyond the last
        with_bands(&[5], &[(0, 1, 0)], &[lone]),
        with_bands(&[0], &[(0, 3, 9)], &[lone]),
        // two on neighbouring days, with a barred middle and without
        with_bands(&[0], &[(0, 2, 3), (0, 3, 1)], &[moving]),
        with_bands(&[0], &[(0, 0, 3), (0, 1, 1)], &[moving]),
        // between two sure days of a task
        with_bands(&[1], &[(0, 6, 3)], &[wide(1, one(5), 2, to(1, 4))]),
        // negative days
        with_bands(&[0], &[(0, -7, 2), (0, -4, 0)], &[negative]),
        // of two resources
        with_bands(
            &[0, 0],
            &[(0, 2, 5), (1, 4, 5)],
            &[wide(2, one(2), 2, one(1))],
        ),
        // "at most", said in the other sense
        with_bands(&[-4], &[(0, 3, -2), (0, 5, 0)], &taking),
        // a need that only a band causes
        with_bands(&[0], &[(0, 4, 2), (0, 5, 0)], &needing),
        // a day that is bare while the band lasts
        with_bands(&[0], &[(0, 3, 9), (0, 5, 0)], &[lone, written(5, 1, 6, 0)]),
    ]
}

/// The cases of a held resource that the tests of this program have worked out by hand; the held one has place 0.
fn held_cases() -> Vec<BandCase> {
    let (to, one) = (Range::new, Range::single);
    let case_6 = [written(1, 2, 3, 2), written(5, 2, 7, 2)];
    let posts = [written(0, 0, 0, 0), written(4, 0, 4, 0)];
    let and = |task: Task| [posts[0], posts[1], task];
    let elsewhere = Task {
        set: Set::all(2),
        ..posts[1]
    };
    let barred = Task {
        set: Set::all(2),
        ..written(4, 1, 5, 0)
    };
    vec![
        // "Case 6 on a held resource is refusal 7."
        with_bands(&[2], &[], &case_6),
        with_bands(&[0], &[(0, 1, 2), (0, 3, 0), (0, 5, 2)], &case_6),
        // two tasks of duration 0, and one alone
        with_bands(&[1], &[], &posts),
        with_bands(&[0], &[], &posts),
        with_bands(&[5], &[], &posts[..1]),
        // a need on bare days, on all of them and on one that a band picks
        with_bands(&[1], &[], &and(wide(1, to(-3, 6), 4, one(1)))),
        with_bands(
            &[0],
            &[(0, 2, 1), (0, 3, 0)],
            &and(wide(1, to(-3, 6), 1, one(1))),
        ),
        // a task that could go elsewhere, and one that is barred there
        with_bands(&[1, -9], &[], &[posts[0], elsewhere]),
        with_bands(&[0, 1], &[(0, 1, 1), (0, 4, 0)], &[posts[0], barred]),
        with_bands(&[0, 1], &[(0, 4, 0)], &[posts[0], barred]),
    ]
}

/// Limits and tasks of each case, sense at least.
fn cases() -> Vec<(Vec<i64>, Vec<Task>)> {
    let to = Range::new;
    vec![
        (vec![3], vec![]),
        (vec![0], vec![written(5, 1, 6, -1)]),
        (vec![0], vec![written(5, 1, 6, 0)]),
        (vec![0], vec![written(5, 0, 5, -1)]),
        (vec![0], vec![written(5, 1, 7, 0)]),
        // "at most 4", said in the other sense
        (vec![-4], vec![written(1, 1, 2, -2), written(1, 1, 2, -2)]),
        (vec![-4], vec![written(1, 1, 2, -2), written(1, 1, 2, -3)]),
        (vec![2], vec![written(1, 2, 3, 2), written(5, 2, 7, 2)]),
        (
            vec![0],
            vec![written(3, 2, 5, 2), wide(1, to(0, 9), 1, to(-2, -2))],
        ),
        (
            vec![-3],
            vec![written(2, 1, 3, -2), wide(1, to(1, 3), 1, to(-2, -2))],
        ),
        (
            vec![4, 3],
            vec![
                wide(1, to(1, 2), 2, to(0, 1)),
                wide(2, to(0, 6), 2, to(0, 4)),
            ],
        ),
        // of the errors that look right: "two jobs back to back seem to clash"
        (vec![1], vec![written(0, 2, 2, 1), written(2, 2, 4, 1)]),
    ]
}
