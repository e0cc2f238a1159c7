//! Bands by cases worked out by hand: which day's limit counts, in every rule and in the allowed plans.

mod support;

use second::steps::settle;
use second::{allowed, file, program, words, Plan, Refusal, Sense, Task};
use support::*;

/// Settles in so many passes, with these tasks, and has so many allowed plans before and after.
fn settles_to(mut plan: Plan, passes: u64, tasks: &[Task], count: u64) {
    assert_eq!(allowed::count(&plan), Ok(count));
    let bands = plan.bands.clone();
    assert_eq!(settle(&mut plan, None), Ok(passes));
    assert_eq!(plan.tasks, tasks);
    assert_eq!(plan.bands, bands);
    assert_eq!(allowed::count(&plan), Ok(count));
}

/// Settles in one pass, so changes nothing, and has so many allowed plans.
fn stays(plan: Plan, count: u64) {
    let tasks = plan.tasks.clone();
    settles_to(plan, 1, &tasks, count);
}

/// No plan.
fn refuses(plan: Plan) {
    let mut after = plan.clone();
    assert_eq!(settle(&mut after, None), Err(Refusal::new(7, 0)));
    assert_eq!(after, plan);
    assert_eq!(allowed::count(&plan), Ok(0));
}

/// A task of one resource set, duration and height whose ends follow from its origins.
fn moving(set: u64, origin: (i64, i64), duration: i64, height: i64) -> Task {
    let (low, high) = origin;
    let ends = to(low + duration, high + duration);
    wide(
        set,
        to(low, high),
        to(duration, duration),
        ends,
        to(height, height),
    )
}

/// Days 1 and 2 are covered at level 0: a band of limit 0 from day 1 hides the limit 5, one from day 2 leaves it on day 1.
#[test]
fn a_band_on_the_first_listed_day() {
    let plan = at_least(5, &[single(1, 2, 3, 0)]);
    stays(with_bands(plan.clone(), &[(0, 1, 0)]), 1);
    stays(with_bands(plan.clone(), &[(0, 0, 0)]), 1);
    refuses(with_bands(plan.clone(), &[(0, 2, 0)]));
    refuses(plan);
}

/// Days 1 and 2 are covered at level 0: limit 9 from day 3 on is not noticed, from day 2 on it is.
#[test]
fn a_band_beyond_the_last_listed_day() {
    let plan = at_least(0, &[single(1, 2, 3, 0)]);
    stays(with_bands(plan.clone(), &[(0, 3, 9)]), 1);
    stays(with_bands(plan.clone(), &[(0, 4, 9)]), 1);
    refuses(with_bands(plan, &[(0, 2, 9)]));
}

/// Level 2 fails limit 3, on one day alone: in the middle it stays inside the range, at the rim it goes.
#[test]
fn two_bands_on_neighbouring_days() {
    let plan = at_least(0, &[moving(1, (0, 4), 1, 2)]);
    stays(with_bands(plan.clone(), &[(0, 2, 3), (0, 3, 1)]), 4);
    let rim = with_bands(plan.clone(), &[(0, 0, 3), (0, 1, 1)]);
    settles_to(rim, 2, &[moving(1, (1, 4), 1, 2)], 4);
    // Days 3 and 4 have limit 3, and no day after them is covered.
    let end = with_bands(plan, &[(0, 3, 3), (0, 4, 4)]);
    settles_to(end, 2, &[moving(1, (0, 2), 1, 2)], 3);
}

/// The task covers days 5 and 6 for sure; limit 1 on the first, 3 on the second: its height is at least 3.
#[test]
fn a_band_between_two_sure_days() {
    let task = |low| wide(1, to(5, 5), to(2, 2), to(7, 7), to(low, 4));
    let plan = at_least(1, &[task(1)]);
    settles_to(with_bands(plan.clone(), &[(0, 6, 3)]), 2, &[task(3)], 2);
    // The other way round: the higher limit stands until the band begins.
    let falling = with_bands(at_least(3, &[task(1)]), &[(0, 6, 1)]);
    settles_to(falling, 2, &[task(3)], 2);
    // From day 7 on nothing is covered.
    stays(with_bands(plan, &[(0, 7, 3)]), 4);
}

/// Two days at level 1 can't touch -7, -6 and -5, where the limit is 2: origins -8 to -5 go.
#[test]
fn negative_days() {
    let bands = [(0, -7, 2), (0, -4, 0)];
    let wider = at_least(0, &[moving(1, (-9, -3), 2, 1)]);
    stays(with_bands(wider, &bands), 3);
    let plan = at_least(0, &[moving(1, (-8, -3), 2, 1)]);
    let left = moving(1, (-4, -3), 2, 1);
    settles_to(with_bands(plan, &bands), 2, &[left], 2);
}

/// Days 2 and 3 at level 1: resource 0 has limit 5 there, resource 1 not before day 4.
#[test]
fn bands_of_two_resources() {
    let plan = plan(Sense::AtLeast, &[0, 0], &[moving(3, (2, 2), 2, 1)]);
    let second_left = moving(2, (2, 2), 2, 1);
    let bands = [(0, 2, 5), (1, 4, 5)];
    settles_to(with_bands(plan.clone(), &bands), 2, &[second_left], 1);
    let first_left = moving(1, (2, 2), 2, 1);
    let bands = [(0, -3, 5), (0, 1, 1), (1, 3, 2)];
    settles_to(with_bands(plan.clone(), &bands), 2, &[first_left], 1);
    refuses(with_bands(plan.clone(), &[(0, 2, 5), (1, 3, 5)]));
    stays(with_bands(plan, &[(0, 4, 5), (1, 4, 5)]), 2);
}

/// A takes 2 of 4 on days 1 to 4, B 1 on one day: with limit 2 on days 3 and 4 and limit 0 from day 5 on, B is done by day 2.
#[test]
fn sense_at_most() {
    let a = single(1, 4, 5, 2);
    let at_most = plan(Sense::AtMost, &[4], &[a, moving(1, (0, 6), 1, 1)]);
    stays(at_most.clone(), 7);
    let banded = with_bands(at_most.clone(), &[(0, 3, 2), (0, 5, 0)]);
    settles_to(banded, 2, &[a, moving(1, (0, 2), 1, 1)], 3);
    // Limit 1 on day 4, where A alone has 2.
    refuses(with_bands(at_most.clone(), &[(0, 4, 1)]));
    // Higher from day 3 on: nothing is barred.
    stays(with_bands(at_most, &[(0, 3, 9)]), 7);
}

/// A is sure on days 3 to 5 at level 0; limit 2 on day 4 alone: only there B is needed.
#[test]
fn a_need_that_only_a_band_causes() {
    let a = single(3, 3, 6, 0);
    let plan = at_least(0, &[a, moving(1, (0, 6), 1, 2)]);
    stays(plan.clone(), 7);
    let banded = with_bands(plan.clone(), &[(0, 4, 2), (0, 5, 0)]);
    settles_to(banded, 2, &[a, moving(1, (4, 4), 1, 2)], 1);
    // On day 6 A is over: nothing needs B, and B alone reaches 2.
    stays(with_bands(plan.clone(), &[(0, 6, 2)]), 7);
    // On days 4 and 5 both: B can be on one of them only.
    refuses(with_bands(plan, &[(0, 4, 2)]));
}

/// Days 3 and 4 have limit 9 and no task.
#[test]
fn a_bare_day_in_a_band() {
    let plan = at_least(0, &[single(1, 2, 3, 0), single(5, 1, 6, 0)]);
    stays(with_bands(plan.clone(), &[(0, 3, 9), (0, 5, 0)]), 1);
    refuses(with_bands(plan, &[(0, 3, 9), (0, 6, 0)]));
}

/// The same limit once more changes nothing, whoever says it.
#[test]
fn equal_neighbouring_limits() {
    let plan = at_least(1, &[single(1, 3, 4, 1)]);
    stays(with_bands(plan.clone(), &[(0, 2, 1), (0, 3, 1)]), 1);
    refuses(with_bands(plan.clone(), &[(0, 2, 2), (0, 3, 2)]));
    refuses(with_bands(plan, &[(0, 2, 2), (0, 3, 1)]));
}

/// Of the bands that have begun the last one counts.
#[test]
fn the_last_band_that_has_begun() {
    let bands = [(0, 1, 5), (0, 2, 4), (0, 3, 0)];
    stays(with_bands(at_least(0, &[single(3, 1, 4, 0)]), &bands), 1);
    stays(with_bands(at_least(0, &[single(2, 1, 3, 4)]), &bands), 1);
    refuses(with_bands(at_least(0, &[single(2, 1, 3, 3)]), &bands));
    refuses(with_bands(at_least(0, &[single(1, 1, 2, 4)]), &bands));
    stays(with_bands(at_least(0, &[single(0, 1, 1, 0)]), &bands), 1);
}

/// From the first day there is, a band hides the resource's own limit for good; on the last day nothing can be covered.
#[test]
fn bands_at_the_ends() {
    let first = single(-100_000, 1, -99_999, -1_000_000);
    let plan = at_least(9, &[first]);
    stays(with_bands(plan.clone(), &[(0, -100_000, -1_000_000)]), 1);
    refuses(with_bands(plan, &[(0, -99_999, -1_000_000)]));
    let last = single(99_999, 1, 100_000, 0);
    let plan = at_least(0, &[last]);
    stays(with_bands(plan.clone(), &[(0, 100_000, 1_000_000)]), 1);
    refuses(with_bands(plan, &[(0, 99_999, 1_000_000)]));
}

/// Limit 0 from day 0 on, said 63 times, and 7 from day 63 on: the 64th band counts.
#[test]
fn the_64th_band() {
    let mut bands: Vec<(usize, i64, i64)> = (0..63).map(|day| (0, day, 0)).collect();
    bands.push((0, 63, 7));
    let banded = |height| with_bands(at_least(0, &[single(63, 1, 64, height)]), &bands);
    refuses(banded(6));
    stays(banded(7), 1);
    let before = single(62, 1, 63, 0);
    stays(with_bands(at_least(0, &[before]), &bands), 1);
}

#[test]
fn whole_output_and_words() {
    let plan = at_least(0, &[single(3, 3, 6, 0), moving(1, (0, 6), 1, 2)]);
    let plan = with_bands(plan, &[(0, 4, 2), (0, 5, -1)]);
    let mut buffer = [0; 200];
    let length = file::write(&plan, &mut buffer).unwrap();
    assert_eq!(
        program::answer(&buffer[..length], None),
        "settled 2\n0 1 3 3 3 3 6 6 0 0\n1 1 4 4 1 1 5 5 2 2\n"
    );
    assert_eq!(
        words::of_plan(&plan),
        "sense at least, resources 1, bands 2, tasks 2\n\
         resource 0: identifier 1, limit 0\n\
         band 0 from 4 limit 2\n\
         band 0 from 5 limit -1\n\
         task 0: set {0}, origin 3, duration 3, end 6, height 0\n\
         task 1: set {0}, origin 0..6, duration 1, end 1..7, height 2\n"
    );
}
