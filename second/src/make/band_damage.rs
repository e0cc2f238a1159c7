//! Damaged plan files with bands: lists that refusal 13 is due for, records cut, bent and misplaced.

use super::bands::{banded, rising};
use crate::file::{self, unchecked_bytes, LB, PL, RS, TK};
use crate::plan::*;
use crate::random::Random;

/// A damaged file of this plan, which has a task and as yet no band.
pub fn damaged(random: &mut Random, plan: Plan) -> Vec<u8> {
    let plan = with_bands(random, plan);
    match random.within(0, 23) {
        0..=7 => unchecked_bytes(&bent(random, plan)),
        8..=10 => with_more_to_refuse(random, plan),
        11..=13 => cut(random, &plan),
        14..=16 => bent_mark(random, &plan),
        17..=20 => misplaced(random, &plan),
        _ => too_many(random, plan),
    }
}

/// A plan that has a few bands, now and then as many as there may be.
fn with_bands(random: &mut Random, mut plan: Plan) -> Plan {
    if random.one_in(2) {
        plan = banded(random, plan);
    }
    if plan.bands.len() < 2 {
        let count = random.pick(&[2, 2, 3, 4, 7, MOST_BANDS - 1, MOST_BANDS]);
        plan.bands = rising(random, plan.resources.len(), count);
    }
    plan
}

// ---- Damaged lists ----

/// One band that can't stand.
fn bent(random: &mut Random, mut plan: Plan) -> Plan {
    let place = random.place(plan.bands.len());
    bend(random, &mut plan, place);
    if random.one_in(4) {
        // A second one: the first decides.
        let other = random.place(plan.bands.len());
        bend(random, &mut plan, other);
    }
    plan
}

/// The band at this place out of order, beyond its ends, or naming no resource.
fn bend(random: &mut Random, plan: &mut Plan, place: usize) {
    let (least, most) = (i64::from(i32::MIN), i64::from(i32::MAX));
    let resources = plan.resources.len();
    let before = plan.bands[place.saturating_sub(1)];
    let band = &mut plan.bands[place];
    match random.within(0, 7) {
        // The day of the one before it, or an earlier one; of the first band nothing is bent.
        0 | 1 => (band.place, band.from) = (before.place, before.from - random.within(0, 2)),
        2 if before.place > 0 => band.place = before.place - 1,
        2 | 3 => band.place = random.pick(&[resources, resources, resources + 1, u16::MAX.into()]),
        4 => band.from = random.pick(&[DAYS.high + 1, DAYS.high + 1, most]),
        5 => band.from = random.pick(&[DAYS.low - 1, DAYS.low - 1, least]),
        6 => band.limit = random.pick(&[POWERS.high + 1, POWERS.low - 1, least, most]),
        _ => plan.bands.reverse(),
    }
}

/// A band that can't stand, and another refusal: 9, 3 and 4 go before 13, 5 and 6 after it.
fn with_more_to_refuse(random: &mut Random, plan: Plan) -> Vec<u8> {
    let mut plan = bent(random, plan);
    let last = plan.resources.len() - 1;
    match random.within(0, 4) {
        0 => plan.resources[last].limit = POWERS.high + 1,
        1 => plan.resources[last].id = plan.resources[0].id,
        2 => plan.tasks[0].origin = Range::new(1, 0),
        3 => plan.tasks[0].set = Set::EMPTY,
        _ => {
            let mut bytes = unchecked_bytes(&plan);
            bytes.push(random.pick(&[0, b'L', b'T']));
            return bytes;
        }
    }
    unchecked_bytes(&plan)
}

// ---- Damaged records ----

/// Where the band at this place starts.
fn start_of(plan: &Plan, band: usize) -> usize {
    file::length(plan.resources.len(), band, 0)
}

/// A band cut before its first byte, inside its mark, inside its numbers.
fn cut(random: &mut Random, plan: &Plan) -> Vec<u8> {
    let start = start_of(plan, random.place(plan.bands.len()));
    let any = random.count(0, LB.length - 1);
    let stays = random.pick(&[0, 1, 2, LB.length - 1, any, any]);
    let mut bytes = unchecked_bytes(plan);
    bytes.truncate(start + stays);
    bytes
}

/// A band with another mark, where a task is due then; some also cut.
fn bent_mark(random: &mut Random, plan: &Plan) -> Vec<u8> {
    let start = start_of(plan, random.place(plan.bands.len()));
    let [first, second] = LB.mark;
    let flip = 1 << random.within(0, 7);
    let bent = random.pick(&[
        [first ^ flip, second],
        [first, second ^ flip],
        [second, first],
        *b"lb",
        *b"RH",
        PL.mark,
        RS.mark,
        TK.mark,
    ]);
    let mut bytes = unchecked_bytes(plan);
    bytes[start..start + bent.len()].copy_from_slice(&bent);
    if random.one_in(3) {
        bytes.truncate(start + random.count(bent.len(), LB.length));
    }
    bytes
}

/// A band where none is due: before PL, before or among RS, among TK, after all.
fn misplaced(random: &mut Random, plan: &Plan) -> Vec<u8> {
    let band = unchecked_bytes(plan)[start_of(plan, 0)..start_of(plan, 1)].to_vec();
    let (resources, bands, tasks) = (plan.resources.len(), plan.bands.len(), plan.tasks.len());
    let at = match random.within(0, 5) {
        0 => 0,
        1 => PL.length,
        2 => file::length(random.place(resources), 0, 0),
        3 => file::length(resources, bands, random.place(tasks)),
        4 => file::length(resources, bands, random.count(1, tasks)),
        _ => file::length(resources, bands, tasks),
    };
    let mut bytes = unchecked_bytes(plan);
    bytes.splice(at..at, band);
    bytes
}

/// A 65th and more: met whole, cut short, with an earlier band bent, with nothing after it.
fn too_many(random: &mut Random, plan: Plan) -> Vec<u8> {
    let count = MOST_BANDS + random.pick(&[1, 1, 1, 2, 6]);
    let mut plan = Plan {
        bands: rising(random, plan.resources.len(), count),
        ..plan
    };
    if random.one_in(3) {
        let earlier = random.place(MOST_BANDS);
        bend(random, &mut plan, earlier);
    }
    let mut bytes = unchecked_bytes(&plan);
    let start = start_of(&plan, MOST_BANDS);
    match random.within(0, 3) {
        0 => bytes.truncate(start + random.count(0, LB.length - 1)),
        1 => bytes.truncate(start + LB.length),
        _ => (),
    }
    bytes
}
