//! Damaged plan files with held resources: marks swapped and bent, records cut and misplaced.

use super::bands::banded;
use super::held::some_held;
use crate::file::{self, resource_record, unchecked_bytes, RH, RS};
use crate::plan::*;
use crate::random::Random;

/// A damaged file of this plan, which has a task and as yet no band and no held resource.
pub fn damaged(random: &mut Random, plan: Plan) -> Vec<u8> {
    let mut plan = some_held(random, plan);
    if random.one_in(3) {
        plan = banded(random, plan);
    }
    match random.within(0, 11) {
        0..=2 => swapped(random, plan),
        3..=6 => bent_mark(random, &plan),
        7 | 8 => cut(random, &plan),
        9 => held_for_another(random, &plan),
        _ => misplaced(random, &plan),
    }
}

/// RS for RH or RH for RS, once or everywhere: another plan, in which nothing is wrong by itself.
fn swapped(random: &mut Random, mut plan: Plan) -> Vec<u8> {
    let one = random.place(plan.resources.len());
    let all = random.one_in(3);
    for (place, resource) in plan.resources.iter_mut().enumerate() {
        if all || place == one {
            resource.kind = resource.kind.other();
        }
    }
    unchecked_bytes(&plan)
}

/// The record of a resource, most often of a held one, and where it starts.
fn some_resource(random: &mut Random, plan: &Plan) -> (file::Record, usize) {
    let held = |place: &usize| plan.resources[*place].is_held();
    let held: Vec<usize> = (0..plan.resources.len()).filter(held).collect();
    let any = random.place(plan.resources.len());
    let one = random.pick(&held);
    let place = random.pick(&[one, one, any]);
    let record = resource_record(plan.resources[place].kind);
    (record, file::length(place, 0, 0))
}

/// A resource with a mark that is neither RS nor RH, one byte of it changed or both; some also cut.
fn bent_mark(random: &mut Random, plan: &Plan) -> Vec<u8> {
    let (record, start) = some_resource(random, plan);
    let [first, second] = record.mark;
    let flip = 1 << random.within(0, 7);
    let bent = random.pick(&[
        [first ^ flip, second],
        [first, second ^ flip],
        [second, first],
        [second, second],
        [first, first],
        *b"RX",
        *b"SH",
        *b"HS",
        *b"Rh",
        *b"rh",
    ]);
    let mut bytes = unchecked_bytes(plan);
    bytes[start..start + bent.len()].copy_from_slice(&bent);
    if random.one_in(3) {
        bytes.truncate(start + random.count(bent.len(), record.length));
    }
    bytes
}

/// A resource cut before its first byte, inside its mark, inside its numbers.
fn cut(random: &mut Random, plan: &Plan) -> Vec<u8> {
    let (record, start) = some_resource(random, plan);
    let any = random.count(0, record.length - 1);
    let stays = random.pick(&[0, 1, record.mark.len(), record.length - 1, any, any]);
    let mut bytes = unchecked_bytes(plan);
    bytes.truncate(start + stays);
    bytes
}

/// Where PL, LB or TK is due.
fn due_for_another(random: &mut Random, plan: &Plan) -> usize {
    let (resources, bands, tasks) = (plan.resources.len(), plan.bands.len(), plan.tasks.len());
    match random.within(0, 3) {
        0 => 0,
        1 => file::length(resources, random.count(0, bands), 0),
        _ => file::length(resources, bands, random.place(tasks)),
    }
}

/// Another record with the mark RH.
fn held_for_another(random: &mut Random, plan: &Plan) -> Vec<u8> {
    let start = due_for_another(random, plan);
    let mut bytes = unchecked_bytes(plan);
    bytes[start..start + RH.mark.len()].copy_from_slice(&RH.mark);
    bytes
}

/// A whole RH, or RS, where none is due; among the resources one too many, and after all bytes left over.
fn misplaced(random: &mut Random, plan: &Plan) -> Vec<u8> {
    let mut bytes = unchecked_bytes(plan);
    let mut record = random.pick(&[RH, RH, RS]).mark.to_vec();
    record.resize(RH.length, random.pick(&[0, 7]));
    let at = match random.within(0, 5) {
        0 => bytes.len(),
        1 => file::length(random.place(plan.resources.len()), 0, 0),
        _ => due_for_another(random, plan),
    };
    bytes.splice(at..at, record);
    bytes
}
