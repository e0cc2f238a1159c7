//! Damaged plan files: every refusal a file can give, cut, bent and random ones.

use super::bands::{self, banded};
use super::held::some_held;
use super::parts::*;
use super::plans::balanced;
use super::{band_damage, held_damage};
use crate::file::{self, resource_record, unchecked_bytes, Head, Record, PL, RH, RS, TK};
use crate::plan::*;
use crate::program::READ_AT_MOST;
use crate::random::{Aside, Random};

/// How many kinds of damage take turns.
const KINDS: u64 = 60;

/// A damaged file; the kinds take turns, now and then on a plan with bands or held
/// resources, or with one of the kinds that damage those in its place.
pub fn damaged(random: &mut Random, turn: u64) -> Vec<u8> {
    let mut plan = sound_plan(random);
    let kinds = &mut random.aside(Aside::Kinds);
    match kinds.within(0, 5) {
        0 => return held_damage::damaged(kinds, plan),
        1 => plan = some_held(kinds, plan),
        _ => (),
    }
    let aside = &mut random.aside(Aside::Bands);
    match aside.within(0, 5) {
        0 | 1 => return band_damage::damaged(aside, plan),
        2 => plan = banded(aside, plan),
        _ => (),
    }
    match turn % KINDS {
        kind @ 0..=11 => cut(random, &plan, kind),
        kind @ 12..=23 => bent_mark(random, &plan, kind - 12),
        kind @ 24..=33 => bent_head(random, &plan, kind - 24),
        kind @ 34..=38 => left_over(random, plan, kind - 34),
        kind @ 39..=44 => unchecked_bytes(&bent_resources(random, plan, kind - 39)),
        kind @ 45..=51 => unchecked_bytes(&bent_task(random, plan, kind - 45, turn / KINDS)),
        kind => any_bytes(random, &plan, kind - 52),
    }
}

/// A valid plan with at least one task.
fn sound_plan(random: &mut Random) -> Plan {
    let mut plan = balanced(random);
    if plan.tasks.is_empty() {
        plan.tasks.push(single_task(0, 1, 1, 1));
    }
    varied(random, plan)
}

// ---- Damaged records ----

/// A record of the plan's file and where it starts: PL, a resource's, a TK.
fn some_record(random: &mut Random, plan: &Plan, kind: u64) -> (Record, usize) {
    let (resources, bands) = (plan.resources.len(), plan.bands.len());
    match kind {
        0 => (PL, 0),
        1 => {
            let place = random.place(resources);
            let record = resource_record(plan.resources[place].kind);
            (record, file::length(place, 0, 0))
        }
        _ => {
            let tasks = random.place(plan.tasks.len());
            (TK, file::length(resources, bands, tasks))
        }
    }
}

/// Each kind of record cut before its first byte, after its first, after its
/// mark, and before its last.
fn cut(random: &mut Random, plan: &Plan, kind: u64) -> Vec<u8> {
    let (record, start) = some_record(random, plan, kind / 4);
    let stays = match kind % 4 {
        0 => 0,
        1 => 1,
        2 => record.mark.len(),
        _ => record.length - 1,
    };
    let mut bytes = unchecked_bytes(plan);
    bytes.truncate(start + stays);
    bytes
}

/// Each kind of record with another mark; some also cut, where 8 goes before 9.
fn bent_mark(random: &mut Random, plan: &Plan, kind: u64) -> Vec<u8> {
    let (record, start) = some_record(random, plan, kind / 4);
    let [first, second] = record.mark;
    let bent = match kind % 4 {
        0 => [first, second ^ 1 << random.within(0, 7)],
        1 => [first ^ 1 << random.within(0, 7), second],
        2 => {
            let lower_case = record.mark.map(|byte| byte.to_ascii_lowercase());
            random.pick(&[[second, first], lower_case, [0, 0]])
        }
        // The mark of another kind of record.
        _ => match record {
            PL => random.pick(&[RS, TK]).mark,
            RS | RH => random.pick(&[TK, PL]).mark,
            _ => random.pick(&[RS, PL]).mark,
        },
    };
    let mut bytes = unchecked_bytes(plan);
    bytes[start..start + bent.len()].copy_from_slice(&bent);
    if random.one_in(3) {
        bytes.truncate(start + random.count(bent.len(), RS.length - 1));
    }
    bytes
}

/// The first record with another sense or other counts; some also cut.
fn bent_head(random: &mut Random, plan: &Plan, kind: u64) -> Vec<u8> {
    let mut head = Head::of(plan);
    bend_head(random, &mut head, kind);
    let mut bytes = unchecked_bytes(plan);
    bytes[..PL.length].copy_from_slice(&head.bytes());
    if random.one_in(4) {
        bytes.truncate(random.count(PL.length - 3, PL.length + 2));
    }
    bytes
}

/// Sense and counts that can't stand, several of them at once, in whose case
/// the order decides; and counts one off from the records there are.
fn bend_head(random: &mut Random, head: &mut Head, kind: u64) {
    let no_sense = Sense::AtLeast as u8 + 1;
    let most = MOST_TASKS as u16;
    let tasks = random.pick(&[most + 1, most + 1, most + 1, 2 * most, u16::MAX]);
    let more = MOST_RESOURCES as u8 + 1;
    match kind {
        0 => head.sense = no_sense,
        1 => head.sense = random.count(no_sense.into(), u8::MAX.into()) as u8,
        2 => head.resources = 0,
        3 => head.resources = random.pick(&[more, more, more, more + 1, 128, u8::MAX]),
        4 => head.tasks = tasks,
        5 => (head.sense, head.resources, head.tasks) = (no_sense, 0, tasks),
        6 => (head.resources, head.tasks) = (random.pick(&[0, more]), tasks),
        7 => (head.sense, head.resources) = (u8::MAX, random.pick(&[0, more])),
        8 if random.one_in(2) || head.resources == 1 => head.resources += 1,
        8 => head.resources -= 1,
        _ if random.one_in(2) => head.tasks += 1,
        _ => head.tasks -= 1,
    }
}

/// Bytes left over: one, a whole record, many, and after the longest file.
fn left_over(random: &mut Random, mut plan: Plan, kind: u64) -> Vec<u8> {
    let mut bytes = unchecked_bytes(&plan);
    match kind {
        0 => bytes.push(random.bits() as u8),
        1 => bytes.extend_from_within(bytes.len() - TK.length..),
        2 => bytes.resize(bytes.len() + random.count(2, 300), 0),
        3 => {
            bytes = unchecked_bytes(&longest(random));
            bytes.push(random.pick(&[0, b'T', b'P']));
        }
        _ => {
            // Left over, and a task that refusal 5 or 6 would be due for: 9 goes first.
            plan.tasks[0].set = Set::EMPTY;
            plan.tasks[0].origin = Range::new(1, 0);
            bytes = unchecked_bytes(&plan);
            bytes.push(0);
        }
    }
    assert!(bytes.len() <= READ_AT_MOST);
    bytes
}

/// As many resources and tasks as there may be, and for every second one as many bands.
fn longest(random: &mut Random) -> Plan {
    let tasks = vec![single_task(0, 1, 1, 1); MOST_TASKS];
    let aside = &mut random.aside(Aside::Bands);
    let count = aside.pick(&[0, MOST_BANDS]);
    Plan {
        bands: bands::rising(aside, MOST_RESOURCES, count),
        ..at_least(random, &[0; MOST_RESOURCES], tasks)
    }
}

// ---- Damaged lists ----

/// Identifiers that repeat and limits outside their ends.
fn bent_resources(random: &mut Random, mut plan: Plan, kind: u64) -> Plan {
    while plan.resources.len() < 3 {
        let limit = random.within(-2, 2);
        let id = 1_000 + plan.resources.len() as i32;
        plan.resources.push(Resource::plain(id, limit));
    }
    let last = plan.resources.len() - 1;
    let place = random.place(plan.resources.len());
    let (least, most) = (i64::from(i32::MIN), i64::from(i32::MAX));
    let outside = random.pick(&[POWERS.high + 1, POWERS.low - 1, least, most]);
    match kind {
        0 => plan.resources[last].id = plan.resources[0].id,
        1 => plan.resources[1].id = plan.resources[0].id,
        2 => plan.resources[place].limit = outside,
        3 => plan.resources[place].limit = least,
        4 => {
            // A limit outside first, an identifier that repeats later: 3 goes first.
            plan.resources[0].limit = outside;
            plan.resources[last].id = plan.resources[1].id;
        }
        _ => {
            // A limit outside, and a task that 5 or 6 would be due for: 4 goes first.
            plan.resources[last].limit = outside;
            plan.tasks[0].set = Set::EMPTY;
        }
    }
    plan
}

/// A task's ranges and sets that can't stand.
fn bent_task(random: &mut Random, mut plan: Plan, kind: u64, round: u64) -> Plan {
    const LAST_PLACE: usize = MOST_RESOURCES - 1;
    let beyond = Set::only(plan.resources.len().min(LAST_PLACE));
    if plan.resources.len() > LAST_PLACE {
        plan.resources.truncate(LAST_PLACE);
        plan.bands.retain(|band| band.place < LAST_PLACE);
        plan.tasks
            .iter_mut()
            .for_each(|task| task.set = Set::only(0));
    }
    let task_place = random.place(plan.tasks.len());
    let task = &mut plan.tasks[task_place];
    match kind {
        0 | 1 => bend_range(4 * round + kind, task),
        2 => task.set = Set::EMPTY,
        3 => task.set = task.set.joined(beyond),
        4 => {
            let sets = [beyond, Set::only(LAST_PLACE), Set::all(MOST_RESOURCES)];
            task.set = random.pick(&sets);
        }
        5 => {
            // 5 before 6 in one task.
            task.set = Set::EMPTY;
            bend_range(4 * round + 2, task);
        }
        _ => {
            // 6 in one task, 5 in the next: task by task.
            let last = plan.tasks.len();
            plan.tasks.push(plan.tasks[0]);
            plan.tasks[last - 1].set = beyond;
            bend_range(4 * round + 3, &mut plan.tasks[last]);
        }
    }
    plan
}

/// One range one too far at either end, or as far as a file can say, or low
/// above high: each range in each way in turn.
fn bend_range(turn: u64, task: &mut Task) {
    let (range, ends) = match (turn + turn / 4) % 4 {
        0 => (&mut task.origin, DAYS),
        1 => (&mut task.duration, DURATIONS),
        2 => (&mut task.end, DAYS),
        _ => (&mut task.height, POWERS),
    };
    match turn / 4 % 6 {
        0 => range.low = ends.low - 1,
        1 => range.high = ends.high + 1,
        2 => *range = Range::new(ends.high, ends.low),
        3 => range.low = range.high + 1,
        4 => range.low = i64::from(i32::MIN),
        _ => *range = Range::new(ends.high + 1, i64::from(i32::MAX)),
    }
}

// ---- Damage anywhere ----

/// Byte flips, cuts anywhere, and bytes that were never a plan.
fn any_bytes(random: &mut Random, plan: &Plan, kind: u64) -> Vec<u8> {
    let mut bytes = unchecked_bytes(plan);
    match kind {
        0..=3 => {
            for _ in 0..random.within(1, 3) {
                let place = random.place(bytes.len());
                bytes[place] ^= 1 << random.within(0, 7);
            }
        }
        4 => bytes.truncate(random.place(bytes.len())),
        5 => {
            // One byte gone: every later record stands at another place.
            bytes.remove(random.place(bytes.len()));
        }
        6 => bytes.insert(random.place(bytes.len()), random.bits() as u8),
        _ => return never_a_plan(random),
    }
    bytes
}

/// Random bytes, some with a PL in front: sense at least, one resource, any task count.
fn never_a_plan(random: &mut Random) -> Vec<u8> {
    let length = random.within(0, 80);
    let mut bytes: Vec<u8> = (0..length).map(|_| random.bits() as u8).collect();
    if random.one_in(2) && bytes.len() >= PL.length {
        let front = [PL.mark[0], PL.mark[1], Sense::AtLeast as u8, 1];
        bytes[..front.len()].copy_from_slice(&front);
    }
    bytes
}
