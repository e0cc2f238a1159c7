//! Streams of plan files, valid and damaged, the same for the same seed.

mod band_damage;
mod bands;
mod cases;
mod damage;
mod ends;
mod held;
mod held_damage;
mod parts;
mod plans;
mod rules;

use crate::file::unchecked_bytes;
use crate::plan::Plan;
use crate::random::{Aside, Random};
use crate::stream;

/// The kinds of valid plans that take turns, each once in a turn.
const VALID_KINDS: u64 = 18;
/// The damaged files of a turn, which take turns in their own kinds.
const DAMAGED: u64 = 4;
/// How many files a turn has; file number n is of kind n % KINDS.
pub const KINDS: u64 = VALID_KINDS + DAMAGED;

/// Of the valid plans made without bands so many in a hundred are given some.
const BANDED_PERCENT: i64 = 45;
/// Of the valid plans but for the longest so many in a hundred are made so that held days count.
const HELD_PERCENT: i64 = 20;
/// Of the other valid plans so many in a hundred are given held resources, and of those with many tasks.
const GIVEN_HELD_PERCENT: i64 = 22;
const MANY_GIVEN_HELD_PERCENT: i64 = 50;

const AT_ENDS: u64 = 15;
const LARGE: u64 = 16;
const CASES: u64 = 17;
/// The kinds that take long day by day: the ends of every range, many tasks.
pub const LONG_KINDS: [u64; 2] = [AT_ENDS, LARGE];

/// File number n of the stream with this seed. The kinds take turns, and within
/// a kind the turns go on (`turn`), so that each comes up in any long stream.
///
/// What concerns bands is drawn from a source aside, so that a plan that gets none
/// is the one that this number had before there were bands; so is what concerns
/// resources' kinds.
pub fn plan_file(seed: u64, n: u64) -> Vec<u8> {
    let random = &mut Random::new(seed, n);
    let (turn, kind) = (n / KINDS, n % KINDS);
    if kind >= VALID_KINDS {
        return damage::damaged(random, DAMAGED * turn + kind - VALID_KINDS);
    }
    let kinds = &mut random.aside(Aside::Kinds);
    let held = held_plan(kinds, kind, turn);
    let percent = if kind == LARGE {
        MANY_GIVEN_HELD_PERCENT
    } else {
        GIVEN_HELD_PERCENT
    };
    let is_given = held.is_none() && kinds.within(0, 99) < percent;
    let plan = held.unwrap_or_else(|| valid_plan(random, kind, turn));
    let mut plan = parts::varied(random, plan);
    let aside = &mut random.aside(Aside::Bands);
    if plan.bands.is_empty() && aside.within(0, 99) < BANDED_PERCENT {
        plan = bands::banded(aside, plan);
    }
    if is_given {
        plan = held::some_held(kinds, plan);
    }
    unchecked_bytes(&plan)
}

/// Now and then a plan in which held days count, in the place of one of this kind.
fn held_plan(random: &mut Random, kind: u64, turn: u64) -> Option<Plan> {
    match kind {
        AT_ENDS | LARGE => None,
        CASES => random.one_in(4).then(|| cases::held_case(random, turn)),
        _ => (random.within(0, 99) < HELD_PERCENT).then(|| held::held(random)),
    }
}

fn valid_plan(random: &mut Random, kind: u64, turn: u64) -> Plan {
    match (kind, turn % 3) {
        (0 | 1, _) => plans::with_allowed_plan(random, 0),
        (2, _) => plans::with_allowed_plan(random, 1),
        (3, 0) => plans::already_settled(random),
        (3, _) => plans::nearly_settled(random),
        (4, _) => plans::balanced(random),
        (5, _) => plans::unbalanced(random),
        (6, _) => plans::single_values(random),
        (7, 0) => plans::low_limits(random),
        (7, _) => rules::chain(random),
        (8, _) => rules::need(random),
        (9, _) => rules::bar_leaves_set(random),
        (10, _) => rules::bar_origins_and_ends(random),
        (11, _) => rules::bar_durations(random),
        (12, _) => rules::height_or_shortfall(random),
        (13 | 14, _) => rules::sure_and_wide(random),
        (AT_ENDS, _) => ends::at_ends(random, turn),
        (LARGE, _) => plans::large(random, turn),
        _ => cases::documented_case(random, turn),
    }
}

/// A stream of so many files.
pub fn stream(seed: u64, count: u64) -> Vec<u8> {
    let mut bytes = Vec::new();
    for n in 0..count {
        stream::add(&mut bytes, &plan_file(seed, n));
    }
    bytes
}
