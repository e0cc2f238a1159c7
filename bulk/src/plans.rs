//! Fresh plan files without end: the second program's makers, and tiny plans of our own.

use second::file::{self, LB, PL, RH, RS};
use second::make::{self, KINDS, LONG_KINDS};
use second::random::Random;
use second::{Band, Kind, Plan, Range, Resource, Sense, Set, Task};

/// The makers' kinds that take long day by day come up once in so many turns.
const LONG_EVERY: u64 = 61;
/// Tiny plans after each turn of the makers' kinds.
const TINY: u64 = 40;
/// Of the tiny plans one in so many has held resources.
const HELD_ONE_IN: u64 = 3;
/// Of the tiny plans' files one in so many is damaged.
const DAMAGED_ONE_IN: u64 = 20;
/// The plan files of a turn.
const FILES: u64 = KINDS + TINY;

/// The plan files of one seed that fall to one thread: of `threads` turns it takes one.
pub struct Source {
    seed: u64,
    threads: u64,
    turn: u64,
    /// The next file of the turn.
    at: u64,
}

impl Source {
    pub fn new(seed: u64, thread: u64, threads: u64) -> Source {
        Source {
            seed,
            threads,
            turn: thread,
            at: 0,
        }
    }

    /// The next plan file, and a random source of its own for what is tried on it.
    pub fn next_file(&mut self) -> (Vec<u8>, Random) {
        loop {
            let (turn, at) = (self.turn, self.at);
            self.at += 1;
            if self.at == FILES {
                self.at = 0;
                self.turn += self.threads;
            }
            let mut random = Random::new(!self.seed, turn * FILES + at);
            if at >= KINDS {
                let mut file = file::unchecked_bytes(&tiny(&mut random));
                if random.one_in(DAMAGED_ONE_IN) {
                    damage(&mut random, &mut file);
                }
                return (file, random);
            }
            if !LONG_KINDS.contains(&at) || turn % LONG_EVERY == 0 {
                return (make::plan_file(self.seed, turn * KINDS + at), random);
            }
        }
    }
}

/// One bit changed, one byte gone, the end cut off, a resource's mark changed, or a record that isn't due put anywhere.
fn damage(random: &mut Random, file: &mut Vec<u8>) {
    let at = random.place(file.len());
    // After the first record or a resource's, where resources and bands stand.
    let after_some = file::length(random.place(4), 0, 0).min(file.len());
    match random.within(0, 5) {
        0 => file[at] ^= 1 << random.within(0, 7),
        1 => {
            file.remove(at);
        }
        2 => file.truncate(at),
        3 | 4 => change_mark(random, &mut file[after_some..]),
        _ => {
            let record = random.pick(&[LB, RH, RH, RS]);
            let mut bytes = record.mark.to_vec();
            bytes.resize(record.length, 0);
            let at = random.pick(&[at, PL.length, after_some]).min(file.len());
            file.splice(at..at, bytes);
        }
    }
}

/// The mark of the record here: RS or RH, whichever record it is, or one byte of it another.
fn change_mark(random: &mut Random, record: &mut [u8]) {
    let Some(mark) = record.first_chunk_mut() else {
        return;
    };
    *mark = match random.within(0, 3) {
        0 => RS.mark,
        1 => RH.mark,
        2 => [mark[0], random.pick(b"SHRTLX")],
        _ => [random.pick(b"SHRTLX"), mark[1]],
    };
}

/// A plan of a few tasks on a few days, balanced or not, with bands or without, with held resources or without, so that every rule meets
/// every other.
fn tiny(random: &mut Random) -> Plan {
    let count = random.pick(&[1, 1, 1, 2, 2, 3]);
    let days = random.within(1, 7);
    let longest = random.within(1, 4);
    let tasks = (0..random.within(1, 4))
        .map(|_| tiny_task(random, count, days, longest))
        .collect();
    let resource = |place: usize| Resource::plain(place as i32, random.within(-4, 4));
    let plan = Plan {
        resources: (0..count).map(resource).collect(),
        bands: tiny_bands(random, count, days),
        tasks,
        sense: random.pick(&[Sense::AtLeast, Sense::AtMost]),
    };
    if random.one_in(HELD_ONE_IN) {
        return tiny_held(random, plan, days);
    }
    plan
}

/// The same plan with one or more held resources; up to two tasks more that have one of them only and last a day or none, so that days
/// between them are held, and a limit that bare days may keep or not.
fn tiny_held(random: &mut Random, mut plan: Plan, days: i64) -> Plan {
    let held = random.place(plan.resources.len());
    for (place, resource) in plan.resources.iter_mut().enumerate() {
        if place == held || random.one_in(2) {
            resource.kind = Kind::Held;
            resource.limit = random.within(-2, 2);
        }
    }
    for _ in 0..random.within(0, 2) {
        let origin = random.range(-1, days + 3, 1);
        let duration = random.pick(&[Range::single(0), Range::new(0, 1), Range::single(1)]);
        plan.tasks.push(Task {
            set: Set::only(held),
            origin,
            duration,
            end: origin.plus(duration),
            height: random.range(-2, 2, 1),
        });
    }
    plan
}

/// None for every second plan; else a few on each resource, day after day or with days between.
fn tiny_bands(random: &mut Random, resources: usize, days: i64) -> Vec<Band> {
    let mut bands = Vec::new();
    if random.one_in(2) {
        return bands;
    }
    for place in 0..resources {
        let mut from = random.within(-2, days + 1);
        for _ in 0..random.within(0, 4) {
            let limit = random.within(-5, 4);
            bands.push(Band { place, from, limit });
            from += random.pick(&[1, 1, 2, 3]);
        }
    }
    bands
}

fn tiny_task(random: &mut Random, resources: usize, days: i64, longest: i64) -> Task {
    let widest = random.within(0, days);
    let origin = random.range(0, days, widest);
    let duration = random.range(0, longest, 2);
    let end = match random.within(0, 3) {
        0 => random.range(0, days + longest, widest),
        _ => origin.plus(duration),
    };
    Task {
        set: random.set(resources),
        origin,
        duration,
        end,
        height: random.range(-4, 4, 2),
    }
}
