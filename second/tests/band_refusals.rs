//! Refusal 13 with its place and its order among the others, in lists and in files.

mod support;

use second::bound::most_passes;
use second::file::{read, read_with_room, unchecked_bytes, write, Room};
use second::plan::{MOST_BANDS, MOST_TASKS};
use second::steps::{balance, pass, resource_step, settle, settle_within};
use second::{allowed, entry, program, Plan, Range, Refusal, Sense, Set};
use support::*;

/// The plan every test here bends: two resources, three bands, two tasks.
fn sound() -> Plan {
    let task = wide(0b11, to(1, 2), to(1, 1), to(2, 3), to(0, 1));
    let plan = plan(Sense::AtLeast, &[0, 0], &[task, task]);
    with_bands(plan, &[(0, -5, 0), (0, 2, -1), (1, -5, 0)])
}

/// Where the records of `sound`'s file start, by hand: PL of 6 bytes, two RS of 10, three LB of 12, two TK of 36.
const STARTS: [usize; 8] = [0, 6, 16, 26, 38, 50, 62, 98];
/// The first band's and the first task's number in it.
const FIRST_BAND: usize = 3;
const FIRST_TASK: usize = 6;
/// Where the last of them ends.
const LENGTH: usize = 134;

fn refused<T>(number: u32, place: usize) -> Result<T, Refusal> {
    Err(Refusal::new(number, place))
}

/// Every call refuses these lists alike and leaves them as they were.
fn every_call_refuses(plan: &Plan, number: u32, place: usize) {
    assert_eq!(entry::check(plan), refused(number, place));
    let mut after = plan.clone();
    assert_eq!(balance(&mut after), refused(number, place));
    assert_eq!(resource_step(&mut after, 99, None), refused(number, place));
    assert_eq!(pass(&mut after, None), refused(number, place));
    assert_eq!(settle(&mut after, None), refused(number, place));
    assert_eq!(settle_within(&mut after, 0, None), refused(number, place));
    assert_eq!(most_passes(plan, None), refused(number, place));
    assert_eq!(&after, plan);
    let mut buffer = [7; 3];
    assert_eq!(write(plan, &mut buffer), refused(number, place));
    assert_eq!(buffer, [7; 3]);
    assert_eq!(allowed::count(plan), refused(number, place));
}

/// These bands are refused at this place, in lists and in a file.
fn bands_refused(bands: &[(usize, i64, i64)], place: usize) {
    let plan = with_bands(sound(), bands);
    every_call_refuses(&plan, 13, place);
    read_refused(&unchecked_bytes(&plan), 13, place);
}

fn read_refused(bytes: &[u8], number: u32, place: usize) {
    assert_eq!(read(bytes), refused(number, place));
    let line = format!("refused {number} {place}\n");
    assert_eq!(program::answer(bytes, None), line);
}

/// So many bands in order on resource 0, from day 0 on.
fn rising(count: usize) -> Vec<(usize, i64, i64)> {
    (0..count).map(|day| (0, day as i64, -3)).collect()
}

#[test]
fn sound_bands_pass() {
    assert_eq!(entry::check(&sound()), Ok(()));
    assert_eq!(unchecked_bytes(&sound()).len(), LENGTH);
    assert_eq!(read(&unchecked_bytes(&sound())), Ok(sound()));
    let ends = [
        (0, -100_000, -1_000_000),
        (0, 100_000, 1_000_000),
        (1, -100_000, 0),
    ];
    for bands in [&[][..], &ends, &rising(MOST_BANDS)] {
        let plan = with_bands(sound(), bands);
        assert_eq!(entry::check(&plan), Ok(()));
        assert_eq!(read(&unchecked_bytes(&plan)), Ok(plan));
    }
}

#[test]
fn out_of_order() {
    // The same place and day twice, whatever the limits.
    bands_refused(&[(0, 1, 0), (0, 1, 0)], 1);
    bands_refused(&[(0, 1, 0), (0, 1, 5)], 1);
    bands_refused(&[(0, 0, 0), (0, 1, 0), (1, 1, 0), (1, 1, 0)], 3);
    // A day before the one before it; days of the other place do not matter.
    bands_refused(&[(0, 1, 0), (0, 0, 0)], 1);
    bands_refused(&[(0, 1, 0), (1, 0, 0), (1, -1, 0)], 2);
    // Places not sorted, though the days rise.
    bands_refused(&[(1, 1, 0), (0, 2, 0)], 1);
    bands_refused(&[(0, 1, 0), (1, 2, 0), (0, 3, 0), (1, 4, 0)], 2);
}

#[test]
fn beyond_its_ends_or_naming_no_resource() {
    for bad in [
        (0, 100_001, 0),
        (0, -100_001, 0),
        (0, i64::from(i32::MIN), 0),
        (0, i64::from(i32::MAX), 0),
        (0, 0, 1_000_001),
        (0, 0, -1_000_001),
        (0, 0, i64::from(i32::MIN)),
        (0, 0, i64::from(i32::MAX)),
        (2, 0, 0),
        (3, 0, 0),
        (16, 0, 0),
        (65_535, 0, 0),
    ] {
        bands_refused(&[bad], 0);
        bands_refused(&[bad, (0, 9, 0)], 0);
        bands_refused(&[bad, (0, -200_000, 0)], 0);
    }
    bands_refused(&[(0, 0, 0), (0, 100_001, 0)], 1);
    bands_refused(&[(0, 0, 0), (1, 0, 1_000_001), (2, 0, 0)], 1);
    bands_refused(&[(0, 0, 0), (1, 0, 0), (2, 0, 0)], 2);
    for bad in [i64::MIN, i64::MAX] {
        every_call_refuses(&with_bands(sound(), &[(0, bad, 0)]), 13, 0);
        every_call_refuses(&with_bands(sound(), &[(0, 0, bad)]), 13, 0);
    }
}

#[test]
fn a_65th() {
    bands_refused(&rising(MOST_BANDS + 1), 64);
    bands_refused(&rising(MOST_BANDS + 9), 64);
    // In lists the first band that can't stand decides; in a file the 65th is met before any is looked at.
    let mut bands = rising(MOST_BANDS + 1);
    bands[3].1 = bands[2].1;
    let plan = with_bands(sound(), &bands);
    every_call_refuses(&plan, 13, 3);
    read_refused(&unchecked_bytes(&plan), 13, 64);
    bands.pop();
    bands_refused(&bands, 3);
}

#[test]
fn after_4_and_before_5() {
    let mut bent = with_bands(sound(), &[(0, 1, 0), (0, 0, 0)]);
    bent.tasks[0].origin = Range::new(1, 0);
    bent.tasks[0].set = Set::EMPTY;
    every_call_refuses(&bent, 13, 1);
    read_refused(&unchecked_bytes(&bent), 13, 1);
    bent.resources[1].limit = 1_000_001;
    every_call_refuses(&bent, 4, 1);
    read_refused(&unchecked_bytes(&bent), 4, 1);
    bent.resources[1].id = bent.resources[0].id;
    every_call_refuses(&bent, 3, 1);
    read_refused(&unchecked_bytes(&bent), 3, 1);
    bent.resources.clear();
    every_call_refuses(&bent, 2, 0);
    bent.tasks = vec![bent.tasks[0]; MOST_TASKS + 1];
    every_call_refuses(&bent, 1, 0);
}

#[test]
fn cut_short_anywhere() {
    let bytes = unchecked_bytes(&sound());
    for length in 0..bytes.len() {
        let start = *STARTS.iter().rfind(|start| **start <= length).unwrap();
        read_refused(&bytes[..length], 9, start);
    }
}

/// With another mark the bands are over, and a task is due.
#[test]
fn marks() {
    let bytes = unchecked_bytes(&sound());
    for start in &STARTS[FIRST_BAND..FIRST_TASK] {
        let start = *start;
        for mark in [b"LA", b"MB", b"BL", b"lb", b"RS", b"RH", b"PL"] {
            let mut bent = bytes.clone();
            bent[start..start + 2].copy_from_slice(mark);
            read_refused(&bent, 8, start);
            read_refused(&bent[..start + 2], 8, start);
        }
    }
    // Taken for a task of 36 bytes, the three bands leave one task too many; two or one end amid the next task.
    for (start, number, place) in [(26, 9, 98), (38, 8, 74), (50, 8, 86)] {
        let mut bent = bytes.clone();
        bent[start..start + 2].copy_from_slice(b"TK");
        read_refused(&bent, number, place);
        read_refused(&bent[..start + 35], 9, start);
    }
}

/// A band before PL, among RS, among TK: the mark is not the one due. After the last task it is left over.
#[test]
fn misplaced() {
    let bytes = unchecked_bytes(&sound());
    let band = bytes[STARTS[FIRST_BAND]..STARTS[FIRST_BAND + 1]].to_vec();
    let with_band_at = |start: usize| {
        let mut bent = bytes.clone();
        bent.splice(start..start, band.clone());
        bent
    };
    for number in [0, 1, 2, FIRST_TASK + 1] {
        let start = STARTS[number];
        read_refused(&with_band_at(start), 8, start);
    }
    read_refused(&with_band_at(LENGTH), 9, LENGTH);
    // Where bands are due it is one more, out of order.
    read_refused(&with_band_at(STARTS[FIRST_BAND]), 13, 1);
    read_refused(&with_band_at(STARTS[FIRST_TASK]), 13, 3);
}

#[test]
fn a_band_where_no_task_follows() {
    let mut plan = sound();
    plan.tasks.clear();
    let mut bytes = unchecked_bytes(&plan);
    assert_eq!(read(&bytes), Ok(plan));
    let end = STARTS[FIRST_TASK];
    bytes.push(b'L');
    read_refused(&bytes, 9, end);
    bytes.push(b'B');
    read_refused(&bytes, 9, end);
    bytes.pop();
    bytes.push(b'C');
    read_refused(&bytes, 9, end);
}

#[test]
fn a_65th_in_a_file() {
    let plan = with_bands(sound(), &rising(MOST_BANDS + 1));
    let bytes = unchecked_bytes(&plan);
    let start = 6 + 2 * 10 + 64 * 12;
    // Cut short it gets 9, of two bytes and more its mark is there.
    for stays in 0..12 {
        read_refused(&bytes[..start + stays], 9, start);
    }
    // Met whole it is refused, whatever follows.
    read_refused(&bytes[..start + 12], 13, 64);
    let mut bent = bytes.clone();
    bent[start + 12] ^= 1;
    read_refused(&bent, 13, 64);
    bent = bytes.clone();
    bent.push(0);
    read_refused(&bent, 13, 64);
    // Before it comes what PL says.
    bent[2] = 2;
    read_refused(&bent, 8, 0);
}

#[test]
fn no_room_for_a_band() {
    let room = |bands| Room {
        resources: 2,
        bands,
        tasks: 2,
    };
    let bytes = unchecked_bytes(&sound());
    assert_eq!(read_with_room(&bytes, room(3)), Ok(sound()));
    for bands in 0..3 {
        assert_eq!(read_with_room(&bytes, room(bands)), refused(11, 0));
        // Met whole, and nothing after it looked at.
        let start = STARTS[FIRST_BAND + bands];
        let whole = &bytes[..start + 12];
        assert_eq!(read_with_room(whole, room(bands)), refused(11, 0));
        // Cut short it gets 9.
        let short = &bytes[..start + 11];
        assert_eq!(read_with_room(short, room(bands)), refused(9, start));
    }
    // A band out of order is not looked at before there is room for all.
    let bent = unchecked_bytes(&with_bands(sound(), &[(0, 1, 0), (0, 0, 0), (0, 2, 0)]));
    assert_eq!(read_with_room(&bent, room(2)), refused(11, 0));
    assert_eq!(read_with_room(&bent, room(3)), refused(13, 1));
    // A 65th is refused as such where there was room for all before it.
    let many = unchecked_bytes(&with_bands(sound(), &rising(MOST_BANDS + 1)));
    assert_eq!(read_with_room(&many, room(64)), refused(13, 64));
    assert_eq!(read_with_room(&many, room(65)), refused(13, 64));
    assert_eq!(read_with_room(&many, room(63)), refused(11, 0));
    assert_eq!(read_with_room(&many, room(0)), refused(11, 0));
}
