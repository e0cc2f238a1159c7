//! Held resources in files: RH "in place of RS, same layout", read, written, cut short, bent and misplaced.

mod support;

use second::file::{read, read_with_room, unchecked_bytes, write, Room};
use second::plan::MOST_RESOURCES;
use second::steps::{balance, pass, resource_step, settle, settle_within};
use second::{entry, program, Kind, Plan, Refusal, Resource, Sense};
use support::*;

/// The plan every test here bends: four resources, of which the second and the third are held, two bands, two tasks.
fn sound() -> Plan {
    let task = wide(0b1111, to(1, 2), to(1, 1), to(2, 3), to(0, 1));
    let plan = plan(Sense::AtLeast, &[0; 4], &[task, task]);
    with_held(with_bands(plan, &[(1, -5, 0), (2, 2, -1)]), &[1, 2])
}

/// Where the records of `sound`'s file start, by hand: PL of 6 bytes, RS, RH, RH and RS of 10, two LB of 12, two TK of 36.
const STARTS: [usize; 9] = [0, 6, 16, 26, 36, 46, 58, 70, 106];
/// Those of the resources.
const RESOURCES: [usize; 4] = [6, 16, 26, 36];
/// Those of the bands and the tasks.
const OTHERS: [usize; 4] = [46, 58, 70, 106];
/// Where the last of them ends.
const LENGTH: usize = 142;

fn refused<T>(number: u32, place: usize) -> Result<T, Refusal> {
    Err(Refusal::new(number, place))
}

fn read_refused(bytes: &[u8], number: u32, place: usize) {
    assert_eq!(read(bytes), refused(number, place));
    let line = format!("refused {number} {place}\n");
    assert_eq!(program::answer(bytes, None), line);
}

/// The file of `sound` with this mark at this byte.
fn with_mark(start: usize, mark: &[u8; 2]) -> Vec<u8> {
    let mut bytes = unchecked_bytes(&sound());
    bytes[start..start + 2].copy_from_slice(mark);
    bytes
}

/// The file of `sound` with a whole RH put in at this byte.
fn with_held_at(start: usize) -> Vec<u8> {
    let mut bytes = unchecked_bytes(&sound());
    bytes.splice(start..start, *b"RH\x09\x00\x00\x00\x00\x00\x00\x00");
    bytes
}

// ---- Read and written ----

/// RS and RH in any order: every choice of kinds for four resources, read and written back as the same bytes.
#[test]
fn kinds_in_any_order() {
    for kinds in 0..16 {
        let mut plan = sound();
        let mut marks = Vec::new();
        for (place, resource) in plan.resources.iter_mut().enumerate() {
            let is_held = kinds >> place & 1 == 1;
            resource.kind = if is_held { Kind::Held } else { Kind::Plain };
            marks.push(if is_held { *b"RH" } else { *b"RS" });
        }
        let mut bytes = vec![9; LENGTH + 1];
        assert_eq!(write(&plan, &mut bytes), Ok(LENGTH));
        assert_eq!(bytes.pop(), Some(9));
        for (start, mark) in RESOURCES.into_iter().zip(marks) {
            assert_eq!(bytes[start..start + 2], mark);
        }
        assert_eq!(read(&bytes), Ok(plan.clone()));
        assert_eq!(unchecked_bytes(&plan), bytes);
    }
}

/// All sixteen held, and room for as many; for one less 11 is given before any record is looked at.
#[test]
fn as_many_as_there_may_be() {
    let most = MOST_RESOURCES as i32;
    let plan = Plan {
        sense: Sense::AtMost,
        resources: (0..most).map(|id| Resource::held(id, 3)).collect(),
        bands: Vec::new(),
        tasks: Vec::new(),
    };
    assert_eq!(entry::check(&plan), Ok(()));
    let bytes = unchecked_bytes(&plan);
    assert_eq!(bytes.len(), 6 + 160);
    let room = |resources| Room {
        resources,
        bands: 0,
        tasks: 0,
    };
    let result = read_with_room(&bytes, room(MOST_RESOURCES));
    assert_eq!(result, Ok(plan));
    let short = read_with_room(&bytes, room(MOST_RESOURCES - 1));
    assert_eq!(short, refused(11, 0));
}

/// RS for RH and RH for RS: the same plan but for that kind.
#[test]
fn marks_swapped() {
    for (place, start) in RESOURCES.into_iter().enumerate() {
        let mut swapped = sound();
        let kind = swapped.resources[place].kind.other();
        swapped.resources[place].kind = kind;
        let mark = if kind == Kind::Held { b"RH" } else { b"RS" };
        assert_eq!(read(&with_mark(start, mark)), Ok(swapped));
    }
}

/// No call changes a kind.
#[test]
fn kinds_stay() {
    let mut plan = sound();
    assert_eq!(balance(&mut plan), Ok(()));
    assert_eq!(resource_step(&mut plan, 1, None), Ok(()));
    assert_eq!(pass(&mut plan, None), Ok(()));
    assert_eq!(settle_within(&mut plan, 1, None), Ok(Some(1)));
    assert_eq!(settle(&mut plan, None), Ok(1));
    assert_eq!(plan, sound());
}

// ---- Refused ----

#[test]
fn cut_short_anywhere() {
    let bytes = unchecked_bytes(&sound());
    assert_eq!(bytes.len(), LENGTH);
    for length in 0..LENGTH {
        let start = *STARTS.iter().rfind(|start| **start <= length).unwrap();
        read_refused(&bytes[..length], 9, start);
    }
}

/// "any other mark": 8 where the record starts, and also where it is cut short behind its mark; one byte alone is cut short.
#[test]
fn other_marks_where_a_resource_is_due() {
    let marks = [
        b"RX", b"RT", b"RI", b"RG", b"Rh", b"R\0", b"RR", b"SH", b"HH", b"rH", b"\0H", b"HR",
        b"SR", b"HS", b"rh", b"PL", b"LB", b"TK",
    ];
    for start in RESOURCES {
        for mark in marks {
            let bent = with_mark(start, mark);
            read_refused(&bent, 8, start);
            read_refused(&bent[..start + 2], 8, start);
            read_refused(&bent[..start + 9], 8, start);
            read_refused(&bent[..start + 1], 9, start);
        }
    }
}

/// Every other byte in the place of one of the mark's.
#[test]
fn every_byte_of_a_mark() {
    let start = RESOURCES[1];
    for byte in 0..=255 {
        if byte != b'R' {
            read_refused(&with_mark(start, &[byte, b'H']), 8, start);
        }
        let is_mark = byte == b'S' || byte == b'H';
        let read = read(&with_mark(start, &[b'R', byte]));
        assert_eq!(read.is_ok(), is_mark, "{byte}");
    }
}

/// A mark RH on PL, on a band (where a task would be due too) and on a task.
#[test]
fn the_mark_on_other_records() {
    read_refused(&with_mark(0, b"RH"), 8, 0);
    for start in OTHERS {
        let bent = with_mark(start, b"RH");
        read_refused(&bent, 8, start);
        read_refused(&bent[..start + 2], 8, start);
    }
}

/// A whole RH more than PL says: before PL; among the resources, where the last then stands for a band or a task; before the bands; before
/// and among the tasks; after all.
#[test]
fn misplaced() {
    read_refused(&with_held_at(0), 8, 0);
    for start in RESOURCES {
        read_refused(&with_held_at(start), 8, OTHERS[0]);
    }
    for start in OTHERS {
        read_refused(&with_held_at(start), 8, start);
    }
    read_refused(&with_held_at(LENGTH), 9, LENGTH);
    // With no task due it is left over behind the bands, or without bands behind the resources.
    let mut plan = sound();
    plan.tasks.clear();
    for bands in [2, 0] {
        plan.bands.truncate(bands);
        let mut bytes = unchecked_bytes(&plan);
        let end = bytes.len();
        bytes.extend(b"RH\x09\x00\x00\x00\x00\x00\x00\x00");
        read_refused(&bytes, 9, end);
    }
}

/// A resource fewer than PL says: a band or a task stands where the last is due.
#[test]
fn a_resource_missing() {
    let mut bytes = unchecked_bytes(&sound());
    bytes.drain(RESOURCES[1]..RESOURCES[2]);
    read_refused(&bytes, 8, RESOURCES[3]);
    let mut plan = sound();
    plan.bands.clear();
    let mut bytes = unchecked_bytes(&plan);
    bytes.drain(RESOURCES[1]..RESOURCES[2]);
    read_refused(&bytes, 8, RESOURCES[3]);
}

/// 3 and 4 over all resources, whatever their kinds; the kind itself gives no refusal.
#[test]
fn identifiers_and_limits() {
    let mut plan = sound();
    plan.resources[2].limit = 1_000_001;
    assert_eq!(entry::check(&plan), refused(4, 2));
    read_refused(&unchecked_bytes(&plan), 4, 2);
    plan.resources[3].id = plan.resources[1].id;
    assert_eq!(entry::check(&plan), refused(3, 3));
    read_refused(&unchecked_bytes(&plan), 3, 3);
    plan.resources[1].id = plan.resources[0].id;
    assert_eq!(entry::check(&plan), refused(3, 1));
    read_refused(&unchecked_bytes(&plan), 3, 1);
}

/// Before the records comes what PL says.
#[test]
fn after_what_pl_says() {
    let mut bent = with_mark(RESOURCES[0], b"RX");
    bent[3] = 17;
    read_refused(&bent, 2, 0);
    bent[2] = 2;
    read_refused(&bent, 8, 0);
}
