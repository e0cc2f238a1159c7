//! Each numbered refusal with its place, and the order between them.

mod support;

use second::bound::most_passes;
use second::file::{read, read_with_room, unchecked_bytes, write, Room, LONGEST};
use second::plan::{DAYS, DURATIONS, MOST_BANDS, MOST_RESOURCES, MOST_TASKS, POWERS};
use second::steps::{balance, pass, resource_step, settle, settle_within};
use second::{allowed, entry, program, Plan, Range, Refusal, Resource, Sense, Set, Task};
use support::*;

/// The plan every test here bends: three resources, three tasks.
fn sound() -> Plan {
    let task = wide(0b101, to(1, 2), to(1, 1), to(2, 3), to(0, 1));
    plan(Sense::AtLeast, &[0, 0, 0], &[task, task, task])
}

/// Where the records of `sound`'s file start, by hand: PL of 6 bytes, three RS of 10, three TK of 36.
const STARTS: [usize; 7] = [0, 6, 16, 26, 36, 72, 108];
/// Where the last of them ends.
const LENGTH: usize = 144;

/// So many resources, each with this limit.
fn resources(count: usize, limit: i64) -> Vec<Resource> {
    let ids = 0..count as i32;
    ids.map(|id| Resource::plain(id, limit)).collect()
}

fn refused<T>(number: u32, place: usize) -> Result<T, Refusal> {
    Err(Refusal::new(number, place))
}

/// Every call refuses these lists alike and leaves them as they were.
fn every_call_refuses(plan: &Plan, number: u32, place: usize) {
    assert_eq!(entry::check(plan), refused(number, place));
    let mut after = plan.clone();
    assert_eq!(balance(&mut after), refused(number, place));
    assert_eq!(resource_step(&mut after, 99, None), refused(number, place));
    assert_eq!(pass(&mut after, None), refused(number, place));
    assert_eq!(settle(&mut after, None), refused(number, place));
    assert_eq!(settle_within(&mut after, 0, None), refused(number, place));
    assert_eq!(most_passes(plan, None), refused(number, place));
    assert_eq!(&after, plan);
    let mut buffer = [7; 3];
    assert_eq!(write(plan, &mut buffer), refused(number, place));
    assert_eq!(buffer, [7; 3]);
    assert_eq!(allowed::count(plan), refused(number, place));
}

#[test]
fn sound_lists_pass() {
    assert_eq!(entry::check(&sound()), Ok(()));
    let mut most = sound();
    most.resources = resources(MOST_RESOURCES, POWERS.low);
    let all = wide(Set::all(MOST_RESOURCES).0, DAYS, DURATIONS, DAYS, POWERS);
    most.tasks = vec![all; MOST_TASKS];
    most.bands = (0..MOST_BANDS)
        .map(|k| band(15, k as i64, POWERS.high))
        .collect();
    assert_eq!(entry::check(&most), Ok(()));
}

#[test]
fn refusal_1_too_many_tasks_before_2() {
    let mut bent = sound();
    bent.tasks = vec![sound().tasks[0]; MOST_TASKS + 1];
    every_call_refuses(&bent, 1, 0);
    bent.resources.clear();
    every_call_refuses(&bent, 1, 0);
}

#[test]
fn refusal_2_no_resource_or_too_many_before_3() {
    let mut bent = sound();
    bent.resources.clear();
    every_call_refuses(&bent, 2, 0);
    bent.resources = vec![Resource::plain(1, 0); MOST_RESOURCES + 1];
    every_call_refuses(&bent, 2, 0);
}

#[test]
fn refusal_3_first_that_repeats_before_4() {
    let mut bent = sound();
    bent.resources[2].id = bent.resources[0].id;
    bent.resources[0].limit = POWERS.high + 1;
    every_call_refuses(&bent, 3, 2);
    bent.resources[1].id = bent.resources[0].id;
    every_call_refuses(&bent, 3, 1);
}

#[test]
fn refusal_4_first_limit_outside_before_5() {
    for limit in [
        POWERS.high + 1,
        POWERS.low - 1,
        i64::MAX,
        i64::MIN,
        i64::from(i32::MIN),
    ] {
        let mut bent = sound();
        bent.resources[1].limit = limit;
        bent.resources[2].limit = limit;
        bent.tasks[0].set = Set::EMPTY;
        every_call_refuses(&bent, 4, 1);
    }
}

#[test]
fn refusal_5_each_range_each_end() {
    type Bend = fn(&mut Task) -> &mut Range;
    let ranges: [(Bend, Range); 4] = [
        (|task| &mut task.origin, DAYS),
        (|task| &mut task.duration, DURATIONS),
        (|task| &mut task.end, DAYS),
        (|task| &mut task.height, POWERS),
    ];
    for (range, ends) in ranges {
        for bad in [
            Range::new(ends.low - 1, ends.high),
            Range::new(ends.low, ends.high + 1),
            Range::new(1, 0),
            Range::new(i64::MIN, i64::MAX),
            Range::new(ends.high + 1, ends.high + 2),
        ] {
            let mut bent = sound();
            *range(&mut bent.tasks[1]) = bad;
            bent.tasks[2].set = Set::EMPTY;
            every_call_refuses(&bent, 5, 1);
            bent.tasks[1].set = Set::EMPTY;
            every_call_refuses(&bent, 5, 1);
        }
        let mut whole = sound();
        *range(&mut whole.tasks[1]) = ends;
        assert_eq!(entry::check(&whole), Ok(()));
    }
}

#[test]
fn refusal_6_empty_set_or_beyond_task_by_task() {
    for set in [0, 0b1000, 0b1001, 1 << MOST_RESOURCES, 1 << 63, u64::MAX] {
        let mut bent = sound();
        bent.tasks[1].set = Set(set);
        bent.tasks[2].origin = Range::new(1, 0);
        every_call_refuses(&bent, 6, 1);
    }
}

#[test]
fn refusal_7_comes_last_and_keeps_the_tasks() {
    let plan = at_least(0, &[single(5, 1, 6, -1)]);
    let mut after = plan.clone();
    assert_eq!(balance(&mut after), Ok(()));
    assert_eq!(resource_step(&mut after, 1, None), refused(12, 0));
    assert_eq!(resource_step(&mut after, 0, None), refused(7, 0));
    assert_eq!(pass(&mut after, None), refused(7, 0));
    assert_eq!(after, plan);
}

#[test]
fn refusal_12_place_not_in_the_list() {
    let mut plan = sound();
    assert_eq!(resource_step(&mut plan, 2, None), Ok(()));
    assert_eq!(resource_step(&mut plan, 3, None), refused(12, 0));
    assert_eq!(resource_step(&mut plan, usize::MAX, None), refused(12, 0));
    assert_eq!(plan, sound());
}

#[test]
fn refusal_10_buffer_too_short() {
    let mut buffer = vec![7; LENGTH - 1];
    assert_eq!(write(&sound(), &mut buffer), refused(10, 0));
    assert!(buffer.iter().all(|byte| *byte == 7));
    buffer.extend([7, 7]);
    assert_eq!(write(&sound(), &mut buffer), Ok(LENGTH));
    assert_eq!(
        buffer[LENGTH], 7,
        "the writer writes exactly the file's length"
    );
}

fn read_refused(bytes: &[u8], number: u32, place: usize) {
    assert_eq!(read(bytes), refused(number, place));
    assert_eq!(
        program::answer(bytes, None),
        format!("refused {number} {place}\n")
    );
}

/// PL by hand: mark, sense, resource count, task count in two bytes.
fn head(sense: u8, resources: usize, tasks: usize) -> [u8; 6] {
    let [low, high] = (tasks as u16).to_le_bytes();
    [b'P', b'L', sense, resources as u8, low, high]
}

/// The byte of the sense, after the mark.
const SENSE: usize = 2;

#[test]
fn refusal_8_marks_and_sense() {
    let bytes = unchecked_bytes(&sound());
    for start in STARTS {
        for place in [start, start + 1] {
            let mut bent = bytes.clone();
            bent[place] ^= 1;
            read_refused(&bent, 8, start);
            read_refused(&bent[..start + 2], 8, start);
            bent[SENSE] = 2;
            read_refused(&bent, 8, 0);
        }
    }
    for start in &STARTS[1..4] {
        let start = *start;
        let mut bent = bytes.clone();
        bent[start..start + 2].copy_from_slice(b"TK");
        read_refused(&bent, 8, start);
        read_refused(&bent[..start + 5], 8, start);
    }
    for sense in [2, 255] {
        let mut bent = bytes.clone();
        bent[..STARTS[1]].copy_from_slice(&head(sense, 0, MOST_TASKS + 1));
        read_refused(&bent, 8, 0);
    }
}

#[test]
fn refusal_9_cut_short_anywhere() {
    let bytes = unchecked_bytes(&sound());
    for length in 0..bytes.len() {
        let start = *STARTS.iter().rfind(|start| **start <= length).unwrap();
        read_refused(&bytes[..length], 9, start);
    }
}

#[test]
fn refusal_9_left_over_before_3_to_6() {
    let mut bent = sound();
    bent.resources[1].id = 1;
    bent.tasks[0].set = Set::EMPTY;
    let mut bytes = unchecked_bytes(&bent);
    read_refused(&bytes, 3, 1);
    bytes.push(0);
    read_refused(&bytes, 9, LENGTH);
}

#[test]
fn refusal_9_one_byte_after_the_longest_file() {
    let mut longest = sound();
    longest.resources = resources(MOST_RESOURCES, 0);
    longest.tasks = vec![sound().tasks[0]; MOST_TASKS];
    longest.bands = (0..MOST_BANDS).map(|k| band(k / 4, k as i64, 0)).collect();
    let mut bytes = unchecked_bytes(&longest);
    assert_eq!(bytes.len(), LONGEST);
    assert!(program::answer(&bytes, None).starts_with("settled 1\n"));
    bytes.push(0);
    read_refused(&bytes, 9, LONGEST);
    bytes.push(0);
    read_refused(&bytes, 9, LONGEST);
}

#[test]
fn counts_in_a_file_1_then_2_then_11_before_the_records() {
    let (resources, tasks) = (MOST_RESOURCES, MOST_TASKS);
    read_refused(&head(1, 0, tasks + 1), 1, 0);
    read_refused(&head(0, resources + 1, u16::MAX.into()), 1, 0);
    read_refused(&head(0, 0, tasks), 2, 0);
    read_refused(&head(0, resources + 1, 0), 2, 0);
    read_refused(&head(0, resources, tasks), 9, STARTS[1]);
    let most = head(0, resources, tasks);
    let room = |resources, tasks| Room {
        resources,
        bands: 0,
        tasks,
    };
    let roomless = |bytes: &[u8], resource_room, task_room, number| {
        let result = read_with_room(bytes, room(resource_room, task_room));
        assert_eq!(result, refused(number, 0));
    };
    roomless(&most, resources - 1, tasks, 11);
    roomless(&most, resources, tasks - 1, 11);
    roomless(&head(0, resources + 1, tasks), 0, 0, 2);
    roomless(&head(2, resources + 1, tasks), 0, 0, 8);
    let bytes = unchecked_bytes(&sound());
    assert_eq!(read_with_room(&bytes, room(3, 3)), Ok(sound()));
    roomless(&bytes, 2, 3, 11);
}

#[test]
fn lists_in_a_file_3_to_6() {
    type Bend = fn(&mut Plan);
    let bends: [(Bend, u32, usize); 5] = [
        (|plan| plan.resources[2].id = 1, 3, 2),
        (|plan| plan.resources[1].limit = i64::from(i32::MIN), 4, 1),
        (
            |plan| plan.tasks[2].height = Range::new(POWERS.low - 1, 0),
            5,
            2,
        ),
        (|plan| plan.tasks[1].set = Set::EMPTY, 6, 1),
        (
            |plan| plan.tasks[0].set = Set::only(MOST_RESOURCES - 1),
            6,
            0,
        ),
    ];
    for (bend, number, place) in bends {
        let mut bent = sound();
        bend(&mut bent);
        read_refused(&unchecked_bytes(&bent), number, place);
    }
}
