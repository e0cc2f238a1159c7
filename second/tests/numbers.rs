//! The numbers that the documents give, each against its one home, and plan files byte by byte.

mod support;

use second::file::{length, read, unchecked_bytes, LB, LONGEST, PL, RH, RS, TK};
use second::plan::{DAYS, DURATIONS, MOST_BANDS, MOST_RESOURCES, MOST_TASKS, POWERS};
use second::program::READ_AT_MOST;
use second::{Plan, Refusal, Resource, Sense};
use support::{band, to, wide};

#[test]
fn counts_ends_and_lengths() {
    assert_eq!((MOST_RESOURCES, MOST_BANDS, MOST_TASKS), (16, 64, 256));
    assert_eq!(DAYS, to(-100_000, 100_000));
    assert_eq!(DURATIONS, to(0, 10_000));
    assert_eq!(POWERS, to(-1_000_000, 1_000_000));
    assert_eq!(MOST_TASKS as i64 * POWERS.high, 256_000_000);
    assert_eq!(
        [PL.length, RS.length, RH.length, LB.length, TK.length],
        [6, 10, 10, 12, 36]
    );
    assert_eq!(length(MOST_RESOURCES, 0, MOST_TASKS), 9_382);
    assert_eq!((LONGEST, READ_AT_MOST), (10_150, 10_151));
    assert_eq!(Refusal::LAST_NUMBER, 13);
}

#[test]
fn a_file_byte_by_byte() {
    let plan = Plan {
        sense: Sense::AtLeast,
        resources: vec![Resource::plain(-2, 258)],
        bands: Vec::new(),
        tasks: vec![wide(1, to(-1, 0), to(1, 10_000), to(2, 3), to(-258, 259))],
    };
    let mut bytes = b"PL\x01\x01\x01\x00".to_vec();
    bytes.extend(b"RS\xFE\xFF\xFF\xFF\x02\x01\x00\x00");
    bytes.extend(b"TK\x01\x00");
    bytes.extend(b"\xFF\xFF\xFF\xFF\x00\x00\x00\x00");
    bytes.extend(b"\x01\x00\x00\x00\x10\x27\x00\x00");
    bytes.extend(b"\x02\x00\x00\x00\x03\x00\x00\x00");
    bytes.extend(b"\xFE\xFE\xFF\xFF\x03\x01\x00\x00");
    assert_eq!(unchecked_bytes(&plan), bytes);
    assert_eq!(read(&bytes), Ok(plan));
}

#[test]
fn a_file_with_bands_byte_by_byte() {
    let plan = Plan {
        sense: Sense::AtMost,
        resources: vec![Resource::plain(1, 0), Resource::plain(2, -1)],
        bands: vec![
            band(0, -100_000, 1_000_000),
            band(0, -1, 258),
            band(1, -2, -1_000_000),
        ],
        tasks: vec![wide(3, to(0, 0), to(1, 1), to(1, 1), to(5, 5))],
    };
    let mut bytes = b"PL\x00\x02\x01\x00".to_vec();
    bytes.extend(b"RS\x01\x00\x00\x00\x00\x00\x00\x00");
    bytes.extend(b"RS\x02\x00\x00\x00\xFF\xFF\xFF\xFF");
    // -100,000 is 0xFFFE7960 and 1,000,000 is 0x000F4240 in 4 bytes.
    bytes.extend(b"LB\x00\x00\x60\x79\xFE\xFF\x40\x42\x0F\x00");
    bytes.extend(b"LB\x00\x00\xFF\xFF\xFF\xFF\x02\x01\x00\x00");
    bytes.extend(b"LB\x01\x00\xFE\xFF\xFF\xFF\xC0\xBD\xF0\xFF");
    bytes.extend(b"TK\x03\x00\x00\x00\x00\x00\x00\x00\x00\x00");
    bytes.extend(b"\x01\x00\x00\x00\x01\x00\x00\x00");
    bytes.extend(b"\x01\x00\x00\x00\x01\x00\x00\x00");
    bytes.extend(b"\x05\x00\x00\x00\x05\x00\x00\x00");
    assert_eq!(bytes.len(), 6 + 2 * 10 + 3 * 12 + 36);
    assert_eq!(unchecked_bytes(&plan), bytes);
    assert_eq!(read(&bytes), Ok(plan));
}

#[test]
fn a_file_with_held_resources_byte_by_byte() {
    let plan = Plan {
        sense: Sense::AtLeast,
        resources: vec![
            Resource::held(-2, 258),
            Resource::plain(1, 0),
            Resource::held(i32::MAX, -1_000_000),
        ],
        bands: vec![band(2, 5, 1)],
        tasks: Vec::new(),
    };
    let mut bytes = b"PL\x01\x03\x00\x00".to_vec();
    bytes.extend(b"RH\xFE\xFF\xFF\xFF\x02\x01\x00\x00");
    bytes.extend(b"RS\x01\x00\x00\x00\x00\x00\x00\x00");
    bytes.extend(b"RH\xFF\xFF\xFF\x7F\xC0\xBD\xF0\xFF");
    bytes.extend(b"LB\x02\x00\x05\x00\x00\x00\x01\x00\x00\x00");
    assert_eq!(bytes.len(), 6 + 3 * 10 + 12);
    assert_eq!(unchecked_bytes(&plan), bytes);
    assert_eq!(read(&bytes), Ok(plan));
}

#[test]
fn a_plan_in_the_other_sense() {
    let task = |height| wide(3, DAYS, DURATIONS, DAYS, height);
    let plan = Plan {
        sense: Sense::AtMost,
        resources: vec![Resource::plain(4, 5), Resource::held(-4, -6)],
        bands: vec![band(0, -3, 8), band(1, 2, -1_000_000)],
        tasks: vec![task(to(-1, 3)), task(to(0, 0))],
    };
    let negated = Plan {
        sense: Sense::AtLeast,
        resources: vec![Resource::plain(4, -5), Resource::held(-4, 6)],
        bands: vec![band(0, -3, -8), band(1, 2, 1_000_000)],
        tasks: vec![task(to(-3, 1)), task(to(0, 0))],
    };
    assert_eq!(plan.negated(), negated);
    assert_eq!(negated.negated(), plan);
}
