//! Written files read back; made streams are the same for one seed, broad, and
//! find every planted fault.

mod support;

use second::fault::FAULTS;
use second::file::{self, read, read_with_room, write, Room};
use second::make::{plan_file, stream};
use second::program::{answer, READ_AT_MOST};
use second::random::Random;
use second::steps::pass;
use second::{Fault, Kind, Plan, Refusal, Resource};
use std::collections::BTreeMap;
use support::small_plan;

const SEED: u64 = 3;
const COUNT: u64 = 1_500;

#[test]
fn what_is_written_reads_back() {
    for n in 0..500 {
        let plan = small_plan(&mut Random::new(31, n));
        let mut buffer = vec![9; 300];
        let length = write(&plan, &mut buffer).unwrap();
        let exact = Room {
            resources: plan.resources.len(),
            bands: plan.bands.len(),
            tasks: plan.tasks.len(),
        };
        let due = file::length(exact.resources, exact.bands, exact.tasks);
        assert_eq!(length, due);
        assert!(buffer[length..].iter().all(|byte| *byte == 9));
        assert_eq!(read_with_room(&buffer[..length], exact), Ok(plan.clone()));
        if exact.bands > 0 {
            let fewer = Room {
                bands: exact.bands - 1,
                ..exact
            };
            let result = read_with_room(&buffer[..length], fewer);
            assert_eq!(result, Err(Refusal::new(11, 0)));
        }
    }
}

#[test]
fn what_is_read_writes_the_same_bytes() {
    let mut sound = 0;
    for n in 0..COUNT {
        let file = plan_file(SEED, n);
        let Ok(plan) = read(&file) else {
            continue;
        };
        let mut buffer = vec![0; file.len()];
        assert_eq!(write(&plan, &mut buffer), Ok(file.len()));
        assert_eq!(buffer, file);
        sound += 1;
    }
    assert!(sound > COUNT / 2);
}

#[test]
fn a_stream_is_the_same_for_one_seed() {
    assert_eq!(stream(7, 200), stream(7, 200));
    assert_ne!(stream(7, 200), stream(8, 200));
    assert_eq!(stream(7, 200)[..], stream(7, 300)[..stream(7, 200).len()]);
}

#[test]
fn a_stream_is_broad() {
    let mut heads: BTreeMap<String, u64> = BTreeMap::new();
    let mut longest = 0;
    for n in 0..COUNT {
        let file = plan_file(SEED, n);
        assert!(file.len() <= READ_AT_MOST);
        longest = longest.max(file.len());
        let answer = answer(&file, None);
        let head: Vec<&str> = answer.lines().next().unwrap().split(' ').collect();
        *heads.entry(format!("{} {}", head[0], head[1])).or_default() += 1;
    }
    assert_eq!(longest, READ_AT_MOST);
    for number in [1, 2, 3, 4, 5, 6, 8, 9, 13] {
        assert!(
            heads.contains_key(&format!("refused {number}")),
            "{number}: {heads:?}"
        );
    }
    let settled: u64 = heads
        .iter()
        .filter(|(head, _)| head.starts_with("settled"))
        .map(|(_, n)| n)
        .sum();
    let unchanged = heads["settled 1"];
    assert!(unchanged > COUNT / 10, "{heads:?}");
    assert!(settled - unchanged > COUNT / 10, "{heads:?}");
    assert!(heads["refused 7"] > COUNT / 10, "{heads:?}");
}

/// A good share of the plans has bands and a good share has none, and bands change answers.
#[test]
fn a_stream_has_plans_with_bands_and_without() {
    let (mut banded, mut plain, mut changed, mut settled) = (0, 0, 0, 0);
    for n in 0..COUNT {
        let Ok(mut plan) = read(&plan_file(SEED, n)) else {
            continue;
        };
        if plan.bands.is_empty() {
            plain += 1;
            continue;
        }
        banded += 1;
        let with = answer(&file::unchecked_bytes(&plan), None);
        plan.bands.clear();
        let without = answer(&file::unchecked_bytes(&plan), None);
        changed += u64::from(with != without);
        settled += u64::from(with.starts_with("settled"));
    }
    let counts = format!("{banded} with, {plain} without, {changed} changed, {settled} settled");
    assert!(banded > COUNT / 3 && plain > COUNT / 3, "{counts}");
    assert!(changed > banded / 4 && settled > banded / 3, "{counts}");
}

/// A third of the plans has held resources, most have none, and held days change answers: no plan where there was one, and ranges.
#[test]
fn a_stream_has_plans_with_held_resources_and_without() {
    let (mut held, mut plain, mut changed, mut narrowed) = (0, 0, 0, 0);
    for n in 0..COUNT {
        let Ok(mut plan) = read(&plan_file(SEED, n)) else {
            continue;
        };
        if !plan.resources.iter().any(Resource::is_held) {
            plain += 1;
            continue;
        }
        held += 1;
        let with = answer(&file::unchecked_bytes(&plan), None);
        for resource in &mut plan.resources {
            resource.kind = Kind::Plain;
        }
        let without = answer(&file::unchecked_bytes(&plan), None);
        changed += u64::from(with != without);
        narrowed += u64::from(with != without && with.starts_with("settled"));
    }
    let counts = format!("{held} with, {plain} without, {changed} changed, {narrowed} narrowed");
    assert!(held > COUNT / 4 && plain > COUNT / 2, "{counts}");
    assert!(changed > held / 5 && narrowed > held / 20, "{counts}");
}

/// The plan that one pass leaves of a file.
fn passed(file: &[u8], fault: Option<Fault>) -> Result<Plan, Refusal> {
    let mut plan = read(file)?;
    pass(&mut plan, fault).map(|()| plan)
}

/// Errors of the calls beside settling, which does not see them: the one below, and those that tests/pass_bound.rs holds to their calls.
const BESIDE_SETTLING: [Fault; 4] = [
    Fault::PassBackwards,
    Fault::BoundWithoutOne,
    Fault::RangeLeftOut,
    Fault::PassTooMany,
];

#[test]
fn every_planted_fault_changes_answers() {
    let files: Vec<Vec<u8>> = (0..COUNT).map(|n| plan_file(SEED, n)).collect();
    let answers: Vec<String> = files.iter().map(|file| answer(file, None)).collect();
    for (name, fault) in FAULTS {
        let differs = |(file, said): &(&Vec<u8>, &String)| answer(file, Some(*fault)) != **said;
        let changed = files.iter().zip(&answers).filter(differs).count();
        if BESIDE_SETTLING.contains(fault) {
            assert_eq!(changed, 0, "{name}: settling has no such error");
        } else {
            assert!(changed > 5, "{name}: {changed}");
        }
    }
}

#[test]
fn a_pass_backwards_changes_passes() {
    let differs = |file: &Vec<u8>| passed(file, Some(Fault::PassBackwards)) != passed(file, None);
    let files = (0..COUNT).map(|n| plan_file(SEED, n));
    let changed = files.filter(differs).count();
    assert!(changed > 5, "{changed}");
}
