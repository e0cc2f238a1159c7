//! Steps against plain listing: no step loses an allowed plan, and single values decide.

mod support;

use second::random::Random;
use second::steps::{balance, pass, resource_step, settle};
use second::{allowed, file, make, Plan, Refusal};
use support::*;

/// One step picked at random; true if it found no plan.
fn random_step(random: &mut Random, plan: &mut Plan) -> bool {
    let result = match random.within(0, 3) {
        0 => balance(plan),
        1 => pass(plan, None),
        _ => {
            let place = random.place(plan.resources.len());
            resource_step(plan, place, None)
        }
    };
    assert!(matches!(result, Ok(()) | Err(Refusal::NO_PLAN)));
    result.is_err()
}

#[test]
fn every_step_keeps_the_number_of_allowed_plans() {
    let (mut narrowed, mut none) = (0, 0);
    for n in 0..700 {
        let random = &mut Random::new(11, n);
        let entry = small_plan(random);
        let count = allowed::count(&entry).unwrap();
        let mut plan = entry.clone();
        for _ in 0..6 {
            let before = plan.clone();
            if random_step(random, &mut plan) {
                assert_eq!(count, 0, "a step found no plan, listing did: {entry:?}");
                assert_eq!(plan, before);
                none += 1;
                break;
            }
            if plan != before {
                narrowed += 1;
                assert_eq!(
                    allowed::count(&plan),
                    Ok(count),
                    "{before:?} became {plan:?}"
                );
            }
        }
    }
    assert!(
        narrowed > 100 && none > 100,
        "{narrowed} narrowed, {none} no plan"
    );
}

#[test]
fn settling_a_made_stream_keeps_the_number_of_allowed_plans() {
    let mut listed = 0;
    for n in 0..10_000 {
        let Ok(entry) = file::read(&make::plan_file(14, n)) else {
            continue;
        };
        let size = allowed::listing_size(&entry);
        if size.values > 10_000 || size.plans > 50_000 {
            continue;
        }
        listed += 1;
        let count = allowed::count(&entry).unwrap();
        let mut plan = entry.clone();
        match settle(&mut plan, None) {
            Ok(_) => assert_eq!(
                allowed::count(&plan),
                Ok(count),
                "{entry:?} became {plan:?}"
            ),
            Err(_) => assert_eq!(count, 0, "{entry:?}"),
        }
    }
    assert!(listed > 1_000, "{listed}");
}

#[test]
fn settling_is_passes_until_one_changes_nothing() {
    for n in 0..300 {
        let entry = small_plan(&mut Random::new(12, n));
        let mut settled = entry.clone();
        let result = settle(&mut settled, None);
        let mut plan = entry.clone();
        let mut passes = 0;
        let stepwise = loop {
            let before = plan.clone();
            match pass(&mut plan, None) {
                Err(refusal) => break Err(refusal),
                Ok(()) => passes += 1,
            }
            if plan == before {
                break Ok(passes);
            }
        };
        assert_eq!(result, stepwise);
        assert_eq!(settled, if result.is_ok() { plan } else { entry });
    }
}

#[test]
fn single_values_a_pass_refuses_exactly_what_is_not_allowed() {
    let mut allowed_ones = 0;
    for n in 0..2_000 {
        let entry = single_value_plan(&mut Random::new(13, n));
        let count = allowed::count(&entry).unwrap();
        assert!(count <= 1);
        allowed_ones += count;
        let mut plan = entry.clone();
        assert_eq!(pass(&mut plan, None).is_ok(), count == 1, "{entry:?}");
        assert_eq!(plan, entry);
    }
    assert!(allowed_ones > 400 && allowed_ones < 1_600, "{allowed_ones}");
}

#[test]
fn both_senses_are_listed_directly() {
    use second::Sense::*;
    let two = [single(0, 2, 2, 3), single(1, 2, 3, -1)];
    // Levels: 3 on day 0, 2 on day 1, -1 on day 2.
    assert_eq!(allowed::count(&plan(AtMost, &[3], &two)), Ok(1));
    assert_eq!(allowed::count(&plan(AtMost, &[2], &two)), Ok(0));
    assert_eq!(allowed::count(&plan(AtLeast, &[-1], &two)), Ok(1));
    assert_eq!(allowed::count(&plan(AtLeast, &[0], &two)), Ok(0));
    assert_eq!(allowed::count(&plan(AtMost, &[-5], &[])), Ok(1));
}
