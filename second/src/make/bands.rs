//! Bands for a plan: on its own days and around its own limits, few and many, at the ends of their ranges.

use crate::plan::*;
use crate::random::Random;

/// The plan with bands, in the sense it has; no band stands more than once or out of order.
pub fn banded(random: &mut Random, plan: Plan) -> Plan {
    if plan.sense == Sense::AtMost {
        return banded(random, plan.negated()).negated();
    }
    let days = Days::of(random, &plan);
    match random.within(0, 13) {
        0 => one(random, plan, &days),
        1..=3 => few(random, plan, &days),
        4 => at_first_day(random, plan, &days),
        5 => outside_listed_days(random, plan, &days),
        6 | 7 => neighbours(random, plan, &days),
        8 => equal_limits(random, plan, &days),
        9 => many_on_one(random, plan, &days),
        10 => on_every_resource(random, plan, &days),
        11 => at_ends(random, plan),
        12 => as_many_as_there_may_be(random, plan),
        _ => limit_by_band(random, plan, &days),
    }
}

/// So many bands in order, over all resources: each is on a later day than the one before it.
pub fn rising(random: &mut Random, resources: usize, count: usize) -> Vec<Band> {
    let mut from = random.within(-40, 10);
    let mut list = Vec::new();
    for number in 0..count {
        list.push(Band {
            place: number * resources / count,
            from,
            limit: random.within(-9, 2),
        });
        from += random.pick(&[1, 1, 1, 2, 5]);
    }
    list
}

// ---- Days and limits ----

/// The days that a plan's tasks speak of.
struct Days {
    /// The least origin low and the greatest end high.
    listed: Range,
    /// Where a task may begin, end or surely is, and the days beside them.
    near: Vec<i64>,
}

impl Days {
    fn of(random: &mut Random, plan: &Plan) -> Days {
        let tasks = plan.tasks.iter();
        let first = tasks.clone().map(|task| task.origin.low).min();
        let last = tasks.clone().map(|task| task.end.high).max();
        let (Some(first), Some(last)) = (first, last) else {
            let listed = Range::new(0, 5);
            return Days {
                listed,
                near: listed.values().collect(),
            };
        };
        let mut near = vec![first, last];
        for task in tasks {
            let Range { low, high } = task.origin;
            near.extend([low, high, task.end.low, task.end.high]);
            if high < task.end.low {
                near.push(random.within(high, task.end.low));
            }
        }
        Days {
            listed: Range::new(first, last.max(first)),
            near,
        }
    }

    fn near(&self, random: &mut Random) -> i64 {
        random.pick(&self.near) + random.within(-1, 1)
    }
}

/// A limit around the one that the resource has without bands, now and then far below it.
fn limit_near(random: &mut Random, plan: &Plan, place: usize) -> i64 {
    let by = random.pick(&[-100, -4, -3, -2, -1, -1, 0, 1, 1, 2]);
    plan.resources[place].limit + by
}

fn band_near(random: &mut Random, plan: &Plan, place: usize, days: &Days) -> Band {
    Band {
        place,
        from: days.near(random),
        limit: limit_near(random, plan, place),
    }
}

/// The plan with these bands within their ends and in order; of those on one day the first stays.
fn with_bands(plan: Plan, bands: Vec<Band>) -> Plan {
    let within = |band: Band| Band {
        from: band.from.clamp(DAYS.low, DAYS.high),
        limit: band.limit.clamp(POWERS.low, POWERS.high),
        ..band
    };
    let mut bands: Vec<Band> = bands.into_iter().map(within).collect();
    bands.sort_by_key(|band| (band.place, band.from));
    bands.dedup_by_key(|band| (band.place, band.from));
    bands.truncate(MOST_BANDS);
    Plan { bands, ..plan }
}

// ---- The kinds ----

fn one(random: &mut Random, plan: Plan, days: &Days) -> Plan {
    let place = random.place(plan.resources.len());
    let band = band_near(random, &plan, place, days);
    with_bands(plan, vec![band])
}

/// A few, on any resources.
fn few(random: &mut Random, plan: Plan, days: &Days) -> Plan {
    let mut bands = Vec::new();
    for _ in 0..random.within(2, 6) {
        let place = random.place(plan.resources.len());
        bands.push(band_near(random, &plan, place, days));
    }
    with_bands(plan, bands)
}

/// On the first listed day, and perhaps another later.
fn at_first_day(random: &mut Random, plan: Plan, days: &Days) -> Plan {
    let place = random.place(plan.resources.len());
    let mut bands = vec![Band {
        from: days.listed.low,
        ..band_near(random, &plan, place, days)
    }];
    if random.one_in(2) {
        bands.push(band_near(random, &plan, place, days));
    }
    with_bands(plan, bands)
}

/// Before the first listed day, on the last one, and beyond it.
fn outside_listed_days(random: &mut Random, plan: Plan, days: &Days) -> Plan {
    let mut bands = Vec::new();
    for place in 0..plan.resources.len().min(4) {
        let Range { low, high } = days.listed;
        let from = random.pick(&[low - 1, low - 9, high - 1, high, high + 1, high + 50]);
        bands.push(Band {
            from,
            ..band_near(random, &plan, place, days)
        });
    }
    with_bands(plan, bands)
}

/// Day after day on one resource.
fn neighbours(random: &mut Random, plan: Plan, days: &Days) -> Plan {
    let place = random.place(plan.resources.len());
    let first = days.near(random);
    let last = first + random.within(1, 5);
    let bands = (first..=last)
        .map(|from| Band {
            from,
            ..band_near(random, &plan, place, days)
        })
        .collect();
    with_bands(plan, bands)
}

/// One limit again and again: a band that changes nothing, or only the first does.
fn equal_limits(random: &mut Random, plan: Plan, days: &Days) -> Plan {
    let place = random.place(plan.resources.len());
    let limit = if random.one_in(2) {
        plan.resources[place].limit
    } else {
        limit_near(random, &plan, place)
    };
    let bands = (0..random.within(2, 4))
        .map(|_| Band {
            limit,
            ..band_near(random, &plan, place, days)
        })
        .collect();
    with_bands(plan, bands)
}

/// Many on one resource, the first of them anywhere before the last listed day.
fn many_on_one(random: &mut Random, plan: Plan, days: &Days) -> Plan {
    let place = random.place(plan.resources.len());
    let below = random.within(0, 3);
    let mut from = random.value(days.listed) - random.within(0, 12);
    let mut bands = Vec::new();
    for _ in 0..random.pick(&[6, 9, 14, 30, MOST_BANDS]) {
        bands.push(Band {
            from,
            limit: limit_near(random, &plan, place) - below,
            place,
        });
        from += random.pick(&[1, 1, 2, 3]);
    }
    with_bands(plan, bands)
}

/// Up to three on each resource.
fn on_every_resource(random: &mut Random, plan: Plan, days: &Days) -> Plan {
    let mut bands = Vec::new();
    for place in 0..plan.resources.len() {
        for _ in 0..random.within(1, 3) {
            bands.push(band_near(random, &plan, place, days));
        }
    }
    with_bands(plan, bands)
}

/// Days and limits at their ends and next to them.
fn at_ends(random: &mut Random, plan: Plan) -> Plan {
    let Range { low, high } = DAYS;
    let (least, most) = (POWERS.low, POWERS.high);
    let mut bands = Vec::new();
    for _ in 0..random.within(1, 4) {
        let place = random.place(plan.resources.len());
        let near = limit_near(random, &plan, place);
        bands.push(Band {
            place,
            from: random.pick(&[low, low, low + 1, -1, 0, high - 1, high]),
            limit: random.pick(&[least, least, least + 1, near, near, most - 1, most]),
        });
    }
    with_bands(plan, bands)
}

/// All 64, most of them so low that they matter little.
fn as_many_as_there_may_be(random: &mut Random, plan: Plan) -> Plan {
    let bands = rising(random, plan.resources.len(), MOST_BANDS);
    Plan { bands, ..plan }
}

/// A resource's own limit lowered, and given back by a band for some days: what
/// the rules say there only the band causes.
fn limit_by_band(random: &mut Random, mut plan: Plan, days: &Days) -> Plan {
    let place = random.place(plan.resources.len());
    let limit = plan.resources[place].limit;
    let low = (limit - random.within(3, 20)).max(POWERS.low);
    plan.resources[place].limit = low;
    let from = days.near(random);
    let until = from + random.within(1, 6);
    let bands = vec![
        Band { place, from, limit },
        Band {
            place,
            from: until,
            limit: low,
        },
    ];
    with_bands(plan, bands)
}
