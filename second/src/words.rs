//! A plan in readable words.

use crate::plan::*;

/// One line for the sense, each resource, each band and each task.
pub fn of_plan(plan: &Plan) -> String {
    let sense = match plan.sense {
        Sense::AtMost => "at most",
        Sense::AtLeast => "at least",
    };
    let mut text = format!(
        "sense {sense}, resources {}, bands {}, tasks {}\n",
        plan.resources.len(),
        plan.bands.len(),
        plan.tasks.len()
    );
    for (place, resource) in plan.resources.iter().enumerate() {
        let kind = match resource.kind {
            Kind::Plain => "",
            Kind::Held => ", held",
        };
        text += &format!(
            "resource {place}: identifier {}, limit {}{kind}\n",
            resource.id, resource.limit
        );
    }
    for band in &plan.bands {
        text += &format!(
            "band {} from {} limit {}\n",
            band.place, band.from, band.limit
        );
    }
    for (place, task) in plan.tasks.iter().enumerate() {
        text += &format!(
            "task {place}: set {{{}}}, origin {}, duration {}, end {}, height {}\n",
            of_set(task.set),
            of_range(task.origin),
            of_range(task.duration),
            of_range(task.end),
            of_range(task.height)
        );
    }
    text
}

fn of_set(set: Set) -> String {
    let places: Vec<String> = set.places().map(|place| place.to_string()).collect();
    places.join(",")
}

fn of_range(Range { low, high }: Range) -> String {
    if low == high {
        format!("{low}")
    } else {
        format!("{low}..{high}")
    }
}
