//! The planning program's output text for one plan file; that of settling within a number of passes, and of the most passes.

use crate::bound;
use crate::fault::Fault;
use crate::file;
use crate::plan::*;
use crate::refusal::Refusal;
use crate::steps;

/// The planning program reads of a plan file from standard input "one more than
/// the longest file, so a longer one gets its refusal": 10,151 bytes.
pub const READ_AT_MOST: usize = file::LONGEST + 1;

/// "prints exactly these lines, each ended by a line feed": what the planning
/// program prints for these input bytes.
pub fn answer(input: &[u8], fault: Option<Fault>) -> String {
    text_of(settled(input, fault))
}

fn settled(input: &[u8], fault: Option<Fault>) -> Result<String, Refusal> {
    let mut plan = read(input)?;
    let passes = steps::settle(&mut plan, fault)?;
    Ok(plan_text(&format!("settled {passes}"), &plan))
}

/// The same for settling within so many passes. If each of them changed something,
/// line one is `unsettled` and their number, and the tasks are as they left them.
pub fn answer_within(input: &[u8], most: u64, fault: Option<Fault>) -> String {
    text_of(settled_within(input, most, fault))
}

fn settled_within(input: &[u8], most: u64, fault: Option<Fault>) -> Result<String, Refusal> {
    let mut plan = read(input)?;
    let head = match steps::settle_within(&mut plan, most, fault)? {
        Some(passes) => format!("settled {passes}"),
        None => format!("unsettled {most}"),
    };
    Ok(plan_text(&head, &plan))
}

/// One line: the most passes that settling can take.
pub fn most_passes(input: &[u8], fault: Option<Fault>) -> String {
    let most = read(input).and_then(|plan| bound::most_passes(&plan, fault));
    text_of(most.map(|most| format!("{most}\n")))
}

fn read(input: &[u8]) -> Result<Plan, Refusal> {
    file::read(&input[..input.len().min(READ_AT_MOST)])
}

/// "A refusal prints one line instead".
fn text_of(answer: Result<String, Refusal>) -> String {
    answer.unwrap_or_else(|refusal| format!("{refusal}\n"))
}

/// "Line one: the word and the pass count. Each task line: place, set as a
/// number, then low and high of origin, duration, end, height."
fn plan_text(head: &str, plan: &Plan) -> String {
    let mut text = format!("{head}\n");
    for (place, task) in plan.tasks.iter().enumerate() {
        text += &format!("{place} {}", task.set.0);
        for Range { low, high } in task.ranges() {
            text += &format!(" {low} {high}");
        }
        text += "\n";
    }
    text
}
