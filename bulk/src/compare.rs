//! One plan file, every call: the engine's answer and buffers against what the second program says.

use crate::engine::{Answer, Call, Engine};
use crate::expected::Expected;
use crate::tally::{Kind, Tally};
use second::random::Random;
use second::{allowed, bound, file, words, Fault, Plan, Refusal, Resource};

/// Bytes kept on either side of a lent buffer, to see that nothing beyond it is written.
const MARGIN: usize = 16;
/// A plan is listed if it has at most so many choices, and no task more than so many.
const MOST_LISTED: u128 = 1_500;
/// Of the plans that are small enough, one in so many is listed: listing is slow.
const LISTED_ONE_IN: u64 = 12;
/// So many passes are followed call by call; what takes more is not followed to its end.
const MOST_FOLLOWED: u64 = 300;
/// Steps tried on a listed plan.
const LISTED_STEPS: i64 = 6;

/// The first thing in which the two sides differ.
pub struct Difference {
    pub file: Vec<u8>,
    pub text: String,
}

/// The two sides: the second program's fault, the engine, and memory lent to it again and again; and how often they were compared.
pub struct Comparison {
    fault: Option<Fault>,
    pub tally: Tally,
    engine: Engine,
    /// An output buffer with a margin on either side.
    memory: Vec<u8>,
    /// What the memory has to hold after the call.
    due: Vec<u8>,
}

impl Comparison {
    pub fn new(fault: Option<Fault>) -> Comparison {
        Comparison {
            fault,
            tally: Tally::default(),
            engine: Engine::open(),
            memory: Vec::new(),
            due: Vec::new(),
        }
    }

    /// Compares every call on this file.
    pub fn compare(&mut self, file: &[u8], random: &mut Random) -> Result<(), Difference> {
        let plan = file::read(file);
        self.tally.plans += 1;
        self.tally.banded += u64::from(plan.as_ref().is_ok_and(|plan| !plan.bands.is_empty()));
        self.tally.held += u64::from(plan.as_ref().is_ok_and(has_held));
        let bound = self.bound(&plan);
        // What the calls that take an output leave: settling's first.
        let mut writing = Vec::new();
        for call in calls(&plan, some_most(random, bound)) {
            let expected = Expected::of(call, &plan, self.fault);
            self.tally.count_call(call, expected.answer);
            let room = if call.writes() { file.len() } else { 0 };
            self.compare_call(file, room, &expected)?;
            if call.writes() {
                writing.push(expected);
            }
        }
        self.other_ways_to_settle(file, bound, &writing[0], random)?;
        let expected = &writing[random.place(writing.len())];
        self.other_buffers(file, expected, random)?;
        match plan {
            Ok(plan) if self.fault.is_none() && random.one_in(LISTED_ONE_IN) => {
                self.listed(&plan, file, random)
            }
            _ => Ok(()),
        }
    }

    /// The most passes that the second program tells, and the engine has to; 0 for a file that is refused.
    fn bound(&self, plan: &Result<Plan, Refusal>) -> u64 {
        let plan = plan.as_ref().ok();
        let bound = plan.and_then(|plan| bound::most_passes(plan, self.fault).ok());
        bound.unwrap_or(0)
    }

    /// Settling within the bound, by passes one by one, and within a few passes again and again.
    fn other_ways_to_settle(
        &mut self,
        file: &[u8],
        bound: u64,
        settled: &Expected,
        random: &mut Random,
    ) -> Result<(), Difference> {
        self.tally.count(Kind::WithinBound);
        self.within_bound(file, bound, settled)?;
        self.tally.count(Kind::Passes);
        self.again_and_again(Call::Pass, file, settled)?;
        self.tally.count(Kind::AgainAndAgain);
        let few = random.within(1, 6) as u64;
        self.again_and_again(Call::Within(few), file, settled)
    }

    /// Settling takes no more passes than the bound, so within the bound the engine settles; "where settling ends in no plan, the failing
    /// pass comes within the same number."
    fn within_bound(
        &mut self,
        file: &[u8],
        bound: u64,
        settled: &Expected,
    ) -> Result<(), Difference> {
        if settled.answer.number() == 0 && settled.answer.is_beyond(bound) {
            let said = settled.answer.words(Call::Settle);
            return Err(Difference {
                file: file.to_vec(),
                text: format!("{said}; the most passes are {bound}\n"),
            });
        }
        self.compare_call(file, file.len(), &settled.of_call(Call::Within(bound)))
    }

    /// The engine's passes one by one, or its settling within a few, each call on the output of the one before, until one settles the plan
    /// or is refused: that is settling, the passes of all calls counted.
    fn again_and_again(
        &mut self,
        call: Call,
        file: &[u8],
        settled: &Expected,
    ) -> Result<(), Difference> {
        let each = match call {
            Call::Within(most) => most,
            _ => 1,
        };
        let mut before = file.to_vec();
        let mut after = before.clone();
        let mut passes = 0;
        while passes < MOST_FOLLOWED {
            let answer = self.counted_call(call, &before, &mut after);
            if answer == Answer::UNSETTLED {
                std::mem::swap(&mut before, &mut after);
                passes += each;
                continue;
            }
            let ended = answer.with_passes_before(passes);
            let written = (ended.number() == 0).then_some(after);
            if ended == settled.answer && written == settled.written {
                return Ok(());
            }
            let ended = ended.words(Call::Settle);
            return Err(not_settling(call, file, &ended, settled));
        }
        if settled.answer.is_beyond(passes) {
            return Ok(());
        }
        let unsettled = format!("not settled after {passes} passes");
        Err(not_settling(call, file, &unsettled, settled))
    }

    /// One of those calls. A pass reports no count: the last is the one that changes nothing.
    fn counted_call(&mut self, call: Call, before: &[u8], after: &mut [u8]) -> Answer {
        let answer = self.engine.call(call, before, after, 0);
        if call == Call::Pass && answer == Answer::UNSETTLED && after == before {
            return Answer::done(1);
        }
        answer
    }

    /// A longer buffer, and a shorter one.
    fn other_buffers(
        &mut self,
        file: &[u8],
        expected: &Expected,
        random: &mut Random,
    ) -> Result<(), Difference> {
        self.tally.count(Kind::LongerBuffer);
        let longer = file.len() + random.count(1, 60);
        self.compare_call(file, longer, expected)?;
        if file.is_empty() {
            return Ok(());
        }
        self.tally.count(Kind::ShorterBuffer);
        let any = random.place(file.len());
        let shorter = random.pick(&[0, file.len() - 1, any]);
        self.compare_call(file, shorter, &expected.with_shorter_buffer())
    }

    /// One call with an output buffer of `room` bytes, all of the memory around it watched.
    fn compare_call(
        &mut self,
        file: &[u8],
        room: usize,
        expected: &Expected,
    ) -> Result<(), Difference> {
        self.fill(room + 2 * MARGIN);
        let call = expected.call;
        let answer = self.engine.call(call, file, &mut self.memory, MARGIN);
        if let Some(written) = &expected.written {
            self.due[MARGIN..MARGIN + written.len()].copy_from_slice(written);
        }
        if answer == expected.answer && self.memory == self.due {
            return Ok(());
        }
        Err(self.difference(file, room, expected, answer))
    }

    /// A pattern in the memory, and the same in what is due.
    fn fill(&mut self, length: usize) {
        let pattern = |place: usize| (place * 151 + 90) as u8;
        for memory in [&mut self.memory, &mut self.due] {
            memory.clear();
            memory.extend((0..length).map(pattern));
        }
    }

    fn difference(
        &self,
        file: &[u8],
        room: usize,
        expected: &Expected,
        answer: Answer,
    ) -> Difference {
        let call = expected.call;
        let mut text = format!(
            "{call:?} with {room} bytes of room for a file of {}:\n  the engine says: {}\n  the second program says: {}\n",
            file.len(),
            answer.words(call),
            expected.answer.words(call)
        );
        if answer == expected.answer {
            let place =
                (0..self.memory.len()).find(|place| self.memory[*place] != self.due[*place]);
            let byte = place.unwrap_or(0) as i64 - MARGIN as i64;
            let output = MARGIN..MARGIN + room.min(file.len());
            text += &format!(
                "  the output differs first at byte {byte}\nthe engine's output:\n{}the second program's output:\n{}",
                file_words(&self.memory[output.clone()]),
                file_words(&self.due[output])
            );
        }
        Difference {
            file: file.to_vec(),
            text,
        }
    }

    /// The engine's steps in a random order, each on the output of the one before: no step changes the number of allowed plans.
    fn listed(&mut self, plan: &Plan, file: &[u8], random: &mut Random) -> Result<(), Difference> {
        if allowed::listing_size(plan).most() > MOST_LISTED {
            return Ok(());
        }
        let count = allowed::count(plan).expect("the plan was read");
        let mut before = file.to_vec();
        for _ in 0..LISTED_STEPS {
            let step = match random.within(0, 7) {
                0 => Call::Settle,
                1 => Call::Balance,
                2 => Call::Pass,
                3 => Call::Within(random.within(0, 3) as u64),
                _ => Call::Step(random.place(plan.resources.len())),
            };
            let mut after = vec![0; before.len()];
            let answer = self.engine.call(step, &before, &mut after, 0);
            let no_plan = answer == Answer::refused(Refusal::NO_PLAN);
            let left = match file::read(&after) {
                _ if no_plan => Some(0),
                Ok(_) if after == before => Some(count),
                Ok(plan) => allowed::count(&plan).ok(),
                Err(_) => None,
            };
            self.tally.count(Kind::Listing);
            if left != Some(count) {
                return Err(lost(step, answer, before, count, left));
            }
            if no_plan {
                return Ok(());
            }
            before = after;
        }
        Ok(())
    }
}

/// Whether one of the plan's resources is held.
fn has_held(plan: &Plan) -> bool {
    plan.resources.iter().any(Resource::is_held)
}

/// Every call, settling within `most` passes among them; the resource step for every place, one beyond and two far beyond (of a damaged
/// file, any place): one whose lowest 32 bits name the first resource, and the last that a host can ask for.
fn calls(plan: &Result<Plan, Refusal>, most: u64) -> impl Iterator<Item = Call> {
    let places = plan.as_ref().map_or(0, |plan| plan.resources.len());
    let beyond = [1 << 32, usize::MAX];
    let steps = (0..=places).chain(beyond).map(Call::Step);
    [
        Call::Settle,
        Call::Check,
        Call::Balance,
        Call::Pass,
        Call::MostPasses,
        Call::Within(most),
    ]
    .into_iter()
    .chain(steps)
}

/// How many passes settling is given: none or a few, one less than the bound or as many, one more than 32 bits hold, or the most that a
/// host can ask for.
fn some_most(random: &mut Random, bound: u64) -> u64 {
    let few = random.within(3, 12) as u64;
    let less = bound.saturating_sub(1);
    random.pick(&[0, 1, 2, few, less, bound, 1 << 32, u64::MAX])
}

/// Calls again and again that come to something else than settling.
fn not_settling(call: Call, file: &[u8], ended: &str, settled: &Expected) -> Difference {
    let said = settled.answer.words(Call::Settle);
    let outputs = if ended == said {
        ", with another output"
    } else {
        ""
    };
    Difference {
        file: file.to_vec(),
        text: format!(
            "{call:?} by the engine, again and again: {ended}{outputs}; settling: {said}\n"
        ),
    }
}

/// A step that changed the number of allowed plans; none are left of an output that is no plan.
fn lost(step: Call, answer: Answer, file: Vec<u8>, count: u64, left: Option<u64>) -> Difference {
    let after = match left {
        None => "the output is no plan".to_string(),
        Some(left) => format!("{left} after it"),
    };
    let said = answer.words(step);
    let text = format!("{step:?} by the engine ({said}): {count} allowed plans before, {after}\n");
    Difference { file, text }
}

/// A plan file in words, or why it is none.
pub fn file_words(file: &[u8]) -> String {
    match file::read(file) {
        Ok(plan) => words::of_plan(&plan),
        Err(refusal) => format!("no plan file: {refusal} ({} bytes)\n", file.len()),
    }
}
