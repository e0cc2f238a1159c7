//! How many comparisons of each kind were made.

use crate::engine::{Answer, Call};
use second::Refusal;

/// What is compared.
#[derive(Clone, Copy, Debug, PartialEq, Eq)]
pub enum Kind {
    Settle,
    Check,
    Balance,
    Pass,
    Step,
    MostPasses,
    Within,
    WithinBound,
    Passes,
    AgainAndAgain,
    LongerBuffer,
    ShorterBuffer,
    Listing,
}

/// Every kind with its line in the report.
const LINES: [(Kind, &str); 13] = [
    (
        Kind::Settle,
        "settle: answer, place or passes, whole output",
    ),
    (Kind::Check, "check"),
    (Kind::Balance, "balance"),
    (Kind::Pass, "pass"),
    (
        Kind::Step,
        "resource step, one for each resource and three beyond",
    ),
    (Kind::MostPasses, "most passes"),
    (
        Kind::Within,
        "settle within some number of passes: answer, whole output",
    ),
    (
        Kind::WithinBound,
        "settle within the most passes: settle's answer and output",
    ),
    (
        Kind::Passes,
        "passes until one changes nothing: settle's answer and output",
    ),
    (
        Kind::AgainAndAgain,
        "settle within a few passes, again and again: settle's answer and output",
    ),
    (
        Kind::LongerBuffer,
        "longer output buffer: the rest untouched",
    ),
    (
        Kind::ShorterBuffer,
        "shorter output buffer: refused, untouched",
    ),
    (
        Kind::Listing,
        "allowed plans listed before and after a step",
    ),
];

/// One for "settled", and one for each refusal number.
const ANSWERS: usize = 1 + Refusal::LAST_NUMBER as usize;

#[derive(Clone, Default)]
pub struct Tally {
    pub plans: u64,
    /// Those of them that are read and have bands.
    pub banded: u64,
    /// Those of them that are read and have held resources.
    pub held: u64,
    kinds: [u64; LINES.len()],
    /// Settle's answers by refusal number; 0 is "settled".
    answers: [u64; ANSWERS],
}

impl Tally {
    pub fn count(&mut self, kind: Kind) {
        self.kinds[kind as usize] += 1;
    }

    /// One call, and what it has to answer.
    pub fn count_call(&mut self, call: Call, answer: Answer) {
        self.count(match call {
            Call::Settle => Kind::Settle,
            Call::Check => Kind::Check,
            Call::Balance => Kind::Balance,
            Call::Pass => Kind::Pass,
            Call::Step(_) => Kind::Step,
            Call::MostPasses => Kind::MostPasses,
            Call::Within(_) => Kind::Within,
        });
        if call == Call::Settle {
            self.answers[answer.number() as usize] += 1;
        }
    }

    pub fn add(&mut self, other: &Tally) {
        self.plans += other.plans;
        self.banded += other.banded;
        self.held += other.held;
        let kinds = self.kinds.iter_mut().zip(&other.kinds);
        let answers = self.answers.iter_mut().zip(&other.answers);
        for (mine, theirs) in kinds.chain(answers) {
            *mine += theirs;
        }
    }

    pub fn report(&self, seconds: f64) -> String {
        let mut text = String::new();
        for (kind, line) in LINES {
            text += &format!("{:>12}  {line}\n", self.kinds[kind as usize]);
        }
        let refusals: Vec<String> = (1..ANSWERS)
            .filter(|number| self.answers[*number] > 0)
            .map(|number| format!("{number}: {}", self.answers[number]))
            .collect();
        text += &format!(
            "settle's answers: settled {}, refused {}\n",
            self.answers[0],
            refusals.join(", ")
        );
        let total: u64 = self.kinds.iter().sum();
        let rate = |count: u64| (count as f64 / seconds) as u64;
        text += &format!(
            "{} plans ({} with bands, {} with held resources) in {seconds:.1} s: {} plans settled on both sides a second, {} comparisons a second\n",
            self.plans,
            self.banded,
            self.held,
            rate(self.plans),
            rate(total)
        );
        text
    }
}
