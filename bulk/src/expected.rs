//! What the second program says of a call on a plan file.

use crate::engine::{Answer, Call};
use second::{bound, file, steps, Fault, Plan, Refusal};

/// A call's answer and, where it succeeds and takes an output buffer, the file it writes.
#[derive(Clone)]
pub struct Expected {
    pub call: Call,
    pub answer: Answer,
    pub written: Option<Vec<u8>>,
}

impl Expected {
    /// What the second program says of the plan that it read, with room enough for the output.
    pub fn of(call: Call, plan: &Result<Plan, Refusal>, fault: Option<Fault>) -> Expected {
        let stepped = plan.clone().and_then(|mut plan| {
            let number = match call {
                Call::Settle => steps::settle(&mut plan, fault)?,
                Call::Check => 0,
                Call::Balance => steps::balance(&mut plan).map(|()| 0)?,
                Call::Pass => steps::pass(&mut plan, fault).map(|()| 0)?,
                Call::Step(place) => steps::resource_step(&mut plan, place, fault).map(|()| 0)?,
                Call::MostPasses => bound::most_passes(&plan, fault)?,
                Call::Within(most) => steps::settle_within(&mut plan, most, fault)
                    .map(|passes| passes.unwrap_or(0))?,
            };
            Ok((number, plan))
        });
        match stepped {
            Err(refusal) => Expected::refused(call, refusal),
            Ok((number, plan)) => Expected {
                call,
                answer: Answer::done(number),
                written: call.writes().then(|| file::unchecked_bytes(&plan)),
            },
        }
    }

    fn refused(call: Call, refusal: Refusal) -> Expected {
        Expected {
            call,
            answer: Answer::refused(refusal),
            written: None,
        }
    }

    /// The same answer and file, due of another call.
    pub fn of_call(&self, call: Call) -> Expected {
        Expected {
            call,
            ..self.clone()
        }
    }

    /// The same call with a buffer that is shorter than the file: that refusal comes before "no plan" alone.
    pub fn with_shorter_buffer(&self) -> Expected {
        let no_plan = self.answer == Answer::refused(Refusal::NO_PLAN);
        if self.written.is_some() || no_plan {
            return Expected::refused(self.call, Refusal::BUFFER_SHORTER);
        }
        self.clone()
    }
}
