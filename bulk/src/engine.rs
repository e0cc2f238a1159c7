//! The engine: its calls as include/gristwaltz.h declares them, linked or made by the program `caller`; and what they answer.

use second::Refusal;
use std::io::{Read, Write};
use std::process::{Child, ChildStdin, ChildStdout, Command, Stdio};

/// One of the engine's calls.
#[derive(Clone, Copy, Debug, PartialEq, Eq)]
pub enum Call {
    Settle,
    Check,
    Balance,
    Pass,
    /// The resource step for the resource at this place.
    Step(usize),
    /// The most passes that settling can take.
    MostPasses,
    /// Settling within so many passes.
    Within(u64),
}

impl Call {
    /// Whether it takes an output buffer.
    pub fn writes(self) -> bool {
        !matches!(self, Call::Check | Call::MostPasses)
    }
}

/// What a call answers: the refusal number times 2^32 plus the place, or, where the refusal number is 0, the pass count of settling (within
/// so many passes 0, if they have not settled the plan), or the most passes; 0 for every other call.
#[derive(Clone, Copy, Debug, PartialEq, Eq)]
pub struct Answer(u64);

/// The place of a refusal, or the number of passes, stands in so many bits below the refusal number.
const PLACE_BITS: u32 = 32;

impl Answer {
    pub fn refused(refusal: Refusal) -> Answer {
        Answer((u64::from(refusal.number) << PLACE_BITS) + refusal.place as u64)
    }

    /// A success that counts no passes: of settling within so many, that they have not settled the plan.
    pub const UNSETTLED: Answer = Answer(0);

    pub fn done(passes: u64) -> Answer {
        Answer(passes)
    }

    /// The refusal number, 0 if it is none.
    pub fn number(self) -> u32 {
        (self.0 >> PLACE_BITS) as u32
    }

    /// The same with so many passes made before it; a refusal counts none.
    pub fn with_passes_before(self, passes: u64) -> Answer {
        match self.number() {
            0 => Answer(self.0 + passes),
            _ => self,
        }
    }

    /// Whether this is a refusal, or more passes than so many.
    pub fn is_beyond(self, passes: u64) -> bool {
        self.0 > passes
    }

    fn place_or_passes(self) -> u32 {
        self.0 as u32
    }

    pub fn words(self, call: Call) -> String {
        let rest = self.place_or_passes();
        match (self.number(), call) {
            (0, Call::MostPasses) => format!("at most {rest} passes"),
            (0, Call::Within(_)) if rest == 0 => "not settled yet".to_string(),
            (0, Call::Settle | Call::Within(_)) => format!("settled after {rest} passes"),
            (0, _) if rest == 0 => "done".to_string(),
            (0, _) => format!("done, with {rest} where 0 is due"),
            (number, _) => Refusal::new(number, rest as usize).to_string(),
        }
    }
}

/// A way to the engine.
pub enum Engine {
    #[cfg(linked)]
    Linked,
    Called(Caller),
}

/// The environment variable with the words that start the caller; unset, the engine is the one linked.
const CALLER: &str = "GRISTWALTZ_CALLER";

impl Engine {
    pub fn open() -> Engine {
        match std::env::var(CALLER) {
            Ok(words) => Engine::Called(Caller::start(&words)),
            #[cfg(linked)]
            Err(_) => Engine::Linked,
            #[cfg(not(linked))]
            Err(_) => panic!("no archive is linked, and {CALLER} names no caller"),
        }
    }

    /// What the call answers. `memory` is the output buffer with a margin on either side (a check and the most passes take no output).
    pub fn call(&mut self, call: Call, file: &[u8], memory: &mut [u8], margin: usize) -> Answer {
        Answer(match self {
            #[cfg(linked)]
            Engine::Linked => {
                let end = memory.len() - margin;
                linked::call(call, file, &mut memory[margin..end])
            }
            Engine::Called(caller) => caller.call(call, file, memory, margin),
        })
    }
}

#[cfg(linked)]
mod linked {
    use super::Call;

    extern "C" {
        fn gristwaltz_settle(file: *const u8, file_len: usize, out: *mut u8, out_len: usize)
            -> u64;
        fn gristwaltz_check(file: *const u8, file_len: usize) -> u64;
        fn gristwaltz_balance(
            file: *const u8,
            file_len: usize,
            out: *mut u8,
            out_len: usize,
        ) -> u64;
        fn gristwaltz_pass(file: *const u8, file_len: usize, out: *mut u8, out_len: usize) -> u64;
        fn gristwaltz_resource_step(
            file: *const u8,
            file_len: usize,
            place: usize,
            out: *mut u8,
            out_len: usize,
        ) -> u64;
        fn gristwaltz_most_passes(file: *const u8, file_len: usize) -> u64;
        fn gristwaltz_settle_within(
            file: *const u8,
            file_len: usize,
            most: u64,
            out: *mut u8,
            out_len: usize,
        ) -> u64;
    }

    pub fn call(call: Call, file: &[u8], out: &mut [u8]) -> u64 {
        let (from, length) = (file.as_ptr(), file.len());
        let (to, room) = (out.as_mut_ptr(), out.len());
        // The calls read `length` bytes and write at most `room`: the lent slices, which do not overlap.
        unsafe {
            match call {
                Call::Settle => gristwaltz_settle(from, length, to, room),
                Call::Check => gristwaltz_check(from, length),
                Call::Balance => gristwaltz_balance(from, length, to, room),
                Call::Pass => gristwaltz_pass(from, length, to, room),
                Call::Step(place) => gristwaltz_resource_step(from, length, place, to, room),
                Call::MostPasses => gristwaltz_most_passes(from, length),
                Call::Within(most) => gristwaltz_settle_within(from, length, most, to, room),
            }
        }
    }
}

/// The program `caller` (bulk/caller.c) and the pipes to it.
pub struct Caller {
    program: Child,
    requests: ChildStdin,
    replies: ChildStdout,
}

impl Caller {
    fn start(words: &str) -> Caller {
        let mut words = words.split_whitespace();
        let mut program = Command::new(words.next().expect("the caller's words are empty"))
            .args(words)
            .stdin(Stdio::piped())
            .stdout(Stdio::piped())
            .spawn()
            .expect("the caller cannot be started");
        let requests = program.stdin.take().unwrap();
        let replies = program.stdout.take().unwrap();
        Caller {
            program,
            requests,
            replies,
        }
    }

    fn call(&mut self, call: Call, file: &[u8], memory: &mut [u8], margin: usize) -> u64 {
        // The calls are numbered as the caller's own list has them.
        let (number, place) = match call {
            Call::Settle => (0, 0),
            Call::Check => (1, 0),
            Call::Balance => (2, 0),
            Call::Step(place) => (3, place as u64),
            Call::Pass => (4, 0),
            Call::MostPasses => (5, 0),
            Call::Within(most) => (6, most),
        };
        let lengths = [file.len(), memory.len(), margin].map(|length| length as u64);
        let mut request = Vec::new();
        for part in [number, place].into_iter().chain(lengths) {
            request.extend(part.to_le_bytes());
        }
        request.extend(file);
        request.extend(&*memory);
        let mut answer = [0; 8];
        self.requests
            .write_all(&request)
            .and_then(|()| self.replies.read_exact(&mut answer))
            .and_then(|()| self.replies.read_exact(memory))
            .unwrap_or_else(|error| panic!("the caller ended in {call:?}: {error}"));
        u64::from_le_bytes(answer)
    }
}

impl Drop for Caller {
    fn drop(&mut self) {
        let _ = self.program.kill();
        let _ = self.program.wait();
    }
}
