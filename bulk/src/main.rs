//! Compares the engine with the second program on fresh random plans until the time is up or they differ.

mod compare;
mod engine;
mod expected;
mod plans;
mod tally;

use compare::{file_words, Comparison, Difference};
use plans::Source;
use second::fault::{self, Fault};
use std::process::ExitCode;
use std::sync::atomic::{AtomicBool, Ordering};
use std::sync::Mutex;
use std::thread;
use std::time::{Duration, Instant, SystemTime, UNIX_EPOCH};
use tally::Tally;

/// Where the plan of a difference is kept, from the folder in which the program is run.
const SAVED: &str = "target/bulk/difference.plan";

fn main() -> ExitCode {
    let arguments: Vec<String> = std::env::args().skip(1).collect();
    if arguments == ["--faults"] {
        println!("{}", fault::names().join("\n"));
        return ExitCode::SUCCESS;
    }
    match Run::of(&arguments) {
        Ok(run) => run.run(),
        Err(error) => {
            eprintln!("bulk: {error}\n{}", help());
            ExitCode::from(2)
        }
    }
}

fn help() -> String {
    format!(
        "usage: bulk/run [--fault NAME] SECONDS [SEED]
       bulk/run --faults
  compares the engine with the second program for so many seconds, stops at the first difference
  --fault NAME   plants a fault in the second program: a difference must be found
  --faults       lists the names of the faults, one a line
  NAME is one of: {}",
        fault::names().join(", ")
    )
}

/// What the command line asks for.
struct Run {
    fault: Option<Fault>,
    seconds: u64,
    seed: u64,
}

/// What all threads share.
struct Shared {
    over: AtomicBool,
    tally: Mutex<Tally>,
    difference: Mutex<Option<Difference>>,
}

impl Run {
    fn of(arguments: &[String]) -> Result<Run, String> {
        let (fault, rest) = match arguments {
            [option, name, rest @ ..] if option == "--fault" => {
                let fault = fault::named(name).ok_or(format!("unknown fault {name}"))?;
                (Some(fault), rest)
            }
            rest => (None, rest),
        };
        let number = |text: &String| {
            text.parse::<u64>()
                .map_err(|_| format!("not a number: {text}"))
        };
        let (seconds, seed) = match rest {
            [seconds] => (number(seconds)?, seed_of_now()),
            [seconds, seed] => (number(seconds)?, number(seed)?),
            _ => return Err("SECONDS is due".to_string()),
        };
        Ok(Run {
            fault,
            seconds,
            seed,
        })
    }

    fn run(&self) -> ExitCode {
        let start = Instant::now();
        let shared = Shared {
            over: AtomicBool::new(false),
            tally: Mutex::new(Tally::default()),
            difference: Mutex::new(None),
        };
        let threads = thread::available_parallelism().map_or(2, |count| count.get() as u64);
        println!("seed {}, {threads} threads", self.seed);
        thread::scope(|scope| {
            for thread in 0..threads {
                let source = Source::new(self.seed, thread, threads);
                let shared = &shared;
                scope.spawn(move || self.work(source, start, shared));
            }
        });
        let seconds = start.elapsed().as_secs_f64();
        let Shared {
            tally, difference, ..
        } = shared;
        print!("{}", tally.into_inner().unwrap().report(seconds));
        self.verdict(difference.into_inner().unwrap(), seconds)
    }

    /// One thread: its share of the plans, until the time is up or someone found a difference.
    fn work(&self, mut source: Source, start: Instant, shared: &Shared) {
        let mut comparison = Comparison::new(self.fault);
        let end = start + Duration::from_secs(self.seconds);
        while !shared.over.load(Ordering::Relaxed) && Instant::now() < end {
            let (file, mut random) = source.next_file();
            if let Err(difference) = comparison.compare(&file, &mut random) {
                shared.over.store(true, Ordering::Relaxed);
                shared.difference.lock().unwrap().get_or_insert(difference);
            }
        }
        shared.tally.lock().unwrap().add(&comparison.tally);
    }

    /// The last words: a difference is a failure, unless a fault was planted, which must be found.
    fn verdict(&self, difference: Option<Difference>, seconds: f64) -> ExitCode {
        match (&difference, self.fault) {
            (Some(found), None) => {
                print!("DIFFERENCE\n{}", difference_words(found));
                match std::fs::write(SAVED, &found.file) {
                    Ok(()) => println!("the plan is in {SAVED}"),
                    Err(error) => println!("the plan could not be saved in {SAVED}: {error}"),
                }
                ExitCode::FAILURE
            }
            (Some(found), Some(_)) => {
                print!("{}", difference_words(found));
                println!("the planted fault was found after {seconds:.3} s");
                ExitCode::SUCCESS
            }
            (None, Some(_)) => {
                println!("the planted fault was NOT found");
                ExitCode::FAILURE
            }
            (None, None) => {
                println!("no difference");
                ExitCode::SUCCESS
            }
        }
    }
}

fn difference_words(found: &Difference) -> String {
    format!("{}the plan:\n{}", found.text, file_words(&found.file))
}

fn seed_of_now() -> u64 {
    SystemTime::now()
        .duration_since(UNIX_EPOCH)
        .map_or(1, |time| time.as_millis() as u64)
}
