//! The command line of the second program.

use second::fault::{self, Fault};
use second::{allowed, file, make, program, stream, words, Plan};
use std::io::{self, Read, Write};
use std::process::ExitCode;

/// `count` lists no more than this.
const MOST_LISTED: u128 = 2_000_000_000;

fn main() -> ExitCode {
    let arguments: Vec<String> = std::env::args().skip(1).collect();
    match run(&arguments) {
        Ok(()) => ExitCode::SUCCESS,
        Err(error) => {
            eprintln!("second: {error}");
            ExitCode::FAILURE
        }
    }
}

fn run(arguments: &[String]) -> Result<(), String> {
    let Some((command, rest)) = arguments.split_first() else {
        return Err(format!("no command given\n{}", help()));
    };
    match command.as_str() {
        "settle" => settle(fault_option(rest)?),
        "within" => within(rest),
        "most-passes" => most_passes(fault_option(rest)?),
        "answers" => answers(fault_option(rest)?),
        "count" => nothing_more(rest).and_then(|()| count()),
        "words" => nothing_more(rest).and_then(|()| plan_words()),
        "make" => make_stream(rest),
        "help" | "--help" | "-h" => print(help().as_bytes()),
        other => Err(format!("unknown command {other}\n{}", help())),
    }
}

fn help() -> String {
    format!(
        "usage:
  second settle [--fault NAME] < FILE        what the planning program prints for FILE
  second within MOST [--fault NAME] < FILE   the same after at most MOST passes: `unsettled MOST` if each changed something
  second most-passes [--fault NAME] < FILE   the most passes that settling FILE can take
  second answers [--fault NAME] < STREAM     what the planning program prints for each file of a stream
  second count < FILE                        number of allowed plans, by listing
  second words < FILE                        the plan in readable words
  second make SEED COUNT > STREAM            a stream of COUNT plan files, the same for one SEED
  second help                                this text
A stream holds plan files, each with its length in front as 4 bytes little-endian.
MOST is a number of 64 bits.
NAME is one of: {}
",
        fault::names().join(", ")
    )
}

// ---- The commands ----

fn settle(fault: Option<Fault>) -> Result<(), String> {
    print(program::answer(&plan_file()?, fault).as_bytes())
}

fn within(rest: &[String]) -> Result<(), String> {
    let Some((most, rest)) = rest.split_first() else {
        return Err(format!("within takes MOST\n{}", help()));
    };
    let (most, fault) = (number(most)?, fault_option(rest)?);
    print(program::answer_within(&plan_file()?, most, fault).as_bytes())
}

fn most_passes(fault: Option<Fault>) -> Result<(), String> {
    print(program::most_passes(&plan_file()?, fault).as_bytes())
}

fn answers(fault: Option<Fault>) -> Result<(), String> {
    let stream = input(u64::MAX)?;
    let mut out = io::BufWriter::new(io::stdout().lock());
    let mut rest = stream.as_slice();
    let mut number = 0;
    while !rest.is_empty() {
        let (file, after) =
            stream::first_file(rest).ok_or(format!("the stream is cut short in file {number}"))?;
        let answer = program::answer(file, fault);
        out.write_all(answer.as_bytes()).map_err(cannot_write)?;
        rest = after;
        number += 1;
    }
    out.flush().map_err(cannot_write)
}

fn count() -> Result<(), String> {
    let plan = read_plan()?;
    let size = allowed::listing_size(&plan);
    if size.most() > MOST_LISTED {
        return Err(format!(
            "too much to list: up to {} plans, {} values of one task",
            size.plans, size.values
        ));
    }
    let count = allowed::count(&plan).map_err(|refusal| refusal.to_string())?;
    print(format!("{count}\n").as_bytes())
}

fn plan_words() -> Result<(), String> {
    print(words::of_plan(&read_plan()?).as_bytes())
}

fn make_stream(rest: &[String]) -> Result<(), String> {
    let [seed, count] = rest else {
        return Err(format!("make takes SEED and COUNT\n{}", help()));
    };
    print(&make::stream(number(seed)?, number(count)?))
}

// ---- What follows a command ----

fn number(text: &str) -> Result<u64, String> {
    let number = text.parse();
    number.map_err(|_| format!("not a number from 0: {text}\n{}", help()))
}

fn fault_option(rest: &[String]) -> Result<Option<Fault>, String> {
    match rest {
        [] => Ok(None),
        [option, name] if option == "--fault" => fault::named(name)
            .map(Some)
            .ok_or(format!("unknown fault {name}\n{}", help())),
        _ => Err(not_understood(rest)),
    }
}

fn nothing_more(rest: &[String]) -> Result<(), String> {
    match rest {
        [] => Ok(()),
        _ => Err(not_understood(rest)),
    }
}

fn not_understood(rest: &[String]) -> String {
    format!("not understood: {}\n{}", rest.join(" "), help())
}

// ---- Standard input and output ----

/// As much of standard input as the planning program reads.
fn plan_file() -> Result<Vec<u8>, String> {
    input(program::READ_AT_MOST as u64)
}

fn read_plan() -> Result<Plan, String> {
    file::read(&plan_file()?).map_err(|refusal| refusal.to_string())
}

fn input(most: u64) -> Result<Vec<u8>, String> {
    let mut bytes = Vec::new();
    match io::stdin().take(most).read_to_end(&mut bytes) {
        Ok(_) => Ok(bytes),
        Err(error) => Err(format!("cannot read: {error}")),
    }
}

fn print(bytes: &[u8]) -> Result<(), String> {
    let mut out = io::stdout().lock();
    out.write_all(bytes)
        .and_then(|()| out.flush())
        .map_err(cannot_write)
}

fn cannot_write(error: io::Error) -> String {
    format!("cannot write: {error}")
}
