//! The program. A planner that is compared with this one reads the texts of a
//! family in frames and writes its answers in frames:
//! `independent FAMILY | other | independent compare FAMILY`. So does a tick
//! handler, where the family is one of lines. Facts and whole windows are compared
//! with those of a command that is run on each text by itself:
//! `independent compare-facts FAMILY -- other`.

use std::fmt::Display;
use std::io::{self, BufReader, BufWriter, Read, Write};
use std::process::ExitCode;

use independent::compare::Failure;
use independent::compare_command::{Said, Task};
use independent::facts::Facts;
use independent::family::Family;
use independent::window::Window;
use independent::{bench, command, compare, compare_lines, facts, frames, text, window};

const USAGE: &str =
    "usage: independent plan | facts | window | answers | FAMILY | compare FAMILY | bench GROUP
       independent compare-facts [--every N] FAMILY -- COMMAND [ARGUMENT]...
       independent compare-window [--every N] FAMILY -- COMMAND [ARGUMENT]...
FAMILY: named | small | gen SEED COUNT [FROM] | lines SEED COUNT [FROM]
GROUP: a number of jobs | worst | refused";

fn main() -> ExitCode {
    match run() {
        Ok(code) => code,
        Err(error) => {
            // Who reads the output may end first, and then has said why.
            if error.kind() != io::ErrorKind::BrokenPipe {
                eprintln!("independent: {error}");
            }
            ExitCode::FAILURE
        }
    }
}

fn run() -> io::Result<ExitCode> {
    let arguments: Vec<String> = std::env::args().skip(1).collect();
    let words: Vec<&str> = arguments.iter().map(String::as_str).collect();
    match words[..] {
        ["plan"] => answer(text::plan_text)?,
        ["facts"] => answer(facts::facts_text)?,
        ["window"] => answer(window::window_text)?,
        ["answers"] => answers()?,
        ["compare", ..] => match Family::parse(&words[1..]) {
            Some(family) => return run_compare(family),
            None => return Ok(usage()),
        },
        ["compare-facts", ..] => match Task::parse(&words[1..]) {
            Some(task) => return run_task::<Facts>(&task),
            None => return Ok(usage()),
        },
        ["compare-window", ..] => match Task::parse(&words[1..]) {
            Some(task) => return run_task::<Window>(&task),
            None => return Ok(usage()),
        },
        ["bench", group] => match bench::texts(group) {
            Some(texts) => write_frames(texts.into_iter())?,
            None => return Ok(usage()),
        },
        _ => match Family::parse(&words) {
            Some(family) => write_frames(family.indices().map(|index| family.frame(index)))?,
            None => return Ok(usage()),
        },
    }
    Ok(ExitCode::SUCCESS)
}

/// Answers the one text on standard input.
fn answer(to: impl Fn(&[u8]) -> Vec<u8>) -> io::Result<()> {
    let mut input = Vec::new();
    io::stdin().lock().read_to_end(&mut input)?;
    io::stdout().lock().write_all(&to(&input))
}

fn write_frames(texts: impl Iterator<Item = Vec<u8>>) -> io::Result<()> {
    let mut out = BufWriter::new(io::stdout().lock());
    for text in texts {
        frames::write(&mut out, &text)?;
    }
    out.flush()
}

fn answers() -> io::Result<()> {
    let mut from = BufReader::new(io::stdin().lock());
    let mut out = BufWriter::new(io::stdout().lock());
    while let Some(input) = frames::read(&mut from)? {
        frames::write(&mut out, &text::plan_text(&input))?;
    }
    out.flush()
}

/// Compares with the answers on standard input.
fn run_compare(family: Family) -> io::Result<ExitCode> {
    let mut from = BufReader::new(io::stdin().lock());
    let ended = || io::Error::new(io::ErrorKind::UnexpectedEof, "an answer is missing");
    let mut next = || frames::read(&mut from)?.ok_or_else(ended);
    let verdict = match family {
        Family::Lines(stream) => told(compare_lines::run(stream, |_| next())?),
        _ => match compare::run(family, |_| next())? {
            Ok(counts) => compare::lack(family, &counts).map_or(Ok(counts.to_string()), Err),
            Err(failure) => Err(failure.to_string()),
        },
    };
    match verdict {
        Ok(_) if frames::read(&mut from)?.is_some() => {
            eprintln!("{family}: more answers than texts");
            Ok(ExitCode::FAILURE)
        }
        verdict => report(verdict),
    }
}

/// A verdict in words.
fn told(verdict: Result<impl Display, Box<Failure>>) -> Result<String, String> {
    match verdict {
        Ok(counts) => Ok(counts.to_string()),
        Err(failure) => Err(failure.to_string()),
    }
}

/// Prints the counts, or the failure.
fn report(verdict: Result<String, String>) -> io::Result<ExitCode> {
    match verdict {
        Ok(counts) => {
            write!(io::stdout().lock(), "{counts}")?;
            Ok(ExitCode::SUCCESS)
        }
        Err(failure) => {
            eprintln!("{failure}");
            Ok(ExitCode::FAILURE)
        }
    }
}

/// Compares with what a command says.
fn run_task<S: Said>(task: &Task) -> io::Result<ExitCode> {
    let verdict = task.run::<S>(|input| command::run(&task.command, input))?;
    report(told(verdict))
}

fn usage() -> ExitCode {
    eprintln!("{USAGE}");
    ExitCode::from(2)
}
