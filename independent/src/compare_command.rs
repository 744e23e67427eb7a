//! Compares what a command says of texts with what this planner says, byte by
//! byte: the facts of a set, or a whole window of a plan.

use std::fmt;
use std::io;

use crate::command::Answer;
use crate::compare::Failure;
use crate::facts::{facts, Facts};
use crate::family::Family;
use crate::handler;
use crate::window::{window, Window};

/// The greatest window that is walked through: a command may check the whole
/// table at each of its ticks.
const SHORT_WINDOW: i64 = 64;

/// What is said of a text, in lines.
pub trait Said: fmt::Display + Sized {
    /// The names of the counts that it may go under.
    const COUNTS: &'static [&'static str];

    /// What this planner says; nothing of a text that is not to be compared.
    fn of(text: &[u8]) -> Option<Self>;

    /// Which of the counts it goes under.
    fn count(&self) -> usize;
}

impl Said for Facts {
    const COUNTS: &'static [&'static str] = &["accepted", "refused for room", "refused otherwise"];

    fn of(text: &[u8]) -> Option<Facts> {
        Some(facts(text))
    }

    fn count(&self) -> usize {
        match self {
            Facts::Accepted { .. } => 0,
            Facts::NoRoom { .. } => 1,
            Facts::Refused(_) => 2,
        }
    }
}

impl Said for Window {
    const COUNTS: &'static [&'static str] = &["accepted", "refused"];

    fn of(text: &[u8]) -> Option<Window> {
        let long = |table: &handler::Table| table.board().window > SHORT_WINDOW;
        let skip = handler::table(text).is_ok_and(|table| long(&table));
        (!skip).then(|| window(text))
    }

    fn count(&self) -> usize {
        match self {
            Window::Walked(_) => 0,
            Window::Refused(_) => 1,
        }
    }
}

/// Which texts to compare on, and the command to run on each of them.
#[derive(Clone, Debug, PartialEq, Eq)]
pub struct Task {
    pub family: Family,
    /// Each so many-th text of the family is taken, from the first on.
    pub every: usize,
    pub command: Vec<String>,
}

/// How many texts were compared, and how many of them go under each count.
#[derive(Clone, Debug, PartialEq, Eq)]
pub struct Counts {
    pub texts: u64,
    pub by_name: Vec<(&'static str, u64)>,
}

impl Task {
    /// A task by its words: `[--every N] FAMILY -- COMMAND ARGS`.
    pub fn parse(words: &[&str]) -> Option<Task> {
        let end = words.iter().position(|&word| word == "--")?;
        let command: Vec<String> = words[end + 1..].iter().map(|&word| word.into()).collect();
        let (every, family) = match words[..end] {
            ["--every", every, ref family @ ..] => (every.parse().ok()?, family),
            ref family => (1, family),
        };
        let task = Task {
            family: Family::parse(family)?,
            every,
            command,
        };
        (every > 0 && !task.command.is_empty()).then_some(task)
    }

    /// Asks for the answer to each text; the first failure ends the comparison.
    /// It is an error to compare none.
    pub fn run<S: Said>(
        &self,
        mut other: impl FnMut(&[u8]) -> io::Result<Answer>,
    ) -> io::Result<Result<Counts, Box<Failure>>> {
        let family = self.family;
        let mut counts = Counts::new(S::COUNTS);
        for index in family.indices().step_by(self.every) {
            let input = family.text(index);
            let Some(ours) = S::of(&input) else {
                continue;
            };
            let answer = other(&input).map_err(|error| {
                io::Error::new(error.kind(), format!("{family}, index {index}: {error}"))
            })?;
            counts.add(ours.count());
            let ours = ours.to_string().into_bytes();
            if let Some(message) = fault(&ours, &answer) {
                return Ok(Err(Box::new(Failure {
                    family,
                    index,
                    input,
                    ours,
                    other: answer.out,
                    message,
                })));
            }
        }
        if counts.texts == 0 {
            let message = format!("{family}: no text was compared");
            return Err(io::Error::new(io::ErrorKind::InvalidInput, message));
        }
        Ok(Ok(counts))
    }
}

/// All that is wrong with an answer, on one line.
fn fault(ours: &[u8], answer: &Answer) -> Option<String> {
    let mut faults = Vec::new();
    if answer.out != ours {
        faults.push("the answers differ".to_owned());
    }
    if !answer.status.success() {
        faults.push(format!("the command ended with {}", answer.status));
    }
    if !answer.err.is_empty() {
        let err = answer.err.escape_ascii();
        faults.push(format!("standard error is not empty: {err}"));
    }
    (!faults.is_empty()).then(|| faults.join("; "))
}

impl Counts {
    fn new(names: &[&'static str]) -> Counts {
        Counts {
            texts: 0,
            by_name: names.iter().map(|&name| (name, 0)).collect(),
        }
    }

    fn add(&mut self, count: usize) {
        self.texts += 1;
        self.by_name[count].1 += 1;
    }
}

/// A line for each count: its name, and the number last.
impl fmt::Display for Counts {
    fn fmt(&self, f: &mut fmt::Formatter) -> fmt::Result {
        writeln!(f, "texts {}", self.texts)?;
        for (name, count) in &self.by_name {
            writeln!(f, "{name} {count}")?;
        }
        Ok(())
    }
}
