//! Compares another tick handler's answers with this one's. An answer has three
//! numbers of four bytes, high byte first: the answer on the lines, how many
//! bytes the table was packed in, or 0 where it is refused, and the answer on the
//! packed bytes, or `NOT_ASKED` where there are none.

use std::fmt;
use std::io;

use crate::compare::Failure;
use crate::family::{Family, Stream};
use crate::gen;
use crate::handler::{self, CoreTick, Query};
use crate::planner::{Reason, Refusal};

pub const NOT_ASKED: u32 = u32::MAX;

type Answer = Result<Option<usize>, Refusal>;

/// How many queries got each answer.
#[derive(Clone, Debug, Default, PartialEq, Eq)]
pub struct Counts {
    pub queries: u64,
    pub named: u64,
    pub idle: u64,
    /// By the refusal's number.
    pub refused: [u64; 14],
}

/// The refusals that a query can get, by rising number.
pub const REFUSALS: [usize; 8] = [1, 2, 8, 9, 10, 11, 12, 13];

/// Asks the other handler each query of a stream; the first failure ends the
/// comparison.
pub fn run(
    stream: Stream,
    mut other: impl FnMut(&Query) -> io::Result<Vec<u8>>,
) -> io::Result<Result<Counts, Box<Failure>>> {
    let family = Family::Lines(stream);
    let mut counts = Counts::default();
    for index in stream.indices() {
        let query = gen::query(stream.seed, index);
        let ours = handler::tick(&query.lines, query.at);
        let theirs = other(&query).map_err(|error| {
            io::Error::new(error.kind(), format!("{family}, index {index}: {error}"))
        })?;
        counts.add(&ours);
        if let Some(message) = fault(&ours, &theirs) {
            let CoreTick { tick, kind, core } = query.at;
            return Ok(Err(Box::new(Failure {
                family,
                index,
                input: query.lines,
                ours: told(&ours).into_bytes(),
                other: told_numbers(&theirs).into_bytes(),
                message: format!("tick {tick}, kind {kind}, core {core}: {message}"),
            })));
        }
    }
    Ok(Ok(counts))
}

/// Whether the table itself is in order: only the tick on a core can be wrong.
fn has_table(answer: &Answer) -> bool {
    match answer {
        Ok(_) => true,
        Err(refusal) => refusal.reason == Reason::OffBoard,
    }
}

/// What is wrong with an answer.
fn fault(ours: &Answer, theirs: &[u8]) -> Option<&'static str> {
    let Some([answer, packed, from_packed]) = numbers(theirs) else {
        return Some("the answer is not of twelve bytes");
    };
    if answer != handler::number(*ours) {
        return Some("the answers differ");
    }
    match (has_table(ours), packed) {
        (true, 0) => Some("a table that is not refused is not packed"),
        (true, _) if from_packed != answer => Some("the packed table answers otherwise"),
        (false, 1..) => Some("a table that is refused is packed"),
        (false, 0) if from_packed != NOT_ASKED => Some("there is no packed table to answer"),
        _ => None,
    }
}

fn numbers(bytes: &[u8]) -> Option<[u32; 3]> {
    let number = |at: usize| {
        let four = bytes[4 * at..][..4].try_into().expect("they are four");
        u32::from_be_bytes(four)
    };
    (bytes.len() == 12).then(|| [0, 1, 2].map(number))
}

/// Our answer in words, and its number.
fn told(answer: &Answer) -> String {
    let words = match answer {
        Ok(Some(job)) => format!("job {job}"),
        Ok(None) => "none".into(),
        Err(refusal) => refusal.to_string(),
    };
    let number = handler::number(*answer);
    let (packed, from_packed) = if has_table(answer) {
        ("more than 0", number)
    } else {
        ("0", NOT_ASKED)
    };
    format!("tick {number} ({words})\npacked {packed}\npacked tick {from_packed}\n")
}

fn told_numbers(bytes: &[u8]) -> String {
    match numbers(bytes) {
        Some([answer, packed, from_packed]) => {
            format!("tick {answer}\npacked {packed}\npacked tick {from_packed}\n")
        }
        None => bytes.escape_ascii().to_string(),
    }
}

impl Counts {
    fn add(&mut self, answer: &Answer) {
        self.queries += 1;
        *match answer {
            Ok(Some(_)) => &mut self.named,
            Ok(None) => &mut self.idle,
            Err(refusal) => &mut self.refused[usize::from(refusal.reason.number())],
        } += 1;
    }
}

/// All on one line.
impl fmt::Display for Counts {
    fn fmt(&self, f: &mut fmt::Formatter) -> fmt::Result {
        let Counts {
            queries,
            named,
            idle,
            refused,
        } = self;
        let refused = REFUSALS.map(|number| format!("{number}: {}", refused[number]));
        let refused = refused.join(", ");
        writeln!(
            f,
            "queries {queries}, named {named}, idle {idle}, refused {refused}"
        )
    }
}
