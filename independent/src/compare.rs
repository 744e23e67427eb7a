//! Compares another planner's answers with this one's, byte by byte, and holds
//! them against the checker.

use std::fmt;
use std::io;

use crate::examine::{examine, Counts};
use crate::family::Family;
use crate::text;

/// So many random texts reach each refusal, whatever the seed.
const ENOUGH: u64 = 20_000;

/// A text whose answer from the other planner is not right.
#[derive(Clone, Debug)]
pub struct Failure {
    pub family: Family,
    pub index: u64,
    pub input: Vec<u8>,
    pub ours: Vec<u8>,
    pub other: Vec<u8>,
    pub message: String,
}

/// Asks the other planner about each text of a family; the first failure ends
/// the comparison.
pub fn run(
    family: Family,
    mut other: impl FnMut(&[u8]) -> io::Result<Vec<u8>>,
) -> io::Result<Result<Counts, Box<Failure>>> {
    let mut counts = Counts::default();
    for index in family.indices() {
        let input = family.text(index);
        let ours = text::plan_text(&input);
        let at = |error: io::Error| {
            io::Error::new(error.kind(), format!("{family}, index {index}: {error}"))
        };
        let other = other(&input).map_err(at)?;
        let verdict = if ours == other {
            examine(&input, &other, &mut counts)
        } else {
            Err("the answers differ".into())
        };
        if let Err(message) = verdict {
            return Ok(Err(Box::new(Failure {
                family,
                index,
                input,
                ours,
                other,
                message,
            })));
        }
    }
    Ok(Ok(counts))
}

/// What the counts of a family lack: so many random texts that do not reach each
/// refusal compare less than they are there for.
pub fn lack(family: Family, counts: &Counts) -> Option<String> {
    let unreached = counts.unreached();
    match family {
        Family::Random(stream) if stream.count >= ENOUGH && !unreached.is_empty() => Some(format!(
            "{family}: no text of {} reached refusal {unreached:?}",
            stream.count
        )),
        _ => None,
    }
}

/// The texts, and last the line that says where and what.
impl fmt::Display for Failure {
    fn fmt(&self, f: &mut fmt::Formatter) -> fmt::Result {
        for (title, bytes) in [
            ("text", &self.input),
            ("answer of the independent planner", &self.ours),
            ("answer of the other planner", &self.other),
        ] {
            let shown = bytes.escape_ascii().to_string().replace("\\n", "\n");
            writeln!(f, "{title}, {} bytes:\n{shown}", bytes.len())?;
        }
        write!(f, "{}, index {}: {}", self.family, self.index, self.message)
    }
}
