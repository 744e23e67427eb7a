//! The facts of a text: the starting balance of each kind, and the moves of
//! each job or the refusal.

use std::fmt;

use crate::planner::{self, Moves, PerKind, Refusal};
use crate::text;

#[derive(Clone, Debug, PartialEq, Eq)]
pub enum Facts {
    /// An accepted set, with the moves of each job by number.
    Accepted { balance: PerKind, moves: Vec<Moves> },
    /// A legal set that is refused for room.
    NoRoom { balance: PerKind, refusal: Refusal },
    /// A text that is refused, or one of a set that is not legal.
    Refused(Refusal),
}

/// Bytes in, bytes out: the lines of a text's facts.
pub fn facts_text(input: &[u8]) -> Vec<u8> {
    facts(input).to_string().into_bytes()
}

pub fn facts(input: &[u8]) -> Facts {
    find(input).unwrap_or_else(Facts::Refused)
}

fn find(input: &[u8]) -> Result<Facts, Refusal> {
    let (board, jobs) = text::read(input)?;
    let balance = planner::starting_balance(&board, &jobs)?;
    // The set has passed the checks, so only room can be missing.
    Ok(match planner::plan(&board, &jobs) {
        Ok(plan) => Facts::Accepted {
            balance,
            moves: planner::moves(&plan),
        },
        Err(refusal) => Facts::NoRoom { balance, refusal },
    })
}

/// The lines, with all numbers in decimal and a line feed after each.
impl fmt::Display for Facts {
    fn fmt(&self, f: &mut fmt::Formatter) -> fmt::Result {
        match self {
            Facts::Accepted { balance, moves } => {
                write_balance(f, balance)?;
                for (job, Moves { outer, inner }) in moves.iter().enumerate() {
                    writeln!(f, "moves {job} {outer} {inner}")?;
                }
                Ok(())
            }
            Facts::NoRoom { balance, refusal } => {
                write_balance(f, balance)?;
                writeln!(f, "{refusal}")
            }
            Facts::Refused(refusal) => writeln!(f, "{refusal}"),
        }
    }
}

fn write_balance(f: &mut fmt::Formatter, balance: &PerKind) -> fmt::Result {
    writeln!(f, "balance {} {}", balance.first, balance.second)
}
