//! A whole window of the tick handler: how often it names each job on each kind,
//! how often none, and where the position is after as many moves as the window
//! has ticks.

use std::fmt;

use crate::handler::{self, reader, CoreTick, Table};
use crate::planner::{Kind, PerKind, Refusal};

#[derive(Clone, Debug, PartialEq, Eq)]
pub enum Window {
    Walked(Walk),
    /// Lines or a table that are refused.
    Refused(Refusal),
}

/// Counts of ticks of cores, and the position at the end.
#[derive(Clone, Debug, PartialEq, Eq)]
pub struct Walk {
    /// By job, for each below the number in `10`.
    pub named: Vec<PerKind>,
    pub idle: PerKind,
    pub position: u32,
}

/// Bytes in, bytes out: the lines of a whole window.
pub fn window_text(lines: &[u8]) -> Vec<u8> {
    window(lines).to_string().into_bytes()
}

pub fn window(lines: &[u8]) -> Window {
    find(lines).map_or_else(Window::Refused, Window::Walked)
}

fn find(lines: &[u8]) -> Result<Walk, Refusal> {
    let table = handler::table(lines)?;
    walk(&table, reader::read(lines)?.shares.len())
}

/// Asks for each core at each position, from 0 on.
fn walk(table: &Table, jobs: usize) -> Result<Walk, Refusal> {
    let ticks = table.board().window as u32;
    let mut walk = Walk {
        named: vec![PerKind::default(); jobs],
        idle: PerKind::default(),
        position: 0,
    };
    for _ in 0..ticks {
        for kind in Kind::ALL {
            for core in 0..table.board().cores[kind] {
                let at = CoreTick::new(walk.position, kind.number() as u32, core as u32);
                let count = match table.job_at(at)? {
                    Some(job) => &mut walk.named[job],
                    None => &mut walk.idle,
                };
                count[kind] += 1;
            }
        }
        handler::move_on(&mut walk.position, ticks)?;
    }
    Ok(walk)
}

/// The lines, with all numbers in decimal and a line feed after each. A job that
/// is never named has none.
impl fmt::Display for Window {
    fn fmt(&self, f: &mut fmt::Formatter) -> fmt::Result {
        match self {
            Window::Walked(walk) => write!(f, "{walk}"),
            Window::Refused(refusal) => writeln!(f, "{refusal}"),
        }
    }
}

impl fmt::Display for Walk {
    fn fmt(&self, f: &mut fmt::Formatter) -> fmt::Result {
        for (job, named) in self.named.iter().enumerate() {
            if *named != PerKind::default() {
                writeln!(f, "job {job} {} {}", named.first, named.second)?;
            }
        }
        writeln!(f, "idle {} {}", self.idle.first, self.idle.second)?;
        writeln!(f, "position {}", self.position)
    }
}
