//! The tick handler: checks a table of slices against a board, tells which job a
//! core runs at a tick, and moves a position through the window. A kernel asks
//! it with the lines of a plan (`reader`).

pub mod reader;

use crate::planner::{self, Board, Kind, Reason, Refusal, Slice};

/// The answer's number where no job runs, and what is added to a refusal's.
const NONE: u32 = 256;
const REFUSED: u32 = 512;

/// A tick on a core, in the numbers that a caller gives: any of them may be one
/// that the board lacks.
#[derive(Clone, Copy, Debug, PartialEq, Eq)]
pub struct CoreTick {
    pub tick: u32,
    pub kind: u32,
    pub core: u32,
}

impl CoreTick {
    pub fn new(tick: u32, kind: u32, core: u32) -> CoreTick {
        CoreTick { tick, kind, core }
    }
}

/// What a handler is asked with: the lines of a plan, and a tick on a core.
#[derive(Clone, Debug, PartialEq, Eq)]
pub struct Query {
    pub lines: Vec<u8>,
    pub at: CoreTick,
}

impl Query {
    /// The tick, the kind and the core in four bytes each, high byte first, and
    /// then the lines.
    pub fn bytes(&self) -> Vec<u8> {
        let CoreTick { tick, kind, core } = self.at;
        let mut bytes = [tick, kind, core].map(u32::to_be_bytes).concat();
        bytes.extend_from_slice(&self.lines);
        bytes
    }
}

/// A table that has passed the checks.
#[derive(Clone, Debug, PartialEq, Eq)]
pub struct Table {
    board: Board,
    rows: Vec<Slice>,
}

impl Table {
    /// Checks 1, 2, 12 over all rows, and 13.
    pub fn check(board: Board, rows: Vec<Slice>) -> Result<Table, Refusal> {
        planner::check_board(&board)?;
        if let Some(place) = rows.iter().position(|row| !on_board(&board, row)) {
            return Err(Refusal::new(Reason::BadRow, place));
        }
        let taken = |place: &usize| rows[..*place].iter().any(|row| collide(row, &rows[*place]));
        if let Some(place) = (0..rows.len()).find(taken) {
            return Err(Refusal::new(Reason::Collision, place));
        }
        Ok(Table { board, rows })
    }

    pub fn board(&self) -> &Board {
        &self.board
    }

    /// The job that runs, or none; or refusal 11.
    pub fn job_at(&self, at: CoreTick) -> Result<Option<usize>, Refusal> {
        let refusal = Refusal::new(Reason::OffBoard, 0);
        let kind = Kind::numbered(at.kind.into()).ok_or(refusal)?;
        let (tick, core) = (i64::from(at.tick), i64::from(at.core));
        if tick >= self.board.window || core >= self.board.cores[kind] {
            return Err(refusal);
        }
        let runs = |row: &&Slice| {
            (row.kind, row.core) == (kind, core)
                && (row.start..row.start + row.length).contains(&tick)
        };
        Ok(self.rows.iter().find(runs).map(|row| row.job))
    }
}

/// Whether a row has a length and lies within the window and the cores.
fn on_board(board: &Board, row: &Slice) -> bool {
    row.length > 0
        && row.start + row.length <= board.window
        && (0..board.cores[row.kind]).contains(&row.core)
}

/// Whether two rows have a tick of a core in common.
fn collide(one: &Slice, two: &Slice) -> bool {
    (one.kind, one.core) == (two.kind, two.core)
        && one.start < two.start + two.length
        && two.start < one.start + one.length
}

/// Moves a position on by one tick, from the window's last to its first. Refused
/// by 1 or 11, it stays.
pub fn move_on(position: &mut u32, window: u32) -> Result<(), Refusal> {
    planner::check_window(window.into())?;
    if *position >= window {
        return Err(Refusal::new(Reason::OffBoard, 0));
    }
    *position = (*position + 1) % window;
    Ok(())
}

/// The job that runs by the lines of a plan, or none; or the first refusal among
/// 8, 9 and 10 of the lines, 1, 2, 12 and 13 of the table, and 11.
pub fn tick(lines: &[u8], at: CoreTick) -> Result<Option<usize>, Refusal> {
    table(lines)?.job_at(at)
}

/// The checked table of the lines of a plan.
pub fn table(lines: &[u8]) -> Result<Table, Refusal> {
    let plan = reader::read(lines)?;
    Table::check(plan.board, plan.rows)
}

/// An answer as the one number that C gets.
pub fn number(answer: Result<Option<usize>, Refusal>) -> u32 {
    match answer {
        Ok(Some(job)) => job as u32,
        Ok(None) => NONE,
        Err(refusal) => REFUSED + u32::from(refusal.reason.number()),
    }
}
