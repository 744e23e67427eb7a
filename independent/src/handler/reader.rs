//! The reader of a plan's lines: the board's, then those that `plan` writes for
//! an accepted set, by the rules for text. The `12` lines may come in any order.

use crate::planner::{Board, Kind, PerKind, Reason, Refusal, Slice};
use crate::text::{self, MAX_TEXT};

/// What the lines say: as many shares and rows as `10` does.
#[derive(Clone, Debug, PartialEq, Eq)]
pub struct PlanLines {
    pub board: Board,
    pub shares: Vec<PerKind>,
    pub rows: Vec<Slice>,
}

enum Record {
    Board(Board),
    Counts(Counts),
    Share { job: usize, share: PerKind },
    Row(Slice),
}

#[derive(Clone, Copy, Default)]
struct Counts {
    jobs: usize,
    rows: usize,
}

/// What has been read so far.
#[derive(Default)]
struct Begun {
    board: Option<Board>,
    counts: Option<Counts>,
    shares: Vec<PerKind>,
    rows: Vec<Slice>,
}

/// Reads all lines. The first bad one decides, and on it 8, 9 and 10 in that
/// order; a missing one is bad at the line after the last.
pub fn read(input: &[u8]) -> Result<PlanLines, Refusal> {
    if input.len() > MAX_TEXT {
        return Err(Refusal::new(Reason::BadDigits, 0));
    }
    let mut begun = Begun::default();
    let mut place = 1;
    for line in text::lines(input) {
        let refuse = |reason| Refusal::new(reason, place);
        let bytes = text::digits(line).ok_or(refuse(Reason::BadDigits))?;
        let record = record(&bytes)
            .filter(|record| begun.knows_job(record))
            .ok_or(refuse(Reason::BadRecord))?;
        begun.add(record).ok_or(refuse(Reason::BadOrder))?;
        place += 1;
    }
    begun.whole().ok_or(Refusal::new(Reason::BadOrder, place))
}

/// The record of a line's bytes by its form, or nothing where refusal 9 is due.
fn record(bytes: &[u8]) -> Option<Record> {
    match *bytes {
        [0x01, ..] => text::board(bytes).map(Record::Board),
        [0x10, jobs, rows] => Some(Record::Counts(Counts {
            jobs: jobs.into(),
            rows: rows.into(),
        })),
        [0x11, job, a, b, c, d] => Some(Record::Share {
            job: job.into(),
            share: PerKind::new(text::number(&[a, b]), text::number(&[c, d])),
        }),
        [0x12, job, kind, core, a, b, c, d] => Some(Record::Row(Slice {
            job: job.into(),
            kind: Kind::numbered(kind.into())?,
            core: core.into(),
            start: text::number(&[a, b]),
            length: text::number(&[c, d]),
        })),
        _ => None,
    }
}

impl Begun {
    /// Whether the job of a record, if it has one, is below the number in `10`.
    /// Before a `10` there is no such number.
    fn knows_job(&self, record: &Record) -> bool {
        let job = match *record {
            Record::Share { job, .. } => job,
            Record::Row(Slice { job, .. }) => job,
            Record::Board(_) | Record::Counts(_) => return true,
        };
        self.counts.is_none_or(|counts| job < counts.jobs)
    }

    /// Adds the next record, or gives nothing where it is out of order or beyond
    /// the numbers in `10`.
    fn add(&mut self, record: Record) -> Option<()> {
        // Before a `10` no share and no row is in order.
        let due = self.counts.unwrap_or_default();
        let shares = self.shares.len();
        let in_order = match record {
            Record::Board(_) => self.board.is_none(),
            Record::Counts(_) => self.board.is_some() && self.counts.is_none(),
            Record::Share { job, .. } => job == shares && shares < due.jobs,
            Record::Row(_) => shares == due.jobs && self.rows.len() < due.rows,
        };
        if !in_order {
            return None;
        }
        match record {
            Record::Board(board) => self.board = Some(board),
            Record::Counts(counts) => self.counts = Some(counts),
            Record::Share { share, .. } => self.shares.push(share),
            Record::Row(row) => self.rows.push(row),
        }
        Some(())
    }

    /// All that has been read, or nothing where a line is missing.
    fn whole(self) -> Option<PlanLines> {
        let due = self.counts?;
        (self.shares.len() == due.jobs && self.rows.len() == due.rows).then_some(PlanLines {
            board: self.board?,
            shares: self.shares,
            rows: self.rows,
        })
    }
}
