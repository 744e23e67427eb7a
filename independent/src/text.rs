//! The text format: the reader with refusals 8, 9, 10 and 3 on lines, the
//! writer, and the whole program `plan` as a function from bytes to bytes.

use crate::planner::{self, Allowed, Board, Job, Kind, PerKind, Plan, Reason, Refusal};

pub const MAX_TEXT: usize = 4_096;

enum Record {
    Board(Board),
    Job(Job),
}

/// Bytes in, bytes out: a plan's lines, or one refusal line.
pub fn plan_text(input: &[u8]) -> Vec<u8> {
    match read(input).and_then(|(board, jobs)| planner::plan(&board, &jobs)) {
        Ok(plan) => write_plan(&plan),
        Err(refusal) => write_refusal(&refusal),
    }
}

/// Reads a board and its jobs. The first bad line decides, and on it 8, 9, 10
/// and 3 in that order.
pub fn read(input: &[u8]) -> Result<(Board, Vec<Job>), Refusal> {
    if input.len() > MAX_TEXT {
        return Err(Refusal::new(Reason::BadDigits, 0));
    }
    let mut board = None;
    let mut jobs = Vec::new();
    for (index, line) in lines(input).enumerate() {
        let refuse = |reason| Refusal::new(reason, index + 1);
        let bytes = digits(line).ok_or_else(|| refuse(Reason::BadDigits))?;
        let record = record(&bytes).ok_or_else(|| refuse(Reason::BadRecord))?;
        match record {
            Record::Board(found) if index == 0 => board = Some(found),
            Record::Job(_) if index > 0 && jobs.len() == planner::MAX_JOBS => {
                return Err(Refusal::new(Reason::TooManyJobs, planner::MAX_JOBS));
            }
            Record::Job(job) if index > 0 => jobs.push(job),
            _ => return Err(refuse(Reason::BadOrder)),
        }
    }
    let board = board.ok_or(Refusal::new(Reason::BadOrder, 1))?;
    Ok((board, jobs))
}

/// The lines without their line feeds; a feed at the end opens no new line.
pub fn lines(input: &[u8]) -> impl Iterator<Item = &[u8]> {
    let body = input.strip_suffix(b"\n").unwrap_or(input);
    let none_at_all = input.is_empty();
    body.split(|&byte| byte == b'\n')
        .filter(move |_| !none_at_all)
}

/// The bytes that a line's digits stand for, or nothing where refusal 8 is due.
pub fn digits(line: &[u8]) -> Option<Vec<u8>> {
    if line.is_empty() || line.len() % 2 == 1 {
        return None;
    }
    line.chunks(2)
        .map(|pair| Some(16 * digit(pair[0])? + digit(pair[1])?))
        .collect()
}

fn digit(byte: u8) -> Option<u8> {
    match byte {
        b'0'..=b'9' => Some(byte - b'0'),
        b'a'..=b'f' => Some(byte - b'a' + 10),
        b'A'..=b'F' => Some(byte - b'A' + 10),
        _ => None,
    }
}

/// The record of a line's bytes, or nothing where refusal 9 is due.
fn record(bytes: &[u8]) -> Option<Record> {
    match *bytes {
        [0x01, ..] => board(bytes).map(Record::Board),
        [0x02, allowed, a, b, c, d, e, f, g, h] => {
            let cost = PerKind::new(number(&[a, b, c, d]), number(&[e, f, g, h]));
            let allowed = match (allowed, cost.first, cost.second) {
                (0, _, _) => Allowed::Both,
                (1, _, 0) => Allowed::Only(Kind::First),
                (2, 0, _) => Allowed::Only(Kind::Second),
                _ => return None,
            };
            Some(Record::Job(Job { allowed, cost }))
        }
        _ => None,
    }
}

/// The board of a line's bytes, or nothing where refusal 9 is due.
pub fn board(bytes: &[u8]) -> Option<Board> {
    let &[0x01, high, low, first, second] = bytes else {
        return None;
    };
    Some(Board {
        window: number(&[high, low]),
        cores: PerKind::new(i64::from(first), i64::from(second)),
    })
}

/// The number of bytes, high byte first.
pub fn number(bytes: &[u8]) -> i64 {
    bytes
        .iter()
        .fold(0, |value, &byte| 256 * value + i64::from(byte))
}

/// The lines `10`, `11` and `12` of a plan.
pub fn write_plan(plan: &Plan) -> Vec<u8> {
    let mut out = Vec::new();
    let counts = [(plan.shares.len() as i64, 1), (plan.slices.len() as i64, 1)];
    write_line(&mut out, 0x10, &counts);
    for (job, share) in plan.shares.iter().enumerate() {
        write_line(
            &mut out,
            0x11,
            &[(job as i64, 1), (share.first, 2), (share.second, 2)],
        );
    }
    for slice in &plan.slices {
        let fields = [
            (slice.job as i64, 1),
            (slice.kind.number(), 1),
            (slice.core, 1),
            (slice.start, 2),
            (slice.length, 2),
        ];
        write_line(&mut out, 0x12, &fields);
    }
    out
}

/// The one line `1f` of a refusal.
pub fn write_refusal(refusal: &Refusal) -> Vec<u8> {
    let mut out = Vec::new();
    let fields = [
        (i64::from(refusal.reason.number()), 1),
        (refusal.place as i64, 1),
    ];
    write_line(&mut out, 0x1f, &fields);
    out
}

/// Writes a record's number and its fields, each a value and its count of
/// bytes, and a line feed.
fn write_line(out: &mut Vec<u8>, record: i64, fields: &[(i64, u32)]) {
    let mut write = |value: i64, bytes: u32| {
        assert!(
            value >= 0 && value < 1 << (8 * bytes),
            "{value} does not fit {bytes} bytes"
        );
        for at in (0..2 * bytes).rev() {
            out.push(b"0123456789abcdef"[(value >> (4 * at)) as usize & 15]);
        }
    };
    write(record, 1);
    for &(value, bytes) in fields {
        write(value, bytes);
    }
    out.push(b'\n');
}
