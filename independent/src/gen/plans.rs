//! Plans in lines: those of the planner, tables made by hand, tables of many
//! rows, and each of them with a number or a line changed.

use super::rng::Rng;
use super::{sets, Lines};
use crate::handler::reader;
use crate::text::plan_text;

const MAX_WINDOW: u64 = 65_535;
/// The greatest window of most tables: a program walks through all of it.
const SHORT_WINDOW: u64 = 64;

/// What the lines say, be it right or wrong; each number fits its bytes.
#[derive(Clone)]
pub struct Plan {
    pub window: u64,
    pub cores: [u64; 2],
    /// The numbers of jobs and of rows in `10`.
    pub said: [u64; 2],
    /// The job and its share on each kind.
    pub shares: Vec<[u64; 3]>,
    pub rows: Vec<Row>,
}

#[derive(Clone, Copy)]
pub struct Row {
    pub job: u64,
    pub kind: u64,
    pub core: u64,
    pub start: u64,
    pub length: u64,
}

impl Plan {
    fn new(window: u64, cores: [u64; 2], jobs: u64, rows: Vec<Row>) -> Plan {
        let share = |job: u64, kind: u64| {
            let own = rows.iter().filter(|row| (row.job, row.kind) == (job, kind));
            own.map(|row| row.length).sum::<u64>().min(MAX_WINDOW)
        };
        Plan {
            window,
            cores,
            said: [jobs, rows.len() as u64],
            shares: (0..jobs)
                .map(|job| [job, share(job, 1), share(job, 2)])
                .collect(),
            rows,
        }
    }

    /// What the lines of an accepted plan say.
    fn read(text: &[u8]) -> Plan {
        let plan = reader::read(text).expect("the planner's answer is accepted");
        let number = |value: i64| u64::try_from(value).expect("it was read from bytes");
        let rows = plan.rows.iter().map(|row| Row {
            job: row.job as u64,
            kind: number(row.kind.number()),
            core: number(row.core),
            start: number(row.start),
            length: number(row.length),
        });
        let cores = [plan.board.cores.first, plan.board.cores.second].map(number);
        let jobs = plan.shares.len() as u64;
        Plan::new(number(plan.board.window), cores, jobs, rows.collect())
    }

    pub fn lines(&self) -> Lines {
        let ([first, second], [jobs, rows]) = (self.cores, self.said);
        let mut lines = vec![
            format!("01{:04x}{first:02x}{second:02x}", self.window),
            format!("10{jobs:02x}{rows:02x}"),
        ];
        let share =
            |&[job, first, second]: &[u64; 3]| format!("11{job:02x}{first:04x}{second:04x}");
        lines.extend(self.shares.iter().map(share));
        lines.extend(self.rows.iter().map(Row::line));
        lines.into_iter().map(String::into_bytes).collect()
    }

    /// The cores of a kind; none where there is no such kind.
    pub fn cores_of(&self, kind: u64) -> u64 {
        match kind {
            1 | 2 => self.cores[kind as usize - 1],
            _ => 0,
        }
    }
}

impl Row {
    fn line(&self) -> String {
        let Row {
            job,
            kind,
            core,
            start,
            length,
        } = self;
        format!("12{job:02x}{kind:02x}{core:02x}{start:04x}{length:04x}")
    }
}

/// A plan to be changed or damaged.
pub fn any(rng: &mut Rng) -> Plan {
    if rng.one_in(2) {
        real(rng)
    } else {
        by_hand(rng)
    }
}

/// The planner's own answer to a set, as it stands or with its rows permuted.
pub fn real(rng: &mut Rng) -> Plan {
    let most = if rng.one_in(16) {
        MAX_WINDOW
    } else {
        SHORT_WINDOW
    };
    let mut plan = Plan::read(&accepted(rng, most));
    if rng.one_in(2) {
        rng.shuffle(&mut plan.rows);
    }
    plan
}

/// A board with a window of so much at most, and the planner's answer to a set
/// that it accepts.
fn accepted(rng: &mut Rng, most: u64) -> Vec<u8> {
    loop {
        let mut lines = if rng.one_in(4) {
            sets::few_jobs(rng).lines()
        } else {
            sets::inside(rng).lines()
        };
        let answer = plan_text(&lines.join(&b'\n'));
        if answer.starts_with(b"10") {
            lines.truncate(1);
            lines.push(answer);
            let text = lines.join(&b'\n');
            if Plan::read(&text).window <= most {
                return text;
            }
        }
    }
}

/// A table of a few cores and a short window, mostly; rows follow each other
/// closely or lie anywhere, and one may be nudged.
pub fn by_hand(rng: &mut Rng) -> Plan {
    let window = match rng.below(20) {
        0..=10 => rng.range(1, 8),
        11..=17 => rng.range(1, 24),
        18 => rng.pick(&[63, 64]),
        _ => rng.pick(&[65, 255, 256, 257, 32_768, 65_534, 65_535]),
    };
    let cores = if rng.one_in(8) {
        [rng.range(1, 8), rng.range(1, 8)]
    } else {
        [rng.range(1, 2), rng.range(1, 2)]
    };
    let jobs = rng.range(1, 6);
    let mut rows = if rng.one_in(3) {
        scattered(rng, window, cores, jobs)
    } else {
        packed(rng, window, cores, jobs)
    };
    if rng.one_in(2) {
        rng.shuffle(&mut rows);
    }
    if !rows.is_empty() && rng.one_in(3) {
        let at = rng.below(rows.len() as u64) as usize;
        nudge(rng, &mut rows[at]);
    }
    let mut plan = Plan::new(window, cores, jobs, rows);
    if rng.one_in(4) {
        for [_, first, second] in &mut plan.shares {
            *first = rng.small(0, MAX_WINDOW);
            *second = rng.small(0, MAX_WINDOW);
        }
    }
    plan
}

/// Core by core, each row right after the one before or a little later.
fn packed(rng: &mut Rng, window: u64, cores: [u64; 2], jobs: u64) -> Vec<Row> {
    let mut rows = Vec::new();
    for (kind, cores) in (1..).zip(cores) {
        for core in 0..cores {
            let mut start = rng.pick(&[0, 0, 1, 2]);
            for _ in 0..rng.range(0, 5) {
                if start >= window {
                    break;
                }
                let length = rng.small(1, window - start).min(window - start);
                rows.push(Row {
                    job: rng.below(jobs),
                    kind,
                    core,
                    start,
                    length,
                });
                start += length + rng.pick(&[0, 0, 0, 1, 3]);
            }
        }
    }
    rows
}

/// A few rows that lie anywhere in the window.
fn scattered(rng: &mut Rng, window: u64, cores: [u64; 2], jobs: u64) -> Vec<Row> {
    (0..rng.range(0, 5))
        .map(|_| {
            let kind = rng.range(1, 2);
            let start = rng.below(window);
            Row {
                job: rng.below(jobs),
                kind,
                core: rng.below(cores[kind as usize - 1]),
                start,
                length: rng.small(1, window - start).min(window - start),
            }
        })
        .collect()
}

/// Changes a row by one: it may then collide, or lie outside, or do neither.
fn nudge(rng: &mut Rng, row: &mut Row) {
    match rng.below(6) {
        0 => row.start = (row.start + 1).min(MAX_WINDOW),
        1 => row.start = row.start.saturating_sub(1),
        2 => row.length = (row.length + 1).min(MAX_WINDOW),
        3 => row.length -= 1,
        4 => row.core += 1,
        _ => row.kind = 3 - row.kind,
    }
}

/// More rows than a plan of the planner has, or more jobs, up to those that just
/// fit the text's 4,096 bytes and those that are just too many.
pub fn many(rng: &mut Rng) -> Plan {
    let (jobs, rows) = match rng.below(8) {
        0..=1 => (9, 233),
        2..=3 => (13, 230),
        4 => (rng.range(65, 255), rng.range(0, 44)),
        5 => (255, rng.range(40, 46)),
        6 => (rng.range(1, 4), rng.range(230, 244)),
        _ => (rng.range(1, 64), rng.range(90, 200)),
    };
    // Rows of one tick each on a board of 16 cores.
    let window = rng.range(16, 20);
    let cell = |at: u64| Row {
        job: at * 7 % jobs,
        kind: 1 + at / window / 8,
        core: at / window % 8,
        start: at % window,
        length: 1,
    };
    let mut rows: Vec<Row> = (0..rows).map(cell).collect();
    if rng.one_in(2) {
        rng.shuffle(&mut rows);
    }
    let mut plan = Plan::new(window, [8, 8], jobs, rows);
    match rng.below(6) {
        0 => change(rng, &mut plan),
        1 => plan.said[rng.below(2) as usize] = rng.pick(&[94, 95, 254, 255]),
        _ => {}
    }
    plan
}

/// Changes a number or a line: to one that is just right, or just wrong.
pub fn change(rng: &mut Rng, plan: &mut Plan) {
    match rng.below(4) {
        0 => change_board(rng, plan),
        1 => change_numbers(rng, plan),
        2 => change_order(rng, plan),
        _ => change_row(rng, plan),
    }
}

/// A window or a count of cores at its limits, or at those of the rows.
pub fn change_board(rng: &mut Rng, plan: &mut Plan) {
    if rng.one_in(2) {
        let window = plan.window;
        plan.window = rng.pick(&[0, 0, 1, window.saturating_sub(1), window + 1, MAX_WINDOW]);
        plan.window = plan.window.min(MAX_WINDOW);
    } else {
        let kind = rng.below(2) as usize;
        let cores = plan.cores[kind];
        let close = [cores.saturating_sub(1), (cores + 1).min(255)];
        plan.cores[kind] = rng.pick(&[0, 1, 8, 9, 255, close[0], close[1]]);
    }
}

/// Numbers in `10`, and jobs of lines that are at or above the number there.
fn change_numbers(rng: &mut Rng, plan: &mut Plan) {
    let jobs = plan.said[0];
    let job = rng
        .pick(&[0, jobs.saturating_sub(1), jobs, jobs + 1, 255])
        .min(255);
    let (shares, rows) = (plan.shares.len() as u64, plan.rows.len() as u64);
    match rng.below(4) {
        0 if shares > 0 => plan.shares[rng.below(shares) as usize][0] = job,
        1..=2 if rows > 0 => plan.rows[rng.below(rows) as usize].job = job,
        _ => {
            let said = rng.below(2) as usize;
            let number = plan.said[said];
            plan.said[said] = rng
                .pick(&[0, number.saturating_sub(1), number + 1, 94, 255])
                .min(255);
        }
    }
}

/// Lines doubled, dropped or exchanged; the number in `10` is mended or not.
fn change_order(rng: &mut Rng, plan: &mut Plan) {
    let mend = rng.one_in(2);
    if rng.one_in(3) {
        change_list(rng, &mut plan.shares);
        if mend {
            plan.said[0] = (plan.shares.len() as u64).min(255);
        }
    } else {
        change_list(rng, &mut plan.rows);
        if mend {
            plan.said[1] = (plan.rows.len() as u64).min(255);
        }
    }
}

fn change_list<T: Copy>(rng: &mut Rng, list: &mut Vec<T>) {
    let count = list.len() as u64;
    if count == 0 {
        return;
    }
    let at = rng.below(count) as usize;
    match rng.below(4) {
        0 => {
            list.remove(at);
        }
        1 => list.swap(at, rng.below(count) as usize),
        _ => list.insert(rng.below(count + 1) as usize, list[at]),
    }
}

/// A row's kind, core, start or length at and past its limits, or a row that
/// begins about where another one of its core ends.
fn change_row(rng: &mut Rng, plan: &mut Plan) {
    if plan.rows.is_empty() {
        return;
    }
    let count = plan.rows.len() as u64;
    let at = rng.below(count) as usize;
    let other = plan.rows[rng.below(count) as usize];
    let (window, cores) = (plan.window, plan.cores_of(plan.rows[at].kind));
    let row = &mut plan.rows[at];
    match rng.below(6) {
        0 => row.kind = rng.pick(&[0, 3, 255, 1, 2]),
        1 => row.core = rng.pick(&[0, cores.saturating_sub(1), cores, cores + 1, 255]),
        2 => {
            let left = window.saturating_sub(row.start);
            row.length = rng.pick(&[0, 0, 1, left, left + 1, window, MAX_WINDOW]);
        }
        3 => {
            let last = window.saturating_sub(row.length);
            row.start = rng.pick(&[0, last, last + 1, window, window + 1, MAX_WINDOW]);
        }
        _ => {
            (row.kind, row.core) = (other.kind, other.core);
            let end = other.start + other.length;
            row.start = rng.pick(&[end, end, end.saturating_sub(1)]);
            row.length = rng.pick(&[row.length, 1]);
        }
    }
    row.core = row.core.min(255);
    row.start = row.start.min(MAX_WINDOW);
    row.length = row.length.min(MAX_WINDOW);
}

#[cfg(test)]
mod tests {
    use super::*;
    use crate::handler;
    use crate::text::MAX_TEXT;

    /// The planner's own answers are accepted, and come out as they are.
    #[test]
    fn real_plans() {
        for index in 0..500 {
            let text = accepted(&mut Rng::new(5, index), SHORT_WINDOW);
            assert!(handler::table(&text).is_ok());
            let plan = Plan::read(&text);
            assert!(plan.window <= SHORT_WINDOW);
            let mut again = plan.lines().join(&b'\n');
            again.push(b'\n');
            assert_eq!(again, text);
        }
    }

    /// Those of the greatest length that is read, and of a byte more.
    #[test]
    fn many_rows_to_the_last_byte() {
        let mut seen = [0; 2];
        for index in 0..200 {
            let plan = many(&mut Rng::new(5, index));
            let length = plan.lines().join(&b'\n').len() + 1;
            seen[0] += u64::from(length == MAX_TEXT);
            seen[1] += u64::from(length == MAX_TEXT + 1);
        }
        assert!(seen[0] > 20 && seen[1] > 20, "{seen:?}");
    }
}
