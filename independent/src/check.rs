//! A checker that knows nothing of any planner. It reads the input and the
//! plan by itself and verifies that the plan is one the jobs can run by; and
//! it tells, for any legal set, whether a split in fractions exists, and which
//! room is too small where a refusal says that one is.

use crate::duality::{split_exists, Demand};

/// A legal set, one that passes checks 1 to 5.
#[derive(Clone, Debug, PartialEq, Eq)]
pub struct Set {
    pub window: u64,
    pub cores: [u64; 2],
    pub jobs: Vec<Demand>,
}

/// The rows of a plan's text.
struct Rows {
    shares: Vec<[u64; 2]>,
    slices: Vec<Row>,
}

#[derive(Clone, Copy, Debug)]
struct Row {
    job: usize,
    kind: usize,
    core: u64,
    start: u64,
    length: u64,
}

macro_rules! demand {
    ($holds:expr, $($message:tt)+) => {
        if !$holds {
            return Err(format!($($message)+));
        }
    };
}

mod room;

pub use room::check_cause;

impl Set {
    /// The set of an input text, where the text is in order and the set legal.
    pub fn read(input: &[u8]) -> Option<Set> {
        let text = std::str::from_utf8(input)
            .ok()
            .filter(|text| text.len() <= 4_096)?;
        let mut rest = text.strip_suffix('\n').unwrap_or(text).split('\n');
        let board = fields(rest.next()?, "01", &[2, 1, 1])?;
        let (window, cores) = (board[0], [board[1], board[2]]);
        let legal = window >= 1 && cores.iter().all(|count| (1..=8).contains(count));
        let mut jobs = Vec::new();
        for line in rest {
            jobs.push(demand(&fields(line, "02", &[1, 4, 4])?, window)?);
        }
        (legal && jobs.len() <= 64).then_some(Set {
            window,
            cores,
            jobs,
        })
    }

    pub fn room(&self, kind: usize) -> u64 {
        self.cores[kind] * self.window
    }

    /// How many jobs have exactly one cost above the window, by home kind.
    pub fn stretched(&self) -> [u64; 2] {
        let mut count = [0, 0];
        for job in &self.jobs {
            if let Demand::Both(first, second) = *job {
                count[0] += u64::from(second > self.window);
                count[1] += u64::from(first > self.window);
            }
        }
        count
    }

    /// Whether a split in fractions exists with so many ticks less room.
    pub fn feasible_with_less(&self, less: [u64; 2]) -> bool {
        let room = |kind: usize| self.room(kind) as i64 - less[kind] as i64;
        split_exists(self.window, [room(0), room(1)], &self.jobs)
    }
}

/// Whether a split in fractions exists; nothing where the set is not legal.
pub fn feasible(input: &[u8]) -> Option<bool> {
    Set::read(input).map(|set| set.feasible_with_less([0, 0]))
}

/// Demand 3: whether a legal set may be accepted, or refused for room.
pub fn check_answer_for_room(set: &Set, accepted: bool) -> Result<(), String> {
    let stretched = set.stretched();
    if accepted {
        demand!(
            set.feasible_with_less([0, 0]),
            "accepted, but no split exists"
        );
    } else if stretched == [0, 0] {
        demand!(
            !set.feasible_with_less([0, 0]),
            "refused, but a split exists"
        );
    } else {
        demand!(
            !set.feasible_with_less(stretched),
            "refused, but a split exists with less room"
        );
    }
    Ok(())
}

/// Demand 2: the output is a plan that the input's jobs can run by.
pub fn check_plan(input: &[u8], output: &[u8]) -> Result<(), String> {
    let set = Set::read(input).ok_or("a plan for an input that is no legal set")?;
    let rows = read_plan(output)?;
    check_shares(&set, &rows.shares)?;
    check_rows(&set, &rows.slices)?;
    check_sums(&rows)?;
    check_clashes(&rows.slices)
}

/// Each share does its job's whole work, and the kinds have room for all.
fn check_shares(set: &Set, shares: &[[u64; 2]]) -> Result<(), String> {
    demand!(
        shares.len() == set.jobs.len(),
        "{} shares for {} jobs",
        shares.len(),
        set.jobs.len()
    );
    for (number, (job, &[t1, t2])) in set.jobs.iter().zip(shares).enumerate() {
        let done = match *job {
            Demand::One(0, cost) => t1 == cost && t2 == 0,
            Demand::One(_, cost) => t1 == 0 && t2 == cost,
            Demand::Both(c1, c2) => t1 * c2 + t2 * c1 >= c1 * c2,
        };
        demand!(done, "job {number}: ({t1}, {t2}) is not its work, {job:?}");
        demand!(
            t1 + t2 <= set.window,
            "job {number}: ({t1}, {t2}) is longer than the window"
        );
    }
    for kind in 0..2 {
        let sum: u64 = shares.iter().map(|share| share[kind]).sum();
        demand!(
            sum <= set.room(kind),
            "kind {}: {sum} ticks are over its room",
            kind + 1
        );
    }
    let movers = shares.iter().filter(|share| share[0] > 0 && share[1] > 0);
    let uneven = movers
        .clone()
        .filter(|share| share[0] + share[1] != set.window)
        .count();
    demand!(uneven <= 1, "{uneven} movers are not even");
    let movers = movers.count() as u64;
    demand!(movers <= set.cores[0] + set.cores[1], "{movers} movers");
    Ok(())
}

/// Each slice lies on the board and in the window, in table order.
fn check_rows(set: &Set, slices: &[Row]) -> Result<(), String> {
    for row in slices {
        demand!(row.job < set.jobs.len(), "no such job: {row:?}");
        demand!(row.core < set.cores[row.kind], "no such core: {row:?}");
        demand!(row.length > 0, "no length: {row:?}");
        demand!(
            row.start + row.length <= set.window,
            "outside the window: {row:?}"
        );
    }
    demand!(
        slices.windows(2).all(|two| two[0].kind <= two[1].kind),
        "kinds out of order"
    );
    let most = set.jobs.len() as u64 + 2 * (set.cores[0] + set.cores[1]) - 2;
    demand!(
        slices.len() as u64 <= most,
        "{} slices, at most {most}",
        slices.len()
    );
    Ok(())
}

/// The lengths of each job's slices add up to its share.
fn check_sums(rows: &Rows) -> Result<(), String> {
    let mut sums = vec![[0, 0]; rows.shares.len()];
    for row in &rows.slices {
        sums[row.job][row.kind] += row.length;
    }
    for (job, (sum, share)) in sums.iter().zip(&rows.shares).enumerate() {
        demand!(
            sum == share,
            "job {job}: slices of {sum:?}, share {share:?}"
        );
    }
    Ok(())
}

/// No two slices of one core, and no two of one job, meet in time.
fn check_clashes(slices: &[Row]) -> Result<(), String> {
    for (at, one) in slices.iter().enumerate() {
        for two in &slices[at + 1..] {
            let meet = one.start < two.start + two.length && two.start < one.start + one.length;
            let same_core = (one.kind, one.core) == (two.kind, two.core);
            demand!(!(meet && same_core), "core taken twice: {one:?} {two:?}");
            demand!(
                !(meet && one.job == two.job),
                "job runs twice: {one:?} {two:?}"
            );
        }
    }
    Ok(())
}

fn read_plan(output: &[u8]) -> Result<Rows, String> {
    let text = std::str::from_utf8(output).map_err(|_| "the output is not plain text")?;
    demand!(
        !text.bytes().any(|byte| byte.is_ascii_uppercase()),
        "capitals in the output"
    );
    let body = text
        .strip_suffix('\n')
        .ok_or("the output does not end in a line feed")?;
    let mut lines = body.split('\n');
    let head = lines
        .next()
        .and_then(|line| fields(line, "10", &[1, 1]))
        .ok_or("no line 10")?;

    let mut rows = Rows {
        shares: Vec::new(),
        slices: Vec::new(),
    };
    for job in 0..head[0] {
        let line = lines.next().unwrap_or("");
        let found = fields(line, "11", &[1, 2, 2]).ok_or(format!("no line 11 for job {job}"))?;
        demand!(
            found[0] == job,
            "line 11 of job {} in place of {job}",
            found[0]
        );
        rows.shares.push([found[1], found[2]]);
    }
    for number in 0..head[1] {
        let line = lines.next().unwrap_or("");
        let found = fields(line, "12", &[1, 1, 1, 2, 2]).ok_or(format!("no line 12, {number}"))?;
        demand!(
            found[1] == 1 || found[1] == 2,
            "line 12 with kind {}",
            found[1]
        );
        rows.slices.push(Row {
            job: found[0] as usize,
            kind: found[1] as usize - 1,
            core: found[2],
            start: found[3],
            length: found[4],
        });
    }
    demand!(lines.next().is_none(), "more lines than the line 10 says");
    Ok(rows)
}

/// The numbers of a line of the given record, each as wide as asked for.
fn fields(line: &str, record: &str, widths: &[usize]) -> Option<Vec<u64>> {
    let digits = 2 * widths.iter().sum::<usize>();
    let mut rest = line
        .strip_prefix(record)
        .filter(|rest| rest.len() == digits)?;
    if !rest.bytes().all(|byte| byte.is_ascii_hexdigit()) {
        return None;
    }
    let mut numbers = Vec::with_capacity(widths.len());
    for width in widths {
        let (number, after) = rest.split_at(2 * width);
        numbers.push(u64::from_str_radix(number, 16).ok()?);
        rest = after;
    }
    Some(numbers)
}

/// The demand of a job line's numbers, where they are legal.
fn demand(numbers: &[u64], window: u64) -> Option<Demand> {
    let in_range = |cost: u64| (1..=1_000_000).contains(&cost);
    match *numbers {
        [0, c1, c2] if in_range(c1) && in_range(c2) && c1.min(c2) <= window => {
            Some(Demand::Both(c1, c2))
        }
        [1, cost, 0] if in_range(cost) && cost <= window => Some(Demand::One(0, cost)),
        [2, 0, cost] if in_range(cost) && cost <= window => Some(Demand::One(1, cost)),
        _ => None,
    }
}
