//! The planner: checks 1 to 5, the split, the starting balance, the slices and
//! the moves. Each rule is written once for "a kind and the other kind", so the
//! mirrored cases share their code.

use std::fmt;
use std::ops::{Index, IndexMut};

pub const MAX_WINDOW: i64 = 65_535;
pub const MAX_CORES: i64 = 8;
pub const MAX_JOBS: usize = 64;
pub const MAX_COST: i64 = 1_000_000;

#[derive(Clone, Copy, Debug, PartialEq, Eq)]
pub enum Kind {
    First,
    Second,
}

impl Kind {
    pub const ALL: [Kind; 2] = [Kind::First, Kind::Second];

    pub fn other(self) -> Kind {
        match self {
            Kind::First => Kind::Second,
            Kind::Second => Kind::First,
        }
    }

    /// The kind of a number, 1 or 2.
    pub fn numbered(number: i64) -> Option<Kind> {
        match number {
            1 => Some(Kind::First),
            2 => Some(Kind::Second),
            _ => None,
        }
    }

    pub fn number(self) -> i64 {
        match self {
            Kind::First => 1,
            Kind::Second => 2,
        }
    }
}

/// One number for each kind of core.
#[derive(Clone, Copy, Debug, Default, PartialEq, Eq)]
pub struct PerKind {
    pub first: i64,
    pub second: i64,
}

impl PerKind {
    pub fn new(first: i64, second: i64) -> PerKind {
        PerKind { first, second }
    }

    /// `ticks` on one kind and `rest` on the other.
    fn of(kind: Kind, ticks: i64, rest: i64) -> PerKind {
        match kind {
            Kind::First => PerKind::new(ticks, rest),
            Kind::Second => PerKind::new(rest, ticks),
        }
    }
}

impl Index<Kind> for PerKind {
    type Output = i64;

    fn index(&self, kind: Kind) -> &i64 {
        match kind {
            Kind::First => &self.first,
            Kind::Second => &self.second,
        }
    }
}

impl IndexMut<Kind> for PerKind {
    fn index_mut(&mut self, kind: Kind) -> &mut i64 {
        match kind {
            Kind::First => &mut self.first,
            Kind::Second => &mut self.second,
        }
    }
}

#[derive(Clone, Copy, Debug, PartialEq, Eq)]
pub struct Board {
    pub window: i64,
    pub cores: PerKind,
}

impl Board {
    pub fn room(&self, kind: Kind) -> i64 {
        self.cores[kind] * self.window
    }
}

#[derive(Clone, Copy, Debug, PartialEq, Eq)]
pub enum Allowed {
    Both,
    Only(Kind),
}

/// A job; its cost on a kind that is not allowed is never looked at.
#[derive(Clone, Copy, Debug, PartialEq, Eq)]
pub struct Job {
    pub allowed: Allowed,
    pub cost: PerKind,
}

impl Job {
    fn allowed_costs(&self) -> impl Iterator<Item = i64> + '_ {
        Kind::ALL
            .into_iter()
            .filter(|&kind| match self.allowed {
                Allowed::Both => true,
                Allowed::Only(only) => only == kind,
            })
            .map(|kind| self.cost[kind])
    }

    fn home(&self) -> Kind {
        match self.allowed {
            Allowed::Only(kind) => kind,
            Allowed::Both if self.cost.first <= self.cost.second => Kind::First,
            Allowed::Both => Kind::Second,
        }
    }

    fn home_share(&self) -> PerKind {
        let home = self.home();
        PerKind::of(home, self.cost[home], 0)
    }

    /// The share that keeps as little as can be at home, for a job on both
    /// kinds; a job on one kind has none.
    fn far_end(&self, window: i64) -> Option<PerKind> {
        if self.allowed != Allowed::Both {
            return None;
        }
        let home = self.home();
        let (near, far) = (self.cost[home], self.cost[home.other()]);
        if far <= window {
            return Some(PerKind::of(home, 0, far));
        }
        let kept = div_up(near * (far - window), far - near);
        Some(PerKind::of(home, kept, window - kept))
    }
}

#[derive(Clone, Copy, Debug, PartialEq, Eq)]
pub enum Reason {
    Window,
    Cores,
    TooManyJobs,
    Cost,
    DoesNotFit,
    NoRoom(Shortage),
    TablesTooShort,
    BadDigits,
    BadRecord,
    BadOrder,
    OffBoard,
    BadRow,
    Collision,
}

impl Reason {
    pub fn number(self) -> u8 {
        match self {
            Reason::Window => 1,
            Reason::Cores => 2,
            Reason::TooManyJobs => 3,
            Reason::Cost => 4,
            Reason::DoesNotFit => 5,
            Reason::NoRoom(shortage) => shortage.number(),
            Reason::TablesTooShort => 7,
            Reason::BadDigits => 8,
            Reason::BadRecord => 9,
            Reason::BadOrder => 10,
            Reason::OffBoard => 11,
            Reason::BadRow => 12,
            Reason::Collision => 13,
        }
    }
}

/// Which room the steps of the split find too small.
#[derive(Clone, Copy, Debug, PartialEq, Eq)]
pub enum Shortage {
    /// That of both kinds, with all jobs at home.
    Both,
    /// That of this kind alone at home, and still with all its movable jobs at
    /// their far ends.
    Kind(Kind),
    /// That of the other kind, once the one that was over at home fits.
    Other,
}

impl Shortage {
    fn number(self) -> u8 {
        match self {
            Shortage::Both => 6,
            Shortage::Kind(Kind::First) => 14,
            Shortage::Kind(Kind::Second) => 15,
            Shortage::Other => 16,
        }
    }
}

#[derive(Clone, Copy, Debug, PartialEq, Eq)]
pub struct Refusal {
    pub reason: Reason,
    pub place: usize,
}

impl Refusal {
    pub fn new(reason: Reason, place: usize) -> Refusal {
        Refusal { reason, place }
    }

    fn for_room(shortage: Shortage) -> Refusal {
        Refusal::new(Reason::NoRoom(shortage), 0)
    }
}

/// The words that all programs say it in, with the numbers in decimal.
impl fmt::Display for Refusal {
    fn fmt(&self, f: &mut fmt::Formatter) -> fmt::Result {
        write!(f, "refused {} {}", self.reason.number(), self.place)
    }
}

#[derive(Clone, Copy, Debug, PartialEq, Eq)]
pub struct Slice {
    pub job: usize,
    pub kind: Kind,
    pub core: i64,
    pub start: i64,
    pub length: i64,
}

#[derive(Clone, Debug, PartialEq, Eq)]
pub struct Plan {
    pub shares: Vec<PerKind>,
    pub slices: Vec<Slice>,
}

#[derive(Clone, Copy, Debug, Default, PartialEq, Eq)]
pub struct Moves {
    pub outer: usize,
    pub inner: usize,
}

/// Check 1.
pub fn check_window(window: i64) -> Result<(), Refusal> {
    if !(1..=MAX_WINDOW).contains(&window) {
        return Err(Refusal::new(Reason::Window, 0));
    }
    Ok(())
}

/// Checks 1 and 2.
pub fn check_board(board: &Board) -> Result<(), Refusal> {
    let legal_cores = |cores: i64| (1..=MAX_CORES).contains(&cores);
    check_window(board.window)?;
    if !Kind::ALL.iter().all(|&kind| legal_cores(board.cores[kind])) {
        return Err(Refusal::new(Reason::Cores, 0));
    }
    Ok(())
}

/// Checks 1 to 5, each over all jobs before the next.
pub fn check(board: &Board, jobs: &[Job]) -> Result<(), Refusal> {
    let legal_cost = |cost: i64| (1..=MAX_COST).contains(&cost);

    check_board(board)?;
    if jobs.len() > MAX_JOBS {
        return Err(Refusal::new(Reason::TooManyJobs, MAX_JOBS));
    }
    if let Some(place) = jobs
        .iter()
        .position(|job| !job.allowed_costs().all(legal_cost))
    {
        return Err(Refusal::new(Reason::Cost, place));
    }
    let too_long = |job: &Job| job.allowed_costs().all(|cost| cost > board.window);
    if let Some(place) = jobs.iter().position(too_long) {
        return Err(Refusal::new(Reason::DoesNotFit, place));
    }
    Ok(())
}

/// Room of each kind less the ticks of the jobs at home there.
pub fn starting_balance(board: &Board, jobs: &[Job]) -> Result<PerKind, Refusal> {
    check(board, jobs)?;
    let at_home: Vec<PerKind> = jobs.iter().map(Job::home_share).collect();
    Ok(balance(board, &at_home))
}

/// The share of each job.
pub fn split(board: &Board, jobs: &[Job]) -> Result<Vec<PerKind>, Refusal> {
    check(board, jobs)?;
    let mut shares: Vec<PerKind> = jobs.iter().map(Job::home_share).collect();
    let start = balance(board, &shares);
    let over = match (start.first < 0, start.second < 0) {
        (false, false) => return Ok(shares),
        (true, true) => return Err(Refusal::for_room(Shortage::Both)),
        (true, false) => Kind::First,
        (false, true) => Kind::Second,
    };
    relieve(board, jobs, over, &mut shares);
    let end = balance(board, &shares);
    // The far ends decide by themselves. The steps must come to the same: they
    // give up only when no movable job is left.
    let fits = fits_at_far_ends(board, jobs, over);
    assert_eq!(fits, end[over] >= 0, "{board:?} {jobs:?} {shares:?}");
    if !fits {
        return Err(Refusal::for_room(Shortage::Kind(over)));
    }
    if end[over.other()] < 0 {
        return Err(Refusal::for_room(Shortage::Other));
    }
    Ok(shares)
}

/// Whether a kind is within its room with all its movable jobs at their far ends.
fn fits_at_far_ends(board: &Board, jobs: &[Job], kind: Kind) -> bool {
    let least = |job: &Job| match job.far_end(board.window) {
        Some(far) if job.home() == kind => far,
        _ => job.home_share(),
    };
    let shares: Vec<PerKind> = jobs.iter().map(least).collect();
    balance(board, &shares)[kind] >= 0
}

/// Moves work away from the kind `from`, which is over its room, until it is
/// within it or no movable job is left.
fn relieve(board: &Board, jobs: &[Job], from: Kind, shares: &mut [PerKind]) {
    let to = from.other();
    let mut excess = -balance(board, shares)[from];
    for (number, far) in movable(board, jobs, from) {
        if excess <= 0 {
            return;
        }
        // All of the job is still at home, so what the others leave it is its
        // cost less the excess.
        let cost = jobs[number].cost;
        let left = cost[from] - excess;
        let share = if left <= far[from] {
            far
        } else {
            PerKind::of(
                from,
                left,
                div_up(cost[to] * (cost[from] - left), cost[from]),
            )
        };
        excess -= cost[from] - share[from];
        shares[number] = share;
    }
}

/// The jobs at home on `from` that have a far end, with it: greatest cost
/// there against the cost on the other kind first, equal ratios by number.
fn movable(board: &Board, jobs: &[Job], from: Kind) -> Vec<(usize, PerKind)> {
    let mut list: Vec<(usize, PerKind)> = jobs
        .iter()
        .enumerate()
        .filter(|(_, job)| job.home() == from)
        .filter_map(|(number, job)| job.far_end(board.window).map(|far| (number, far)))
        .collect();
    let product = |a: usize, b: usize| {
        i128::from(jobs[a].cost[from]) * i128::from(jobs[b].cost[from.other()])
    };
    list.sort_by(|&(a, _), &(b, _)| product(b, a).cmp(&product(a, b)).then(a.cmp(&b)));
    list
}

fn balance(board: &Board, shares: &[PerKind]) -> PerKind {
    let left = |kind: Kind| board.room(kind) - shares.iter().map(|share| share[kind]).sum::<i64>();
    PerKind::new(left(Kind::First), left(Kind::Second))
}

fn div_up(number: i64, by: i64) -> i64 {
    (number + by - 1).div_euclid(by)
}

/// The slices of the given shares, in table order.
pub fn wrap(board: &Board, shares: &[PerKind]) -> Vec<Slice> {
    let mut table = Vec::new();
    for kind in Kind::ALL {
        let mut packed = 0;
        for job in packing_order(board.window, shares, kind) {
            for (from, to) in cut(packed, shares[job][kind], board.window) {
                table.push(place(board.window, job, kind, from, to));
            }
            packed += shares[job][kind];
        }
    }
    table
}

/// Even movers, then the other mover, then the jobs on this kind alone.
fn packing_order(window: i64, shares: &[PerKind], kind: Kind) -> Vec<usize> {
    #[derive(PartialEq, Eq, PartialOrd, Ord)]
    enum Class {
        EvenMover,
        OtherMover,
        Alone,
    }
    let class = |job: &usize| {
        let share = shares[*job];
        if share[kind.other()] == 0 {
            Class::Alone
        } else if share.first + share.second == window {
            Class::EvenMover
        } else {
            Class::OtherMover
        }
    };
    let mut order: Vec<usize> = (0..shares.len())
        .filter(|&job| shares[job][kind] > 0)
        .collect();
    order.sort_by_key(class);
    order
}

/// Cuts the stretch of `length` ticks that begins at `begin`, counted over all
/// cores laid end to end, at the edge of a core.
fn cut(begin: i64, length: i64, window: i64) -> Vec<(i64, i64)> {
    let end = begin + length;
    let edge = (begin / window + 1) * window;
    if end <= edge {
        vec![(begin, end)]
    } else {
        vec![(begin, edge), (edge, end)]
    }
}

/// A piece from `from` to `to`, laid on its core: forward on the first kind,
/// backward on the second.
fn place(window: i64, job: usize, kind: Kind, from: i64, to: i64) -> Slice {
    let core = from / window;
    let length = to - from;
    let offset = from - core * window;
    let start = match kind {
        Kind::First => offset,
        Kind::Second => window - offset - length,
    };
    Slice {
        job,
        kind,
        core,
        start,
        length,
    }
}

/// The whole plan, or the first refusal among 1 to 5 and those for room.
pub fn plan(board: &Board, jobs: &[Job]) -> Result<Plan, Refusal> {
    let shares = split(board, jobs)?;
    let slices = wrap(board, &shares);
    Ok(Plan { shares, slices })
}

/// The plan written into lent tables. Gives the rows written in each; on a
/// refusal, be it the plan's or 7, no row is changed.
pub fn plan_into(
    board: &Board,
    jobs: &[Job],
    share_table: &mut [PerKind],
    slice_table: &mut [Slice],
) -> Result<(usize, usize), Refusal> {
    let plan = plan(board, jobs)?;
    let (shares, slices) = (plan.shares.len(), plan.slices.len());
    if share_table.len() < shares || slice_table.len() < slices {
        return Err(Refusal::new(Reason::TablesTooShort, 0));
    }
    share_table[..shares].copy_from_slice(&plan.shares);
    slice_table[..slices].copy_from_slice(&plan.slices);
    Ok((shares, slices))
}

/// The moves of each job in one window of those that repeat.
pub fn moves(plan: &Plan) -> Vec<Moves> {
    (0..plan.shares.len())
        .map(|job| moves_of(&plan.slices, job))
        .collect()
}

/// After each slice of the job comes the next by start, and after the last the
/// first again; a job with one slice stays on its core.
fn moves_of(slices: &[Slice], job: usize) -> Moves {
    let mut own: Vec<&Slice> = slices.iter().filter(|slice| slice.job == job).collect();
    own.sort_by_key(|slice| slice.start);
    let mut count = Moves::default();
    for (slice, next) in own.iter().zip(own.iter().cycle().skip(1)) {
        if slice.kind != next.kind {
            count.outer += 1;
        } else if slice.core != next.core {
            count.inner += 1;
        }
    }
    count
}
