//! Boards and jobs: sets within the limits of numbers, most of them close to
//! what the rooms can hold, and sets with a number outside its limits.

use super::rng::Rng;
use super::Lines;
use crate::check::Set;
use crate::duality::Demand;

const MAX_COST: u64 = 1_000_000;

#[derive(Clone, Copy)]
pub struct Entry {
    allowed: u64,
    costs: [u64; 2],
}

pub struct Draft {
    window: u64,
    cores: [u64; 2],
    jobs: Vec<Entry>,
}

impl Entry {
    fn both(first: u64, second: u64) -> Entry {
        Entry {
            allowed: 0,
            costs: [first, second],
        }
    }

    fn only(kind: usize, cost: u64) -> Entry {
        let mut costs = [0, 0];
        costs[kind] = cost;
        Entry {
            allowed: kind as u64 + 1,
            costs,
        }
    }

    /// `near` on the kind `home`, `far` on the other.
    fn at_home(home: usize, near: u64, far: u64) -> Entry {
        if home == 0 {
            Entry::both(near, far)
        } else {
            Entry::both(far, near)
        }
    }

    fn demand(&self) -> Demand {
        match self.allowed {
            0 => Demand::Both(self.costs[0], self.costs[1]),
            1 => Demand::One(0, self.costs[0]),
            _ => Demand::One(1, self.costs[1]),
        }
    }
}

impl Draft {
    pub fn lines(&self) -> Lines {
        let [first, second] = self.cores;
        let mut lines = vec![format!("01{:04x}{first:02x}{second:02x}", self.window).into_bytes()];
        for Entry {
            allowed,
            costs: [first, second],
        } in &self.jobs
        {
            lines.push(format!("02{allowed:02x}{first:08x}{second:08x}").into_bytes());
        }
        lines
    }

    fn room(&self, kind: usize) -> u64 {
        self.window * self.cores[kind]
    }

    /// The set of the first `count` jobs, for the checker.
    fn set(&self, count: usize) -> Set {
        Set {
            window: self.window,
            cores: self.cores,
            jobs: self.jobs[..count].iter().map(Entry::demand).collect(),
        }
    }

    /// Whether a split in fractions exists for the first `count` jobs.
    fn feasible(&self, count: usize) -> bool {
        self.set(count).feasible_with_less([0, 0])
    }

    /// Adds so many ticks of jobs on one kind, each of them anywhere, so that the
    /// other jobs stay in order.
    fn fill(&mut self, rng: &mut Rng, kind: usize, mut ticks: u64) {
        while ticks > 0 && self.jobs.len() < 64 {
            let cost = ticks.min(rng.range(self.window.div_ceil(2), self.window));
            let at = rng.below(self.jobs.len() as u64 + 1) as usize;
            self.jobs.insert(at, Entry::only(kind, cost));
            ticks -= cost;
        }
    }
}

fn window(rng: &mut Rng) -> u64 {
    match rng.below(10) {
        0..=1 => rng.range(1, 4),
        2..=4 => rng.range(5, 30),
        5..=6 => rng.range(31, 300),
        7..=8 => rng.small(1, 65_535),
        _ => rng.pick(&[255, 256, 257, 1000, 32_767, 32_768, 65_534, 65_535]),
    }
}

fn cores(rng: &mut Rng) -> [u64; 2] {
    match rng.below(6) {
        0..=1 => [rng.range(1, 2), rng.range(1, 2)],
        2 => [8, 8],
        _ => [rng.range(1, 8), rng.range(1, 8)],
    }
}

/// A board with an average load for each of `count` jobs.
fn board(rng: &mut Rng, count: u64) -> (Draft, u64) {
    let draft = Draft {
        window: window(rng),
        cores: cores(rng),
        jobs: Vec::new(),
    };
    let load = 2 * (draft.room(0) + draft.room(1)) / count.max(1);
    let scale = load.clamp(1, draft.window);
    (draft, scale)
}

/// A set within all limits of numbers (refusals 1 to 5 do not occur).
pub fn inside(rng: &mut Rng) -> Draft {
    match rng.below(12) {
        0..=1 => hidden_split(rng),
        2 => many_slices(rng),
        3 => alike(rng),
        4..=5 => heap(rng),
        6..=7 => at_limits(rng),
        _ => {
            let mut draft = heap(rng);
            fill_to_edge(rng, &mut draft);
            draft
        }
    }
}

/// A few jobs within the limits.
pub fn few_jobs(rng: &mut Rng) -> Draft {
    let (mut draft, scale) = board(rng, 3);
    for _ in 0..rng.range(0, 4) {
        let job = any_job(rng, draft.window, scale, 2);
        draft.jobs.push(job);
    }
    draft
}

/// Jobs around the limit of 64.
pub fn many_jobs(rng: &mut Rng) -> Draft {
    let (mut draft, scale) = board(rng, 64);
    let count = rng.pick(&[60, 63, 63, 64, 64, 64, 65, 65, 65, 66, 66, 70]);
    let lean = rng.below(3) as usize;
    let scale = if rng.one_in(2) {
        scale
    } else {
        scale.div_ceil(3)
    };
    for _ in 0..count {
        let job = any_job(rng, draft.window, scale, lean);
        draft.jobs.push(job);
    }
    draft
}

/// Random jobs of one style; nothing says how well they fit.
fn heap(rng: &mut Rng) -> Draft {
    let count = rng.pick(&[0, 1, 2, 3, 4, 6, 8, 12, 16, 24, 32, 48, 62, 64]);
    let (mut draft, scale) = board(rng, count);
    let lean = rng.below(3) as usize;
    let style = rng.below(5);
    let ratio = [rng.range(1, 6), rng.range(1, 6)];
    for _ in 0..count {
        let job = match style {
            0 => tie(rng, draft.window, scale, ratio),
            1 => stretched(rng, draft.window, scale, lean),
            2 => close(rng, draft.window, scale, lean),
            _ => any_job(rng, draft.window, scale, lean),
        };
        draft.jobs.push(job);
    }
    draft
}

/// A home kind: 0 or 1 as the set leans, either where it leans to neither (2).
fn home(rng: &mut Rng, lean: usize) -> usize {
    if lean < 2 && !rng.one_in(8) {
        lean
    } else {
        rng.below(2) as usize
    }
}

fn any_job(rng: &mut Rng, window: u64, scale: u64, lean: usize) -> Entry {
    match rng.below(8) {
        0 => Entry::only(home(rng, lean), rng.range(1, scale)),
        1 => Entry::only(rng.below(2) as usize, rng.small(1, scale)),
        2 => stretched(rng, window, scale, lean),
        3 => {
            let cost = rng.range(1, scale);
            Entry::both(cost, cost)
        }
        4 => Entry::at_home(home(rng, lean), rng.range(1, window), rng.range(1, window)),
        _ => close(rng, window, scale, lean),
    }
}

/// A job that fits both kinds, at no great loss on the other one.
fn close(rng: &mut Rng, window: u64, scale: u64, lean: usize) -> Entry {
    let near = rng.range(1, scale);
    let far = match rng.below(3) {
        0 => near + rng.range(0, 3),
        1 => near + near * rng.range(0, 100) / 100,
        _ => near * rng.range(1, 4),
    };
    Entry::at_home(home(rng, lean), near, far.min(window))
}

/// A job that fits one kind alone, though both are allowed.
fn stretched(rng: &mut Rng, window: u64, scale: u64, lean: usize) -> Entry {
    let near = match rng.below(6) {
        0 => window,
        1 => rng.range(1, window),
        2 => rng.range(window / 2 + 1, window),
        _ => rng.range(1, scale),
    };
    let far = match rng.below(5) {
        0 => window + 1,
        1 => rng.range(window + 1, 2 * window),
        2 => window + near,
        3 => rng.range(window + 1, 10 * window),
        _ => rng.small(window + 1, MAX_COST),
    };
    Entry::at_home(home(rng, lean), near, far.clamp(window + 1, MAX_COST))
}

/// One of many jobs with the same ratio of costs.
fn tie(rng: &mut Rng, window: u64, scale: u64, ratio: [u64; 2]) -> Entry {
    let smaller = ratio[0].min(ratio[1]);
    let most = (scale / smaller).max(1);
    let times = rng.range(1, most);
    let costs = [
        (ratio[0] * times).min(MAX_COST),
        (ratio[1] * times).min(MAX_COST),
    ];
    if costs[0].min(costs[1]) > window {
        Entry::both(window, window)
    } else {
        Entry::both(costs[0], costs[1])
    }
}

/// One or two jobs, each many times, with a few on one kind.
fn alike(rng: &mut Rng) -> Draft {
    let count = rng.range(1, 40);
    let (mut draft, scale) = board(rng, count);
    let lean = rng.below(3) as usize;
    let models = [
        any_job(rng, draft.window, scale, lean),
        stretched(rng, draft.window, scale, lean),
        close(rng, draft.window, scale, lean),
    ];
    let used = rng.range(1, 3) as usize;
    for _ in 0..count {
        let job = rng.pick(&models[..used]);
        draft.jobs.push(job);
    }
    if !rng.one_in(3) {
        fill_to_edge(rng, &mut draft);
    }
    draft
}

/// Keeps the jobs from the start that have a split together, then adds jobs on
/// one kind, each as long as can be, and maybe a tick more or less.
fn fill_to_edge(rng: &mut Rng, draft: &mut Draft) {
    let enough = last_true(0, draft.jobs.len() as u64, |count| {
        draft.feasible(count as usize)
    });
    draft.jobs.truncate((enough as usize).min(62));
    let kinds = rng.pick(&[[0, 1, 0, 1], [1, 0, 1, 0], [0, 0, 0, 0], [1, 1, 1, 1]]);
    for &kind in &kinds[..rng.range(1, 4) as usize] {
        if draft.jobs.len() == 64 {
            break;
        }
        draft.jobs.push(Entry::only(kind, 1));
        let at = draft.jobs.len() - 1;
        let most = last_true(0, draft.window, |cost| {
            if cost > 0 {
                draft.jobs[at].costs[kind] = cost;
            }
            cost == 0 || draft.feasible(at + 1)
        });
        let cost = match rng.below(6) {
            0 => most + 1,
            1 => most.saturating_sub(1),
            _ => most,
        };
        if (1..=draft.window).contains(&cost) {
            draft.jobs[at].costs[kind] = cost;
        } else {
            draft.jobs.pop();
        }
    }
    if rng.one_in(2) {
        rng.shuffle(&mut draft.jobs);
    }
}

/// Jobs that lean to one kind, which is then filled until its ticks at home, or
/// those at the far ends, are about its room, or until its room lies anywhere
/// between the two; and then the other kind until its ticks at home, or those where
/// the steps stop, are about its room.
fn at_limits(rng: &mut Rng) -> Draft {
    let (mut draft, scale) = board(rng, 24);
    let kind = rng.below(2) as usize;
    for _ in 0..rng.range(0, 12) {
        let job = match rng.below(3) {
            0 => stretched(rng, draft.window, scale, kind),
            1 => close(rng, draft.window, scale, kind),
            _ => any_job(rng, draft.window, scale, kind),
        };
        draft.jobs.push(job);
    }
    let set = draft.set(draft.jobs.len());
    let (home, far) = (set.at_home()[kind], set.at_far_ends(kind)[kind]);
    let (ticks, limit) = match rng.below(3) {
        0 => (home, about(rng, set.room(kind))),
        1 => (far, about(rng, set.room(kind))),
        _ => (rng.range(far, home), set.room(kind)),
    };
    draft.fill(rng, kind, limit.saturating_sub(ticks));
    let set = draft.set(draft.jobs.len());
    let ticks = if rng.one_in(3) {
        set.at_home()
    } else {
        set.at_stop(kind)
    };
    let limit = about(rng, set.room(1 - kind));
    draft.fill(rng, 1 - kind, limit.saturating_sub(ticks[1 - kind]));
    draft
}

/// A room, or a tick more, or now and then a tick less.
fn about(rng: &mut Rng, room: u64) -> u64 {
    rng.pick(&[room, room, room, room + 1, room + 1, room + 1, room - 1])
}

/// The last number from `low` to `high` that passes, where all up to some
/// number do and `low` does.
fn last_true(low: u64, high: u64, mut passes: impl FnMut(u64) -> bool) -> u64 {
    let (mut good, mut bad) = (low, high + 1);
    while bad - good > 1 {
        let middle = good + (bad - good) / 2;
        if passes(middle) {
            good = middle;
        } else {
            bad = middle;
        }
    }
    good
}

/// Draws the shares first and then costs that they just do, or just do not.
fn hidden_split(rng: &mut Rng) -> Draft {
    let (mut draft, _) = board(rng, 1);
    let window = draft.window;
    let lean = rng.below(3) as usize;
    let mut left = [draft.room(0), draft.room(1)];
    for _ in 0..rng.range(0, draft.cores[0] + draft.cores[1]) {
        let kept = rng.range(1, window);
        let moved = if rng.one_in(4) {
            rng.range(0, window - kept)
        } else {
            window - kept
        };
        let near = rng.range(kept, window);
        let home = home(rng, lean);
        if kept > left[home] || moved > left[1 - home] || near == kept {
            continue;
        }
        let far = if rng.one_in(4) {
            (moved * near).div_ceil(near - kept)
        } else {
            moved * near / (near - kept)
        };
        if (near..=MAX_COST).contains(&far) {
            left[home] -= kept;
            left[1 - home] -= moved;
            draft.jobs.push(Entry::at_home(home, near, far));
        }
    }
    let slack = rng.pick(&[0, 0, 0, 0, 1, 2, window]);
    for (kind, left) in left.into_iter().enumerate() {
        let mut free = left.saturating_sub(slack);
        while free > 0 && draft.jobs.len() < 64 {
            let cost = free.min(rng.range(window.div_ceil(4), window));
            free -= cost;
            draft.jobs.push(if rng.one_in(2) {
                Entry::only(kind, cost)
            } else {
                Entry::at_home(kind, cost, rng.small(3 * cost, MAX_COST))
            });
        }
    }
    if !draft.jobs.is_empty() && rng.one_in(4) {
        let at = rng.below(draft.jobs.len() as u64) as usize;
        let job = &mut draft.jobs[at];
        let kind = if job.allowed == 0 {
            rng.below(2) as usize
        } else {
            job.allowed as usize - 1
        };
        let cost = job.costs[kind] + rng.range(0, 2);
        let fits = job.allowed == 0 && job.costs[1 - kind] <= window;
        job.costs[kind] = if fits {
            cost.clamp(2, MAX_COST) - 1
        } else {
            cost.clamp(2, window + 1) - 1
        };
    }
    rng.shuffle(&mut draft.jobs);
    draft
}

/// Nearly as many even movers as cores, one other mover and many small jobs:
/// the way to the greatest number of slices.
fn many_slices(rng: &mut Rng) -> Draft {
    let window = if rng.one_in(3) {
        1000
    } else {
        rng.range(100, 65_535)
    };
    let cores = if rng.one_in(3) { cores(rng) } else { [8, 8] };
    let mut draft = Draft {
        window,
        cores,
        jobs: Vec::new(),
    };
    let movers = cores[0] + cores[1] - 1;
    let near = window * rng.range(780, 820) / 1000;
    let far = window * rng.range(1_300, 1_380) / 1000;
    let home = rng.below(2) as usize;
    for _ in 0..movers {
        draft.jobs.push(Entry::at_home(home, near, far));
    }
    let last = [
        window * rng.range(350, 450) / 1000,
        window * rng.range(850, 950) / 1000,
    ];
    draft.jobs.push(Entry::at_home(home, last[0], last[1]));
    let singles = (64 - draft.jobs.len() as u64) / 2;
    for kind in 0..2 {
        let cost = (window * rng.range(3, 14) / 1000).max(1);
        for _ in 0..singles {
            draft.jobs.push(Entry::only(kind, cost));
        }
    }
    draft
}

/// A set with one or more numbers at or outside their limits.
pub fn outside(rng: &mut Rng) -> Draft {
    let mut draft = if rng.one_in(4) {
        inside(rng)
    } else {
        few_jobs(rng)
    };
    if rng.one_in(4) {
        draft.window = rng.pick(&[0, 0, 0, 1, 65_535]);
    }
    if rng.one_in(3) {
        let kind = rng.below(2) as usize;
        draft.cores[kind] = rng.pick(&[0, 0, 1, 8, 9, 9, 16, 128, 255]);
    }
    for _ in 0..rng.range(0, 3) {
        if draft.jobs.is_empty() {
            break;
        }
        let at = rng.below(draft.jobs.len() as u64) as usize;
        let window = draft.window;
        let job = &mut draft.jobs[at];
        let beyond = [
            0,
            0,
            MAX_COST,
            MAX_COST + 1,
            1 << 24,
            u64::from(u32::MAX),
            window,
            window + 1,
        ];
        for kind in 0..2 {
            if (job.allowed == 0 || job.allowed == kind as u64 + 1) && !rng.one_in(3) {
                job.costs[kind] = rng.pick(&beyond);
            }
        }
    }
    draft
}
