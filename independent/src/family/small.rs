//! Every set in two small ranges, each job of which fits the window on some kind.
//! First windows of 1 to 3 ticks, 1 or 2 cores of each kind, and up to 3 jobs in
//! any order, on either kind or both, with costs of 1 to 5. Then, since it takes
//! two jobs to be over on a kind and so four to be over on both, exactly 4 jobs on
//! 1 core of each kind, with windows of 1 or 2 ticks and costs of 1 to 3.

use std::ops::RangeInclusive;

struct Part {
    windows: RangeInclusive<u64>,
    costs: RangeInclusive<u64>,
    cores: &'static [[u64; 2]],
    lengths: RangeInclusive<u32>,
}

const PARTS: [Part; 2] = [
    Part {
        windows: 1..=3,
        costs: 1..=5,
        cores: &[[1, 1], [1, 2], [2, 1], [2, 2]],
        lengths: 0..=3,
    },
    Part {
        windows: 1..=2,
        costs: 1..=3,
        cores: &[[1, 1]],
        lengths: 4..=4,
    },
];

/// The allowed kinds and both costs.
type Job = [u64; 3];

pub fn count() -> u64 {
    PARTS.iter().map(Part::count).sum()
}

pub fn text(mut index: u64) -> Vec<u8> {
    for part in PARTS {
        for window in part.windows.clone() {
            let jobs = part.jobs(window);
            if index < part.sets(jobs.len()) {
                return part.set(window, &jobs, index);
            }
            index -= part.sets(jobs.len());
        }
    }
    Vec::new()
}

impl Part {
    fn count(&self) -> u64 {
        let sets = |window| self.sets(self.jobs(window).len());
        self.windows.clone().map(sets).sum()
    }

    /// All jobs that fit the window.
    fn jobs(&self, window: u64) -> Vec<Job> {
        let mut list = Vec::new();
        for cost in self.costs.clone().filter(|&cost| cost <= window) {
            list.extend([[1, cost, 0], [2, 0, cost]]);
        }
        for first in self.costs.clone() {
            let fits = |second: &u64| first.min(*second) <= window;
            list.extend(
                self.costs
                    .clone()
                    .filter(fits)
                    .map(|second| [0, first, second]),
            );
        }
        list
    }

    /// How many sets there are of so many jobs to choose from.
    fn sets(&self, jobs: usize) -> u64 {
        let lists = self.lengths.clone().map(|length| (jobs as u64).pow(length));
        self.cores.len() as u64 * lists.sum::<u64>()
    }

    fn set(&self, window: u64, jobs: &[Job], index: u64) -> Vec<u8> {
        let boards = self.cores.len() as u64;
        let [first, second] = self.cores[(index % boards) as usize];
        let mut text = format!("01{window:04x}{first:02x}{second:02x}\n");
        for [allowed, first, second] in list(jobs, *self.lengths.start(), index / boards) {
            text += &format!("02{allowed:02x}{first:08x}{second:08x}\n");
        }
        text.into_bytes()
    }
}

/// The lists of jobs are counted by length, from the shortest on, and those of one
/// length as numbers whose digits are jobs.
fn list(jobs: &[Job], shortest: u32, mut number: u64) -> Vec<Job> {
    let base = jobs.len() as u64;
    let mut length = shortest;
    while number >= base.pow(length) {
        number -= base.pow(length);
        length += 1;
    }
    (0..length)
        .map(|at| jobs[(number / base.pow(at) % base) as usize])
        .collect()
}

#[cfg(test)]
mod tests {
    use super::*;
    use std::collections::HashSet;

    #[test]
    fn no_set_twice_and_none_left_out() {
        let texts: HashSet<Vec<u8>> = (0..count()).map(text).collect();
        assert_eq!(PARTS.map(|part| part.count()), [121_300, 23_137]);
        assert_eq!((count(), texts.len()), (144_437, 144_437));
        assert_eq!(text(0), b"0100010101\n");
        let last = "0100030202\n".to_owned() + &"02000000000500000003\n".repeat(3);
        assert_eq!(text(121_299), last.as_bytes());
        let last = "0100020101\n".to_owned() + &"02000000000300000002\n".repeat(4);
        assert_eq!(text(count() - 1), last.as_bytes());
    }
}
