//! Which room is too small, by the set's own numbers: the ticks of each kind with
//! all jobs at home, with a kind's movable jobs at their far ends, and where the
//! steps stop. No step is walked: what a job gives up follows from what those
//! before it can give up, so each is looked at by itself.

use super::Set;
use crate::duality::Demand;

/// A job that can leave its home kind.
struct Movable {
    number: usize,
    /// Its cost at home, and that on the other kind.
    near: u64,
    far: u64,
    /// Its ticks at its far end, at home and on the other kind.
    kept: u64,
    away: u64,
}

impl Movable {
    fn new(number: usize, near: u64, far: u64, window: u64) -> Movable {
        let (kept, away) = if far <= window {
            (0, far)
        } else {
            let kept = (near * (far - window)).div_ceil(far - near);
            (kept, window - kept)
        };
        Movable {
            number,
            near,
            far,
            kept,
            away,
        }
    }

    /// The most ticks that it can give up at home. It may be none, where a far
    /// end in whole ticks keeps as many as the job has.
    fn most(&self) -> u64 {
        self.near - self.kept
    }

    /// Whether its turn comes earlier.
    fn before(&self, other: &Movable) -> bool {
        let (own, others) = (self.near * other.far, other.near * self.far);
        own > others || own == others && self.number < other.number
    }

    /// Its ticks at home and on the other kind, where its kind is still so much
    /// over when its turn comes.
    fn share(&self, over: u64) -> [u64; 2] {
        if over == 0 {
            [self.near, 0]
        } else if over >= self.most() {
            [self.kept, self.away]
        } else {
            [self.near - over, (self.far * over).div_ceil(self.near)]
        }
    }
}

/// The home kind of a job, and its cost there.
fn home(job: &Demand) -> (usize, u64) {
    match *job {
        Demand::One(kind, cost) => (kind, cost),
        Demand::Both(first, second) if first <= second => (0, first),
        Demand::Both(_, second) => (1, second),
    }
}

impl Set {
    /// The ticks of each kind with all jobs at home.
    pub fn at_home(&self) -> [u64; 2] {
        let mut sums = [0, 0];
        for (kind, cost) in self.jobs.iter().map(home) {
            sums[kind] += cost;
        }
        sums
    }

    /// The ticks of each kind with the movable jobs of one at their far ends.
    pub fn at_far_ends(&self, kind: usize) -> [u64; 2] {
        self.moved(kind, |job| [job.kept, job.away])
    }

    /// The ticks of each kind where the steps stop that begin with one kind over.
    pub fn at_stop(&self, kind: usize) -> [u64; 2] {
        let movable = self.movable(kind);
        let over = self.at_home()[kind].saturating_sub(self.room(kind));
        self.moved(kind, |job| {
            let earlier = movable.iter().filter(|other| other.before(job));
            let given_up: u64 = earlier.map(Movable::most).sum();
            job.share(over.saturating_sub(given_up))
        })
    }

    /// The jobs at home on a kind that have a far end.
    fn movable(&self, kind: usize) -> Vec<Movable> {
        let jobs = self.jobs.iter().enumerate();
        jobs.filter_map(|(number, job)| match *job {
            Demand::Both(first, second) if home(job).0 == kind => {
                let (near, far) = (first.min(second), first.max(second));
                Some(Movable::new(number, near, far, self.window))
            }
            _ => None,
        })
        .collect()
    }

    /// The ticks of each kind with the movable jobs of one where `share` says.
    fn moved(&self, kind: usize, share: impl Fn(&Movable) -> [u64; 2]) -> [u64; 2] {
        let mut sums = self.at_home();
        for job in self.movable(kind) {
            let [kept, away] = share(&job);
            sums[kind] -= job.near - kept;
            sums[1 - kind] += away;
        }
        sums
    }

    /// Which kinds have less room than so many ticks.
    fn over(&self, ticks: [u64; 2]) -> [bool; 2] {
        [0, 1].map(|kind| ticks[kind] > self.room(kind))
    }
}

/// Whether a refusal for room, 6 or 14 to 16, names the room that is too small.
pub fn check_cause(set: &Set, number: usize) -> Result<(), String> {
    let at_home = set.over(set.at_home());
    let still_over = |kind: usize| set.over(set.at_far_ends(kind))[kind];
    let holds = match (number, at_home) {
        (6, [true, true]) => true,
        (14, [true, false]) => still_over(0),
        (15, [false, true]) => still_over(1),
        (16, [true, false]) => !still_over(0) && passed_on(set, 0)?,
        (16, [false, true]) => !still_over(1) && passed_on(set, 1)?,
        _ => false,
    };
    demand!(
        holds,
        "refusal {number}, but the rooms are {:?}, the ticks at home {:?}, \
         at the far ends of the first kind {:?} and of the second {:?}",
        [set.room(0), set.room(1)],
        set.at_home(),
        set.at_far_ends(0),
        set.at_far_ends(1)
    );
    Ok(())
}

/// Whether the steps that begin with one kind over stop with the other over. They
/// take no more from the one than it is over, so it must be full to the tick.
fn passed_on(set: &Set, kind: usize) -> Result<bool, String> {
    let stop = set.at_stop(kind);
    demand!(
        stop[kind] == set.room(kind),
        "kind {}: {} ticks where the steps stop do not fill its room",
        kind + 1,
        stop[kind]
    );
    Ok(set.over(stop)[1 - kind])
}

#[cfg(test)]
mod tests {
    use super::*;

    /// The far end of each small job, found by trying all shares: the fewest ticks
    /// at home with which the other kind can do the rest in time, and the whole
    /// rest of the window where the job does not fit the other kind.
    #[test]
    fn far_ends_by_search() {
        let mut seen = [0, 0];
        for window in 1..=12u64 {
            for near in 1..=window {
                for far in near..=40 {
                    let done = |kept: u64, away: u64| kept * far + away * near >= near * far;
                    let fits = |kept: &u64| done(*kept, window - kept);
                    let kept = (0..=window).find(fits).unwrap();
                    let away = (0..=window - kept).find(|&away| done(kept, away));
                    let even = far > window;
                    let expected = (kept, if even { window - kept } else { away.unwrap() });
                    let job = Movable::new(0, near, far, window);
                    assert_eq!((job.kept, job.away), expected, "{window} {near} {far}");
                    seen[usize::from(even)] += 1;
                }
            }
        }
        assert!(seen[0] > 300 && seen[1] > 1_000, "{seen:?}");
    }

    /// B(5,31) keeps 5 of its 5 ticks at its far end, and still takes 5 away.
    #[test]
    fn a_far_end_that_gives_up_nothing() {
        let set = Set {
            window: 10,
            cores: [1, 1],
            jobs: vec![Demand::Both(5, 31), Demand::Both(1, 10), Demand::One(0, 5)],
        };
        assert_eq!(set.at_home(), [11, 0]);
        assert_eq!(set.at_far_ends(0), [10, 15]);
        assert_eq!(set.at_stop(0), [10, 15]);
        assert_eq!(check_cause(&set, 16), Ok(()));
    }
}
