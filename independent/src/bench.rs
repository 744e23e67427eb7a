//! The texts that the benchmark times.

use crate::{gen, text};

/// A group of texts: accepted sets of so many jobs; `worst`, accepted sets of
/// 64 jobs that fill both kinds and move most jobs; or `refused`, the same with
/// a little more work, refused for room when most jobs have been moved.
pub fn texts(group: &str) -> Option<Vec<Vec<u8>>> {
    match group {
        "worst" => Some(hardest(0)),
        "refused" => Some(hardest(1)),
        jobs => Some(sample(jobs.parse().ok()?, 100)),
    }
}

/// The first accepted sets of the generator's first stream with so many jobs.
fn sample(jobs: usize, count: usize) -> Vec<Vec<u8>> {
    let has_jobs = |input: &Vec<u8>| text::read(input).is_ok_and(|(_, found)| found.len() == jobs);
    (0..)
        .map(|index| gen::text(1, index))
        .filter(|input| has_jobs(input) && accepted(input))
        .take(count)
        .collect()
}

fn accepted(input: &[u8]) -> bool {
    text::plan_text(input).starts_with(b"10")
}

const WINDOW: u64 = 65_535;
const JOBS: u64 = 64;

/// How the small jobs' ratios of costs go by number; the one to be moved next
/// is then found first, last, or anywhere.
#[derive(Clone, Copy)]
enum Ratios {
    Rising,
    Falling,
    Mixed,
}

/// Sets of many shapes, each so much above the greatest scale that is accepted.
fn hardest(above: u64) -> Vec<Vec<u8>> {
    let mut list = Vec::new();
    for home in [0, 1] {
        for cores in [[1, 8], [2, 8], [4, 8], [8, 8], [1, 1]] {
            for ratios in [Ratios::Rising, Ratios::Falling, Ratios::Mixed] {
                for stretched in [0, 2 * cores[0] - 1] {
                    let set = |scale| hard(home, cores, ratios, stretched, scale);
                    list.push(set(greatest(set) + above));
                }
            }
        }
    }
    list
}

/// The greatest scale at which a set is accepted.
fn greatest(set: impl Fn(u64) -> Vec<u8>) -> u64 {
    let (mut good, mut bad) = (2 * JOBS, WINDOW);
    while bad - good > 1 {
        let middle = (good + bad) / 2;
        if accepted(&set(middle)) {
            good = middle;
        } else {
            bad = middle;
        }
    }
    good
}

/// A set with all jobs at home on one kind: small ones as large as the scale
/// says, which go over first, and stretched ones, which become even movers.
/// `cores` are those at home and those away.
fn hard(home: usize, cores: [u64; 2], ratios: Ratios, stretched: u64, scale: u64) -> Vec<u8> {
    let sided = |[here, away]: [u64; 2]| {
        if home == 0 {
            [here, away]
        } else {
            [away, here]
        }
    };
    let [first, second] = sided(cores);
    let mut text = format!("01{WINDOW:04x}{first:02x}{second:02x}\n");
    for number in 0..JOBS {
        let rank = match ratios {
            Ratios::Rising => JOBS - number,
            Ratios::Falling => number,
            Ratios::Mixed => number * 37 % JOBS,
        };
        let near = scale - rank;
        let [first, second] = if number < JOBS - stretched {
            sided([near, near + 2 + 5 * rank])
        } else {
            sided([WINDOW * 800 / 1000, WINDOW * 1338 / 1000])
        };
        text += &format!("0200{first:08x}{second:08x}\n");
    }
    text.into_bytes()
}
