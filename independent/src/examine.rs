//! Holds an answer, whoever gave it, against the checker, and counts the
//! answers by kind.

use std::fmt;

use crate::check::{self, Set};

/// The refusals that a text can get, by rising number.
pub const REFUSALS: [usize; 12] = [1, 2, 3, 4, 5, 6, 8, 9, 10, 14, 15, 16];

/// How many answers of each kind there were.
#[derive(Clone, Debug, Default)]
pub struct Counts {
    pub texts: u64,
    pub plans: u64,
    pub plans_with_movers: u64,
    pub plans_with_stretched: u64,
    pub plans_full_on_both: u64,
    pub most_slices: usize,
    /// By number; only those of `REFUSALS` are counted.
    pub refusals: [u64; 17],
    pub refused_for_room_with_stretched: u64,
    pub refused_for_room_though_feasible: u64,
}

/// Checks one answer and counts it.
pub fn examine(input: &[u8], output: &[u8], counts: &mut Counts) -> Result<(), String> {
    let set = Set::read(input);
    let refusal = refusal(output);
    counts.texts += 1;
    match (&set, refusal) {
        (Some(set), None) => {
            check::check_plan(input, output)?;
            check::check_answer_for_room(set, true)?;
            count_plan(set, output, counts);
        }
        (Some(set), Some((number, place))) if for_room(number) => {
            check::check_answer_for_room(set, false)?;
            check::check_cause(set, number)?;
            if place != 0 {
                return Err(format!("refusal {number} with place {place}"));
            }
            let stretched = set.stretched() != [0, 0];
            counts.refused_for_room_with_stretched += u64::from(stretched);
            counts.refused_for_room_though_feasible += u64::from(set.feasible_with_less([0, 0]));
        }
        (Some(_), Some((number, _))) => return Err(format!("refusal {number} of a legal set")),
        (None, None) => return Err("a plan for an input that is no legal set".into()),
        (None, Some((number, _))) if for_room(number) || number == 7 => {
            return Err(format!("refusal {number} of an input that is no legal set"));
        }
        (None, Some(_)) => {}
    }
    if let Some((number, _)) = refusal {
        if !REFUSALS.contains(&number) {
            return Err(format!("no such refusal: {number}"));
        }
        counts.refusals[number] += 1;
    }
    Ok(())
}

/// Whether it is one of the refusals for room.
fn for_room(number: usize) -> bool {
    matches!(number, 6 | 14..=16)
}

/// The number and the place of a refusal line, nothing for any other output.
fn refusal(output: &[u8]) -> Option<(usize, usize)> {
    let line = std::str::from_utf8(output)
        .ok()?
        .strip_prefix("1f")?
        .strip_suffix('\n')?;
    if line.len() != 4 || !line.is_ascii() {
        return None;
    }
    let byte = |digits: &str| usize::from_str_radix(digits, 16).ok();
    Some((byte(&line[..2])?, byte(&line[2..])?))
}

fn count_plan(set: &Set, output: &[u8], counts: &mut Counts) {
    let text = String::from_utf8_lossy(output);
    let number = |digits: &str| u64::from_str_radix(digits, 16).unwrap_or(0);
    let shares: Vec<[u64; 2]> = text
        .lines()
        .filter(|line| line.starts_with("11"))
        .map(|line| [number(&line[4..8]), number(&line[8..12])])
        .collect();
    let full = |kind: usize| shares.iter().map(|share| share[kind]).sum::<u64>() == set.room(kind);
    let mover = |share: &[u64; 2]| share[0] > 0 && share[1] > 0;
    let slices = text.lines().filter(|line| line.starts_with("12")).count();

    counts.plans += 1;
    counts.plans_with_movers += u64::from(shares.iter().any(mover));
    counts.plans_with_stretched += u64::from(set.stretched() != [0, 0]);
    counts.plans_full_on_both += u64::from(full(0) && full(1));
    counts.most_slices = counts.most_slices.max(slices);
}

impl Counts {
    /// The refusals that no text has got.
    pub fn unreached(&self) -> Vec<usize> {
        let mut numbers = REFUSALS.to_vec();
        numbers.retain(|&number| self.refusals[number] == 0);
        numbers
    }
}

/// A line for each count: its name, and the number last.
impl fmt::Display for Counts {
    fn fmt(&self, f: &mut fmt::Formatter) -> fmt::Result {
        writeln!(f, "texts {}", self.texts)?;
        writeln!(f, "plans {}", self.plans)?;
        writeln!(f, "plans with movers {}", self.plans_with_movers)?;
        writeln!(f, "plans with stretched jobs {}", self.plans_with_stretched)?;
        writeln!(f, "plans full on both kinds {}", self.plans_full_on_both)?;
        writeln!(f, "most slices {}", self.most_slices)?;
        for number in REFUSALS {
            writeln!(f, "refusal {number}: {}", self.refusals[number])?;
        }
        writeln!(
            f,
            "refused for room with stretched jobs {}",
            self.refused_for_room_with_stretched
        )?;
        writeln!(
            f,
            "refused for room with a split in fractions {}",
            self.refused_for_room_though_feasible
        )
    }
}
