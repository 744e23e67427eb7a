//! The sets that the rules name, and texts at each limit of a text.

/// A job on both kinds, on the first only, or on the second only.
#[derive(Clone, Copy)]
enum Job {
    B(u32, u32),
    F(u32),
    S(u32),
}

use Job::{B, F, S};

impl Job {
    /// The same with the kinds exchanged.
    fn mirrored(&self) -> Job {
        match *self {
            B(first, second) => B(second, first),
            F(cost) => S(cost),
            S(cost) => F(cost),
        }
    }
}

/// Window, cores and jobs.
type Set = (u32, [u32; 2], Vec<Job>);

const BOARD: &str = "01000a0101\n";
const JOB: &str = "02000000000100000001\n";

pub fn count() -> u64 {
    all().len() as u64
}

pub fn text(index: u64) -> Vec<u8> {
    all().swap_remove(index as usize).into_bytes()
}

fn all() -> Vec<String> {
    let about_room = about_room().into_iter().map(|(_, set)| set);
    let sets = sets().into_iter().chain(about_room);
    let mut list: Vec<String> = sets.map(|set| text_of(&set)).collect();
    // The whole example: as it stands, in capitals, without the last line feed.
    let example = include_str!("../../../examples/two-jobs.txt");
    list.push(example.to_uppercase());
    list.push(example.trim_end().into());
    list.push(example.into());
    // Around 64 jobs, on a board with too little room and on one with plenty;
    // and what can stand in the place of the 65th job or after it.
    for board in [BOARD, "01ffff0808\n"] {
        list.extend((62..=66).map(|jobs| board.to_owned() + &JOB.repeat(jobs)));
    }
    let full = BOARD.to_owned() + &JOB.repeat(64);
    list.extend(["\n", "f", "ff\n", BOARD].map(|more| format!("{full}{more}")));
    list.extend(["\n", "f", "ff\n", BOARD].map(|more| format!("{full}{JOB}{more}")));
    // Around 4,096 bytes.
    for length in 4_095..=4_097 {
        list.extend(["0", "\n", "g"].map(|byte| byte.repeat(length)));
        list.push((BOARD.to_owned() + &JOB.repeat(200))[..length].into());
    }
    // No line, and lines with nothing on them.
    list.extend(["", "\n", "\n\n", "\r\n", " "].map(String::from));
    list
}

/// All rows of the table, the set of the paper's Table I (docs/SOURCES.md), and the
/// set with the greatest number of slices.
fn sets() -> Vec<Set> {
    let mut most_slices = vec![B(800, 1338); 15];
    most_slices.push(B(400, 900));
    most_slices.extend([F(10); 24]);
    most_slices.extend([S(5); 24]);
    let three = B(6, 16);
    vec![
        (10, [1, 1], vec![]),
        (10, [1, 1], vec![B(6, 9), B(6, 8)]),
        (10, [1, 1], vec![B(9, 6), B(8, 6)]),
        (10, [1, 1], vec![B(6, 16), F(6)]),
        (10, [1, 1], vec![B(10, 10); 2]),
        (10, [1, 1], vec![B(10, 10); 3]),
        (10, [1, 1], vec![F(10)]),
        (10, [1, 1], vec![F(11)]),
        (10, [1, 1], vec![B(11, 11)]),
        (10, [1, 1], vec![B(10, 11)]),
        (10, [2, 2], vec![three, three, three, F(8)]),
        (10, [2, 2], vec![three, three, three, F(9)]),
        (10, [1, 1], vec![B(7, 7)]),
        (10, [1, 1], vec![B(11, 10)]),
        (
            10,
            [3, 2],
            vec![
                B(10, 3),
                B(9, 3),
                B(14, 6),
                B(18, 9),
                B(12, 8),
                B(8, 9),
                B(4, 7),
            ],
        ),
        (1000, [8, 8], most_slices),
    ]
}

/// Sets a tick within and a tick over each limit of room, each with what it gets:
/// the number of its refusal, or 0 for a plan.
fn about_room() -> Vec<(u8, Set)> {
    let mut list = Vec::new();
    for (number, jobs) in about_room_of_the_first() {
        let image = jobs.iter().map(Job::mirrored).collect();
        list.push((number, (10, [1, 1], jobs)));
        list.push((if number == 14 { 15 } else { number }, (10, [1, 1], image)));
    }
    // A tick more than B(10,10) twice, and the mirror images of the sets with F(8)
    // and F(9).
    let three = B(16, 6);
    list.extend([
        (16, (10, [1, 1], vec![B(10, 10), B(10, 10), B(1, 1)])),
        (0, (10, [2, 2], vec![three, three, three, S(8)])),
        (15, (10, [2, 2], vec![three, three, three, S(9)])),
    ]);
    list
}

/// Jobs on one core of each kind, where the first kind is over, or nearly.
fn about_room_of_the_first() -> Vec<(u8, Vec<Job>)> {
    vec![
        // At home, with jobs that cannot leave, on the first kind and on both.
        (0, vec![F(6), F(4)]),
        (14, vec![F(6), F(5)]),
        (0, vec![F(6), F(4), S(6), S(4)]),
        (14, vec![F(6), F(5), S(6), S(4)]),
        (6, vec![F(6), F(5), S(6), S(5)]),
        // At home, with jobs that can.
        (0, vec![B(6, 7), B(4, 5), B(7, 6), B(5, 4)]),
        (16, vec![B(6, 7), B(5, 6), B(7, 6), B(5, 4)]),
        (6, vec![B(6, 7), B(5, 6), B(7, 6), B(6, 5)]),
        // At the far end of a job that fits both kinds, and of a stretched one, which
        // keeps 4 ticks.
        (0, vec![B(5, 9), F(6), F(4)]),
        (14, vec![B(5, 9), F(6), F(5)]),
        (0, vec![B(6, 16), F(6), S(4)]),
        (14, vec![B(6, 16), F(7), S(4)]),
        // On the other kind, with the stretched job moved, a whole one that fits both,
        // and a part of one, 3 ticks for 2.
        (16, vec![B(6, 16), F(6), S(5)]),
        (0, vec![B(7, 8), B(7, 8), F(3), S(2)]),
        (16, vec![B(7, 8), B(7, 8), F(3), S(3)]),
        (0, vec![B(6, 9), B(6, 8), S(7)]),
        (16, vec![B(6, 9), B(6, 8), S(8)]),
        // The other kind is over at the far ends in any case.
        (16, vec![B(5, 9), F(6), F(4), S(5)]),
        (14, vec![B(5, 9), F(6), F(5), S(5)]),
    ]
}

/// The text of a set.
fn text_of((window, [first, second], jobs): &Set) -> String {
    let mut text = format!("01{window:04x}{first:02x}{second:02x}\n");
    for job in jobs {
        let (allowed, first, second) = match *job {
            B(first, second) => (0, first, second),
            F(cost) => (1, cost, 0),
            S(cost) => (2, 0, cost),
        };
        text += &format!("02{allowed:02x}{first:08x}{second:08x}\n");
    }
    text
}

#[cfg(test)]
mod tests {
    use super::*;
    use crate::text::plan_text;

    #[test]
    fn what_the_sets_about_room_get() {
        for (number, set) in about_room() {
            let text = text_of(&set);
            let answer = String::from_utf8(plan_text(text.as_bytes())).unwrap();
            if number == 0 {
                assert!(answer.starts_with("10"), "{text}{answer}");
            } else {
                assert_eq!(answer, format!("1f{number:02x}00\n"), "{text}");
            }
        }
    }
}
