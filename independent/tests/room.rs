//! Which room is too small: the four refusals for it and the limits between them,
//! what the checker holds against a wrong one, and that the generator comes to both
//! sides of each limit.

use independent::check::{check_cause, Set};
use independent::compare;
use independent::duality::Demand;
use independent::examine::{examine, Counts, REFUSALS};
use independent::family::Family;
use independent::gen;
use independent::planner::{split, PerKind};
use independent::text::{plan_text, read};

const FOR_ROOM: [usize; 4] = [6, 14, 15, 16];

/// A job on both kinds, on the first only, or on the second only.
fn b(first: u64, second: u64) -> Demand {
    Demand::Both(first, second)
}

fn f(cost: u64) -> Demand {
    Demand::One(0, cost)
}

fn s(cost: u64) -> Demand {
    Demand::One(1, cost)
}

/// Jobs on a board with a window of 10 ticks and one core of each kind.
fn set(jobs: &[Demand]) -> Set {
    Set {
        window: 10,
        cores: [1, 1],
        jobs: jobs.to_vec(),
    }
}

fn text(set: &Set) -> String {
    let [first, second] = set.cores;
    let mut text = format!("01{:04x}{first:02x}{second:02x}\n", set.window);
    for job in &set.jobs {
        text += &match *job {
            Demand::Both(first, second) => format!("0200{first:08x}{second:08x}\n"),
            Demand::One(0, cost) => format!("0201{cost:08x}00000000\n"),
            Demand::One(_, cost) => format!("020200000000{cost:08x}\n"),
        };
    }
    text
}

/// The same set with the kinds exchanged.
fn mirrored(set: &Set) -> Set {
    let job = |job: &Demand| match *job {
        Demand::Both(first, second) => Demand::Both(second, first),
        Demand::One(kind, cost) => Demand::One(1 - kind, cost),
    };
    Set {
        window: set.window,
        cores: [set.cores[1], set.cores[0]],
        jobs: set.jobs.iter().map(job).collect(),
    }
}

/// The refusal of the mirror image of a set with the given one.
fn image(number: usize) -> usize {
    match number {
        14 => 15,
        15 => 14,
        _ => number,
    }
}

/// The number of a text's refusal, 0 for a plan.
fn number(text: &[u8]) -> usize {
    let answer = String::from_utf8(plan_text(text)).unwrap();
    match answer.strip_prefix("1f") {
        Some(rest) => usize::from_str_radix(&rest[..2], 16).unwrap(),
        None => 0,
    }
}

/// Holds a set's refusal and that of its mirror image against a number.
fn gets(jobs: &[Demand], expected: usize) {
    let set = set(jobs);
    assert_eq!(number(text(&set).as_bytes()), expected, "{jobs:?}");
    let other = mirrored(&set);
    assert_eq!(
        number(text(&other).as_bytes()),
        image(expected),
        "{other:?}"
    );
}

/// 6 is for both kinds over at home, and for nothing else.
#[test]
fn both_kinds_over_at_home() {
    gets(&[f(6), f(5), s(6), s(5)], 6);
    // One of them is a tick less, so the other alone is over.
    gets(&[f(6), f(5), s(6), s(4)], 14);
    gets(&[f(6), f(4), s(6), s(5)], 15);
    gets(&[f(6), f(4), s(6), s(4)], 0);
    // It makes no difference that jobs could leave.
    gets(&[b(6, 7), b(5, 6), b(7, 6), b(6, 5)], 6);
    gets(&[b(1, 2), b(10, 11), b(2, 1), b(11, 10)], 6);
}

/// The kind over at home is the one that 14 and 15 name, whatever the other one has
/// come to by then.
#[test]
fn one_kind_still_over() {
    gets(&[f(6), f(5)], 14);
    gets(&[s(6), s(5)], 15);
    gets(&[b(5, 9), f(6), f(5)], 14);
    gets(&[b(6, 16), f(7)], 14);
    // The second kind is over at the far ends as well, by 4 ticks.
    gets(&[b(5, 9), f(6), f(5), s(5)], 14);
    // A tick less, and the first kind fits: the other one is what is short.
    gets(&[b(5, 9), f(6), f(4), s(5)], 16);
    // Jobs of the second kind do not leave it for the first one's sake.
    gets(&[f(6), f(5), b(9, 8)], 14);
}

#[test]
fn the_other_kind_over_at_the_end() {
    gets(&[b(6, 9), b(6, 8), s(7)], 0);
    gets(&[b(6, 9), b(6, 8), s(8)], 16);
    gets(&[b(6, 16), f(6), s(4)], 0);
    gets(&[b(6, 16), f(6), s(5)], 16);
    // One tick is moved, for two of the other kind.
    gets(&[b(9, 10), f(2), s(8)], 0);
    gets(&[b(9, 10), f(2), s(9)], 16);
}

/// The right refusal passes, and each other one is objected to: by its cause, or as
/// one that a set which has a plan cannot get.
#[test]
fn the_checker_knows_the_cause() {
    let mut seen = [0; 17];
    for words in [&["named"][..], &["small"], &["gen", "11", "6000"]] {
        let family = Family::parse(words).unwrap();
        for input in family.indices().map(|index| family.text(index)) {
            let Some(set) = Set::read(&input) else {
                continue;
            };
            let right = number(&input);
            seen[right] += 1;
            for other in FOR_ROOM {
                let line = format!("1f{other:02x}00\n");
                let cause = check_cause(&set, other);
                let verdict = examine(&input, line.as_bytes(), &mut Counts::default());
                assert_eq!(cause.is_ok(), other == right, "{other}: {set:?}");
                assert_eq!(verdict.is_ok(), other == right, "{other}: {set:?}");
            }
        }
    }
    for number in [0, 6, 14, 15, 16] {
        assert!(seen[number] > 100, "{seen:?}");
    }
}

#[test]
fn objections_to_refusals() {
    let objects = |text: &str, line: &str, part: &str| {
        let verdict = examine(text.as_bytes(), line.as_bytes(), &mut Counts::default());
        let message = verdict.unwrap_err();
        assert!(message.contains(part), "{message}");
    };
    let over = text(&set(&[f(6), f(5)]));
    objects(&over, "1f0f00\n", "refusal 15, but the rooms are [10, 10]");
    objects(&over, "1f0e01\n", "refusal 14 with place 1");
    objects(&over, "1f0d00\n", "refusal 13 of a legal set");
    for number in [6, 7, 14, 15, 16] {
        let line = format!("1f{number:02x}00\n");
        objects("01000a0101\nff\n", &line, "no legal set");
    }
    for number in [0, 11, 12, 13, 17, 255] {
        let line = format!("1f{number:02x}00\n");
        objects("01000a0101\nff\n", &line, "no such refusal");
    }
}

/// Equal costs are at home on the first kind in the image too, so sets with such a
/// job are left out.
#[test]
fn mirror_images() {
    let alike = |job: &Demand| matches!(*job, Demand::Both(first, second) if first == second);
    let mut seen = [0; 17];
    for words in [&["small"][..], &["gen", "12", "12000"]] {
        let family = Family::parse(words).unwrap();
        for input in family.indices().map(|index| family.text(index)) {
            let set = Set::read(&input).filter(|set| !set.jobs.iter().any(alike));
            let Some(set) = set else {
                continue;
            };
            let found = number(&input);
            let other = number(text(&mirrored(&set)).as_bytes());
            assert_eq!(other, image(found), "{set:?}");
            seen[found] += 1;
        }
    }
    for number in [0, 6, 14, 15, 16] {
        assert!(seen[number] > 500, "{seen:?}");
    }
}

/// The ticks that the checker finds where the steps stop are those of the shares
/// that the steps give.
#[test]
fn sums_of_the_shares() {
    let mut seen = [0, 0];
    for input in (0..12_000).map(|index| gen::text(13, index)) {
        let Some(set) = Set::read(&input) else {
            continue;
        };
        let (board, jobs) = read(&input).unwrap();
        let Ok(shares) = split(&board, &jobs) else {
            continue;
        };
        let sum = |ticks: fn(&PerKind) -> i64| shares.iter().map(ticks).sum::<i64>() as u64;
        let sums = [sum(|share| share.first), sum(|share| share.second)];
        let at_home = set.at_home();
        match [0, 1]
            .into_iter()
            .find(|&kind| at_home[kind] > set.room(kind))
        {
            Some(kind) => {
                assert_eq!(sums, set.at_stop(kind), "{set:?}");
                assert_eq!(sums[kind], set.room(kind), "{set:?}");
                seen[kind] += 1;
            }
            None => assert_eq!(sums, at_home, "{set:?}"),
        }
    }
    assert!(seen[0] > 300 && seen[1] > 300, "{seen:?}");
}

/// A limit, the kind whose ticks are held against its room, and whether they are a
/// tick over it.
type Side = (&'static str, usize, bool);

/// The sides of limits that a set lies on, exactly.
fn sides(set: &Set) -> Vec<Side> {
    let at_home = set.at_home();
    let over = [0, 1].map(|kind| at_home[kind] > set.room(kind));
    let mut sides = Vec::new();
    let mut hold = |limit, kind: usize, ticks: [u64; 2]| {
        if let Some(more @ 0..=1) = ticks[kind].checked_sub(set.room(kind)) {
            sides.push((limit, kind, more == 1));
        }
    };
    for kind in 0..2 {
        let limit = if over[1 - kind] {
            "at home, the other over"
        } else {
            "at home, the other not over"
        };
        hold(limit, kind, at_home);
        if over[kind] && !over[1 - kind] {
            let far = set.at_far_ends(kind);
            // Where no job gives up a tick, the limit is that at home.
            if far[kind] < at_home[kind] {
                hold("at the far ends", kind, far);
            }
            if far[kind] <= set.room(kind) {
                hold("at the stop", 1 - kind, set.at_stop(kind));
            }
        }
    }
    sides
}

#[test]
fn the_generator_comes_to_each_limit() {
    let mut seen: Vec<Side> = Vec::new();
    for index in 0..20_000 {
        let set = Set::read(&gen::text(7, index));
        seen.extend(set.iter().flat_map(sides));
    }
    for limit in [
        "at home, the other over",
        "at home, the other not over",
        "at the far ends",
        "at the stop",
    ] {
        for kind in 0..2 {
            for more in [false, true] {
                let side = (limit, kind, more);
                let count = seen.iter().filter(|&&found| found == side).count();
                assert!(count > 50, "{side:?}: {count}");
            }
        }
    }
}

/// Many random texts must reach each refusal; a few need not, nor other families.
#[test]
fn refusals_that_are_not_reached() {
    let lack = |words: &[&str], counts: &Counts| {
        let family = Family::parse(words).unwrap();
        compare::lack(family, counts)
    };
    let many = ["gen", "1", "20000"];
    for unreached in REFUSALS {
        let mut counts = Counts {
            refusals: [1; 17],
            ..Counts::default()
        };
        assert_eq!(lack(&many, &counts), None);
        counts.refusals[unreached] = 0;
        let told = format!("gen, seed 1: no text of 20000 reached refusal [{unreached}]");
        assert_eq!(lack(&many, &counts), Some(told));
        assert_eq!(lack(&["gen", "1", "19999"], &counts), None);
        assert_eq!(lack(&["small"], &counts), None);
    }
}
