//! Whole windows of the tick handler: those worked out by hand, those of refused
//! lines, and those of the planner's answers, in which each job has its share.

use independent::family::Family;
use independent::handler::reader;
use independent::planner::{Kind, PerKind};
use independent::text::plan_text;
use independent::window::{window, window_text, Walk, Window};

/// Holds the lines of a whole window against those of each row. A blank of a
/// text stands for a line feed, and so does a semicolon of what is said.
#[test]
fn worked_out_by_hand() {
    for (words, expected) in [
        // The whole example.
        (
            "01000a0101 100203 110000060000 110100040003 \
             1201010000000004 1200010000040006 1201020000070003",
            "job 0 6 0;job 1 4 3;idle 0 7;position 0",
        ),
        ("01000a0101 100000", "idle 10 10;position 0"),
        ("0100010101 100000", "idle 1 1;position 0"),
        ("0100030802 100000", "idle 24 6;position 0"),
        ("01ffff0802 100000", "idle 524280 131070;position 0"),
        // Jobs without slices, and with shares that the slices do not have.
        (
            "0100030201 100300 110000010001 110100000000 1102ffffffff",
            "idle 6 3;position 0",
        ),
        // A job on several cores at once.
        (
            "0100030201 100103 110000000000 1200010000000003 1200010100000003 1200020000010001",
            "job 0 6 1;idle 0 2;position 0",
        ),
        // Rows in any order that meet at their ends.
        (
            "0100030101 100203 110000000000 110100000000 \
             1200010000020001 1201010000010001 1200010000000001",
            "job 0 2 0;job 1 1 0;idle 0 3;position 0",
        ),
        ("", "refused 10 1"),
        ("01000a010 100000", "refused 8 1"),
        ("01000a0101 100000 1f0600", "refused 9 3"),
        ("01000a0101 100100", "refused 10 3"),
        ("0100000101 100000", "refused 1 0"),
        ("01000a0901 100000", "refused 2 0"),
        (
            "01000a0101 100102 110000000000 1200010000000001 12000100000a0001",
            "refused 12 1",
        ),
        (
            "01000a0101 100103 110000000000 1200010000000001 1200020000000001 1200010000000002",
            "refused 13 2",
        ),
    ] {
        let found = String::from_utf8(window_text(words.replace(' ', "\n").as_bytes()));
        assert_eq!(
            found.unwrap(),
            expected.replace(';', "\n") + "\n",
            "{words}"
        );
    }
    let long = window_text(&b"0".repeat(4_097));
    assert_eq!(long, b"refused 8 0\n");
}

/// What the lines of a real plan say of its window: each job is named for its
/// share on each kind, and the room that is left is idle.
#[test]
fn shares_of_the_planner() {
    let (mut plans, mut movers) = (0, 0);
    for (words, every) in [("named", 1), ("small", 23), ("gen 11 8000", 1)] {
        let words: Vec<&str> = words.split(' ').collect();
        let family = Family::parse(&words).unwrap();
        for index in family.indices().step_by(every) {
            let input = family.text(index);
            let answer = plan_text(&input);
            if answer.starts_with(b"1f") {
                continue;
            }
            let board = input.split(|&byte| byte == b'\n').next().unwrap();
            let lines = [board, answer.as_slice()].join(&b'\n');
            let plan = reader::read(&lines).unwrap();
            if plan.board.window > 1_000 {
                continue;
            }
            let idle = |kind: Kind| {
                let given: i64 = plan.shares.iter().map(|share| share[kind]).sum();
                plan.board.room(kind) - given
            };
            let expected = Walk {
                idle: PerKind::new(idle(Kind::First), idle(Kind::Second)),
                named: plan.shares.clone(),
                position: 0,
            };
            plans += 1;
            movers += plan
                .shares
                .iter()
                .filter(|share| share.first * share.second > 0)
                .count();
            assert_eq!(
                window(&lines),
                Window::Walked(expected),
                "{family}, index {index}"
            );
        }
    }
    assert!(plans > 5_000 && movers > 2_000, "{plans} {movers}");
}
