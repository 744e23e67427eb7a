//! The tick handler on texts worked out by hand: the job at each tick, every
//! refusal with its place, both sides of each limit, and the order of refusals.

use independent::handler::{self, move_on, CoreTick, Table};
use independent::planner::{Board, Kind, PerKind, Reason, Refusal, Slice};

/// The board and the plan of the rules' whole example: job 1 and then job 0 on
/// the one core of the first kind, job 1 again on that of the second from tick 7.
const EXAMPLE: &str =
    "01000a0101 100203 110000060000 110100040003 1201010000000004 1200010000040006 1201020000070003";

/// A text, each blank of which stands for a line feed, and what is answered.
type Row<'a> = (&'a str, &'a str);

fn text(words: &str) -> Vec<u8> {
    words.replace(' ', "\n").into_bytes()
}

fn said(answer: Result<Option<usize>, Refusal>) -> String {
    match answer {
        Ok(Some(job)) => format!("job {job}"),
        Ok(None) => "none".into(),
        Err(refusal) => refusal.to_string(),
    }
}

fn tick(lines: &[u8], at: (u32, u32, u32)) -> String {
    said(handler::tick(lines, CoreTick::new(at.0, at.1, at.2)))
}

/// Holds the answer at tick 0 of the first kind's core 0 against each row's, and
/// with a line feed at the end too.
fn rows_hold(rows: &[Row]) {
    for &(words, expected) in rows {
        let mut lines = text(words);
        assert_eq!(tick(&lines, (0, 1, 0)), expected, "{words:?}");
        if !lines.is_empty() {
            lines.push(b'\n');
            assert_eq!(tick(&lines, (0, 1, 0)), expected, "{words:?} and a feed");
        }
    }
}

#[test]
fn the_whole_example_tick_by_tick() {
    let run = |kind: u32| -> Vec<u32> {
        (0..10)
            .map(|tick| handler::tick(&text(EXAMPLE), CoreTick::new(tick, kind, 0)))
            .map(handler::number)
            .collect()
    };
    assert_eq!(run(1), [1, 1, 1, 1, 0, 0, 0, 0, 0, 0]);
    assert_eq!(run(2), [256, 256, 256, 256, 256, 256, 256, 1, 1, 1]);
}

#[test]
fn what_the_board_lacks() {
    let lines = text(EXAMPLE);
    let wide = text("01ffff0208 100102 1100ffff0001 120001010000ffff 120002070000ffff");
    for (lines, at, expected) in [
        (&lines, (9, 1, 0), "job 0"),
        (&lines, (10, 1, 0), "refused 11 0"),
        (&lines, (11, 1, 0), "refused 11 0"),
        (&lines, (9, 2, 0), "job 1"),
        (&lines, (10, 2, 0), "refused 11 0"),
        (&lines, (0, 0, 0), "refused 11 0"),
        (&lines, (0, 3, 0), "refused 11 0"),
        (&lines, (0, 1, 1), "refused 11 0"),
        (&lines, (0, 2, 1), "refused 11 0"),
        // Numbers that are inside once their high bytes are lost.
        (&lines, (0x1_0000, 1, 0), "refused 11 0"),
        (&lines, (0, 0x101, 0), "refused 11 0"),
        (&lines, (0, 0x1_0001, 0), "refused 11 0"),
        (&lines, (0, 1, 0x100), "refused 11 0"),
        (&lines, (0, 1, 0x1_0000), "refused 11 0"),
        (&lines, (u32::MAX, 1, 0), "refused 11 0"),
        (&lines, (0, u32::MAX, 0), "refused 11 0"),
        (&lines, (0, 1, u32::MAX), "refused 11 0"),
        (&lines, (u32::MAX, u32::MAX, u32::MAX), "refused 11 0"),
        // The core counts of the two kinds are not mixed up.
        (&wide, (0, 1, 1), "job 0"),
        (&wide, (0, 1, 2), "refused 11 0"),
        (&wide, (0, 2, 2), "none"),
        (&wide, (65_534, 2, 7), "job 0"),
        (&wide, (65_535, 2, 7), "refused 11 0"),
        (&wide, (0, 2, 8), "refused 11 0"),
    ] {
        assert_eq!(tick(lines, at), expected, "{at:?}");
    }
}

#[test]
fn numbers_for_c() {
    for (words, at, expected) in [
        (EXAMPLE, (0, 1, 0), 1),
        (EXAMPLE, (0, 2, 0), 256),
        (EXAMPLE, (10, 1, 0), 512 + 11),
        ("", (0, 1, 0), 512 + 10),
        ("0100000101 100000", (0, 1, 0), 512 + 1),
    ] {
        let at = CoreTick::new(at.0, at.1, at.2);
        let answer = handler::tick(&text(words), at);
        assert_eq!(handler::number(answer), expected, "{words:?}");
    }
    // 255 jobs, of which the last runs.
    let shares: String = (0..255)
        .map(|job| format!("11{job:02x}00010000 "))
        .collect();
    let lines = text(&format!("0100010101 10ff01 {shares}12fe010000000001"));
    let answer = handler::tick(&lines, CoreTick::new(0, 1, 0));
    assert_eq!(handler::number(answer), 254);
}

#[test]
fn digits() {
    rows_hold(&[
        ("01000A0101 100101 110000010000 1200010000000001", "job 0"),
        ("01000a010", "refused 8 1"),
        ("01000a010g", "refused 8 1"),
        ("01000a0101\r 100000", "refused 8 1"),
        ("01000a0101 10000", "refused 8 2"),
        ("01000a0101 100000  ", "refused 8 3"),
        ("01000a0101  100000", "refused 8 2"),
        ("01000a0101 100001 12000100000000", "refused 9 3"),
        ("01000a0101 100001 1200010000000", "refused 8 3"),
    ]);
    for lines in ["\n", "\n\n", "\r\n", " "] {
        assert_eq!(tick(lines.as_bytes(), (0, 1, 0)), "refused 8 1");
    }
}

#[test]
fn records() {
    rows_hold(&[
        // The records of an input and of a refusal are unknown here.
        ("01000a0101 02000000000600000009", "refused 9 2"),
        ("02000000000600000009", "refused 9 1"),
        ("01000a0101 1f0600", "refused 9 2"),
        ("01000a0101 100000 1f0600", "refused 9 3"),
        ("00", "refused 9 1"),
        ("03000a0101", "refused 9 1"),
        ("01000a0101 13", "refused 9 2"),
        // A byte short, right, and a byte long.
        ("01000a01", "refused 9 1"),
        ("01000a010100", "refused 9 1"),
        ("01000a0101 1000", "refused 9 2"),
        ("01000a0101 10000000", "refused 9 2"),
        ("01000a0101 100100 1100000000", "refused 9 3"),
        ("01000a0101 100100 110000000000", "none"),
        ("01000a0101 100100 11000000000000", "refused 9 3"),
        (
            "01000a0101 100101 110000000000 12000100000001",
            "refused 9 4",
        ),
        ("01000a0101 100101 110000000000 1200010000000001", "job 0"),
        (
            "01000a0101 100101 110000000000 120001000000000100",
            "refused 9 4",
        ),
    ]);
}

#[test]
fn kinds_and_jobs_of_records() {
    let one = "01000a0101 100101 110000000000";
    for (row, expected) in [
        ("1200000000000001", "refused 9 4"),
        ("1200010000000001", "job 0"),
        ("1200020000000001", "none"),
        ("1200030000000001", "refused 9 4"),
        ("1200ff0000000001", "refused 9 4"),
        ("1201010000000001", "refused 9 4"),
        ("12ff010000000001", "refused 9 4"),
    ] {
        rows_hold(&[(&format!("{one} {row}"), expected)]);
    }
    rows_hold(&[
        // A job that is not below the number is 9, where a line is out of order
        // too; one that is below it is 10.
        ("01000a0101 100200 110200000000", "refused 9 3"),
        ("01000a0101 100200 110100000000", "refused 10 3"),
        ("01000a0101 100201 1202010000000001", "refused 9 3"),
        ("01000a0101 100201 1201010000000001", "refused 10 3"),
        ("01000a0101 100000 110000000000", "refused 9 3"),
        ("01000a0101 100001 1200010000000001", "refused 9 3"),
        ("01000a0101 100100 110000000000 110100000000", "refused 9 4"),
        (
            "01000a0101 100100 110000000000 110000000000",
            "refused 10 4",
        ),
        (
            "01000a0101 100100 110000000000 1201010000000001",
            "refused 9 4",
        ),
        (
            "01000a0101 100100 110000000000 1200010000000001",
            "refused 10 4",
        ),
        // Where there is no number yet a line is judged by its form alone.
        ("01000a0101 11ff00000000", "refused 10 2"),
        ("01000a0101 12ff010000000001", "refused 10 2"),
        ("01000a0101 12ff030000000001", "refused 9 2"),
        ("12ff010000000001", "refused 10 1"),
        ("12ff000000000001", "refused 9 1"),
    ]);
}

#[test]
fn order_of_lines() {
    rows_hold(&[
        ("100000", "refused 10 1"),
        ("100000 01000a0101", "refused 10 1"),
        ("110000000000", "refused 10 1"),
        ("01000a0101 01000a0101", "refused 10 2"),
        ("01000a0101 100000 01000a0101", "refused 10 3"),
        ("01000a0101 100000 100000", "refused 10 3"),
        // Jobs from 0 upward, each once.
        ("01000a0101 100200 110000000000 110100000000", "none"),
        (
            "01000a0101 100200 110100000000 110000000000",
            "refused 10 3",
        ),
        (
            "01000a0101 100200 110000000000 110000000000",
            "refused 10 4",
        ),
        // A slice among the shares, and a share among the slices.
        (
            "01000a0101 100201 110000000000 1200010000000001 110100000000",
            "refused 10 4",
        ),
        (
            "01000a0101 100102 110000000000 1200010000000001 110000000000",
            "refused 10 5",
        ),
        // The slices come in any order.
        (
            "01000a0101 100102 110000000000 1200020000000001 1200010000000001",
            "job 0",
        ),
        (
            "01000a0101 100102 110000000000 1200010000050001 1200010000000001",
            "job 0",
        ),
    ]);
}

/// The whole example without its last lines, and with one more.
#[test]
fn lines_missing_or_beyond_the_numbers() {
    let words: Vec<&str> = EXAMPLE.split(' ').collect();
    for count in 0..words.len() {
        let expected = format!("refused 10 {}", count + 1);
        rows_hold(&[(&words[..count].join(" "), &expected)]);
    }
    rows_hold(&[(EXAMPLE, "job 1")]);
    for more in ["1201020000000001", "110000060000", "100203", "01000a0101"] {
        rows_hold(&[(&format!("{EXAMPLE} {more}"), "refused 10 8")]);
    }
    // `10` says one more of either.
    rows_hold(&[
        (&EXAMPLE.replace("100203", "100204"), "refused 10 8"),
        (&EXAMPLE.replace("100203", "100303"), "refused 10 5"),
        (&EXAMPLE.replace("100203", "100202"), "refused 10 7"),
        // Job 1 is then no job.
        (&EXAMPLE.replace("100203", "100103"), "refused 9 4"),
    ]);
}

/// The board and `10` have 18 bytes, a share 13 and a slice 17, line feeds with
/// them: 9 shares and 233 slices make 4,096, 13 shares and 230 slices 4,097.
#[test]
fn length_of_the_text() {
    let many = |jobs: usize, rows: usize| {
        let mut lines = format!("0100100808\n10{jobs:02x}{rows:02x}\n");
        lines.extend((0..jobs).map(|job| format!("11{job:02x}00000000\n")));
        lines.extend((0..rows).map(|row| {
            let (kind, core) = (1 + row / 128, row / 16 % 8);
            format!("1200{kind:02x}{core:02x}{:04x}0001\n", row % 16)
        }));
        lines
    };
    let (whole, over) = (many(9, 233), many(13, 230));
    assert_eq!((whole.len(), over.len()), (4_096, 4_097));
    for (lines, expected) in [
        (whole.as_str(), "job 0"),
        (whole.trim_end(), "job 0"),
        (&format!("{whole}\n"), "refused 8 0"),
        (&over, "refused 8 0"),
        (over.trim_end(), "job 0"),
        (&"\n".repeat(4_096), "refused 8 1"),
        (&"\n".repeat(4_097), "refused 8 0"),
        (&"0".repeat(4_096), "refused 9 1"),
        (&"0".repeat(4_097), "refused 8 0"),
    ] {
        assert_eq!(tick(lines.as_bytes(), (0, 1, 0)), expected);
    }
    // More rows than a plan can have, and as many as `10` can say.
    assert_eq!(tick(many(1, 95).as_bytes(), (0, 1, 0)), "job 0");
    assert_eq!(tick(many(64, 94).as_bytes(), (0, 1, 0)), "job 0");
    assert_eq!(tick(many(65, 94).as_bytes(), (0, 1, 0)), "job 0");
    assert_eq!(tick(many(255, 44).as_bytes(), (0, 1, 0)), "job 0");
    assert_eq!(tick(many(0, 255).as_bytes(), (0, 1, 0)), "refused 8 0");
}

#[test]
fn boards() {
    for (board, expected) in [
        ("0100000101", "refused 1 0"),
        ("0100010101", "none"),
        ("01ffff0101", "none"),
        ("0100000000", "refused 1 0"),
        ("01000a0001", "refused 2 0"),
        ("01000a0100", "refused 2 0"),
        ("01000a0808", "none"),
        ("01000a0901", "refused 2 0"),
        ("01000a0109", "refused 2 0"),
        ("01000aff01", "refused 2 0"),
    ] {
        rows_hold(&[(&format!("{board} 100000"), expected)]);
    }
}

/// Rows on a board with a window of 10, 2 cores of the first kind and 3 of the
/// second.
#[test]
fn rows_outside() {
    for (rows, expected) in [
        ("1200010000000000", "refused 12 0"),
        ("1200010000000001", "job 0"),
        ("120001000000000a", "job 0"),
        ("120001000000000b", "refused 12 0"),
        ("1200010000010009", "none"),
        ("120001000001000a", "refused 12 0"),
        ("1200010000090001", "none"),
        ("1200010000090002", "refused 12 0"),
        ("12000100000a0000", "refused 12 0"),
        ("12000100000a0001", "refused 12 0"),
        ("12000100ffff0001", "refused 12 0"),
        ("12000100ffffffff", "refused 12 0"),
        ("120001000001ffff", "refused 12 0"),
        ("1200010100000001", "none"),
        ("1200010200000001", "refused 12 0"),
        ("1200020200000001", "none"),
        ("1200020300000001", "refused 12 0"),
        ("120001ff00000001", "refused 12 0"),
        ("1200010000000001 1200010000010001", "job 0"),
        ("1200010000000001 1200010000010000", "refused 12 1"),
        ("1200010000010000 12000100000a0001", "refused 12 0"),
        (
            "1200010000000001 1200010200000001 1200010000000000",
            "refused 12 1",
        ),
    ] {
        let count = rows.split(' ').count();
        let words = format!("01000a0203 1001{count:02x} 110000000000 {rows}");
        rows_hold(&[(&words, expected)]);
    }
}

/// Rows on the same board. The later row of a pair is told, and of all pairs the
/// one whose later row is lowest.
#[test]
fn rows_that_collide() {
    for (rows, expected) in [
        // The same ticks on another core, on another kind.
        ("1200010000000005 1200010100000005", "job 0"),
        ("1200020000000005 1200010000000005", "job 0"),
        // An end that is the next start, either row first, and a tick more.
        ("1200010000000004 1201010000040006", "job 0"),
        ("1201010000040006 1200010000000004", "job 0"),
        ("1200010000000005 1201010000040006", "refused 13 1"),
        ("1201010000040006 1200010000000005", "refused 13 1"),
        ("1200010000000004 1201010000030006", "refused 13 1"),
        // One inside the other, and the same twice; also of the same job.
        ("120001000000000a 1201010000040001", "refused 13 1"),
        ("1201010000040001 120001000000000a", "refused 13 1"),
        ("1200010000000001 1200010000000001", "refused 13 1"),
        ("1200020200090001 1200020200090001", "refused 13 1"),
        // Rows 0 and 3 collide, and rows 1 and 2; rows 0 and 2, and rows 1 and 2.
        (
            "1200010000000004 1200020000000004 1200020000030001 1200010000030001",
            "refused 13 2",
        ),
        (
            "1200010000000004 1200010000040004 1200010000030002",
            "refused 13 2",
        ),
        (
            "1200010000000004 1200010000040004 1200010000080001 1200010000000001",
            "refused 13 3",
        ),
    ] {
        let count = rows.split(' ').count();
        let words = format!("01000a0203 1002{count:02x} 110000000000 110100000000 {rows}");
        rows_hold(&[(&words, expected)]);
    }
}

/// The lines are judged first, all of them, then the board and the rows, and the
/// tick last. Each text has the next fault too, and those after it.
#[test]
fn order_of_refusals() {
    let rows = "1200010000000005 1200010000040005";
    let outside = "1200010000000005 1200010000040005 1200010000000000";
    for (words, expected) in [
        ("0100000000 100004", "refused 10 3"),
        ("0100000000 100004 1200010000000001", "refused 9 3"),
        ("0100000000 100004 120001000000000", "refused 8 3"),
        (
            &format!("0100000901 100103 110000000000 {outside}"),
            "refused 1 0",
        ),
        (
            &format!("01000a0901 100103 110000000000 {outside}"),
            "refused 2 0",
        ),
        (
            &format!("01000a0101 100103 110000000000 {outside}"),
            "refused 12 2",
        ),
        (
            &format!("01000a0101 100102 110000000000 {rows}"),
            "refused 13 1",
        ),
        (
            "01000a0101 100101 110000000000 1200010000000005",
            "refused 11 0",
        ),
        // The first bad line decides: 10, 9 and 8 in turn.
        ("01000a0101 01000a0101 ff f", "refused 10 2"),
        ("01000a0101 ff 01000a0101 f", "refused 9 2"),
        ("01000a0101 f ff 01000a0101", "refused 8 2"),
    ] {
        assert_eq!(tick(&text(words), (10, 1, 0)), expected, "{words:?}");
    }
}

/// A window that no text can say.
#[test]
fn wide_windows() {
    let check = |window| {
        let cores = PerKind::new(1, 1);
        Table::check(Board { window, cores }, vec![])
    };
    assert!(check(65_535).is_ok());
    for window in [0, 65_536] {
        assert_eq!(check(window), Err(Refusal::new(Reason::Window, 0)));
    }
    let row = Slice {
        job: 7,
        kind: Kind::Second,
        core: 0,
        start: 65_534,
        length: 1,
    };
    let cores = PerKind::new(1, 1);
    let board = Board {
        window: 65_535,
        cores,
    };
    let table = Table::check(board, vec![row]).unwrap();
    assert_eq!(said(table.job_at(CoreTick::new(65_534, 2, 0))), "job 7");
    assert_eq!(said(table.job_at(CoreTick::new(65_533, 2, 0))), "none");
}

#[test]
fn the_position() {
    for (window, from, expected) in [
        (10, 0, Ok(1)),
        (10, 8, Ok(9)),
        (10, 9, Ok(0)),
        (10, 10, Err(Reason::OffBoard)),
        (10, u32::MAX, Err(Reason::OffBoard)),
        (1, 0, Ok(0)),
        (1, 1, Err(Reason::OffBoard)),
        (65_535, 65_533, Ok(65_534)),
        (65_535, 65_534, Ok(0)),
        (65_535, 65_535, Err(Reason::OffBoard)),
        (0, 0, Err(Reason::Window)),
        (65_536, 0, Err(Reason::Window)),
        (65_536, u32::MAX, Err(Reason::Window)),
    ] {
        let mut position = from;
        let answer = move_on(&mut position, window);
        match expected {
            Ok(next) => assert_eq!((answer, position), (Ok(()), next)),
            Err(reason) => {
                assert_eq!((answer, position), (Err(Refusal::new(reason, 0)), from));
            }
        }
    }
}
