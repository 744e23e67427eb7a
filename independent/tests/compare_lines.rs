//! The queries for tick handlers must reach every answer, and the comparison must
//! find each wrong one.

use std::io::Write;
use std::process::{Command, Output, Stdio};

use independent::compare::Failure;
use independent::compare_lines::{self, Counts, NOT_ASKED, REFUSALS};
use independent::family::{Family, Stream};
use independent::handler::{self, reader, CoreTick, Query};
use independent::planner::Slice;
use independent::{frames, gen};

const PROGRAM: &str = env!("CARGO_BIN_EXE_independent");

fn stream(seed: u64, count: u64, from: u64) -> Stream {
    Stream { seed, count, from }
}

/// The three numbers of a right answer; a table is packed in seven bytes.
fn right(query: &Query) -> [u32; 3] {
    let number = handler::number(handler::tick(&query.lines, query.at));
    match handler::table(&query.lines) {
        Ok(_) => [number, 7, number],
        Err(_) => [number, 0, NOT_ASKED],
    }
}

fn bytes(numbers: [u32; 3]) -> Vec<u8> {
    numbers.map(u32::to_be_bytes).concat()
}

/// The verdict where the answers are right but for what `change` does to them.
fn compare(stream: Stream, mut change: impl FnMut(&mut [u32; 3])) -> Result<Counts, Box<Failure>> {
    let answer = |query: &Query| {
        let mut numbers = right(query);
        change(&mut numbers);
        Ok(bytes(numbers))
    };
    compare_lines::run(stream, answer).unwrap()
}

#[test]
fn every_answer_is_reached() {
    let counts = compare(stream(1, 20_000, 0), |_| {}).unwrap();
    assert_eq!(counts.queries, 20_000);
    assert!(counts.named >= 100 && counts.idle >= 100, "{counts}");
    for number in REFUSALS {
        assert!(counts.refused[number] >= 100, "{counts}");
    }
    let all = counts.named + counts.idle + counts.refused.iter().sum::<u64>();
    assert_eq!(all, counts.queries);
}

/// Nine of ten tables that are accepted have a short window; and there are some
/// at each limit.
#[test]
fn tables_at_each_limit() {
    let mut seen = [0; 8];
    let (mut accepted, mut short) = (0, 0);
    for index in 0..20_000 {
        let Query { lines, at } = gen::query(1, index);
        let Ok(plan) = reader::read(&lines) else {
            continue;
        };
        let Ok(table) = handler::table(&lines) else {
            continue;
        };
        let board = table.board();
        accepted += 1;
        short += usize::from(board.window <= 64);
        let touching = plan.rows.iter().any(|row| {
            let next = (row.kind, row.core, row.start + row.length);
            let start = |row: &Slice| (row.kind, row.core, row.start);
            plan.rows.iter().any(|row| start(row) == next)
        });
        let limits = [
            board.window == 1,
            board.window == 65_535,
            plan.rows.len() > 94,
            plan.shares.len() > 64,
            lines.len() == 4_096,
            touching,
            board.cores.first == 8 && at.kind == 1 && at.core == 7,
            i64::from(at.tick) + 1 == board.window,
        ];
        for (seen, at_limit) in seen.iter_mut().zip(limits) {
            *seen += usize::from(at_limit);
        }
    }
    assert!(10 * short >= 9 * accepted, "{short} of {accepted}");
    assert!(seen.iter().all(|&seen| seen >= 50), "{seen:?}");
}

#[test]
fn queries_depend_on_seed_and_index_alone() {
    assert_eq!(gen::query(3, 5), gen::query(3, 5));
    let differs =
        |seed, index| (0..20).any(|at| gen::query(3, 5 + at) != gen::query(seed, index + at));
    assert!(differs(4, 5) && differs(3, 6));
}

#[test]
fn the_bytes_of_a_query() {
    let query = Query {
        lines: b"01\n".to_vec(),
        at: CoreTick::new(0x0102_0304, 2, u32::MAX),
    };
    assert_eq!(
        query.bytes(),
        b"\x01\x02\x03\x04\0\0\0\x02\xff\xff\xff\xff01\n"
    );
    let family = Family::parse(&["lines", "3", "9", "5"]).unwrap();
    assert_eq!(family, Family::Lines(stream(3, 9, 5)));
    assert_eq!(
        (family.indices(), family.to_string()),
        (5..14, "lines, seed 3".into())
    );
    assert_eq!(family.frame(7), gen::query(3, 7).bytes());
    assert_eq!(family.text(7), gen::query(3, 7).lines);
}

/// The first index from 0 on in stream 1 that passes.
fn first(passes: impl Fn([u32; 3]) -> bool) -> u64 {
    (0..)
        .find(|&index| passes(right(&gen::query(1, index))))
        .unwrap()
}

/// Each number of an answer is made wrong, at the first query of each sort.
#[test]
fn wrong_numbers_are_told() {
    type Change = fn(&mut [u32; 3]);
    let named = first(|numbers| numbers[0] < 256);
    let idle = first(|numbers| numbers[0] == 256);
    let off_board = first(|numbers| numbers[0] == 512 + 11);
    let refused = first(|numbers| numbers[1] == 0);
    let rows: [(u64, Change, &str); 11] = [
        (named, |numbers| numbers[0] += 1, "the answers differ"),
        (named, |numbers| numbers[0] = 256, "the answers differ"),
        (idle, |numbers| numbers[0] = 0, "the answers differ"),
        (off_board, |numbers| numbers[0] = 256, "the answers differ"),
        (refused, |numbers| numbers[0] ^= 1, "the answers differ"),
        (
            named,
            |numbers| numbers[1] = 0,
            "a table that is not refused is not packed",
        ),
        (
            off_board,
            |numbers| numbers[1..].copy_from_slice(&[0, NOT_ASKED]),
            "a table that is not refused is not packed",
        ),
        (
            named,
            |numbers| numbers[2] += 1,
            "the packed table answers otherwise",
        ),
        (
            off_board,
            |numbers| numbers[2] = 256,
            "the packed table answers otherwise",
        ),
        (
            refused,
            |numbers| numbers[1] = 1,
            "a table that is refused is packed",
        ),
        (
            refused,
            |numbers| numbers[2] = numbers[0],
            "there is no packed table to answer",
        ),
    ];
    for (index, change, message) in rows {
        let failure = compare(stream(1, 5, index), change).unwrap_err();
        assert_eq!(
            (failure.index, &failure.input),
            (index, &gen::query(1, index).lines)
        );
        let CoreTick { tick, kind, core } = gen::query(1, index).at;
        let last = format!(
            "\nlines, seed 1, index {index}: tick {tick}, kind {kind}, core {core}: {message}"
        );
        let told = failure.to_string();
        assert!(told.ends_with(&last), "{told}");
    }
}

/// The answers are right up to the tenth.
#[test]
fn the_first_wrong_answer_ends_it() {
    let mut asked = 0;
    let verdict = compare(stream(7, 100, 5), |numbers| {
        asked += 1;
        numbers[0] += u32::from(asked == 10);
    });
    assert_eq!((verdict.unwrap_err().index, asked), (14, 10));
}

#[test]
fn both_answers_are_told() {
    let index = first(|numbers| numbers[0] == 512 + 10);
    let told = compare(stream(1, 1, index), |numbers| *numbers = [256, 7, 3]).unwrap_err();
    let told = told.to_string();
    assert!(told.contains("\ntick 522 (refused 10 "), "{told}");
    assert!(
        told.contains(")\npacked 0\npacked tick 4294967295\n"),
        "{told}"
    );
    assert!(
        told.contains("\ntick 256\npacked 7\npacked tick 3\n"),
        "{told}"
    );
}

/// Runs `independent compare lines 1 50 5` with these answers.
fn run_program(answers: &[Vec<u8>]) -> Output {
    let mut input = Vec::new();
    for answer in answers {
        frames::write(&mut input, answer).unwrap();
    }
    let mut child = Command::new(PROGRAM)
        .args(["compare", "lines", "1", "50", "5"])
        .stdin(Stdio::piped())
        .stdout(Stdio::piped())
        .stderr(Stdio::piped())
        .spawn()
        .unwrap();
    // It may end before it has read all.
    let _ = child.stdin.take().unwrap().write_all(&input);
    child.wait_with_output().unwrap()
}

#[test]
fn the_program() {
    let frames = Command::new(PROGRAM)
        .args(["lines", "1", "50", "5"])
        .output()
        .unwrap()
        .stdout;
    let (mut frames, mut queries) = (frames.as_slice(), Vec::new());
    while let Some(frame) = frames::read(&mut frames).unwrap() {
        queries.push(frame);
    }
    let family = Family::Lines(stream(1, 50, 5));
    let expected: Vec<Vec<u8>> = family.indices().map(|at| family.frame(at)).collect();
    assert_eq!(queries, expected);

    let answers: Vec<Vec<u8>> = (5..55)
        .map(|index| bytes(right(&gen::query(1, index))))
        .collect();
    let output = run_program(&answers);
    let counts = String::from_utf8(output.stdout).unwrap();
    assert!(output.status.success() && counts.starts_with("queries 50, named "));
    assert_eq!(counts.lines().count(), 1);

    let mut more = answers.clone();
    more.push(answers[0].clone());
    let mut short = answers.clone();
    short[9].pop();
    let mut empty = answers.clone();
    empty[9].clear();
    for (answers, message) in [
        (
            &answers[..49],
            "lines, seed 1, index 54: an answer is missing\n",
        ),
        (&[], "lines, seed 1, index 5: an answer is missing\n"),
        (&more, "lines, seed 1: more answers than texts\n"),
        (&short, ": the answer is not of twelve bytes\n"),
        (&empty, ": the answer is not of twelve bytes\n"),
    ] {
        let output = run_program(answers);
        assert_eq!((output.status.code(), output.stdout), (Some(1), vec![]));
        let told = String::from_utf8(output.stderr).unwrap();
        assert!(told.ends_with(message), "{told}");
    }
}
