//! The facts of the sets that the rules name, worked out by hand, and of texts
//! that are refused.

use independent::facts::facts_text;

const BOARD: &str = "01000a0101\n";
const JOB: &str = "02000000000100000001\n";

fn b(first: u32, second: u32) -> String {
    format!("0200{first:08x}{second:08x}\n")
}

fn f(cost: u32) -> String {
    format!("0201{cost:08x}00000000\n")
}

fn s(cost: u32) -> String {
    format!("020200000000{cost:08x}\n")
}

/// Holds the facts of a text against lines.
fn has(text: &str, lines: &[&str]) {
    let found = String::from_utf8(facts_text(text.as_bytes())).unwrap();
    let expected: String = lines.iter().map(|line| format!("{line}\n")).collect();
    assert_eq!(found, expected, "{text:?}");
}

/// Holds the facts of a set, in a window of 10 ticks, against lines.
fn set_has(cores: [u32; 2], jobs: &[String], lines: &[&str]) {
    let [first, second] = cores;
    let board = format!("01000a{first:02x}{second:02x}\n");
    has(&(board + &jobs.concat()), lines);
}

#[test]
fn the_empty_set() {
    set_has([1, 1], &[], &["balance 10 10"]);
    set_has([8, 3], &[], &["balance 80 30"]);
}

/// Job 1 has ticks 0 to 3 of the first kind and 7 to 9 of the second: it moves
/// inside the window, and back at its end.
#[test]
fn the_whole_example() {
    let lines = ["balance -2 10", "moves 0 0 0", "moves 1 2 0"];
    set_has([1, 1], &[b(6, 9), b(6, 8)], &lines);
    let mirrored = ["balance 10 -2", "moves 0 0 0", "moves 1 2 0"];
    set_has([1, 1], &[b(9, 6), b(8, 6)], &mirrored);
}

/// The slices by job, as kind, core, first tick and last:
/// job 0: 1 0 0 to 3; 2 0 4 to 9.
/// job 1: 2 0 0 to 3; 1 0 4 to 7; 2 1 8 to 9.
/// job 2: 1 1 0 to 1; 2 1 2 to 7; 1 0 8 to 9.
/// job 3: 1 1 2 to 9.
/// Jobs 1 and 2 end the window on another core of the kind that they begin it on.
#[test]
fn the_set_with_eight() {
    let jobs = [b(6, 16), b(6, 16), b(6, 16), f(8)];
    let lines = [
        "balance -6 20",
        "moves 0 2 0",
        "moves 1 2 1",
        "moves 2 2 1",
        "moves 3 0 0",
    ];
    set_has([2, 2], &jobs, &lines);
}

#[test]
fn other_rows_of_the_table() {
    let moved = ["balance -2 10", "moves 0 2 0", "moves 1 0 0"];
    set_has([1, 1], &[b(6, 16), f(6)], &moved);
    let away = ["balance -10 10", "moves 0 0 0", "moves 1 0 0"];
    set_has([1, 1], &[b(10, 10), b(10, 10)], &away);
    set_has([1, 1], &[f(10)], &["balance 0 10", "moves 0 0 0"]);
    set_has([1, 1], &[b(10, 11)], &["balance 0 10", "moves 0 0 0"]);
    set_has([1, 1], &[b(7, 7)], &["balance 3 10", "moves 0 0 0"]);
    set_has([1, 1], &[b(11, 10)], &["balance 10 0", "moves 0 0 0"]);
}

/// Job 1 runs past the edge of core 0: it has its last ticks and the first
/// ones of core 1, so it moves inside the window and at its end. Job 0 has one
/// slice.
#[test]
fn inner_moves() {
    let lines = ["balance 8 10", "moves 0 0 0", "moves 1 0 2"];
    set_has([2, 1], &[f(6), f(6)], &lines);
    let lines = ["balance 10 8", "moves 0 0 0", "moves 1 0 2"];
    set_has([1, 2], &[s(6), s(6)], &lines);
    // It ends exactly on the edge.
    let lines = ["balance 4 10", "moves 0 0 0", "moves 1 0 0", "moves 2 0 0"];
    set_has([2, 1], &[f(6), f(4), f(6)], &lines);
}

#[test]
fn refused_for_room() {
    let jobs = [b(6, 16), b(6, 16), b(6, 16), f(9)];
    set_has([2, 2], &jobs, &["balance -7 20", "refused 14 0"]);
    let jobs = [b(10, 10), b(10, 10), b(10, 10)];
    set_has([1, 1], &jobs, &["balance -20 10", "refused 16 0"]);
    let jobs = [b(16, 6), b(16, 6), b(16, 6), s(9)];
    set_has([2, 2], &jobs, &["balance 20 -7", "refused 15 0"]);
    // Both kinds are over.
    let jobs = [f(6), s(7), f(6), s(7)];
    set_has([1, 1], &jobs, &["balance -2 -4", "refused 6 0"]);
}

#[test]
fn refused_by_the_checks() {
    has("0100000101\n", &["refused 1 0"]);
    has("01000a0900\n", &["refused 2 0"]);
    let full = format!("{BOARD}{}", JOB.repeat(64));
    has(&full, &["balance -54 10", "refused 16 0"]);
    has(&format!("{full}{JOB}"), &["refused 3 64"]);
    set_has([1, 1], &[f(11), b(6, 0)], &["refused 4 1"]);
    set_has([1, 1], &[f(1_000_001)], &["refused 4 0"]);
    set_has([1, 1], &[f(11)], &["refused 5 0"]);
    let jobs: Vec<String> = (0..12)
        .map(|at| f(if at == 11 { 11 } else { 10 }))
        .collect();
    set_has([1, 1], &jobs, &["refused 5 11"]);
}

#[test]
fn refused_texts() {
    has("", &["refused 10 1"]);
    has("\n", &["refused 8 1"]);
    has(&"0".repeat(4_097), &["refused 8 0"]);
    has(&format!("{BOARD}{JOB}0\n"), &["refused 8 3"]);
    has(&format!("{BOARD}02030000000100000001\n"), &["refused 9 2"]);
    has(JOB, &["refused 10 1"]);
    has(
        &format!("{BOARD}{}{BOARD}", JOB.repeat(9)),
        &["refused 10 11"],
    );
    // The text is read before the board is checked.
    has("0100000000\nff\n", &["refused 9 2"]);
}

/// The numbers at their limits: 64 jobs of a whole window on 8 cores.
#[test]
fn wide_balances() {
    let wide = format!("01ffff0808\n{}", f(65_535).repeat(64));
    has(&wide, &["balance -3669960 524280", "refused 14 0"]);
}
