//! Each way in which a text can be refused, and the order of refusals.

use independent::text::plan_text;

const BOARD: &str = "01000a0101\n";
const JOB: &str = "02000000000100000001\n";

fn answer(text: &str) -> String {
    String::from_utf8(plan_text(text.as_bytes())).unwrap()
}

/// Holds a text's answer against one refusal.
fn refused(text: &str, number: u8, place: u8) {
    assert_eq!(
        answer(text),
        format!("1f{number:02x}{place:02x}\n"),
        "{text:?}"
    );
}

#[test]
fn digits() {
    refused("\n", 8, 1);
    refused("\n\n", 8, 1);
    refused("0\n", 8, 1);
    refused("01000a010\n", 8, 1);
    refused("01000a0101\r\n", 8, 1);
    refused("01000a010g\n", 8, 1);
    refused("01000a01+1\n", 8, 1);
    refused(&format!("{BOARD}\n"), 8, 2);
    refused(&format!("{BOARD}\n{JOB}"), 8, 2);
    refused(&format!("{BOARD}{JOB}\n"), 8, 3);
    refused(&format!("{BOARD}{JOB}{JOB} \n"), 8, 4);
    assert_eq!(plan_text(b"01000a01\xc3\xa9\n"), b"1f0801\n");
}

#[test]
fn records() {
    for record in [
        "00",
        "03",
        "10",
        "100000",
        "110000060000",
        "1f0600",
        "1f1000",
        "ff",
        "01",
        "02",
    ] {
        refused(record, 9, 1);
        refused(&format!("{BOARD}{record}\n"), 9, 2);
    }
    refused("01000a01\n", 9, 1);
    refused("01000a010100\n", 9, 1);
    refused(&format!("{BOARD}020000000001000000\n"), 9, 2);
    refused(&format!("{BOARD}0200000000010000000100\n"), 9, 2);
    refused(&format!("{BOARD}02030000000100000001\n"), 9, 2);
    refused(&format!("{BOARD}02ff0000000000000000\n"), 9, 2);
    refused(&format!("{BOARD}02010000000100000001\n"), 9, 2);
    refused(&format!("{BOARD}02020000000100000001\n"), 9, 2);
}

#[test]
fn order_of_lines() {
    refused("", 10, 1);
    refused(JOB, 10, 1);
    refused(&format!("{JOB}{BOARD}"), 10, 1);
    refused(&format!("{BOARD}{BOARD}"), 10, 2);
    refused(&format!("{BOARD}{JOB}{BOARD}"), 10, 3);
}

#[test]
fn first_bad_line_decides_and_on_it_the_lowest_of_the_order() {
    refused(&format!("{BOARD}{BOARD}g\n"), 10, 2);
    refused(&format!("{BOARD}ff\n\n"), 9, 2);
    refused("02030000000100000001\n", 9, 1);
    refused("0203000000010000000\n", 8, 1);
    refused(&format!("{BOARD}01000a01\n"), 9, 2);
    // The text is read before anything is planned.
    refused(&format!("0100000000\n{JOB}ff\n"), 9, 3);
    refused(&format!("0100000000\n{JOB}"), 1, 0);
}

#[test]
fn sixty_five_jobs() {
    let full = format!("{BOARD}{}", JOB.repeat(64));
    refused(&full, 16, 0);
    refused(&format!("{full}{JOB}"), 3, 64);
    refused(&format!("{full}{JOB}\n"), 3, 64);
    refused(&format!("{full}02000000000000000000\n"), 3, 64);
    refused(&format!("{full}{BOARD}"), 10, 66);
    refused(&format!("{full}02030000000100000001\n"), 9, 66);
    refused(&format!("{full}\n"), 8, 66);
    let wide = format!("0100400101\n{}", JOB.repeat(64));
    assert!(answer(&wide).starts_with("104040\n"));
}

#[test]
fn length_of_the_text() {
    let line = "00".repeat(2_048);
    refused(&line, 9, 1);
    refused(&line[..4_095], 8, 1);
    refused(&format!("{line}\n"), 8, 0);
    refused(&format!("{line}00"), 8, 0);
    refused(&"\n".repeat(4_096), 8, 1);
    refused(&"\n".repeat(4_097), 8, 0);
    refused(&JOB.repeat(300), 8, 0);
}

#[test]
fn costs_at_their_limits() {
    refused(&format!("{BOARD}02000000000000000001\n"), 4, 0);
    refused(&format!("{BOARD}{JOB}020000000001000f4241\n"), 4, 1);
    refused(&format!("{BOARD}0200ffffffffffffffff\n"), 4, 0);
    assert!(answer(&format!("{BOARD}020000000001000f4240\n")).starts_with("100101\n"));
}

#[test]
fn wide_windows() {
    // 65,535 ticks in one slice.
    let answer = answer("01ffff0101\n02010000ffff00000000\n");
    assert_eq!(answer, "100101\n1100ffff0000\n120001000000ffff\n");
}
