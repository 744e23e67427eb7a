//! The comparison with a command must end well with a right one, and say what is
//! wrong with any other.

use std::process::{Command, Output};

use independent::compare_command::Task;
use independent::facts::Facts;
use independent::family::Family;
use independent::{command, gen, handler};

const PROGRAM: &str = env!("CARGO_BIN_EXE_independent");

/// Runs `independent` with the words of a line, then with a command.
fn compare(line: &str, command: &[&str]) -> Output {
    Command::new(PROGRAM)
        .args(line.split(' '))
        .arg("--")
        .args(command)
        .output()
        .unwrap()
}

/// The counts that a right command ends with.
fn agrees(line: &str, command: &[&str]) -> String {
    let output = compare(line, command);
    let told = String::from_utf8(output.stderr).unwrap();
    assert_eq!((output.status.code(), told.as_str()), (Some(0), ""));
    String::from_utf8(output.stdout).unwrap()
}

/// What is told of a wrong command.
fn fails(line: &str, command: &[&str]) -> String {
    let output = compare(line, command);
    assert_eq!((output.status.code(), output.stdout), (Some(1), vec![]));
    String::from_utf8(output.stderr).unwrap()
}

#[test]
fn the_facts_of_this_planner_agree() {
    let counts = agrees("compare-facts named", &[PROGRAM, "facts"]);
    assert_eq!(
        counts,
        "texts 95\naccepted 33\nrefused for room 31\nrefused otherwise 31\n"
    );
    let counts = agrees("compare-facts --every 10 gen 3 95 40", &[PROGRAM, "facts"]);
    assert!(counts.starts_with("texts 10\n"), "{counts}");
}

#[test]
fn a_wrong_answer_is_told() {
    assert_eq!(
        fails("compare-facts named", &["cat"]),
        "text, 11 bytes:\n01000a0101\n\n\
         answer of the independent planner, 14 bytes:\nbalance 10 10\n\n\
         answer of the other planner, 11 bytes:\n01000a0101\n\n\
         named, index 0: the answers differ\n"
    );
    let told = fails("compare-facts gen 7 100 5", &["true"]);
    assert!(told.ends_with("\ngen, seed 7, index 5: the answers differ\n"));
}

/// The command is right about the first nine texts taken and then wrong.
#[test]
fn the_index_is_that_in_the_family() {
    let task = Task::parse(&["--every", "3", "gen", "7", "100", "5", "--", "x"]).unwrap();
    let mut asked = 0;
    let verdict = task.run::<Facts>(|input| {
        asked += 1;
        let word = if asked == 10 { "plan" } else { "facts" };
        command::run(&[PROGRAM.into(), word.into()], input)
    });
    let failure = verdict.unwrap().unwrap_err();
    assert_eq!((asked, failure.index), (10, 32));
    assert_eq!(failure.input, task.family.text(32));
}

/// Each text is compared but those that are accepted with a window above 64.
#[test]
fn the_windows_of_this_planner_agree() {
    let counts = agrees("compare-window --every 2 lines 1 240", &[PROGRAM, "window"]);
    let (mut accepted, mut refused) = (0, 0);
    for index in (0..240).step_by(2) {
        match handler::table(&gen::query(1, index).lines) {
            Ok(table) => accepted += u64::from(table.board().window <= 64),
            Err(_) => refused += 1,
        }
    }
    assert!(accepted > 30 && refused > 30 && accepted + refused < 120);
    let texts = accepted + refused;
    assert_eq!(
        counts,
        format!("texts {texts}\naccepted {accepted}\nrefused {refused}\n")
    );
}

#[test]
fn a_wrong_window_is_told() {
    let told = fails("compare-window lines 1 100", &[PROGRAM, "facts"]);
    let last = ": the answers differ\n";
    assert!(told.contains("\nlines, seed 1, index ") && told.ends_with(last));
    // A table that is not even shown to the command.
    let long = |index: &u64| {
        handler::table(&gen::query(1, *index).lines).is_ok_and(|table| table.board().window > 64)
    };
    let index = (0..).find(long).unwrap();
    let told = fails(&format!("compare-window lines 1 1 {index}"), &["false"]);
    assert_eq!(told, "independent: lines, seed 1: no text was compared\n");
}

/// Each command gives the right facts and does something more.
#[test]
fn status_and_standard_error_count() {
    for (more, message) in [
        ("exit 3", "the command ended with exit status: 3"),
        ("echo no >&2", "standard error is not empty: no\\n"),
    ] {
        let script = format!("'{PROGRAM}' facts; {more}");
        let told = fails("compare-facts named", &["sh", "-c", &script]);
        let last = format!("\nnamed, index 0: {message}\n");
        assert!(told.ends_with(&last), "{told}");
    }
}

#[test]
fn no_text_or_no_command() {
    let told = fails("compare-facts gen 1 0", &[PROGRAM, "facts"]);
    assert_eq!(told, "independent: gen, seed 1: no text was compared\n");
    let told = fails("compare-facts named", &["./no-such-command"]);
    assert!(told.starts_with("independent: named, index 0: ./no-such-command: "));
}

#[test]
fn words() {
    let task = Task::parse(&["--every", "97", "small", "--", "a", "--", "b"]);
    let expected = Task {
        family: Family::Small,
        every: 97,
        command: ["a", "--", "b"].map(String::from).to_vec(),
    };
    assert_eq!(task, Some(expected));
    for line in [
        "small",
        "small --",
        "-- a",
        "--every 0 small -- a",
        "--every small -- a",
        "small --every 97 -- a",
        "gen 1 -- a",
    ] {
        let words: Vec<&str> = line.split(' ').collect();
        assert_eq!(Task::parse(&words), None, "{line}");
    }
}

/// A command that reads nothing of a long text, and one that never ends by
/// itself.
#[test]
fn commands_that_end_early_or_never() {
    let long = vec![b'0'; 1 << 20];
    let answer = command::run(&["true".into()], &long).unwrap();
    assert!(answer.status.success() && answer.out.is_empty() && answer.err.is_empty());
    let answer = command::run(&["yes".into()], &long).unwrap();
    assert!(!answer.status.success() && answer.out.starts_with(b"y\ny\n"));
}
