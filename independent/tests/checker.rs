//! The checker must object to plans that are wrong in one place, and the
//! generator must reach every answer.

use independent::check::check_plan;
use independent::compare;
use independent::examine::REFUSALS;
use independent::family::Family;
use independent::gen;
use independent::text::plan_text;

const INPUT: &str = include_str!("../../examples/two-jobs.txt");
const OUTPUT: &str = include_str!("../../examples/two-jobs.plan.txt");

fn objects(from: &str, to: &str, part: &str) {
    assert!(OUTPUT.contains(from), "{from}");
    let output = OUTPUT.replacen(from, to, 1);
    let message = check_plan(INPUT.as_bytes(), output.as_bytes()).unwrap_err();
    assert!(message.contains(part), "{message}");
}

#[test]
fn objections() {
    assert_eq!(check_plan(INPUT.as_bytes(), OUTPUT.as_bytes()), Ok(()));
    objects("100203", "100204", "no line 12");
    objects("100203", "100202", "more lines");
    objects("100203", "100303", "no line 11");
    objects("110100040003", "110100040002", "not its work");
    objects("110100040003", "110100050003", "over its room");
    objects("110000060000", "110000060005", "longer than the window");
    objects("110100040003", "110200040003", "in place of");
    objects("1201010000000004", "1201010000000003", "slices of");
    objects("1201010000000004", "1201010000010004", "core taken twice");
    objects("1201010000000004", "1201010100000004", "no such core");
    objects("1201010000000004", "1205010000000004", "no such job");
    objects("1201010000000004", "1201030000000004", "kind 3");
    objects("1201010000000004", "1201010000000000", "no length");
    objects("1201020000070003", "1201020000080003", "outside the window");
    objects("1201020000070003", "1201020000030003", "job runs twice");
    objects("1201010000000004", "1201020000000004", "kinds out of order");
    objects("1201020000070003\n", "1201020000070003", "line feed");
    objects(OUTPUT, "1f0600\n", "no line 10");
}

#[test]
fn two_uneven_movers() {
    let input = b"01000a0202\n02000000000600000006\n02000000000600000006\n";
    let output = "100204\n110000030003\n110100030003\n\
                  1200010000000003\n1201010000030003\n1200020000070003\n1201020000040003\n";
    let message = check_plan(input, output.as_bytes()).unwrap_err();
    assert!(message.contains("2 movers are not even"), "{message}");
}

/// One byte of one answer is changed, and the comparison ends right there.
#[test]
fn a_wrong_answer_is_found() {
    let family = Family::parse(&["gen", "7", "100", "5"]).unwrap();
    let mut asked = 0;
    let verdict = compare::run(family, |input| {
        let mut output = plan_text(input);
        asked += 1;
        if asked == 40 {
            output[1] ^= 1;
        }
        Ok(output)
    });
    let failure = verdict.unwrap().unwrap_err();
    assert_eq!((asked, failure.index), (40, 44));
    assert_eq!(failure.input, gen::text(7, 44));
    let told = failure.to_string();
    assert!(
        told.ends_with("gen, seed 7, index 44: the answers differ"),
        "{told}"
    );
}

/// The planner's own answers to the named and the small sets hold too.
#[test]
fn named_and_small_sets() {
    for (name, plans, refusals) in [("named", 33, 4), ("small", 50_000, 4_000)] {
        let family = Family::parse(&[name]).unwrap();
        let counts = compare::run(family, |input| Ok(plan_text(input))).unwrap();
        let counts = counts.unwrap_or_else(|failure| panic!("{failure}"));
        assert!(counts.plans >= plans, "{counts}");
        for number in [6, 14, 15, 16] {
            assert!(counts.refusals[number] >= refusals, "{counts}");
        }
    }
}

#[test]
fn every_answer_is_reached() {
    let family = Family::parse(&["gen", "7", "20000"]).unwrap();
    let counts = compare::run(family, |input| Ok(plan_text(input))).unwrap();
    let counts = counts.unwrap_or_else(|failure| panic!("{failure}"));
    assert!(counts.plans > 2_000 && counts.plans_with_movers > 1_000);
    assert!(counts.plans_full_on_both > 200 && counts.plans_with_stretched > 1_000);
    for number in REFUSALS {
        assert!(counts.refusals[number] > 100, "refusal {number}");
    }
    assert!(counts.refused_for_room_with_stretched > 100);
    assert!(counts.refused_for_room_though_feasible > 10);
}

#[test]
fn texts_depend_on_seed_and_index_alone() {
    assert_eq!(gen::text(3, 5), gen::text(3, 5));
    let differs =
        |seed, index| (0..20).any(|at| gen::text(3, 5 + at) != gen::text(seed, index + at));
    assert!(differs(4, 5) && differs(3, 6));
}
