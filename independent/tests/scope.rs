//! The sets and texts that the rules name, with the results they name, and what
//! the moves of all accepted plans have in common.

use independent::check::{check_plan, feasible};
use independent::gen;
use independent::planner::{
    moves, plan, plan_into, split, starting_balance, Allowed, Board, Job, Kind, Moves, PerKind,
    Plan, Reason, Refusal, Shortage, Slice,
};
use independent::text::{plan_text, read};

fn board(window: i64, first: i64, second: i64) -> Board {
    Board {
        window,
        cores: PerKind::new(first, second),
    }
}

fn b(first: i64, second: i64) -> Job {
    Job {
        allowed: Allowed::Both,
        cost: PerKind::new(first, second),
    }
}

fn f(cost: i64) -> Job {
    Job {
        allowed: Allowed::Only(Kind::First),
        cost: PerKind::new(cost, 0),
    }
}

fn s(cost: i64) -> Job {
    Job {
        allowed: Allowed::Only(Kind::Second),
        cost: PerKind::new(0, cost),
    }
}

fn shares(pairs: &[(i64, i64)]) -> Vec<PerKind> {
    pairs
        .iter()
        .map(|&(first, second)| PerKind::new(first, second))
        .collect()
}

/// Moves, each as outer and inner ones.
fn counts(pairs: &[(usize, usize)]) -> Vec<Moves> {
    pairs
        .iter()
        .map(|&(outer, inner)| Moves { outer, inner })
        .collect()
}

/// The input text of a set.
fn input(board: &Board, jobs: &[Job]) -> String {
    let mut text = format!(
        "01{:04x}{:02x}{:02x}\n",
        board.window, board.cores.first, board.cores.second
    );
    for job in jobs {
        let allowed = match job.allowed {
            Allowed::Both => 0,
            Allowed::Only(Kind::First) => 1,
            Allowed::Only(Kind::Second) => 2,
        };
        text += &format!(
            "02{allowed:02x}{:08x}{:08x}\n",
            job.cost.first, job.cost.second
        );
    }
    text
}

fn answer(text: &str) -> String {
    String::from_utf8(plan_text(text.as_bytes())).unwrap()
}

#[test]
fn sets_on_both_sides_of_a_limit() {
    type Row = (i64, Vec<Job>, Result<&'static [(i64, i64)], Refusal>);
    let short = |shortage| Err(Refusal::new(Reason::NoRoom(shortage), 0));
    let five = Err(Refusal::new(Reason::DoesNotFit, 0));
    let three = b(6, 16);
    let rows: Vec<Row> = vec![
        (1, vec![], Ok(&[])),
        (1, vec![b(6, 9), b(6, 8)], Ok(&[(6, 0), (4, 3)])),
        (1, vec![b(9, 6), b(8, 6)], Ok(&[(0, 6), (3, 4)])),
        (1, vec![b(6, 16), f(6)], Ok(&[(4, 6), (6, 0)])),
        (1, vec![b(10, 10); 2], Ok(&[(0, 10), (10, 0)])),
        (1, vec![b(10, 10); 3], short(Shortage::Other)),
        (1, vec![f(10)], Ok(&[(10, 0)])),
        (1, vec![f(11)], five),
        (1, vec![b(11, 11)], five),
        (1, vec![b(10, 11)], Ok(&[(10, 0)])),
        (
            2,
            vec![three, three, three, f(8)],
            Ok(&[(4, 6), (4, 6), (4, 6), (8, 0)]),
        ),
        (
            2,
            vec![three, three, three, f(9)],
            short(Shortage::Kind(Kind::First)),
        ),
        (1, vec![b(7, 7)], Ok(&[(7, 0)])),
        (1, vec![b(11, 10)], Ok(&[(0, 10)])),
    ];
    for (cores, jobs, expected) in rows {
        let board = board(10, cores, cores);
        assert_eq!(split(&board, &jobs), expected.map(shares), "{jobs:?}");
        let text = input(&board, &jobs);
        match expected {
            Ok(_) => check_plan(text.as_bytes(), answer(&text).as_bytes()).unwrap(),
            Err(refusal) => {
                assert_eq!(
                    answer(&text),
                    format!("1f{:02x}00\n", refusal.reason.number())
                );
            }
        }
    }
}

#[test]
fn empty_set_has_no_slices() {
    assert_eq!(answer("01000a0101\n"), "100000\n");
}

#[test]
fn set_with_nine_has_a_split_in_fractions() {
    let text = input(&board(10, 2, 2), &[b(6, 16), b(6, 16), b(6, 16), f(9)]);
    assert_eq!(feasible(text.as_bytes()), Some(true));
    let text = input(&board(10, 1, 1), &[b(10, 10); 3]);
    assert_eq!(feasible(text.as_bytes()), Some(false));
    let text = input(&board(10, 1, 1), &[f(11)]);
    assert_eq!(feasible(text.as_bytes()), None);
}

#[test]
fn starting_balances() {
    let balance = starting_balance(&board(10, 1, 1), &[b(6, 9), b(6, 8)]);
    assert_eq!(balance, Ok(PerKind::new(-2, 10)));
    let refused = starting_balance(&board(10, 1, 1), &[b(10, 10); 3]);
    assert_eq!(refused, Ok(PerKind::new(-20, 10)));
    let illegal = starting_balance(&board(10, 1, 1), &[f(11)]);
    assert_eq!(illegal, Err(Refusal::new(Reason::DoesNotFit, 0)));
}

#[test]
fn whole_example() {
    let input = include_str!("../../examples/two-jobs.txt");
    let output = include_str!("../../examples/two-jobs.plan.txt");
    assert_eq!(answer(input), output);
    assert_eq!(answer(&input.to_uppercase()), output);
    assert_eq!(answer(input.trim_end()), output);
    check_plan(input.as_bytes(), output.as_bytes()).unwrap();
}

#[test]
fn slices_and_moves_of_the_set_with_eight() {
    let plan = plan(&board(10, 2, 2), &[b(6, 16), b(6, 16), b(6, 16), f(8)]).unwrap();
    let expected = [
        (0, Kind::First, 0, 0, 4),
        (1, Kind::First, 0, 4, 4),
        (2, Kind::First, 0, 8, 2),
        (2, Kind::First, 1, 0, 2),
        (3, Kind::First, 1, 2, 8),
        (0, Kind::Second, 0, 4, 6),
        (1, Kind::Second, 0, 0, 4),
        (1, Kind::Second, 1, 8, 2),
        (2, Kind::Second, 1, 2, 6),
    ];
    let expected: Vec<Slice> = expected
        .iter()
        .map(|&(job, kind, core, start, length)| Slice {
            job,
            kind,
            core,
            start,
            length,
        })
        .collect();
    assert_eq!(plan.slices, expected);
    assert_eq!(moves(&plan), counts(&[(2, 0), (2, 1), (2, 1), (0, 0)]));
}

/// The slices by job, as kind, core, first tick and last:
/// job 0: 1 0 0 to 5; 2 0 6 to 9.
/// job 1: 1 1 0 to 1; 2 0 2 to 5; 1 0 6 to 9.
/// job 2: 2 0 0 to 1; 1 1 2 to 7; 2 1 8 to 9.
/// job 3: 2 1 0 to 7; 1 1 8 to 9.
#[test]
fn the_most_moves_on_four_cores() {
    let jobs = [b(8, 16), b(8, 16), b(8, 16), b(6, 12)];
    let plan = plan(&board(10, 2, 2), &jobs).unwrap();
    assert_eq!(plan.shares, shares(&[(6, 4), (6, 4), (6, 4), (2, 8)]));
    assert_eq!(moves(&plan), counts(&[(2, 0), (2, 1), (2, 1), (2, 0)]));
}

#[test]
fn inner_moves() {
    let plan = plan(&board(10, 2, 1), &[f(6), f(6)]).unwrap();
    assert_eq!(moves(&plan), counts(&[(0, 0), (0, 2)]));
}

/// The kinds take turns by start. A job of an accepted set has at most three
/// slices, and round the window their order makes no difference.
#[test]
fn moves_by_start() {
    let slice = |kind, core, start| Slice {
        job: 0,
        kind,
        core,
        start,
        length: 1,
    };
    let slices = vec![
        slice(Kind::First, 0, 0),
        slice(Kind::First, 1, 2),
        slice(Kind::Second, 0, 1),
        slice(Kind::Second, 1, 3),
    ];
    let shares = shares(&[(2, 2)]);
    assert_eq!(moves(&Plan { shares, slices }), counts(&[(4, 0)]));
}

/// The accepted plans of generated texts, each with its board.
fn generated() -> impl Iterator<Item = (Board, Plan)> {
    (0..6_000).filter_map(|index| {
        let (board, jobs) = read(&gen::text(5, index)).ok()?;
        let plan = plan(&board, &jobs).ok()?;
        Some((board, plan))
    })
}

fn slices_of(plan: &Plan, job: usize) -> usize {
    plan.slices.iter().filter(|slice| slice.job == job).count()
}

fn all_moves(plan: &Plan) -> usize {
    moves(plan).iter().map(|job| job.outer + job.inner).sum()
}

/// A mover changes its kind and changes it back; any other job moves only if
/// its share is cut, to the other core and back.
#[test]
fn moves_by_the_slices_of_a_job() {
    let mut seen = [[0; 4]; 2];
    for (board, plan) in generated() {
        for (job, &found) in moves(&plan).iter().enumerate() {
            let slices = slices_of(&plan, job);
            let mover = plan.shares[job].first > 0 && plan.shares[job].second > 0;
            let (outer, inner) = match (mover, slices) {
                (true, _) => (2, slices - 2),
                (false, 1) => (0, 0),
                (false, 2) => (0, 2),
                (false, _) => panic!("job {job} in {slices} slices: {board:?} {plan:?}"),
            };
            let expected = Moves { outer, inner };
            assert_eq!(found, expected, "job {job}: {board:?} {plan:?}");
            seen[usize::from(mover)][slices] += 1;
        }
    }
    let [[_, whole, cut, _], [_, _, whole_mover, cut_mover]] = seen;
    assert!(whole > 500 && cut > 500, "{seen:?}");
    assert!(whole_mover > 500 && cut_mover > 500, "{seen:?}");
}

/// Each slice is followed by a move, unless it is the only one of its job.
#[test]
fn all_moves_by_the_slices() {
    let mut seen = 0;
    for (board, plan) in generated() {
        let jobs = 0..plan.shares.len();
        let alone = jobs.filter(|&job| slices_of(&plan, job) == 1).count();
        let found = all_moves(&plan);
        assert_eq!(found, plan.slices.len() - alone, "{board:?} {plan:?}");
        seen += usize::from(found > 0 && alone > 0);
    }
    assert!(seen > 500, "{seen}");
}

#[test]
fn the_most_moves() {
    let mut reached = 0;
    for (board, plan) in generated() {
        let most = 3 * (board.cores.first + board.cores.second) as usize - 2;
        let found = all_moves(&plan);
        assert!(found <= most, "{found} moves: {board:?} {plan:?}");
        reached += usize::from(found == most);
    }
    assert!(reached > 20, "{reached}");
}

#[test]
fn first_table_of_the_source() {
    let jobs = [
        b(10, 3),
        b(9, 3),
        b(14, 6),
        b(18, 9),
        b(12, 8),
        b(8, 9),
        b(4, 7),
    ];
    let expected = shares(&[(0, 3), (3, 2), (7, 3), (2, 8), (6, 4), (8, 0), (4, 0)]);
    let board = board(10, 3, 2);
    assert_eq!(split(&board, &jobs), Ok(expected));
    let text = input(&board, &jobs);
    check_plan(text.as_bytes(), answer(&text).as_bytes()).unwrap();
}

#[test]
fn ninety_four_slices() {
    let mut jobs = vec![b(800, 1338); 15];
    jobs.push(b(400, 900));
    jobs.extend([f(10); 24]);
    jobs.extend([s(5); 24]);
    let board = board(1000, 8, 8);
    assert_eq!(jobs.len(), 64);
    assert_eq!(plan(&board, &jobs).unwrap().slices.len(), 94);
    let text = input(&board, &jobs);
    check_plan(text.as_bytes(), answer(&text).as_bytes()).unwrap();
}

#[test]
fn costs_on_a_kind_not_allowed_have_no_effect() {
    let board = board(10, 1, 1);
    let mut odd = [f(4), s(7)];
    odd[0].cost.second = -5;
    odd[1].cost.first = i64::MAX;
    assert_eq!(plan(&board, &odd), plan(&board, &[f(4), s(7)]));
}

#[test]
fn checks_in_order() {
    let refusal = |board: Board, jobs: &[Job]| {
        let refusal = plan(&board, jobs).unwrap_err();
        (refusal.reason.number(), refusal.place)
    };
    let many = vec![f(0); 65];
    assert_eq!(refusal(board(0, 9, 0), &many), (1, 0));
    assert_eq!(refusal(board(65_536, 1, 1), &[]), (1, 0));
    assert_eq!(refusal(board(10, 9, 1), &many), (2, 0));
    assert_eq!(refusal(board(10, 1, 0), &many), (2, 0));
    assert_eq!(refusal(board(10, 1, 1), &many), (3, 64));
    assert_eq!(
        refusal(board(10, 1, 1), &[f(11), f(1), b(5, 0), s(0)]),
        (4, 2)
    );
    assert_eq!(refusal(board(10, 1, 1), &[f(1), b(1, 1_000_001)]), (4, 1));
    assert_eq!(
        refusal(board(10, 1, 1), &[f(10), f(10), b(11, 12), s(11)]),
        (5, 2)
    );
    assert_eq!(
        refusal(board(10, 1, 1), &[f(10), f(10), b(11, 10)]),
        (14, 0)
    );
    // 5, and before it 4, comes before each refusal for room.
    for (number, mut jobs) in [
        (6, vec![f(6), f(6), s(6), s(6)]),
        (14, vec![f(6), f(6)]),
        (15, vec![s(6), s(6)]),
        (16, vec![b(10, 10); 3]),
    ] {
        let last = jobs.len();
        assert_eq!(refusal(board(10, 1, 1), &jobs), (number, 0));
        jobs.push(f(11));
        assert_eq!(refusal(board(10, 1, 1), &jobs), (5, last));
        jobs.push(f(0));
        assert_eq!(refusal(board(10, 1, 1), &jobs), (4, last + 1));
    }
    assert!(plan(&board(10, 1, 1), &[b(1, 1_000_000)]).is_ok());
}

#[test]
fn lent_tables() {
    let board = board(10, 1, 1);
    let jobs = [b(6, 9), b(6, 8)];
    let mark = Slice {
        job: 99,
        kind: Kind::Second,
        core: 9,
        start: 9,
        length: 9,
    };
    let blank = PerKind::new(-1, -1);

    let (mut share_table, mut slice_table) = (vec![blank; 3], vec![mark; 5]);
    let rows = plan_into(&board, &jobs, &mut share_table, &mut slice_table);
    assert_eq!(rows, Ok((2, 3)));
    assert_eq!(share_table, shares(&[(6, 0), (4, 3), (-1, -1)]));
    assert_eq!(slice_table[3..], [mark, mark]);

    let short = Err(Refusal::new(Reason::TablesTooShort, 0));
    for (share_rows, slice_rows) in [(1, 3), (2, 2), (0, 0)] {
        let (mut share_table, mut slice_table) = (vec![blank; share_rows], vec![mark; slice_rows]);
        assert_eq!(
            plan_into(&board, &jobs, &mut share_table, &mut slice_table),
            short
        );
        assert!(share_table.iter().all(|share| *share == blank));
        assert!(slice_table.iter().all(|slice| *slice == mark));
    }
    // Each refusal for room comes before the tables are looked at.
    for (jobs, shortage) in [
        (vec![f(6), f(6), s(6), s(6)], Shortage::Both),
        (vec![f(6), f(6)], Shortage::Kind(Kind::First)),
        (vec![s(6), s(6)], Shortage::Kind(Kind::Second)),
        (vec![b(10, 10); 3], Shortage::Other),
    ] {
        let room = Err(Refusal::new(Reason::NoRoom(shortage), 0));
        assert_eq!(plan_into(&board, &jobs, &mut [], &mut []), room);
    }
}
