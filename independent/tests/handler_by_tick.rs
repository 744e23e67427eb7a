//! The answers to many queries, found again by painting the rows of a table, in
//! turn, on the ticks of the cores.

use std::collections::HashMap;

use independent::gen;
use independent::handler::{self, reader, CoreTick, Query};
use independent::planner::Refusal;

#[test]
fn the_same_by_painting() {
    let mut seen = [0; 7];
    for index in 0..20_000 {
        let Query { lines, at } = gen::query(9, index);
        if reader::read(&lines).is_err() {
            continue;
        }
        let answer = match handler::tick(&lines, at) {
            Ok(Some(job)) => Ok(Some(job as u64)),
            Ok(None) => Ok(None),
            Err(Refusal { reason, place }) => Err((reason.number(), place)),
        };
        assert_eq!(answer, painted(&lines, at), "lines, seed 9, index {index}");
        seen[match answer {
            Ok(Some(_)) => 0,
            Ok(None) => 1,
            Err((number @ 1..=2, _)) => 1 + usize::from(number),
            Err((number, _)) => usize::from(number) - 7,
        }] += 1;
    }
    assert!(seen.iter().all(|&seen| seen > 100), "{seen:?}");
}

/// A number of so many bytes, from the byte `at` of a line on.
fn field(line: &str, at: usize, bytes: usize) -> u64 {
    u64::from_str_radix(&line[2 * at..2 * (at + bytes)], 16).unwrap()
}

/// The job, or none; or the number and the place of a refusal. The lines are in
/// order.
fn painted(lines: &[u8], at: CoreTick) -> Result<Option<u64>, (u8, usize)> {
    let text = std::str::from_utf8(lines).unwrap();
    let board = text.lines().next().unwrap();
    let (window, cores) = (field(board, 1, 2), [field(board, 3, 1), field(board, 4, 1)]);
    if window == 0 {
        return Err((1, 0));
    }
    if cores.iter().any(|&count| count == 0 || count > 8) {
        return Err((2, 0));
    }
    let has = |tick: u64, kind: u64, core: u64| {
        tick < window && ((kind == 1 && core < cores[0]) || (kind == 2 && core < cores[1]))
    };
    let ticks = |line: &str| field(line, 4, 2)..field(line, 4, 2) + field(line, 6, 2);
    let rows = || text.lines().filter(|line| line.starts_with("12"));
    for (place, line) in rows().enumerate() {
        let inside = |tick| has(tick, field(line, 2, 1), field(line, 3, 1));
        if ticks(line).is_empty() || !ticks(line).all(inside) {
            return Err((12, place));
        }
    }
    let mut jobs = HashMap::new();
    for (place, line) in rows().enumerate() {
        for tick in ticks(line) {
            let cell = (tick, field(line, 2, 1), field(line, 3, 1));
            if jobs.insert(cell, field(line, 1, 1)).is_some() {
                return Err((13, place));
            }
        }
    }
    let cell = (at.tick.into(), at.kind.into(), at.core.into());
    if !has(cell.0, cell.1, cell.2) {
        return Err((11, 0));
    }
    Ok(jobs.get(&cell).copied())
}
