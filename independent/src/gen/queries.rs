//! Queries for a tick handler: lines of plans, right ones and wrong ones in
//! every way that a refusal names, each with a tick on a core, mostly one that
//! the board has. Each query depends on the seed and its index alone.

use super::plans::{self, Plan, Row};
use super::rng::Rng;
use super::{damage, finish, long, scrap, Lines};
use crate::handler::{CoreTick, Query};

/// The query of the given index in the stream of the given seed.
pub fn query(seed: u64, index: u64) -> Query {
    let rng = &mut Rng::new(seed, index);
    let style = rng.below(100);
    let plan = match style {
        0..=19 => plans::real(rng),
        20..=44 => plans::by_hand(rng),
        45..=64 => {
            let mut plan = plans::any(rng);
            for _ in 0..rng.pick(&[1, 1, 1, 2]) {
                plans::change(rng, &mut plan);
            }
            plan
        }
        65..=69 => {
            let mut plan = plans::any(rng);
            plans::change_board(rng, &mut plan);
            plan
        }
        70..=75 => plans::many(rng),
        _ => plans::any(rng),
    };
    let at = core_tick(rng, &plan);
    let lines = match style {
        0..=75 => finish(rng, plan.lines()),
        76..=84 => {
            let lines = damaged(rng, plan.lines());
            finish(rng, lines)
        }
        85..=92 => {
            let mut bytes = finish(rng, plan.lines());
            damage::bytes(rng, &mut bytes);
            bytes
        }
        93..=95 => long(rng, |_| plan.lines(), b"1200010000000001\n"),
        _ => scrap(rng, &SCRAPS),
    };
    Query { lines, at }
}

/// Drops, adds or exchanges lines, or damages one.
fn damaged(rng: &mut Rng, mut lines: Lines) -> Lines {
    const ADDED: [&[u8]; 10] = [
        b"",
        b"01000a0101",
        b"02000000000600000009",
        b"100000",
        b"100101",
        b"110000000000",
        b"1200010000000001",
        b"12ff010000000001",
        b"1f0600",
        b"1f1000",
    ];
    let count = lines.len() as u64;
    let at = rng.below(count) as usize;
    match rng.below(8) {
        0 => {
            lines.remove(at);
        }
        1 => lines.swap(at, rng.below(count) as usize),
        2..=3 => {
            let between = rng.below(count + 1) as usize;
            lines.insert(between, rng.pick(&ADDED).to_vec());
        }
        _ => lines = damage::lines(rng, lines),
    }
    lines
}

/// A tick on a core: most often of a row or close to one, or anywhere on the
/// board; often just outside it; now and then far outside.
fn core_tick(rng: &mut Rng, plan: &Plan) -> CoreTick {
    let [mut tick, mut kind, mut core] = if plan.rows.is_empty() || rng.one_in(3) {
        anywhere(rng, plan)
    } else {
        let row = rng.pick(&plan.rows);
        at_row(rng, &row)
    };
    match rng.below(20) {
        0..=1 => {
            let window = plan.window;
            tick = rng.pick(&[window.saturating_sub(1), window, window + 1]);
        }
        2 => kind = rng.pick(&[0, 3]),
        3..=4 => {
            let cores = plan.cores_of(kind);
            core = rng.pick(&[cores.saturating_sub(1), cores, cores + 1]);
        }
        5 => {
            // Inside once the high bytes are lost, or as great as can be.
            let number = match rng.below(3) {
                0 => &mut tick,
                1 => &mut kind,
                _ => &mut core,
            };
            let far = [8, 16, 24, 31].map(|bits| *number + (1 << bits));
            let far = rng.pick(&[far[0], far[1], far[2], far[3], u64::MAX]);
            *number = far.min(u32::MAX.into());
        }
        _ => {}
    }
    // Each is below 2^32: a line's numbers are far below it.
    CoreTick::new(tick as u32, kind as u32, core as u32)
}

fn anywhere(rng: &mut Rng, plan: &Plan) -> [u64; 3] {
    let kind = rng.range(1, 2);
    let tick = rng.below(plan.window.max(1));
    [tick, kind, rng.below(plan.cores_of(kind).max(1))]
}

/// At the first or the last tick of a row, right before or after, or within.
fn at_row(rng: &mut Rng, row: &Row) -> [u64; 3] {
    let end = row.start + row.length;
    let tick = match rng.below(6) {
        0 => row.start,
        1 => end.saturating_sub(1),
        2 => row.start.saturating_sub(1),
        3 => end,
        _ => rng.range(row.start, end.saturating_sub(1)),
    };
    [tick, row.kind, row.core]
}

/// Short texts that are no plan's lines, or nearly such.
const SCRAPS: [&[u8]; 23] = [
    b"",
    b"\n",
    b"\n\n",
    b"\r\n",
    b"0",
    b"01",
    b"10\n",
    b"01000a0101",
    b"01000A0101\n",
    b"01000a0101\n100000",
    b"01000a0101\n100000\n",
    b"01000a0101\n100000\n\n",
    b"01000a0101\n\n100000\n",
    b"01000a0101\r\n100000\r\n",
    b"01000a0101 \n100000\n",
    b"01000a0101\n1000\n",
    b"01000a0101\n10ffff\n",
    b"01000a0101\n1f0600\n",
    b"01000a0101\n1f1000\n",
    b"100000\n01000a0101\n",
    b"110000000000\n",
    b"12ff010000000001\n",
    b"01000a0101\n12ff030000000001\n",
];
