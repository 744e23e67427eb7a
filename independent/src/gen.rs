//! A seeded generator of input texts, weighted over many families: sets near
//! every limit, sets outside the limits, and texts damaged in every way that
//! a refusal names. Each text depends on the seed and its index alone.

mod damage;
mod plans;
mod queries;
mod rng;
mod sets;

pub use queries::query;

use rng::Rng;

/// The lines of a text, without line feeds.
type Lines = Vec<Vec<u8>>;

/// The text of the given index in the stream of the given seed.
pub fn text(seed: u64, index: u64) -> Vec<u8> {
    let rng = &mut Rng::new(seed, index);
    match rng.below(100) {
        0..=49 => {
            let lines = sets::inside(rng).lines();
            finish(rng, lines)
        }
        50..=58 => {
            let lines = sets::outside(rng).lines();
            finish(rng, lines)
        }
        59..=66 => {
            let lines = sets::many_jobs(rng).lines();
            let lines = if rng.one_in(3) {
                damage::lines(rng, lines)
            } else {
                lines
            };
            finish(rng, lines)
        }
        67..=80 => {
            let mut lines = base(rng);
            for _ in 0..rng.pick(&[1, 1, 1, 2, 2, 3]) {
                lines = damage::lines(rng, lines);
            }
            finish(rng, lines)
        }
        81..=92 => {
            let lines = base(rng);
            let mut bytes = finish(rng, lines);
            for _ in 0..rng.pick(&[1, 1, 1, 1, 2]) {
                damage::bytes(rng, &mut bytes);
            }
            bytes
        }
        93..=95 => long(
            rng,
            |rng| sets::few_jobs(rng).lines(),
            b"02000000000100000001\n",
        ),
        _ => scrap(rng, &SCRAPS),
    }
}

/// A set to be damaged, mostly a small one so that each line is often hit.
fn base(rng: &mut Rng) -> Lines {
    match rng.below(6) {
        0 => sets::many_jobs(rng).lines(),
        1 => sets::outside(rng).lines(),
        2 => sets::inside(rng).lines(),
        _ => sets::few_jobs(rng).lines(),
    }
}

/// Joins lines to a text: now and then in capitals, or without the last feed.
fn finish(rng: &mut Rng, lines: Lines) -> Vec<u8> {
    let mut bytes = lines.join(&b'\n');
    if !rng.one_in(4) {
        bytes.push(b'\n');
    }
    match rng.below(8) {
        0 => bytes.make_ascii_uppercase(),
        1 => {
            for byte in &mut bytes {
                if rng.one_in(2) {
                    byte.make_ascii_uppercase();
                }
            }
        }
        _ => {}
    }
    bytes
}

/// A text about as long as the limit of 4,096 bytes, or longer, of some lines and
/// of many like one more.
fn long(rng: &mut Rng, some: impl FnOnce(&mut Rng) -> Lines, more: &[u8]) -> Vec<u8> {
    let length = match rng.below(8) {
        0..=1 => 4_095,
        2..=3 => 4_096,
        4..=5 => 4_097,
        6 => rng.range(4_080, 4_110) as usize,
        _ => rng.range(4_098, 9_000) as usize,
    };
    let mut bytes = match rng.below(5) {
        0 => vec![rng.pick(b"\n0fFg\r "); length],
        1 => rng.string(length, b"0123456789abcdefABCDEF"),
        2 => rng.string(length, b"0123456789abcdef\n"),
        _ => {
            let lines = some(rng);
            finish(rng, lines)
        }
    };
    // Fill up with lines, or with one very long line.
    if rng.one_in(3) {
        bytes.resize(bytes.len().max(length), b'0');
    }
    while bytes.len() < length {
        if !bytes.ends_with(b"\n") {
            bytes.push(b'\n');
        }
        bytes.extend_from_slice(more);
    }
    bytes.truncate(length);
    if rng.one_in(4) {
        damage::bytes(rng, &mut bytes);
    }
    bytes
}

/// Short texts that are no set, or nearly one.
const SCRAPS: [&[u8]; 25] = [
    b"",
    b"\n",
    b"\n\n",
    b"\r\n",
    b"0",
    b"01",
    b"02\n",
    b"00\n",
    b"01000a0101",
    b"01000A0101\n",
    b"01000a0101\n\n",
    b"\n01000a0101\n",
    b"01000a0101\r\n",
    b"01000a0101 \n",
    b" 01000a0101\n",
    b"01000a010\n",
    b"01000a01\n",
    b"01000a010100\n",
    b"01000a0101\n01000a0101\n",
    b"02000000000600000009\n",
    b"02000000000600000009\n01000a0101\n",
    b"100000\n",
    b"1f0600\n",
    b"1f1000\n",
    b"0x000a0101\n",
];

/// A short text of little sense: one of the fixed ones, or digits or bytes at random.
fn scrap(rng: &mut Rng, fixed: &[&[u8]]) -> Vec<u8> {
    match rng.below(4) {
        0..=1 => rng.pick(fixed).to_vec(),
        2 => {
            let length = rng.range(0, 40) as usize;
            rng.string(length, b"00112aAfF\n\n")
        }
        _ => {
            let length = rng.range(0, 60) as usize;
            (0..length).map(|_| rng.below(256) as u8).collect()
        }
    }
}
