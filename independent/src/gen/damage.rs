//! Damage to texts: to whole lines, in the ways that refusals 8, 9 and 10
//! name, and to single bytes.

use super::rng::Rng;
use super::Lines;

/// Damages a line, or the order of the lines.
pub fn lines(rng: &mut Rng, mut lines: Lines) -> Lines {
    if lines.is_empty() {
        return lines;
    }
    let count = lines.len() as u64;
    let at = match rng.below(4) {
        0 => 0,
        1 => lines.len() - 1,
        2 => rng.below(count).max(count.min(67).saturating_sub(3)) as usize,
        _ => rng.below(count) as usize,
    };
    let between = rng.below(count + 1) as usize;
    match rng.below(15) {
        0 => drop_digit(rng, &mut lines[at]),
        1 => {
            let byte = rng.pick(b"gG/:@`xX+- \t\r\0\x7f\x80\xff");
            change_byte(rng, &mut lines[at], byte);
        }
        2 => lines[at].push(b'\r'),
        3 => lines.iter_mut().for_each(|line| line.push(b'\r')),
        4 => lines.insert(between, Vec::new()),
        5 => {
            let record = rng.pick(&["00", "03", "10", "11", "12", "1f", "20", "ff", "01", "02"]);
            overwrite(&mut lines[at], 0, record);
        }
        6 => {
            let more = rng.string(2, b"0123456789abcdef");
            lines[at].extend(more);
        }
        7 => {
            let short = lines[at].len().saturating_sub(2 * rng.range(1, 3) as usize);
            lines[at].truncate(short);
        }
        8 => {
            let allowed = rng.pick(&["03", "04", "10", "80", "ff", "02", "01", "00"]);
            let at = at.max(1).min(lines.len() - 1);
            overwrite(&mut lines[at], 2, allowed);
        }
        9 => {
            // One kind only, with a cost for the other kind.
            let job = rng.pick(&["02010000000500000001", "02020000000100000005"]);
            lines.insert(between.max(1), job.into());
        }
        10 => lines.insert(between, b"01000a0101".to_vec()),
        11 => lines.insert(0, b"02000000000600000009".to_vec()),
        12 => {
            lines.remove(0);
        }
        13 => {
            let other = rng.below(count) as usize;
            lines.swap(at, other);
        }
        _ => {
            let copy = lines[at].clone();
            lines.insert(between, copy);
        }
    }
    lines
}

fn drop_digit(rng: &mut Rng, line: &mut Vec<u8>) {
    if !line.is_empty() {
        line.remove(rng.below(line.len() as u64) as usize);
    }
}

fn change_byte(rng: &mut Rng, line: &mut [u8], byte: u8) {
    if !line.is_empty() {
        line[rng.below(line.len() as u64) as usize] = byte;
    }
}

fn overwrite(line: &mut [u8], from: usize, digits: &str) {
    if let Some(part) = line.get_mut(from..from + digits.len()) {
        part.copy_from_slice(digits.as_bytes());
    }
}

/// Damages a text without regard to its lines.
pub fn bytes(rng: &mut Rng, text: &mut Vec<u8>) {
    let length = text.len() as u64;
    if length == 0 {
        return;
    }
    let at = rng.below(length) as usize;
    match rng.below(7) {
        0 => text.truncate(at),
        1 => text[at] ^= 1 << rng.below(8),
        2 => text[at] = rng.below(256) as u8,
        3..=4 => text[at] = rng.pick(b"0123456789abcdefABCDEF\n"),
        5 => text.insert(at, rng.pick(b"0f\n\r ")),
        _ => {
            text.remove(at);
        }
    }
}
