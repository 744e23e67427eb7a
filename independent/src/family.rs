//! The texts that two planners are compared on, in families: the named sets,
//! all small sets of a range, the generator's texts, and the lines of plans that
//! two tick handlers are asked with.

mod named;
mod small;

use std::fmt;
use std::ops::Range;

use crate::gen;

#[derive(Clone, Copy, Debug, PartialEq, Eq)]
pub enum Family {
    Named,
    Small,
    Random(Stream),
    Lines(Stream),
}

/// `count` texts of the generator's stream `seed`, from index `from` on.
#[derive(Clone, Copy, Debug, PartialEq, Eq)]
pub struct Stream {
    pub seed: u64,
    pub count: u64,
    pub from: u64,
}

impl Stream {
    /// A stream by its words: `SEED COUNT [FROM]`.
    fn parse(words: &[&str]) -> Option<Stream> {
        let number = |word: &str| word.parse().ok();
        let (seed, count, from) = match *words {
            [seed, count] => (seed, count, "0"),
            [seed, count, from] => (seed, count, from),
            _ => return None,
        };
        Some(Stream {
            seed: number(seed)?,
            count: number(count)?,
            from: number(from)?,
        })
    }

    pub fn indices(self) -> Range<u64> {
        self.from..self.from + self.count
    }
}

impl Family {
    /// A family by its words: `named`, `small`, `gen SEED COUNT [FROM]`, or
    /// `lines SEED COUNT [FROM]`.
    pub fn parse(words: &[&str]) -> Option<Family> {
        match words {
            ["named"] => Some(Family::Named),
            ["small"] => Some(Family::Small),
            ["gen", stream @ ..] => Stream::parse(stream).map(Family::Random),
            ["lines", stream @ ..] => Stream::parse(stream).map(Family::Lines),
            _ => None,
        }
    }

    /// The indices of its texts.
    pub fn indices(self) -> Range<u64> {
        match self {
            Family::Named => 0..named::count(),
            Family::Small => 0..small::count(),
            Family::Random(stream) | Family::Lines(stream) => stream.indices(),
        }
    }

    pub fn text(self, index: u64) -> Vec<u8> {
        match self {
            Family::Named => named::text(index),
            Family::Small => small::text(index),
            Family::Random(stream) => gen::text(stream.seed, index),
            Family::Lines(stream) => gen::query(stream.seed, index).lines,
        }
    }

    /// What the frame of an index holds: the text, or the whole query.
    pub fn frame(self, index: u64) -> Vec<u8> {
        match self {
            Family::Lines(stream) => gen::query(stream.seed, index).bytes(),
            _ => self.text(index),
        }
    }
}

impl fmt::Display for Family {
    fn fmt(&self, f: &mut fmt::Formatter) -> fmt::Result {
        match self {
            Family::Named => write!(f, "named"),
            Family::Small => write!(f, "small"),
            Family::Random(stream) => write!(f, "gen, seed {}", stream.seed),
            Family::Lines(stream) => write!(f, "lines, seed {}", stream.seed),
        }
    }
}
