//! Does a split in fractions exist? Decided by prices, not by steps.
//!
//! The pairs (ticks on the first kind, ticks on the second) that a set can get
//! by with, and everything above them, form a convex region whose corners come
//! from the ends of each job's whole-work line. The rooms lie in it exactly
//! when no pair of prices makes the cheapest way to do all jobs dearer than
//! the rooms. Between two neighbouring jobs' own price ratios the cheapest way
//! stays the same, so it is enough to try the price pair of each job at which
//! its two kinds cost alike, and the two pairs with one kind free.

/// What a legal job asks for.
#[derive(Clone, Copy, Debug, PartialEq, Eq)]
pub enum Demand {
    /// On one kind only (0 or 1), with its cost there.
    One(usize, u64),
    /// On both kinds, with both costs.
    Both(u64, u64),
}

/// Bits after the point in the first, rounded comparison.
const POINT: u32 = 80;

/// A stretched job at its exact far end: the ticks it keeps at home.
struct Kept {
    whole: u64,
    rest: u64,
    of: u64,
    /// The same, rounded down to `POINT` bits after the point.
    rounded: u128,
}

impl Kept {
    fn new(near: u64, far: u64, window: u64) -> Kept {
        let (number, of) = (near * (far - window), far - near);
        let rounded = (u128::from(number) << POINT) / u128::from(of);
        Kept {
            whole: number / of,
            rest: number % of,
            of,
            rounded,
        }
    }
}

/// Whether shares in fractions exist for legal jobs on the given rooms.
pub fn split_exists(window: u64, rooms: [i64; 2], demands: &[Demand]) -> bool {
    if rooms[0] < 0 || rooms[1] < 0 {
        return false;
    }
    let rooms = [rooms[0] as u64, rooms[1] as u64];
    let kept: Vec<Option<Kept>> = demands.iter().map(|demand| kept(demand, window)).collect();

    let mut prices = vec![(1, 0), (0, 1)];
    prices.extend(demands.iter().filter_map(|demand| match *demand {
        Demand::Both(first, second) => Some((second, first)),
        Demand::One(..) => None,
    }));
    prices.sort_unstable();
    prices.dedup();
    prices
        .iter()
        .all(|&price| affordable(price, window, rooms, demands, &kept))
}

fn kept(demand: &Demand, window: u64) -> Option<Kept> {
    match *demand {
        Demand::Both(first, second) if second > window => Some(Kept::new(first, second, window)),
        Demand::Both(first, second) if first > window => Some(Kept::new(second, first, window)),
        _ => None,
    }
}

/// Whether the cheapest way to do all jobs costs at most what the rooms do.
fn affordable(
    price: (u64, u64),
    window: u64,
    rooms: [u64; 2],
    demands: &[Demand],
    kept: &[Option<Kept>],
) -> bool {
    let budget = price.0 * rooms[0] + price.1 * rooms[1];
    let mut whole = 0;
    let mut at_far_end = Vec::new();
    for (demand, kept) in demands.iter().zip(kept) {
        whole += match (*demand, kept) {
            (Demand::One(0, cost), _) => price.0 * cost,
            (Demand::One(_, cost), _) => price.1 * cost,
            (Demand::Both(first, second), None) => (price.0 * first).min(price.1 * second),
            (Demand::Both(first, second), Some(kept)) => {
                let (home, away) = if second > window {
                    (price.0 * first, price.1 * second)
                } else {
                    (price.1 * second, price.0 * first)
                };
                if home <= away {
                    home
                } else {
                    // W ticks at the lower price, and the difference of the
                    // prices for each tick kept at home: home is the cheaper
                    // kind in ticks, so its tick is the dearer one here.
                    at_far_end.push(kept);
                    price.0.min(price.1) * window
                }
            }
        };
    }
    whole <= budget && sum_within(&at_far_end, price.0.abs_diff(price.1), budget - whole)
}

/// Whether `times` the sum of the kept ticks is at most `limit`.
fn sum_within(list: &[&Kept], times: u64, limit: u64) -> bool {
    let sum: u128 = list.iter().map(|kept| kept.rounded).sum();
    let bound = u128::from(limit) << POINT;
    if (sum + list.len() as u128) * u128::from(times) <= bound {
        true
    } else if sum * u128::from(times) > bound {
        false
    } else {
        sum_within_exactly(list, times, limit)
    }
}

/// The same, without any rounding.
fn sum_within_exactly(list: &[&Kept], times: u64, limit: u64) -> bool {
    let mut number = Big::from(0);
    let mut of = Big::from(1);
    for kept in list {
        number = number.times(kept.of).plus(&of.times(kept.rest));
        of = of.times(kept.of);
    }
    let whole: u64 = list.iter().map(|kept| kept.whole).sum();
    number
        .plus(&of.times(whole))
        .times(times)
        .at_most(&of.times(limit))
}

/// A whole number of any size, lowest limb first, no zero limb on top.
#[derive(Clone, Debug, PartialEq, Eq)]
struct Big(Vec<u64>);

impl Big {
    fn from(value: u64) -> Big {
        Big(vec![value]).trimmed()
    }

    fn trimmed(mut self) -> Big {
        while self.0.last() == Some(&0) {
            self.0.pop();
        }
        self
    }

    fn times(&self, by: u64) -> Big {
        let mut carry = 0u128;
        let mut limbs = Vec::with_capacity(self.0.len() + 1);
        for &limb in &self.0 {
            carry += u128::from(limb) * u128::from(by);
            limbs.push(carry as u64);
            carry >>= 64;
        }
        limbs.push(carry as u64);
        Big(limbs).trimmed()
    }

    fn plus(&self, other: &Big) -> Big {
        let mut carry = 0u128;
        let mut limbs = Vec::new();
        for at in 0..self.0.len().max(other.0.len()) {
            let limb = |big: &Big| u128::from(big.0.get(at).copied().unwrap_or(0));
            carry += limb(self) + limb(other);
            limbs.push(carry as u64);
            carry >>= 64;
        }
        limbs.push(carry as u64);
        Big(limbs).trimmed()
    }

    fn at_most(&self, other: &Big) -> bool {
        let key = |big: &Big| {
            (
                big.0.len(),
                big.0.iter().rev().copied().collect::<Vec<u64>>(),
            )
        };
        key(self) <= key(other)
    }
}

#[cfg(test)]
mod tests {
    use super::*;

    #[test]
    fn exact_sums_at_the_edge() {
        // 1/3 three times is 1, and 3.6 three times is 10.8.
        let third = Kept {
            whole: 0,
            rest: 1,
            of: 3,
            rounded: (1 << POINT) / 3,
        };
        assert!(sum_within(&[&third, &third, &third], 1, 1));
        let kept = Kept::new(6, 16, 10);
        assert!(sum_within(&[&kept, &kept, &kept], 10, 108));
        assert!(!sum_within(&[&kept, &kept, &kept], 10, 107));
        let big = Big::from(u64::MAX).times(u64::MAX);
        assert_eq!(big.0, vec![1, u64::MAX - 1]);
        assert_eq!(big.plus(&Big::from(u64::MAX)).0, vec![0, u64::MAX]);
    }

    #[test]
    fn rounded_and_exact_agree() {
        let primes = [999_983u64, 999_979, 999_961, 999_959, 999_953, 999_931];
        let list: Vec<Kept> = primes.iter().map(|&p| Kept::new(700, p, 1000)).collect();
        let list: Vec<&Kept> = list.iter().collect();
        for limit in 0..6 * 701 * 7 {
            assert_eq!(
                sum_within(&list, 7, limit),
                sum_within_exactly(&list, 7, limit)
            );
        }
    }

    /// Every set of three small jobs, against all shares in sixths: what the
    /// search finds must exist, and where it finds nothing there must be none
    /// even with a little less room.
    #[test]
    fn against_search_in_small_fractions() {
        const PARTS: u64 = 6;
        let window = 3;
        let mut pool = vec![Demand::One(0, 2), Demand::One(1, 3)];
        for first in 1..=5 {
            for second in 1..=5 {
                if first <= window || second <= window {
                    pool.push(Demand::Both(first, second));
                }
            }
        }
        let shares = |demand: Demand| -> Vec<[u64; 2]> {
            let mut list = Vec::new();
            for a in 0..=PARTS * window {
                for b in 0..=PARTS * window - a {
                    let done = match demand {
                        Demand::One(0, cost) => a >= PARTS * cost && b == 0,
                        Demand::One(_, cost) => b >= PARTS * cost && a == 0,
                        Demand::Both(c1, c2) => a * c2 + b * c1 >= PARTS * c1 * c2,
                    };
                    // Keep only shares that are least on the second kind.
                    if done && !list.iter().any(|s: &[u64; 2]| s[0] == a) {
                        list.push([a, b]);
                    }
                }
            }
            list
        };
        let fits = |set: &[Demand], rooms: [u64; 2]| {
            let mut reached = vec![[0u64, 0]];
            for &demand in set {
                let mut next: Vec<[u64; 2]> = Vec::new();
                for sum in &reached {
                    for share in shares(demand) {
                        next.push([sum[0] + share[0], sum[1] + share[1]]);
                    }
                }
                next.sort_unstable();
                next.dedup();
                reached = next;
            }
            reached
                .iter()
                .any(|sum| sum[0] <= PARTS * rooms[0] && sum[1] <= PARTS * rooms[1])
        };
        let (mut both, mut neither) = (0, 0);
        for (i, &x) in pool.iter().enumerate() {
            for (j, &y) in pool.iter().enumerate().skip(i) {
                for &z in pool.iter().skip(j) {
                    let set = [x, y, z];
                    let exists = split_exists(window, [3, 3], &set);
                    let found = fits(&set, [3, 3]);
                    assert!(exists || !found, "{set:?}");
                    if !found {
                        assert!(!split_exists(window, [2, 2], &set), "{set:?}");
                    }
                    both += usize::from(exists && found);
                    neither += usize::from(!exists && !found);
                }
            }
        }
        assert!(both > 100 && neither > 100, "{both} {neither}");
    }
}
