//! Matrices whose pivots lie at the bound of request Two or beside it, for programs `steps` and `leaves`.

use crate::cases;
use crate::input::words;
use crate::random::{power_of_two, with_exponent, Random};
use crate::vector::Matrix;

/// A batch for program `steps`, as `cases` makes them: one case in three is a Dogleg near the bound, the others are any.
pub fn input(count: u64, seed: u64) -> Vec<u8> {
    let mut random = Random::new(seed);
    let mut bytes = Vec::new();
    for i in 0..count {
        let case = if i % 3 == 0 {
            let h = near(&mut random, false);
            cases::dogleg(&mut random, &h)
        } else {
            cases::any(&mut random)
        };
        words(&mut bytes, &[case.len() as u64]);
        bytes.extend(case);
    }
    bytes
}

/// Calls of the inverse for program `leaves`, all of them near the bound.
pub fn calls(count: u64, seed: u64) -> Vec<u8> {
    let mut random = Random::new(seed);
    let mut bytes = Vec::new();
    for _ in 0..count {
        let h = near(&mut random, true);
        let n = h.size() as u64;
        words(&mut bytes, &[7, n, n * n]);
        let entries: Vec<u64> = h.entries().iter().map(|x| x.to_bits()).collect();
        words(&mut bytes, &entries);
        words(&mut bytes, &[n * n, 2 * n * n + 8 * n]);
    }
    bytes
}

/// A matrix with a pivot at the bound, beside it, or a little further off.
pub(crate) fn near(random: &mut Random, small: bool) -> Matrix {
    let n = match random.below(100) {
        0..80 => random.between(2, 4),
        80..95 => random.between(5, 12),
        _ if small => random.between(5, 16),
        95..99 => random.between(13, 40),
        _ => random.between(41, 64),
    } as usize;
    if random.once_in(4) {
        in_line(random, n)
    } else {
        exact(random, n)
    }
}

/// Of any size that leaves room for what is to be larger; often so small that the bound is subnormal, or rounds.
fn exponent(random: &mut Random) -> i64 {
    match random.below(4) {
        0 => random.between(-1040, -976),
        1 => random.between(-900, 1000),
        _ => random.between(-12, 12),
    }
}

/// Rows of an upper triangle, in any order. Whatever stands above the diagonal, its pivots are the diagonal's, in turn and
/// without a rounding; one of them lies at the bound. The largest entry stands anywhere, with either sign.
fn exact(random: &mut Random, n: usize) -> Matrix {
    let e = exponent(random);
    let mut h = vec![0.0; n * n];
    for i in 0..n {
        for j in i..n {
            let lower = random.between(2, 12);
            h[i * n + j] = if i != j && random.once_in(3) {
                0.0
            } else {
                with_exponent(random, e - lower)
            };
        }
    }
    let critical = random.below(n as u64) as usize;
    let (row, column) = loop {
        let (a, b) = (random.below(n as u64), random.below(n as u64));
        let (row, column) = (a.min(b) as usize, a.max(b) as usize);
        if (row, column) != (critical, critical) {
            break (row, column);
        }
    };
    h[row * n + column] = with_exponent(random, e);
    let bound = Matrix::new(n, h.clone()).pivot_bound();
    h[critical * n + critical] = beside(random, bound) * random.pick(&[1.0, -1.0]);
    let mut order: Vec<usize> = (0..n).collect();
    if random.once_in(2) {
        for i in (1..n).rev() {
            order.swap(i, random.below(i as u64 + 1) as usize);
        }
    }
    let rows = order.iter().flat_map(|&i| h[i * n..(i + 1) * n].to_vec());
    Matrix::new(n, rows.collect())
}

/// The bound, a neighbour, or what the slips would take for it.
fn beside(random: &mut Random, bound: f64) -> f64 {
    match random.below(8) {
        0 | 1 => bound,
        2 | 3 => bound.next_up(),
        4 => bound.next_down().max(0.0),
        5 => bound * 0.5,
        6 => bound * 2.0,
        _ => bound * random.pick(&[0.0, 0.75, 1.5, 1024.0]),
    }
}

/// Two rows that are almost one: what is left of the second after the first is taken away is near the bound, and rounded on the way.
fn in_line(random: &mut Random, n: usize) -> Matrix {
    let e = exponent(random);
    let mut h: Vec<f64> = (0..n * n)
        .map(|_| {
            let lower = random.below(4) as i64;
            with_exponent(random, e - lower)
        })
        .collect();
    let from = random.below(n as u64) as usize;
    let to = (from + 1 + random.below(n as u64 - 1) as usize) % n;
    h.copy_within(from * n..(from + 1) * n, to * n);
    let apart = power_of_two(random.between(-44, -36).max(-1074 - e)) * power_of_two(e);
    h[to * n + random.below(n as u64) as usize] += apart;
    Matrix::new(n, h)
}

#[cfg(test)]
mod tests {
    use super::*;

    /// How many of 20,000 lie on either side of the bound, and how many the rule before took.
    #[test]
    fn both_sides_come_up() {
        let mut random = Random::new(1);
        let (mut taken, mut refused, mut refused_only_now) = (0, 0, 0);
        for _ in 0..20_000 {
            let h = near(&mut random, true);
            match h.inverse() {
                Some(_) => taken += 1,
                None => refused += 1,
            }
            if h.inverse().is_none() && h.inverse_above(0.0).is_some() {
                refused_only_now += 1;
            }
        }
        assert!(taken > 5_000 && refused > 5_000 && refused_only_now > 5_000);
    }

    #[test]
    fn pivots_are_exactly_at_the_bound() {
        let mut random = Random::new(2);
        let mut at = 0;
        for _ in 0..2_000 {
            let h = exact(&mut random, 3);
            let bound = h.pivot_bound();
            let below = f64::from_bits(bound.to_bits().max(1) - 1);
            if h.inverse().is_none() && h.inverse_above(below).is_some() {
                at += 1;
            }
        }
        assert!(at > 200, "{at}");
    }
}
