//! Inputs of root calls. First marked numbers, the same for every seed but for which powers of two
//! a short list takes; then random ones, each of a kind chosen at random.

use crate::input::Call;
use crate::random::{power_of_two, subnormal, with_exponent, Random, NANS};

const INFINITY: u64 = 0x7ff0_0000_0000_0000;
const MINUS: u64 = 1 << 63;
const ONE: u64 = 0x3ff0_0000_0000_0000;

/// Zeros, infinities, the ends of the ranges, numbers below zero, and 1 with its neighbours.
const SPECIALS: &[u64] = &[
    0,
    MINUS,
    INFINITY,
    MINUS | INFINITY,
    // the largest finite numbers
    INFINITY - 1,
    INFINITY - 2,
    MINUS | (INFINITY - 1),
    // the smallest normal numbers
    0x0010_0000_0000_0000,
    0x0010_0000_0000_0001,
    MINUS | 0x0010_0000_0000_0000,
    // the largest subnormal numbers
    0x000f_ffff_ffff_ffff,
    0x000f_ffff_ffff_fffe,
    MINUS | 0x000f_ffff_ffff_ffff,
    // the smallest subnormal numbers
    1,
    2,
    3,
    4,
    5,
    MINUS | 1,
    // around 1: the root of the number just below is not 1
    ONE,
    ONE - 1,
    ONE - 2,
    ONE + 1,
    ONE + 2,
    MINUS | ONE,
    MINUS | (ONE - 1),
    // the highest power of two and the number just below it
    0x7fe0_0000_0000_0000,
    0x7fdf_ffff_ffff_ffff,
];

/// The largest whole number whose square has at most 53 digits.
const LARGEST_ROOT: u64 = 94_906_265;

/// An input of `count` root calls.
pub fn input(count: u64, seed: u64) -> Vec<u8> {
    let mut bytes = Vec::new();
    for x in values(count, seed) {
        Call::Root(x).write(&mut bytes);
    }
    bytes
}

/// The numbers of those calls, by their bits.
pub fn values(count: u64, seed: u64) -> Vec<u64> {
    let count = count as usize;
    let mut random = Random::new(seed);
    let mut values = marked(&mut random, count);
    values.truncate(count);
    while values.len() < count {
        values.push(value(&mut random));
    }
    values
}

/// The marked numbers. Powers take at most half of a short list, so that random ones get room.
fn marked(random: &mut Random, count: usize) -> Vec<u64> {
    let mut values = SPECIALS.to_vec();
    values.extend(NANS);
    values.extend((2..=32).map(|k: u64| ((k * k) as f64).to_bits()));
    values.extend([2.0, 3.0, 5.0, 0.1, 0.5, 1e300, 1e-300].map(f64::to_bits));
    let powers: Vec<u64> = (-1074..=1023).map(|e| power_of_two(e).to_bits()).collect();
    let beside: Vec<u64> = (-537..=511)
        .map(|e| power_of_two(2 * e).to_bits())
        .flat_map(|bits| [bits - 1, bits + 1])
        .collect();
    values.extend(spread(random, &powers, count / 4));
    values.extend(spread(random, &beside, count / 4));
    values
}

/// All, or, where there are more than `most`, one from each of `most` stretches of one length. It
/// is chosen at random there: a fixed stride could miss every odd exponent.
fn spread(random: &mut Random, all: &[u64], most: usize) -> Vec<u64> {
    let take = most.min(all.len());
    (0..take)
        .map(|i| {
            let from = i * all.len() / take;
            let to = (i + 1) * all.len() / take;
            random.pick(&all[from..to])
        })
        .collect()
}

/// A number of a random kind.
pub fn value(random: &mut Random) -> u64 {
    match random.below(10) {
        0 => special(random),
        1 => near_power(random),
        2 => near_square(random),
        3 => near_midpoint(random),
        4 => beside_midpoint(random),
        5 => subnormal_midpoint(random),
        6 => pattern(random),
        7 => subnormal(random),
        8 => with_exponent_near_zero(random),
        _ => any_normal(random),
    }
}

fn special(random: &mut Random) -> u64 {
    if random.once_in(4) {
        random.pick(&NANS)
    } else {
        random.pick(SPECIALS)
    }
}

/// A power of two or a neighbour of one.
fn near_power(random: &mut Random) -> u64 {
    let bits = power_of_two(random.between(-1074, 1023)).to_bits();
    bits + random.below(3) - 1
}

/// k·k·2^(2e), whose root is k·2^e without rounding, or a neighbour of it. 2e is at least −1074, so
/// the square is exact among subnormal numbers too.
fn near_square(random: &mut Random) -> u64 {
    let digits = random.between(1, 27);
    let k = (random.below(1 << digits) + 1).min(LARGEST_ROOT);
    let square = (k * k) as f64 * power_of_two(2 * random.between(-537, 485));
    square.to_bits() + random.below(3) - 1
}

/// A number whose root lies near the midpoint of two neighbours M and M + 1: (2M + 1)²/4, rounded
/// down or up. The square is odd, so neither is exact.
fn near_midpoint(random: &mut Random) -> u64 {
    let odd = odd_root(random);
    let square = u128::from(odd) * u128::from(odd);
    let dropped = length(square) - 53;
    let digits = (square >> dropped) as u64 + random.below(2);
    even_scaled(random, digits, dropped)
}

/// The hardest numbers there are: (2M + 1)² = X·2^s + r with a small r, and X of 53 digits taken.
/// Its root misses the midpoint by at most about |r|·2^-107 of itself. M is found from r: an r that
/// leaves 1 modulo 8 has square roots modulo every power of two, settled here a digit at a time.
fn beside_midpoint(random: &mut Random) -> u64 {
    loop {
        let size = random.between(1, 20);
        let r = 8 * random.between(-(1 << size), 1 << size) + 1;
        let s = 54 + random.below(2) as u32;
        let mut y: u64 = 1;
        for digit in 3..s {
            // y·y − r is zero modulo 2^digit; 2^(digit − 1) more in y changes the next digit of it.
            let rest = y.wrapping_mul(y).wrapping_sub(r as u64);
            if rest >> digit & 1 == 1 {
                y += 1 << (digit - 1);
            }
        }
        // All four roots modulo 2^s are y and −y, with and without 2^(s − 1).
        let modulus = 1 << s;
        let root = random.pick(&[y, modulus - y]);
        let root = (root + random.pick(&[0, modulus / 2])) % modulus;
        let square = i128::from(root) * i128::from(root) - i128::from(r);
        assert_eq!(square % (1 << s), 0);
        let digits = (square >> s) as u64;
        if (1 << 53..1 << 54).contains(&root) && digits >> 52 == 1 {
            return even_scaled(random, digits, s);
        }
    }
}

/// As `near_midpoint`, with so few digits that the result is subnormal.
fn subnormal_midpoint(random: &mut Random) -> u64 {
    let odd = odd_root(random);
    let square = u128::from(odd) * u128::from(odd);
    // An even number of digits is dropped, since the last one left has the even exponent −1074.
    let kept = 2 * random.below(26) as u32 + 2 - length(square) % 2;
    let dropped = length(square) - kept;
    (square >> dropped) as u64 + random.below(2)
}

/// 2M + 1 for a random M of 53 digits.
fn odd_root(random: &mut Random) -> u64 {
    1 << 53 | random.word() >> 11 | 1
}

/// How many binary digits.
fn length(x: u128) -> u32 {
    128 - x.leading_zeros()
}

/// digits·2^s/4·2^(2e) for a random e that keeps it normal.
fn even_scaled(random: &mut Random, digits: u64, s: u32) -> u64 {
    let exponent = 2 * random.between(-537, 484) + i64::from(s % 2);
    (digits as f64 * power_of_two(exponent)).to_bits()
}

/// Any bits at all, mostly without the sign.
fn pattern(random: &mut Random) -> u64 {
    let bits = random.word();
    if random.once_in(8) {
        bits
    } else {
        bits & !MINUS
    }
}

fn with_exponent_near_zero(random: &mut Random) -> u64 {
    let e = random.between(-4, 4);
    with_exponent(random, e).abs().to_bits()
}

fn any_normal(random: &mut Random) -> u64 {
    let e = random.between(-1022, 1023);
    with_exponent(random, e).abs().to_bits()
}

#[cfg(test)]
mod tests {
    use super::*;
    use std::collections::HashSet;

    #[test]
    fn a_long_list_has_every_marked_number() {
        let values: HashSet<u64> = values(10_000, 3).into_iter().collect();
        assert!(SPECIALS.iter().all(|x| values.contains(x)));
        assert!(NANS.iter().all(|x| values.contains(x)));
        for e in -1074..=1023 {
            let bits = power_of_two(e).to_bits();
            assert!(values.contains(&bits));
            if e % 2 == 0 {
                assert!(values.contains(&(bits - 1)) && values.contains(&(bits + 1)));
            }
        }
    }

    #[test]
    fn a_short_list_is_spread() {
        for count in [0, 1, 40, 4000] {
            assert_eq!(values(count, 1).len() as u64, count);
        }
        let values = values(4000, 1);
        let powers = |from: i64, to: i64| {
            (from..=to)
                .filter(|&e| values.contains(&power_of_two(e).to_bits()))
                .count()
        };
        for from in (-1074..=923).step_by(100) {
            assert!(powers(from, from + 99) > 40);
        }
    }

    /// The root of such a number, found to 64 digits by whole numbers, continues after its 53rd
    /// digit with ten equal ones at least: it is that near to a midpoint.
    #[test]
    fn hardest_numbers_are_hard() {
        let mut random = Random::new(8);
        for _ in 0..1000 {
            let bits = beside_midpoint(&mut random);
            let exponent = bits >> 52;
            let digits = u128::from((bits % (1 << 52)) | (1 << 52));
            // x·2^(even), of 127 or 128 digits.
            let square = digits << (74 + (exponent + 1) % 2);
            let root = square.isqrt();
            assert_eq!(length(root), 64);
            let after = root as u64 % (1 << 11);
            assert!([0x3ff, 0x400].contains(&after), "{bits:016x} {after:x}");
        }
    }
}
