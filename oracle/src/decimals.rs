//! Numbers for program `decimals`, and their texts by Rust's own shortest digits.

use crate::random::{power_of_two, subnormal, with_exponent, Random, NANS};

const INFINITY: u64 = 0x7ff0_0000_0000_0000;
const MINUS: u64 = 1 << 63;

/// The bits of `count` numbers: first marked ones, then random ones.
pub fn values(count: u64, seed: u64) -> Vec<u64> {
    let count = count as usize;
    let mut random = Random::new(seed);
    let mut values = marked();
    values.extend(spread(&mut random, &powers(), count / 4));
    values.truncate(count);
    while values.len() < count {
        values.push(value(&mut random));
    }
    values
}

/// An input of program `decimals`.
pub fn input(count: u64, seed: u64) -> Vec<u8> {
    values(count, seed).iter().flat_map(|bits| bits.to_le_bytes()).collect()
}

/// Zeros, infinities, NaN, the ends of the ranges, the borders of the layout, and numbers at which
/// two shortest texts are equally near or the nearest text of that length does not read back.
fn marked() -> Vec<u64> {
    let mut values = vec![0, INFINITY, INFINITY - 1, INFINITY - 2, 1, 2, 3];
    values.extend(NANS);
    let edges = [0x0010_0000_0000_0000, 0x7fe0_0000_0000_0000];
    values.extend(edges.iter().flat_map(|&bits| [bits - 1, bits, bits + 1]));
    let numbers = [
        1.0, 10.0, 100.0, 0.1, 0.125, 2.5, 1.25e-7, 1e-5, 1e-4, 1e15, 1e16, 1e17, 1e21, 1e22, 1e23,
        9.5, 99.5, 0.3, 1.0 / 3.0, 2.0 / 3.0, 123456789.0, 9007199254740992.0, 9007199254740993.0,
        1125899906842624.25, 1125899906842624.75, 2251799813685248.5, 5.684341886080802e-14, 9.5367431640625e-7,
        2.2250738585072011e-308, 4.35, 0.000012345678901234567, 1234567890123456.7, 9999999999999998.0,
        299792458.0, 6.02214076e23, 1.7976931348623157e308, 5e-324, 8.41e21, 9.409340012568248e18,
    ];
    values.extend(numbers.iter().flat_map(|x: &f64| {
        let bits = x.to_bits();
        [bits - 1, bits, bits + 1]
    }));
    let minus: Vec<u64> = values.iter().map(|bits| bits ^ MINUS).collect();
    values.extend(minus);
    values
}

/// Powers of two and of ten, each with its neighbours.
fn powers() -> Vec<u64> {
    let twos = (-1074..=1023).map(|e| power_of_two(e).to_bits());
    let tens = (-323..=308).map(|e| format!("1e{e}").parse::<f64>().unwrap().to_bits());
    twos.chain(tens)
        .flat_map(|bits| [bits - 1, bits, bits + 1])
        .collect()
}

/// All, or, where there are more than `most`, one from each of `most` stretches of one length.
fn spread(random: &mut Random, all: &[u64], most: usize) -> Vec<u64> {
    let take = most.min(all.len());
    (0..take)
        .map(|i| random.pick(&all[i * all.len() / take..(i + 1) * all.len() / take]))
        .collect()
}

/// A number of a random kind.
fn value(random: &mut Random) -> u64 {
    let sign = random.word() & MINUS;
    match random.below(9) {
        0 | 1 => random.word(),
        2 => sign | subnormal(random),
        3 => {
            let e = random.between(-60, 70);
            with_exponent(random, e).to_bits()
        }
        4 => sign | short(random).to_bits(),
        5 => (sign | short(random).to_bits()).wrapping_add(random.below(5)).wrapping_sub(2),
        6 => sign | fraction(random).to_bits(),
        7 => sign | few_bits(random),
        _ => sign | (random.word() >> random.below(64)).to_string().parse::<f64>().unwrap().to_bits(),
    }
}

/// A decimal of one to 17 digits, near one or of any size.
fn short(random: &mut Random) -> f64 {
    let digits = random.between(1, 17) as u32;
    let number = random.below(10u64.pow(digits));
    let e = if random.once_in(2) { random.between(-22, 5) } else { random.between(-340, 308) };
    format!("{number}e{e}").parse().unwrap()
}

/// A whole number over a power of two: where two texts of one length are equally near, it is one of these.
fn fraction(random: &mut Random) -> f64 {
    let number = random.word() >> (11 + random.below(20));
    number as f64 * power_of_two(random.between(-30, 4))
}

/// A number whose mantissa has few digits that are not zero, at any exponent.
fn few_bits(random: &mut Random) -> u64 {
    let mut digits = 0;
    for _ in 0..random.below(3) {
        digits |= 1 << random.below(52);
    }
    (random.below(2047) << 52) | digits
}

/// A line for each word; bytes left over are `bad input`.
pub fn answer(input: &[u8]) -> String {
    let mut lines = String::new();
    let words = input.chunks_exact(8);
    let rest = words.remainder();
    for word in words {
        lines.push_str(&text(f64::from_bits(u64::from_le_bytes(word.try_into().unwrap()))));
        lines.push('\n');
    }
    if !rest.is_empty() {
        lines.push_str("bad input\n");
    }
    lines
}

/// Rust's shortest digits: positional from 1e-5 up to below 1e16, otherwise scientific.
pub fn text(x: f64) -> String {
    if x.is_nan() {
        return "nan".to_string();
    }
    let size = x.abs();
    if size.is_infinite() || size == 0.0 || (1e-5..1e16).contains(&size) {
        format!("{x}")
    } else {
        format!("{x:e}")
    }
}

#[cfg(test)]
mod tests {
    use super::*;

    #[test]
    fn layout() {
        let lines = [
            (0.0, "0"),
            (-0.0, "-0"),
            (f64::INFINITY, "inf"),
            (-f64::INFINITY, "-inf"),
            (-f64::NAN, "nan"),
            (100.0, "100"),
            (0.125, "0.125"),
            (-2.5, "-2.5"),
            (1e-5, "0.00001"),
            (1.25e-7, "1.25e-7"),
            (5e-324, "5e-324"),
            (1e16, "1e16"),
        ];
        for (x, line) in lines {
            assert_eq!(text(x), line);
        }
    }

    #[test]
    fn every_text_reads_back() {
        for bits in values(20_000, 1) {
            let x = f64::from_bits(bits);
            if !x.is_nan() {
                assert_eq!(text(x).parse::<f64>().unwrap().to_bits(), bits);
            }
        }
    }
}
