//! Inputs of random calls of operations 2 to 8: good ones of every kind, and those that are refused.

use crate::input::{Call, LONGEST_LENT, LONGEST_LIST};
use crate::random::{power_of_two, subnormal, with_exponent, Random, NANS};

const MINUS: u64 = 1 << 63;
const INFINITY: u64 = 0x7ff0_0000_0000_0000;

/// An input of `count` calls.
pub fn input(count: u64, seed: u64) -> Vec<u8> {
    let mut random = Random::new(seed);
    let mut bytes = Vec::new();
    for _ in 0..count {
        call(&mut random).write(&mut bytes);
    }
    bytes
}

/// A random call: one in five with something wrong about its sizes.
fn call(random: &mut Random) -> Call {
    if random.once_in(8) {
        return ratio(random);
    }
    let number = random.pick(&[3, 3, 4, 5, 5, 6, 6, 7, 7, 7, 8, 8]);
    if random.once_in(40) {
        return outside(random, number);
    }
    let n = size(random);
    let mut call = fitting(random, number, n);
    if random.once_in(6) {
        spoil(random, &mut call);
    }
    call
}

/// A call of this number, from 3 to 8, whose lengths all fit n.
pub fn fitting(random: &mut Random, number: u64, n: u64) -> Call {
    let lists = match number {
        3 => vec![list(random, n), list(random, n)],
        4 => vec![list(random, n)],
        5 => vec![list(random, n), matrix(random, n), list(random, n)],
        6 => vec![matrix(random, n), list(random, n)],
        7 => vec![matrix(random, n)],
        _ => vec![list(random, n * n)],
    };
    let last = match number {
        6 => vec![n],
        7 => vec![n * n, 2 * n * n + 8 * n],
        8 => vec![row_number(random, n)],
        _ => vec![],
    };
    Call::Sized {
        number,
        n,
        lists,
        last,
    }
}

/// Mostly small: a matrix costs n·n words here, and the inverse n·n·n steps.
fn size(random: &mut Random) -> u64 {
    let (low, high) = match random.below(400) {
        0..320 => (1, 6),
        320..380 => (7, 16),
        380..397 => (17, 40),
        397..399 => (41, 63),
        _ => (64, 64),
    };
    random.between(low, high) as u64
}

/// A row number from 0 to n + 2 or a huge one: i·n is then zero, or small, modulo 2^64 or 2^32.
fn row_number(random: &mut Random, n: u64) -> u64 {
    let past = random.pick(&[0, 0, 3]);
    let i = random.below(n + past);
    if random.once_in(8) {
        random.pick(&[i | 1 << 32, i | 1 << 63, 1 << 62, 1 << 61, u64::MAX])
    } else {
        i
    }
}

/// Makes n or one length wrong.
fn spoil(random: &mut Random, call: &mut Call) {
    let Call::Sized {
        number,
        n,
        lists,
        last,
    } = call
    else {
        return;
    };
    match random.below(4) {
        0 => *n = wrong_size(random, *n),
        // Product and inverse are lent something by its length.
        1 if [6, 7].contains(number) => {
            let k = random.below(last.len() as u64) as usize;
            last[k] = wrong_length(random, last[k], *n).min(LONGEST_LENT);
        }
        _ => {
            let k = random.below(lists.len() as u64) as usize;
            let length = lists[k].len() as u64;
            let length = wrong_length(random, length, *n).min(LONGEST_LIST);
            let more = list(random, length);
            let list = &mut lists[k];
            list.truncate(length as usize);
            let kept = list.len();
            list.extend(&more[kept..]);
        }
    }
}

fn wrong_size(random: &mut Random, n: u64) -> u64 {
    random.pick(&[
        0,
        65,
        n - 1,
        n + 1,
        n + 64,
        n * n,
        n | 1 << 8,
        n | 1 << 32,
        n | 1 << 63,
        (1 << 32) + 1,
        1 << 32,
        u64::MAX,
        n.wrapping_neg(),
    ])
}

/// Mostly one short or one long; at times the longest that is still read.
fn wrong_length(random: &mut Random, length: u64, n: u64) -> u64 {
    if random.once_in(100) {
        return LONGEST_LENT;
    }
    random.pick(&[
        length - 1,
        length + 1,
        0,
        n,
        n + 1,
        n * n,
        2 * n * n,
        2 * length,
        length + n,
        length - 1,
        length + 1,
    ])
}

/// A call whose lengths all fit its n, at least modulo 2^64, and whose n is outside 1 to 64.
fn outside(random: &mut Random, number: u64) -> Call {
    let n: u64 = random.pick(&[0, 65, 66, 90, 1 << 32, 1 << 61, 1 << 63]);
    let square = n.wrapping_mul(n);
    let vector = if n > LONGEST_LIST { 0 } else { n };
    let square_length = if square > LONGEST_LIST { 0 } else { square };
    let lengths: &[u64] = match number {
        3 => &[vector, vector],
        4 => &[vector],
        5 => &[vector, square_length, vector],
        6 => &[square_length, vector],
        _ => &[square_length],
    };
    let lists = lengths.iter().map(|&length| list(random, length)).collect();
    let scratch = square.wrapping_mul(2).wrapping_add(n.wrapping_mul(8));
    let last = match number {
        6 => vec![vector],
        7 => vec![square_length, scratch.min(LONGEST_LENT)],
        8 => vec![random.below(3)],
        _ => vec![],
    };
    Call::Sized {
        number,
        n,
        lists,
        last,
    }
}

/// Four numbers that are often equal, so that 0/0 and x/0 come up.
fn ratio(random: &mut Random) -> Call {
    let kind = Kind::any(random);
    let mut numbers = [0; 4];
    for i in 0..4 {
        numbers[i] = if i > 0 && random.once_in(4) {
            numbers[random.below(i as u64) as usize]
        } else {
            kind.entry(random)
        };
    }
    Call::Ratio(numbers)
}

/// What the entries of a list look like.
#[derive(Clone, Copy)]
enum Kind {
    Whole,
    Zero,
    Ordinary,
    Wide,
    Tiny,
    Huge,
    Subnormal,
    Infinite,
    Nan,
    Pattern,
    /// Each entry of another kind, all of them finite.
    FiniteMixture,
    /// Each entry of another kind.
    Mixture,
}

use Kind::*;

const FINITE: [Kind; 9] = [
    Whole, Whole, Ordinary, Ordinary, Zero, Wide, Tiny, Huge, Subnormal,
];

impl Kind {
    /// The kind of a whole list. Lists of infinities or NaN alone would say little.
    fn any(random: &mut Random) -> Kind {
        match random.below(16) {
            0..11 => random.pick(&FINITE),
            11..14 => FiniteMixture,
            14 => Mixture,
            _ => Pattern,
        }
    }

    /// A number of this kind, by its bits.
    fn entry(self, random: &mut Random) -> u64 {
        let exponents = match self {
            Whole => return whole(random, 4).to_bits(),
            Zero => return random.pick(&[0, MINUS]),
            Subnormal => return random.pick(&[0, MINUS]) | subnormal(random),
            Infinite => return random.pick(&[0, MINUS]) | INFINITY,
            Nan => return random.pick(&NANS),
            Pattern => return random.word(),
            FiniteMixture => return random.pick(&FINITE).entry(random),
            Mixture => {
                let kinds = [Whole, Ordinary, Huge, Tiny, Infinite, Nan];
                return random.pick(&kinds).entry(random);
            }
            Ordinary => (-8, 8),
            Wide => (-1022, 1023),
            // Products of these are subnormal or zero, or overflow.
            Tiny => (-600, -480),
            Huge => (480, 1023),
        };
        let e = random.between(exponents.0, exponents.1);
        with_exponent(random, e).to_bits()
    }
}

fn whole(random: &mut Random, most: i64) -> f64 {
    random.between(-most, most) as f64
}

/// A list of one kind, at times with one entry that is not finite.
fn list(random: &mut Random, length: u64) -> Vec<u64> {
    let kind = Kind::any(random);
    let mut list: Vec<u64> = (0..length).map(|_| kind.entry(random)).collect();
    if length > 0 && random.once_in(16) {
        let k = random.below(length) as usize;
        list[k] = random.pick(&[Infinite, Nan]).entry(random);
    }
    list
}

/// An n by n matrix for sums of products and for the inverse.
fn matrix(random: &mut Random, n: u64) -> Vec<u64> {
    if random.once_in(5) {
        return list(random, n * n);
    }
    let mut h = square(random, n as usize);
    // A zero of either sign must act alike.
    for entry in &mut h {
        if *entry == 0.0 && random.once_in(4) {
            *entry = -0.0;
        }
    }
    h.into_iter().map(f64::to_bits).collect()
}

/// The matrices that an inverse has trouble with, and those where its answer is plain.
fn square(random: &mut Random, n: usize) -> Vec<f64> {
    match random.below(12) {
        0 => diagonal(n, |_| 1.0),
        1 => {
            let kind = random.pick(&FINITE);
            diagonal(n, |_| f64::from_bits(kind.entry(random)))
        }
        2 => permutation(random, n),
        3 => repeated_row(random, n, 0),
        4 => zero_column(random, n),
        5 => low_rank(random, n),
        6 => repeated_row(random, n, 1),
        7 => nearly_low_rank(random, n),
        8 => ties(random, n),
        9 => symmetric(random, n),
        10 => backwards_triangle(random, n),
        _ => ordinary(random, n),
    }
}

fn diagonal(n: usize, mut entry: impl FnMut(usize) -> f64) -> Vec<f64> {
    let mut h = vec![0.0; n * n];
    for i in 0..n {
        h[i * n + i] = entry(i);
    }
    h
}

/// One entry of ±1, or of one other magnitude, in each row and column.
fn permutation(random: &mut Random, n: usize) -> Vec<f64> {
    let mut columns: Vec<usize> = (0..n).collect();
    for i in (1..n).rev() {
        columns.swap(i, random.below(i as u64 + 1) as usize);
    }
    let size = power_of_two(random.between(-3, 3)) * random.pick(&[1.0, 3.0]);
    let mut h = vec![0.0; n * n];
    for (i, j) in columns.into_iter().enumerate() {
        h[i * n + j] = size * random.pick(&[1.0, -1.0]);
    }
    h
}

/// Small whole numbers or ordinary ones.
fn ordinary(random: &mut Random, n: usize) -> Vec<f64> {
    let kind = random.pick(&[Whole, Ordinary]);
    (0..n * n)
        .map(|_| f64::from_bits(kind.entry(random)))
        .collect()
}

/// Two rows alike, but for `apart` units in the last place of one entry.
fn repeated_row(random: &mut Random, n: usize, apart: u64) -> Vec<f64> {
    let mut h = ordinary(random, n);
    let from = random.below(n as u64) as usize;
    let to = random.below(n as u64) as usize;
    h.copy_within(from * n..(from + 1) * n, to * n);
    let k = to * n + random.below(n as u64) as usize;
    h[k] = f64::from_bits(h[k].to_bits() + apart);
    h
}

fn zero_column(random: &mut Random, n: usize) -> Vec<f64> {
    let mut h = ordinary(random, n);
    let j = random.below(n as u64) as usize;
    for i in 0..n {
        h[i * n + j] = 0.0;
    }
    h
}

/// Whole numbers of rank n − 1 at most: a product of n by n − 1 and n − 1 by n.
fn low_rank(random: &mut Random, n: usize) -> Vec<f64> {
    let inner = n - 1;
    let a: Vec<f64> = (0..n * inner).map(|_| whole(random, 3)).collect();
    let b: Vec<f64> = (0..inner * n).map(|_| whole(random, 3)).collect();
    let mut h = vec![0.0; n * n];
    for i in 0..n {
        for j in 0..n {
            for k in 0..inner {
                h[i * n + j] += a[i * inner + k] * b[k * n + j];
            }
        }
    }
    h
}

/// The same with a little added to one entry, or 1/(i + j + 1).
fn nearly_low_rank(random: &mut Random, n: usize) -> Vec<f64> {
    if random.once_in(4) {
        let place = |k: usize| (k / n + k % n + 1) as f64;
        return (0..n * n).map(|k| 1.0 / place(k)).collect();
    }
    let mut h = low_rank(random, n);
    let k = random.below((n * n) as u64) as usize;
    h[k] += power_of_two(random.between(-50, -20));
    h
}

/// One magnitude throughout, or two, in both signs: the pivot is chosen among equals.
fn ties(random: &mut Random, n: usize) -> Vec<f64> {
    let size = f64::from_bits(Ordinary.entry(random));
    let other = random.pick(&[1.0, 1.0, 0.0, 0.5]);
    (0..n * n)
        .map(|_| size * random.pick(&[1.0, -1.0, 1.0, -1.0, other]))
        .collect()
}

/// As a Hessian is; the weight on its diagonal often makes it definite.
fn symmetric(random: &mut Random, n: usize) -> Vec<f64> {
    let a = ordinary(random, n);
    let weight = random.pick(&[0.0, 1.0, 4.0]) * n as f64;
    let mut h = diagonal(n, |_| weight);
    for i in 0..n {
        for j in 0..n {
            h[i * n + j] += a[i * n + j] + a[j * n + i];
        }
    }
    h
}

/// Zero above the other diagonal, so that almost every column exchanges rows.
fn backwards_triangle(random: &mut Random, n: usize) -> Vec<f64> {
    let mut h = ordinary(random, n);
    for i in 0..n {
        for j in 0..n - 1 - i {
            h[i * n + j] = 0.0;
        }
    }
    h
}

#[cfg(test)]
mod tests {
    use super::*;
    use crate::leaves;
    use std::collections::HashMap;

    /// Every operation comes with every answer that it can have, and no input is bad.
    #[test]
    fn all_answers_come_up() {
        let mut random = Random::new(4);
        let mut seen: HashMap<(u64, String), u64> = HashMap::new();
        for _ in 0..20_000 {
            let call = call(&mut random);
            let mut bytes = Vec::new();
            call.write(&mut bytes);
            let mut line = Vec::new();
            leaves::answer(&bytes, leaves::OPERATIONS, &mut line).unwrap();
            let line = String::from_utf8(line).unwrap();
            let line = line.trim_end();
            let has = |bits: &[&str]| line.split(' ').any(|word| bits.contains(&word));
            let answer = if has(&["7ff8000000000000"]) {
                "nan"
            } else if has(&["7ff0000000000000", "fff0000000000000"]) {
                "infinite"
            } else if line.starts_with("is ") {
                "finite"
            } else {
                line
            };
            *seen.entry((bytes[0].into(), answer.into())).or_default() += 1;
        }
        for number in 2..=8 {
            for answer in ["nan", "infinite", "finite"] {
                assert!(seen[&(number, answer.into())] > 10, "{number} {answer}");
            }
        }
        for number in 3..=7 {
            assert!(seen[&(number, "refused 1".into())] > 10, "{number}");
        }
        assert!(seen[&(7, "refused 4".into())] > 10);
        assert!(seen[&(7, "refused 6".into())] > 10);
        assert!(seen[&(8, "is".into())] > 10);
        assert!(seen.keys().all(|(_, answer)| answer != "bad input"));
    }
}
