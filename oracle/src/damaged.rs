//! An input whose last call is damaged, so that its last line is `bad input`.

use crate::calls;
use crate::input::{words, Call, LONGEST_LENT, LONGEST_LIST};
use crate::random::Random;
use crate::roots;

/// `count` good root calls and a damaged one.
pub fn input(count: u64, seed: u64) -> Vec<u8> {
    let mut random = Random::new(seed);
    let mut bytes = Vec::new();
    for _ in 0..count {
        Call::Root(roots::value(&mut random)).write(&mut bytes);
    }
    match random.below(4) {
        0 => cut(&mut random, &mut bytes),
        1 => unknown(&mut random, &mut bytes),
        2 => long_list(&mut random, &mut bytes),
        _ => long_lent(&mut random, &mut bytes),
    }
    bytes
}

/// A call that ends at a random byte, its first word included.
fn cut(random: &mut Random, bytes: &mut Vec<u8>) {
    let mut call = Vec::new();
    match random.below(8) {
        0..3 => Call::Root(roots::value(random)).write(&mut call),
        3 => Call::Ratio([(); 4].map(|()| random.word())).write(&mut call),
        _ => {
            let number = 3 + random.below(6);
            let n = 1 + random.below(4);
            calls::fitting(random, number, n).write(&mut call);
        }
    }
    let kept = 1 + random.below(call.len() as u64 - 1) as usize;
    bytes.extend(&call[..kept]);
}

/// A number that no call has, and good calls behind it that must not be looked at.
fn unknown(random: &mut Random, bytes: &mut Vec<u8>) {
    let number = random.pick(&[
        0,
        9,
        10,
        257,
        (1 << 32) + 1,
        (1 << 32) + 3,
        1 << 56,
        1 << 63,
        u64::MAX,
    ]);
    words(bytes, &[number]);
    some_roots(random, bytes);
}

/// A list that is said to be longer than any that is read. At times its numbers are there.
fn long_list(random: &mut Random, bytes: &mut Vec<u8>) {
    let length = random.pick(&[
        LONGEST_LIST + 1,
        LONGEST_LIST + 1,
        LONGEST_LENT,
        1 << 32,
        1 << 61,
        (1 << 61) + 1,
        1 << 63,
        u64::MAX,
    ]);
    let number = 3 + random.below(6);
    words(bytes, &[number, 1]);
    // Where there is a second list, it may be the one.
    if [3, 5, 6].contains(&number) && random.once_in(2) {
        words(bytes, &[1, random.word()]);
    }
    words(bytes, &[length]);
    if length <= LONGEST_LENT && random.once_in(2) {
        for _ in 0..length {
            words(bytes, &[random.word()]);
        }
    }
    some_roots(random, bytes);
}

/// A product or an inverse of size 1 that is lent too much.
fn long_lent(random: &mut Random, bytes: &mut Vec<u8>) {
    let length = random.pick(&[
        LONGEST_LENT + 1,
        LONGEST_LENT + 1,
        1 << 32,
        (1 << 32) + 1,
        1 << 61,
        u64::MAX,
    ]);
    let one = 1f64.to_bits();
    match random.below(3) {
        0 => words(bytes, &[6, 1, 1, one, 1, one, length]),
        1 => words(bytes, &[7, 1, 1, one, length, 10]),
        _ => words(bytes, &[7, 1, 1, one, 1, length]),
    }
    some_roots(random, bytes);
}

fn some_roots(random: &mut Random, bytes: &mut Vec<u8>) {
    for _ in 0..random.below(4) {
        Call::Root(roots::value(random)).write(bytes);
    }
}

#[cfg(test)]
mod tests {
    use super::*;
    use crate::leaves;

    #[test]
    fn the_good_calls_are_answered_and_then_nothing() {
        for seed in 0..500 {
            let count = seed % 4;
            for operations in [1, leaves::OPERATIONS] {
                let mut out = Vec::new();
                leaves::answer(&input(count, seed), operations, &mut out).unwrap();
                let out = String::from_utf8(out).unwrap();
                let lines: Vec<&str> = out.lines().collect();
                assert_eq!(lines.len() as u64, count + 1);
                assert_eq!(lines[count as usize], "bad input");
            }
        }
    }
}
