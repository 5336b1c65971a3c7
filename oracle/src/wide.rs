//! Wide numbers: sums of two f64, some 106 digits, for measuring what rounding in f64 does. Written from
//! the known exact transformations: the error of a sum and of a product of two f64 is an f64, as long as
//! nothing overflows or vanishes.

use std::cmp::Ordering;
use std::ops::{Add, Div, Mul, Neg, Sub};

/// high + low, where low is at most half a unit in the last place of high.
#[derive(Clone, Copy, Debug, PartialEq)]
pub struct Wide {
    pub high: f64,
    pub low: f64,
}

/// a + b and its error.
fn sum(a: f64, b: f64) -> Wide {
    let high = a + b;
    let from_b = high - a;
    let low = (a - (high - from_b)) + (b - from_b);
    Wide { high, low }
}

/// The same where a is not smaller in magnitude.
fn quick_sum(a: f64, b: f64) -> Wide {
    let high = a + b;
    Wide {
        high,
        low: b - (high - a),
    }
}

/// a·b and its error, which one fused operation gives.
fn product(a: f64, b: f64) -> Wide {
    let high = a * b;
    Wide {
        high,
        low: a.mul_add(b, -high),
    }
}

impl Wide {
    pub const ZERO: Wide = Wide {
        high: 0.0,
        low: 0.0,
    };

    pub fn abs(self) -> Wide {
        if self.high < 0.0 {
            -self
        } else {
            self
        }
    }

    /// Of a number that is not below zero: the f64 root, made better by Newton's step, twice.
    pub fn root(self) -> Wide {
        if self.high == 0.0 {
            return Wide::ZERO;
        }
        let mut r = Wide::from(self.high.sqrt());
        for _ in 0..2 {
            r = (r + self / r) * Wide::from(0.5);
        }
        r
    }
}

impl From<f64> for Wide {
    fn from(high: f64) -> Wide {
        Wide { high, low: 0.0 }
    }
}

impl From<Wide> for f64 {
    fn from(x: Wide) -> f64 {
        x.high
    }
}

impl Neg for Wide {
    type Output = Wide;

    fn neg(self) -> Wide {
        Wide {
            high: -self.high,
            low: -self.low,
        }
    }
}

impl Add for Wide {
    type Output = Wide;

    fn add(self, other: Wide) -> Wide {
        let (high, low) = (sum(self.high, other.high), sum(self.low, other.low));
        let first = quick_sum(high.high, high.low + low.high);
        quick_sum(first.high, first.low + low.low)
    }
}

impl Sub for Wide {
    type Output = Wide;

    fn sub(self, other: Wide) -> Wide {
        self + -other
    }
}

impl Mul for Wide {
    type Output = Wide;

    fn mul(self, other: Wide) -> Wide {
        let first = product(self.high, other.high);
        let cross = self.high * other.low + self.low * other.high;
        quick_sum(first.high, first.low + cross)
    }
}

impl Div for Wide {
    type Output = Wide;

    /// Long division, three digits of 53.
    fn div(self, other: Wide) -> Wide {
        let mut rest = self;
        let mut quotient = Wide::ZERO;
        for _ in 0..3 {
            let digit = Wide::from(rest.high / other.high);
            rest = rest - digit * other;
            quotient = quotient + digit;
        }
        quotient
    }
}

impl PartialOrd for Wide {
    fn partial_cmp(&self, other: &Wide) -> Option<Ordering> {
        (*self - *other).high.partial_cmp(&0.0)
    }
}

/// Vectors and matrices of them, as far as a dogleg asks.
pub fn wide(list: &[f64]) -> Vec<Wide> {
    list.iter().copied().map(Wide::from).collect()
}

pub fn dot(a: &[Wide], b: &[Wide]) -> Wide {
    let pairs = a.iter().zip(b);
    pairs.fold(Wide::ZERO, |sum, (x, y)| sum + *x * *y)
}

/// By rows.
pub fn times(h: &[Wide], d: &[Wide]) -> Vec<Wide> {
    h.chunks(d.len()).map(|row| dot(row, d)).collect()
}

pub fn scaled(a: &[Wide], x: Wide) -> Vec<Wide> {
    a.iter().map(|y| *y * x).collect()
}

pub fn added(a: &[Wide], b: &[Wide]) -> Vec<Wide> {
    a.iter().zip(b).map(|(x, y)| *x + *y).collect()
}

pub fn norm(a: &[Wide]) -> Wide {
    dot(a, a).root()
}

/// The x with H·x = b, by elimination with the largest pivot of each column.
pub fn solution(h: &[Wide], b: &[Wide]) -> Vec<Wide> {
    let n = b.len();
    let mut rows: Vec<Vec<Wide>> = (0..n)
        .map(|i| [&h[i * n..(i + 1) * n], &b[i..=i]].concat())
        .collect();
    for j in 0..n {
        let magnitude = |i: &usize| rows[*i][j].high.abs();
        let largest = (j..n).max_by(|a, b| magnitude(a).total_cmp(&magnitude(b)));
        rows.swap(j, largest.unwrap_or(j));
        let taken = rows[j].clone();
        for row in &mut rows[j + 1..] {
            let factor = row[j] / taken[j];
            for (x, y) in row.iter_mut().zip(&taken) {
                *x = *x - factor * *y;
            }
        }
    }
    let mut x = vec![Wide::ZERO; n];
    for i in (0..n).rev() {
        let known = dot(&rows[i][i + 1..n], &x[i + 1..]);
        x[i] = (rows[i][n] - known) / rows[i][i];
    }
    x
}

#[cfg(test)]
mod tests {
    use super::*;
    use crate::random::{with_exponent, Random};

    /// A number of some 100 digits as a whole number times 2^-100, from parts of 50 each.
    fn some(random: &mut Random) -> (Wide, i128) {
        let top = random.between(1 << 49, (1 << 50) - 1);
        let low = random.between(-(1 << 48), 1 << 48);
        let value = (i128::from(top) << 50) + i128::from(low);
        let high = Wide::from(top as f64 / (1i64 << 50) as f64);
        let scale = 2f64.powi(-100);
        (high + Wide::from(low as f64 * scale), value)
    }

    /// Against whole numbers: sums exactly, products and quotients within 2^-98 of themselves.
    #[test]
    fn against_whole_numbers() {
        let mut random = Random::new(7);
        for _ in 0..10_000 {
            let ((x, a), (y, b)) = (some(&mut random), some(&mut random));
            let whole = |w: Wide| -> i128 {
                let up = 2f64.powi(100);
                (w.high * up) as i128 + (w.low * up) as i128
            };
            assert!((whole(x + y) - (a + b)).abs() <= 2);
            assert!((whole(x - y) - (a - b)).abs() <= 1);
            // a·b/2^100, by halves of 50 digits.
            let (ah, al) = (a >> 50, a & ((1 << 50) - 1));
            let (bh, bl) = (b >> 50, b & ((1 << 50) - 1));
            let exact = ah * bh + ((ah * bl + al * bh) >> 50);
            assert!((whole(x * y) - exact).abs() <= 8);
            // The quotient gives its dividend back.
            assert!((whole((x / y) * y) - a).abs() <= 32);
            let r = x.root();
            assert!((whole(r * r) - a).abs() <= 32);
            assert_eq!(x < y, a < b);
        }
    }

    /// H·x gives b back, far below what f64 could tell.
    #[test]
    fn solutions() {
        let mut random = Random::new(8);
        for n in 1..=6 {
            let mut some = |count: usize| -> Vec<Wide> {
                let one = |_| Wide::from(with_exponent(&mut random, 0));
                (0..count).map(one).collect()
            };
            let (h, b) = (some(n * n), some(n));
            let x = solution(&h, &b);
            for (found, right) in times(&h, &x).into_iter().zip(&b) {
                assert!((found - *right).abs().high < 1e-26);
            }
        }
    }
}
