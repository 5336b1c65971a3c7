//! The numbers that solvers work with: f64 alone.

use std::fmt::Debug;
use std::ops::{Add, Div, Mul, Neg, Sub};

pub trait ArgminFloat:
    'static
    + Copy
    + Debug
    + PartialOrd
    + Add<Output = Self>
    + Sub<Output = Self>
    + Mul<Output = Self>
    + Div<Output = Self>
    + Neg<Output = Self>
    + Into<f64>
{
    fn from_f64(x: f64) -> Self;
    fn nan() -> Self;
    fn infinity() -> Self;
    fn epsilon() -> Self;
    fn is_nan(self) -> bool;
    fn is_infinite(self) -> bool;
    fn is_sign_positive(self) -> bool;
    fn abs(self) -> Self;
    fn sqrt(self) -> Self;
    fn min(self, other: Self) -> Self;
    fn powi(self, n: i32) -> Self;
}

impl ArgminFloat for f64 {
    fn from_f64(x: f64) -> f64 {
        x
    }

    fn nan() -> f64 {
        f64::NAN
    }

    fn infinity() -> f64 {
        f64::INFINITY
    }

    fn epsilon() -> f64 {
        f64::EPSILON
    }

    fn is_nan(self) -> bool {
        f64::is_nan(self)
    }

    fn is_infinite(self) -> bool {
        f64::is_infinite(self)
    }

    fn is_sign_positive(self) -> bool {
        f64::is_sign_positive(self)
    }

    fn abs(self) -> f64 {
        f64::abs(self)
    }

    fn sqrt(self) -> f64 {
        f64::sqrt(self)
    }

    fn min(self, other: f64) -> f64 {
        f64::min(self, other)
    }

    /// Written out by document 01's arithmetic: the standard library promises no exact result.
    fn powi(self, n: i32) -> f64 {
        match n {
            2 => self * self,
            3 => (self * self) * self,
            _ => unimplemented!("squares and cubes are all that the solvers take"),
        }
    }
}

#[cfg(test)]
mod tests {
    use super::*;

    /// The standard library's own gives the same bits here, so nothing hangs on the line above.
    #[test]
    fn powers_are_the_usual_ones() {
        let mut bits: u64 = 1;
        for _ in 0..100_000 {
            bits = bits.wrapping_mul(0x5851_f42d_4c95_7f2d).wrapping_add(12345);
            let x = f64::from_bits(bits);
            for n in [2, 3] {
                let (ours, usual) = (ArgminFloat::powi(x, n), std::hint::black_box(x).powi(n));
                assert!(ours.to_bits() == usual.to_bits() || ours.is_nan() && usual.is_nan());
            }
        }
    }

    #[test]
    fn the_smaller_passes_over_nan() {
        assert_eq!(ArgminFloat::min(1.0, f64::NAN), 1.0);
    }
}
