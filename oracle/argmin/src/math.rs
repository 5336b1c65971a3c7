//! The vector arithmetic that the solvers ask of their types.

use crate::core::Error;

/// A dot, a product of matrix and vector, or an outer product: the result's type says which.
pub trait ArgminDot<T, U> {
    fn dot(&self, other: &T) -> U;
}

/// self + other
pub trait ArgminAdd<T, U> {
    fn add(&self, other: &T) -> U;
}

/// self − other
pub trait ArgminSub<T, U> {
    fn sub(&self, other: &T) -> U;
}

/// Each entry times a number.
pub trait ArgminMul<T, U> {
    fn mul(&self, other: &T) -> U;
}

pub trait ArgminL2Norm<U> {
    fn l2_norm(&self) -> U;
}

pub trait ArgminInv<T> {
    fn inv(&self) -> Result<T, Error>;
}

/// +0 throughout.
pub trait ArgminZeroLike {
    fn zero_like(&self) -> Self;
}

/// self · (w · v), as document 01 has the weighted dot.
pub trait ArgminWeightedDot<T, U, V> {
    fn weighted_dot(&self, w: &V, v: &T) -> U;
}

impl<T, U, V> ArgminWeightedDot<T, U, V> for T
where
    T: ArgminDot<T, U>,
    V: ArgminDot<T, T>,
{
    fn weighted_dot(&self, w: &V, v: &T) -> U {
        self.dot(&w.dot(v))
    }
}

/// The norm of a scalar. Document 01 takes it as its magnitude; nothing else says so here.
impl ArgminL2Norm<f64> for f64 {
    fn l2_norm(&self) -> f64 {
        self.abs()
    }
}
