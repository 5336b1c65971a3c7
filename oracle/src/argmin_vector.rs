//! What argmin's solvers ask of the vector type. Each is one rounded operation an entry, or what
//! vector.rs has for it.

use crate::vector::{Matrix, Vector};
use argmin::core::Error;
use argmin::{ArgminAdd, ArgminDot, ArgminInv, ArgminL2Norm, ArgminMul, ArgminSub, ArgminZeroLike};
use std::cell::Cell;
use std::fmt;

impl ArgminDot<Vector, f64> for Vector {
    fn dot(&self, other: &Vector) -> f64 {
        Vector::dot(self, other)
    }
}

/// The outer product.
impl ArgminDot<Vector, Matrix> for Vector {
    fn dot(&self, other: &Vector) -> Matrix {
        let products = self
            .0
            .iter()
            .flat_map(|x| other.0.iter().map(move |y| x * y));
        Matrix::new(self.0.len(), products.collect())
    }
}

impl ArgminDot<Vector, Vector> for Matrix {
    fn dot(&self, other: &Vector) -> Vector {
        self.times(other)
    }
}

impl ArgminAdd<Vector, Vector> for Vector {
    fn add(&self, other: &Vector) -> Vector {
        Vector(entrywise(&self.0, &other.0, |x, y| x + y))
    }
}

impl ArgminSub<Vector, Vector> for Vector {
    fn sub(&self, other: &Vector) -> Vector {
        Vector(entrywise(&self.0, &other.0, |x, y| x - y))
    }
}

impl ArgminMul<f64, Vector> for Vector {
    fn mul(&self, other: &f64) -> Vector {
        Vector(self.0.iter().map(|x| x * other).collect())
    }
}

impl ArgminL2Norm<f64> for Vector {
    fn l2_norm(&self) -> f64 {
        self.norm()
    }
}

impl ArgminZeroLike for Vector {
    fn zero_like(&self) -> Vector {
        Vector(vec![0.0; self.0.len()])
    }
}

impl ArgminAdd<Matrix, Matrix> for Matrix {
    fn add(&self, other: &Matrix) -> Matrix {
        let sums = entrywise(self.entries(), other.entries(), |x, y| x + y);
        Matrix::new(self.size(), sums)
    }
}

impl ArgminMul<f64, Matrix> for Matrix {
    fn mul(&self, other: &f64) -> Matrix {
        let products = self.entries().iter().map(|x| x * other).collect();
        Matrix::new(self.size(), products)
    }
}

impl ArgminInv<Matrix> for Matrix {
    fn inv(&self) -> Result<Matrix, Error> {
        let bound = if ZEROS_ALONE.get() {
            0.0
        } else {
            self.pivot_bound()
        };
        self.inverse_above(bound).ok_or_else(|| NoPivot.into())
    }
}

thread_local! {
    static ZEROS_ALONE: Cell<bool> = const { Cell::new(false) };
}

/// Runs argmin's code over the inverse as it was before request Two: only a pivot of zero is refused.
#[cfg(test)]
pub fn with_zero_pivots_alone<T>(run: impl FnOnce() -> T) -> T {
    ZEROS_ALONE.set(true);
    let done = run();
    ZEROS_ALONE.set(false);
    done
}

fn entrywise(a: &[f64], b: &[f64], apply: impl Fn(f64, f64) -> f64) -> Vec<f64> {
    assert_eq!(a.len(), b.len(), "entry by entry takes things of one size");
    a.iter().zip(b).map(|(&x, &y)| apply(x, y)).collect()
}

/// The inverse's refusal.
#[derive(Debug)]
pub struct NoPivot;

impl fmt::Display for NoPivot {
    fn fmt(&self, out: &mut fmt::Formatter) -> fmt::Result {
        write!(out, "a pivot is zero, or nearly")
    }
}

impl std::error::Error for NoPivot {}
