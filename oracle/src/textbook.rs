//! The second dogleg, with the textbook's first leg, from the text of request Six. argmin has no such
//! kernel, so what is here rests on the request alone. Letters are the request's; the arithmetic under
//! them is document 01's (vector.rs), and every operation rounds once.

use crate::formulas::{cauchy, minus, plus, square, times};
use crate::step::LARGEST_SIZE;
use crate::vector::{root, Matrix, Vector};

/// Where a step comes from.
#[derive(Clone, Copy, Debug, PartialEq, Eq)]
pub enum Leg {
    /// g·H·g is not above zero: Cauchy answers, and no inverse is taken.
    Cauchy,
    /// There is no inverse: refusal 6.
    NoInverse,
    /// pb, which is not longer than the radius.
    Whole,
    /// pu, cut to the radius.
    First,
    /// From pu on towards pb, up to the radius.
    Second,
}

/// The step, or refusal 6.
pub fn solve(g: &Vector, h: &Matrix, radius: f64) -> Result<Vector, u8> {
    by_leg(g, h, radius).1.ok_or(6)
}

/// The leg and its step; no step where there is no inverse.
pub fn by_leg(g: &Vector, h: &Matrix, radius: f64) -> (Leg, Option<Vector>) {
    let w = g.weighted_dot(h, g);
    // A NaN is not above zero.
    if !is_above_zero(w) {
        return (Leg::Cauchy, Some(cauchy(g, h, radius)));
    }
    let Some(inverse) = h.inverse() else {
        return (Leg::NoInverse, None);
    };
    let pb = times(&inverse.times(g), -1.0);
    if pb.norm() <= radius {
        return (Leg::Whole, Some(pb));
    }
    let pu = times(g, (-g.dot(g)) / w);
    let length = pu.norm();
    if length >= radius {
        return (Leg::First, Some(times(&pu, radius / length)));
    }
    let v = minus(&pb, &pu);
    let (c, k, u) = (pu.dot(&v), v.dot(&v), pu.dot(&pu));
    let d = square(radius);
    let t = root(square(c) + k * (d - u));
    (Leg::Second, Some(plus(&pu, &times(&v, (t - c) / k))))
}

/// The kernel as it is called, with the lengths of what it is lent and the refusals 1, 2, 4, 6 and 8, which
/// are those of the ported one (document 01). Epsilon and limit are not looked at.
pub fn called(
    n: u64,
    radius: f64,
    gradient: &[f64],
    hessian: &[f64],
    step_length: usize,
    scratch_length: usize,
) -> Result<Vector, u8> {
    if !(1..=LARGEST_SIZE).contains(&n) {
        return Err(1);
    }
    let n = n as usize;
    let lengths = [gradient.len(), hessian.len(), step_length, scratch_length];
    if lengths != [n, n * n, n, 2 * n * n + 8 * n] {
        return Err(1);
    }
    if !(radius.is_finite() && is_above_zero(radius)) {
        return Err(2);
    }
    let finite = |list: &[f64]| list.iter().all(|x| x.is_finite());
    if !(finite(gradient) && finite(hessian)) {
        return Err(4);
    }
    let hessian = Matrix::new(n, hessian.to_vec());
    let step = solve(&Vector(gradient.to_vec()), &hessian, radius)?;
    if !(finite(&step.0) && step.norm().is_finite()) {
        return Err(8);
    }
    Ok(step)
}

fn is_above_zero(x: f64) -> bool {
    x > 0.0
}

#[cfg(test)]
mod tests {
    use super::*;
    use Leg::*;

    fn by(g: &[f64], h: &[f64], radius: f64) -> (Leg, Option<Vec<f64>>) {
        let h = Matrix::new(g.len(), h.to_vec());
        let (leg, step) = by_leg(&Vector(g.to_vec()), &h, radius);
        (leg, step.map(|step| step.0))
    }

    const IDENTITY: [f64; 4] = [1.0, 0.0, 0.0, 1.0];

    /// The request's own example, and document 01's case 5, where the ported kernel stands still.
    #[test]
    fn examples_of_the_request() {
        let cut = (First, Some(vec![-1.5, -2.0]));
        assert_eq!(by(&[3.0, 4.0], &IDENTITY, 2.5), cut);
        let scale = 1.0 / 5.0;
        let short = (First, Some(vec![-3.0 * scale, -4.0 * scale]));
        assert_eq!(by(&[3.0, 4.0], &IDENTITY, 1.0), short);
        let whole = (Whole, Some(vec![-3.0, -4.0]));
        assert_eq!(by(&[3.0, 4.0], &IDENTITY, 5.0), whole);
    }

    /// H = diag(1, 1/4), g = (4, 4): pb = (−4, −16), g·g = 32 and g·H·g = 20, so pu = (−6.4, −6.4) but
    /// for rounding, of norm near 9.05.
    #[test]
    fn borders_by_hand() {
        let h = [1.0, 0.0, 0.0, 0.25];
        let (g, pu) = ([4.0, 4.0], -32.0 / 20.0 * 4.0);
        let length = Vector(vec![pu, pu]).norm();
        assert_eq!(by(&g, &h, length), (First, Some(vec![pu, pu])));
        assert_eq!(by(&g, &h, length.next_down()).0, First);
        assert_eq!(by(&g, &h, length.next_up()).0, Second);
        let whole = Vector(vec![4.0, 16.0]).norm();
        assert_eq!(by(&g, &h, whole), (Whole, Some(vec![-4.0, -16.0])));
        assert_eq!(by(&g, &h, whole.next_down()).0, Second);
    }

    /// H = diag(1, 1/7), g = (7, 7): but for rounding pb is (−7, −49), pu (−12.25, −12.25) and v
    /// (5.25, −36.75).
    #[test]
    fn the_second_leg() {
        let (leg, step) = by(&[7.0, 7.0], &[1.0, 0.0, 0.0, 1.0 / 7.0], 30.0);
        let step = Vector(step.unwrap());
        assert_eq!(leg, Second);
        assert!((step.norm() - 30.0).abs() < 1e-13);
        // It lies on the line from pu to pb.
        let share = (step.0[0] + 12.25) / 5.25;
        assert!((step.0[1] - (-12.25 - 36.75 * share)).abs() < 1e-12);
        assert!(share > 0.0 && share < 1.0);
    }

    /// Lengths before settings, settings before entries, and those before the kernel's own.
    #[test]
    fn refusals_in_order() {
        let call = |n, radius, g: &[f64], h: &[f64]| called(n, radius, g, h, 2, 24);
        let (g, nan) = ([3.0, 4.0], [f64::NAN, 4.0]);
        assert_eq!(call(2, 2.5, &g, &IDENTITY), Ok(Vector(vec![-1.5, -2.0])));
        for n in [0, 1, 3, 65, 2 | 1 << 32] {
            assert_eq!(call(n, f64::NAN, &nan, &IDENTITY), Err(1));
        }
        assert_eq!(call(2, f64::NAN, &nan, &[1.0; 3]), Err(1));
        assert_eq!(called(2, 1.0, &g, &IDENTITY, 1, 24), Err(1));
        assert_eq!(called(2, 1.0, &g, &IDENTITY, 2, 25), Err(1));
        for radius in [0.0, -0.0, -1.0, f64::NAN, f64::INFINITY] {
            assert_eq!(call(2, radius, &nan, &IDENTITY), Err(2));
        }
        assert_eq!(call(2, 2.5, &nan, &[1.0; 4]), Err(4));
        assert_eq!(call(2, 2.5, &g, &[f64::INFINITY; 4]), Err(4));
        assert_eq!(call(2, 2.5, &g, &[1.0; 4]), Err(6));
        assert_eq!(call(2, 2.5, &[0.0; 2], &IDENTITY), Err(8));
        // Cauchy's step of 2^600, whose norm overflows.
        assert_eq!(call(2, 4e180, &g, &[0.0; 4]), Err(8));
    }

    /// Without an inverse too: none is taken.
    #[test]
    fn no_curvature() {
        let by_cauchy = (Cauchy, Some(vec![-1.5, -2.0]));
        assert_eq!(by(&[3.0, 4.0], &[0.0; 4], 2.5), by_cauchy);
        let negative = [-1.0, 0.0, 0.0, 0.0];
        assert_eq!(by(&[3.0, 4.0], &negative, 2.5), by_cauchy);
        assert_eq!(by(&[3.0, 4.0], &[1.0; 4], 2.5), (NoInverse, None));
        // Infinities of both signs: g·H·g is a NaN.
        let huge = [1e200, -1e200, 1e200, -1e200];
        let (leg, step) = by(&[1e200, 1e200], &huge, 1.0);
        assert_eq!((leg, step.unwrap().len()), (Cauchy, 2));
    }
}
