//! The second dogleg against the textbook's geometry, apart from how f64 rounds: the kernel runs in f64,
//! and wide numbers (wide.rs) tell how long its step is, what the model says of it beside Cauchy's point,
//! and how far it is from the exact point of the dogleg.

use crate::formulas::cauchy;
use crate::random::{power_of_two, with_exponent, Random};
use crate::textbook::{self, Leg};
use crate::vector::{Matrix, Vector};
use crate::wide::{added, dot, norm, scaled, solution, times, wide, Wide};
use std::io::{self, Write};

/// The largest condition number in binary digits, as `stretched` reads them: 10,000 = 2^13·(1 + 0.2207).
const WORST_CONDITION: f64 = 13.2207;

/// A case, and where the radius was meant to lie.
struct Case {
    gradient: Vector,
    hessian: Matrix,
    radius: f64,
    condition: f64,
}

/// What is measured of a step; what does not apply is not above anything.
struct Measured {
    leg: Leg,
    /// ‖step‖ − radius, in units in the last place of the radius.
    long: Option<f64>,
    short: Option<f64>,
    /// The model at the step above that at Cauchy's point, as a share of the latter's fall.
    excess: f64,
    /// The distance from the exact point, as a share of its length.
    off: f64,
}

/// The worst of one sort, and the condition number there.
#[derive(Clone, Copy)]
struct Worst {
    value: f64,
    condition: f64,
}

const NONE: Worst = Worst {
    value: f64::NEG_INFINITY,
    condition: f64::NAN,
};

impl Worst {
    fn take(&mut self, value: f64, condition: f64) {
        if value > self.value {
            *self = Worst { value, condition };
        }
    }
}

/// The legs that are measured.
const LEGS: [(Leg, &str); 3] = [
    (Leg::Whole, "whole step"),
    (Leg::First, "first leg"),
    (Leg::Second, "second leg"),
];

/// What is told of each.
const SORTS: [&str; 4] = [
    "longer than the radius, in units in its last place",
    "shorter than the radius, the same",
    "model above Cauchy's, as a share of Cauchy's fall",
    "distance from the exact point, as a share of its length",
];

struct Report {
    worst: [[Worst; 4]; 3],
    counted: [u64; 3],
    /// Cases where rounding chose another leg than exact numbers would.
    other_leg: u64,
}

/// Writes the worst of each sort on each leg.
pub fn report(count: u64, seed: u64, out: &mut impl Write) -> io::Result<()> {
    let report = measured(count, seed);
    writeln!(
        out,
        "{count} cases, n 1 to 6, condition up to {:.0}; {} on another leg than exactly",
        stretched(WORST_CONDITION),
        report.other_leg
    )?;
    for (place, (_, name)) in LEGS.iter().enumerate() {
        writeln!(out, "{name}: {} cases", report.counted[place])?;
        for (worst, sort) in report.worst[place].iter().zip(SORTS) {
            if worst.value > f64::NEG_INFINITY {
                writeln!(
                    out,
                    "  {:>12.4e}  {sort} (condition {:.3e})",
                    worst.value, worst.condition
                )?;
            }
        }
    }
    Ok(())
}

fn measured(count: u64, seed: u64) -> Report {
    let mut random = Random::new(seed);
    let mut report = Report {
        worst: [[NONE; 4]; 3],
        counted: [0; 3],
        other_leg: 0,
    };
    for _ in 0..count {
        let case = case(&mut random);
        let (measured, exact_leg) = measure(&case);
        if measured.leg != exact_leg {
            report.other_leg += 1;
        }
        let Some(place) = LEGS.iter().position(|(leg, _)| *leg == measured.leg) else {
            panic!("a definite matrix has a leg");
        };
        report.counted[place] += 1;
        let values = [
            measured.long,
            measured.short,
            Some(measured.excess),
            Some(measured.off),
        ];
        for (worst, value) in report.worst[place].iter_mut().zip(values) {
            if let Some(value) = value {
                worst.take(value, case.condition);
            }
        }
    }
    report
}

fn measure(case: &Case) -> (Measured, Leg) {
    let (leg, step) = textbook::by_leg(&case.gradient, &case.hessian, case.radius);
    let step = wide(&step.expect("a definite matrix has an inverse").0);
    let (g, h) = (wide(&case.gradient.0), wide(case.hessian.entries()));
    let radius = Wide::from(case.radius);
    let model = |x: &[Wide]| dot(&g, x) + Wide::from(0.5) * dot(x, &times(&h, x));
    let by_cauchy = wide(&cauchy(&case.gradient, &case.hessian, case.radius).0);
    let fall = model(&by_cauchy);
    let (exact_leg, exact) = exact(&g, &h, radius);
    let length = norm(&step);
    let unit = Wide::from(case.radius.next_up() - case.radius);
    let beyond = f64::from((length - radius) / unit);
    let cut = leg != Leg::Whole;
    let apart = norm(&added(&step, &scaled(&exact, Wide::from(-1.0))));
    let measured = Measured {
        leg,
        long: cut.then_some(beyond),
        short: cut.then_some(-beyond),
        excess: f64::from((model(&step) - fall) / fall.abs()),
        off: f64::from(apart / norm(&exact)),
    };
    (measured, exact_leg)
}

/// The dogleg's point by the textbook, in wide numbers.
fn exact(g: &[Wide], h: &[Wide], radius: Wide) -> (Leg, Vec<Wide>) {
    let minus = Wide::from(-1.0);
    let whole = scaled(&solution(h, g), minus);
    if norm(&whole) <= radius {
        return (Leg::Whole, whole);
    }
    let along = -(dot(g, g) / dot(g, &times(h, g)));
    let first = scaled(g, along);
    let length = norm(&first);
    if length >= radius {
        return (Leg::First, scaled(&first, radius / length));
    }
    // |first + s·v| = radius with s from 0 to 1.
    let v = added(&whole, &scaled(&first, minus));
    let (c, k) = (dot(&first, &v), dot(&v, &v));
    let room = (radius - length) * (radius + length);
    let s = room / ((c * c + k * room).root() + c);
    (Leg::Second, added(&first, &scaled(&v, s)))
}

/// Definite, with eigenvalues up to 10,000 times the least, turned any way; the radius on either leg, or
/// beyond.
fn case(random: &mut Random) -> Case {
    let n = random.between(1, 6) as usize;
    let spread = share(random) * WORST_CONDITION;
    let eigenvalue = |_| stretched(share(random) * spread);
    let mut eigenvalues: Vec<f64> = (0..n).map(eigenvalue).collect();
    if n > 1 {
        (eigenvalues[0], eigenvalues[1]) = (1.0, stretched(spread));
    }
    let smallest = eigenvalues.iter().copied().fold(f64::INFINITY, f64::min);
    let largest = eigenvalues.iter().copied().fold(0.0, f64::max);
    let hessian = turned(random, &eigenvalues);
    let scale = random.between(-3, 3);
    let g = (0..n).map(|_| with_exponent(random, scale)).collect();
    let gradient = Vector(g);
    let (g, h) = (wide(&gradient.0), wide(hessian.entries()));
    let whole = f64::from(norm(&solution(&h, &g)));
    let along = dot(&g, &g) / dot(&g, &times(&h, &g));
    let first = f64::from(norm(&scaled(&g, along)));
    let radius = match random.below(8) {
        0 => whole * (1.0 + share(random)),
        // With one parameter there is no second leg.
        4.. if n > 1 => first + (whole - first) * share(random),
        _ => first * share(random).max(1e-3),
    };
    Case {
        gradient,
        hessian,
        radius,
        condition: largest / smallest,
    }
}

/// Nearly 2^x, by what is the same on every machine: a power of two, and between two of them a line.
fn stretched(x: f64) -> f64 {
    power_of_two(x as i64) * (1.0 + (x - x.floor()))
}

/// From 0 to 1.
fn share(random: &mut Random) -> f64 {
    random.below(1 << 53) as f64 / (1u64 << 53) as f64
}

/// Q·D·Qᵀ for a diagonal D and some turns Q; symmetric to the last digit.
fn turned(random: &mut Random, eigenvalues: &[f64]) -> Matrix {
    let n = eigenvalues.len();
    let mut h = vec![0.0; n * n];
    for (i, x) in eigenvalues.iter().enumerate() {
        h[i * n + i] = *x;
    }
    for i in 0..n {
        for j in 0..i {
            // A turn of the plane of i and j, by its half angle's tangent.
            let t = 2.0 * share(random) - 1.0;
            let (cosine, sine) = ((1.0 - t * t) / (1.0 + t * t), 2.0 * t / (1.0 + t * t));
            for k in 0..n {
                let (x, y) = (h[i * n + k], h[j * n + k]);
                h[i * n + k] = cosine * x - sine * y;
                h[j * n + k] = sine * x + cosine * y;
            }
            for k in 0..n {
                let (x, y) = (h[k * n + i], h[k * n + j]);
                h[k * n + i] = cosine * x - sine * y;
                h[k * n + j] = sine * x + cosine * y;
            }
        }
    }
    for i in 0..n {
        for j in 0..i {
            h[j * n + i] = h[i * n + j];
        }
    }
    Matrix::new(n, h)
}

#[cfg(test)]
mod tests {
    use super::*;

    /// On every leg the step is as long as the radius but for rounding, lies at the exact point, and its
    /// model is not above Cauchy's but for rounding.
    #[test]
    fn the_textbook_s_geometry() {
        let report = measured(3000, 1);
        assert!(report.counted.iter().all(|counted| *counted > 200));
        assert_eq!(report.other_leg, 0);
        let [whole, first, second] = report.worst.map(|leg| leg.map(|worst| worst.value));
        assert!(whole[2] < 1e-15 && whole[3] < 1e-10, "{whole:?}");
        assert!(first[0] < 8.0 && first[1] < 8.0, "{first:?}");
        assert!(first[2] < 1e-13 && first[3] < 1e-13, "{first:?}");
        assert!(second[2] < 1e-13 && second[3] < 1e-9, "{second:?}");
    }

    /// What it measures with: the ported dogleg's zero step, and a step that is cut elsewhere, would be seen.
    #[test]
    fn a_wrong_step_would_be_seen() {
        let case = Case {
            gradient: Vector(vec![3.0, 4.0]),
            hessian: Matrix::new(2, vec![1.0, 0.0, 0.0, 1.0]),
            radius: 2.5,
            condition: 1.0,
        };
        let (measured, exact_leg) = measure(&case);
        assert_eq!((measured.leg, exact_leg), (Leg::First, Leg::First));
        assert_eq!((measured.long, measured.excess), (Some(0.0), 0.0));
        let (g, h) = (wide(&[3.0, 4.0]), wide(&[1.0, 0.0, 0.0, 4.0]));
        let (leg, point) = exact(&g, &h, Wide::from(2.0));
        // pb = (−3, −1), pu = −(25/73)·(3, 4), of norm 1.71: the second leg, from there on to length 2.
        assert_eq!(leg, Leg::Second);
        assert!((f64::from(norm(&point)) - 2.0).abs() < 1e-30);
        assert!(f64::from(point[0]) < -75.0 / 73.0 && f64::from(point[0]) > -3.0);
    }
}
