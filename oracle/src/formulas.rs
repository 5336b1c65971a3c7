//! The three kernels from the text of document 01, line by line. They share no code with argmin's
//! files, so that text and files can be held against each other. Letters are the document's.

use crate::step::{Call, Kernel};
use crate::textbook;
use crate::vector::{root, Matrix, Vector};

/// The step and its passes, or refusal 6 or 7.
pub fn solve(call: &Call) -> Result<(Vector, u64), u8> {
    let (g, h, radius) = (&call.gradient, &call.hessian, call.radius);
    match call.kernel {
        Kernel::Cauchy => Ok((cauchy(g, h, radius), 0)),
        Kernel::Dogleg => Ok((dogleg(g, h, radius)?, 0)),
        Kernel::Steihaug => steihaug(g, h, radius, call.epsilon, call.limit),
        // The request's own, which stands in no document.
        Kernel::Textbook => Ok((textbook::solve(g, h, radius)?, 0)),
    }
}

pub(crate) fn cauchy(g: &Vector, h: &Matrix, radius: f64) -> Vector {
    let w = g.weighted_dot(h, g);
    let norm = g.norm();
    let tau = if w <= 0.0 {
        1.0
    } else {
        let ratio = cube(norm) / (radius * w);
        // 1 if the ratio is NaN.
        if ratio < 1.0 {
            ratio
        } else {
            1.0
        }
    };
    times(g, ((-tau) * radius) / norm)
}

fn dogleg(g: &Vector, h: &Matrix, radius: f64) -> Result<Vector, u8> {
    let inverse = h.inverse().ok_or(6)?;
    let pb = times(&inverse.times(g), -1.0);
    if pb.norm() <= radius {
        return Ok(pb);
    }
    let pu = times(g, (-g.dot(g)) / g.weighted_dot(h, g));
    let v = minus(&pb, &pu);
    let (c, k, u) = (pu.dot(&v), v.dot(&v), pu.dot(&pu));
    let d = square(radius);
    let t = root((square(c) + d * k) - k * u);
    let candidates = [
        -((t + c) - k) / k,
        ((t - c) + k) / k,
        ((2.0 * c + d) - u) / (2.0 * c),
    ];
    let mut tau = 0.0;
    for candidate in candidates {
        if (0.0..=2.0).contains(&candidate) && candidate >= tau {
            tau = candidate;
        }
    }
    Ok(if tau < 1.0 {
        times(&pu, tau)
    } else {
        plus(&pu, &times(&v, tau - 1.0))
    })
}

fn steihaug(
    g: &Vector,
    h: &Matrix,
    radius: f64,
    epsilon: f64,
    limit: u64,
) -> Result<(Vector, u64), u8> {
    let norm = g.norm();
    let mut p = Vector(vec![0.0; g.0.len()]);
    let mut r = g.clone();
    let mut d = times(&r, -1.0);
    let mut rtr = r.dot(&r);
    let mut passes = 0;
    loop {
        if norm < epsilon || passes == limit {
            return Ok((p, passes));
        }
        passes += 1;
        let hd = h.times(&d);
        let dhd = d.dot(&hd);
        if dhd <= 0.0 {
            let tau = by_model(&roots(&p, &d, radius), &p, &d, g, h)?;
            return Ok((plus(&p, &times(&d, tau)), passes));
        }
        let alpha = rtr / dhd;
        let q = plus(&p, &times(&d, alpha));
        if q.norm() >= radius {
            let tau = forward(&roots(&p, &d, radius))?;
            return Ok((plus(&p, &times(&d, tau)), passes));
        }
        let s = plus(&r, &times(&hd, alpha));
        if s.norm() < epsilon * norm {
            return Ok((q, passes));
        }
        let sts = s.dot(&s);
        let beta = sts / rtr;
        d = plus(&times(&s, -1.0), &times(&d, beta));
        p = q;
        r = s;
        rtr = sts;
    }
}

/// Two roots, or three.
fn roots(p: &Vector, d: &Vector, radius: f64) -> Vec<f64> {
    let (a, b, c) = (p.dot(p), d.dot(d), p.dot(d));
    let delta = square(radius);
    let t = root(((-a) * b + b * delta) + square(c));
    let mut roots = vec![-(t + c) / b, (t - c) / b];
    if !roots.iter().all(|tau| tau.is_finite()) {
        roots.push((delta - a) / (2.0 * c));
    }
    roots
}

/// The root of the least model, the earliest of equals; refusal 7 if any model is NaN.
fn by_model(roots: &[f64], p: &Vector, d: &Vector, g: &Vector, h: &Matrix) -> Result<f64, u8> {
    let mut best: Option<(f64, f64)> = None;
    for &tau in roots {
        let x = plus(p, &times(d, tau));
        let model = g.dot(&x) + 0.5 * x.weighted_dot(h, &x);
        if model.is_nan() {
            return Err(7);
        }
        if best.is_none_or(|(_, least)| model < least) {
            best = Some((tau, model));
        }
    }
    best.map(|(tau, _)| tau).ok_or(7)
}

/// The largest root that is at least 0, the earliest of equals; refusal 7 if there is none.
fn forward(roots: &[f64]) -> Result<f64, u8> {
    let mut best: Option<f64> = None;
    for &tau in roots {
        if tau >= 0.0 && best.is_none_or(|largest| tau > largest) {
            best = Some(tau);
        }
    }
    best.ok_or(7)
}

pub(crate) fn square(x: f64) -> f64 {
    x * x
}

fn cube(x: f64) -> f64 {
    (x * x) * x
}

pub(crate) fn times(a: &Vector, x: f64) -> Vector {
    Vector(a.0.iter().map(|y| y * x).collect())
}

pub(crate) fn plus(a: &Vector, b: &Vector) -> Vector {
    Vector(a.0.iter().zip(&b.0).map(|(x, y)| x + y).collect())
}

pub(crate) fn minus(a: &Vector, b: &Vector) -> Vector {
    Vector(a.0.iter().zip(&b.0).map(|(x, y)| x - y).collect())
}
