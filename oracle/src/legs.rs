//! Cases of the second dogleg that chance would hardly make, for program `replays`: scripts of one
//! proposal each, mostly of kind 3. They lie on every leg and on the borders between them, and have
//! numbers of every size. Some have the same case by the ported dogleg beside them.

use crate::cases::{
    beside, definite, diagonal, gradient, hessian, ill_conditioned, low_rank, near_identity,
    some_kind, symmetric, whole, Kind,
};
use crate::formulas::times;
use crate::input::words;
use crate::pivots;
use crate::random::{power_of_two, subnormal, with_exponent, Random};
use crate::session::{LARGEST_ALLOWANCE, PORTED, TEXTBOOK};
use crate::textbook::{self, Leg};
use crate::vector::{Matrix, Vector};
use std::io::{self, Write};

/// What a dogleg is asked.
#[derive(Clone, Debug)]
pub struct Case {
    pub gradient: Vector,
    pub hessian: Matrix,
    pub radius: f64,
}

/// A script, its case and its dogleg.
pub struct Asked {
    pub words: Vec<u64>,
    pub case: Case,
    pub dogleg: u64,
}

/// `count` scripts, each after a word with its length.
pub fn input(count: u64, seed: u64) -> Vec<u8> {
    let mut bytes = Vec::new();
    for asked in Asks::new(seed).take(count as usize) {
        words(&mut bytes, &[asked.words.len() as u64]);
        words(&mut bytes, &asked.words);
    }
    bytes
}

/// The scripts of a seed, without an end.
pub struct Asks {
    random: Random,
    /// The last one, where it is to come once more by the ported dogleg.
    again: Option<(Case, u64)>,
}

impl Asks {
    pub fn new(seed: u64) -> Asks {
        Asks {
            random: Random::new(seed),
            again: None,
        }
    }
}

impl Iterator for Asks {
    type Item = Asked;

    fn next(&mut self) -> Option<Asked> {
        let random = &mut self.random;
        let (case, kind, dogleg) = match self.again.take() {
            Some((case, kind)) => (case, kind, PORTED),
            None => {
                let case = any(random);
                let kind = if random.once_in(4) { 4 } else { 3 };
                if random.once_in(8) {
                    self.again = Some((case.clone(), kind));
                }
                (case, kind, TEXTBOOK)
            }
        };
        let words = script(random, kind, dogleg, &case);
        Some(Asked {
            words,
            case,
            dogleg,
        })
    }
}

/// The start and a proposal.
fn script(random: &mut Random, kind: u64, dogleg: u64, case: &Case) -> Vec<u64> {
    let n = case.gradient.0.len();
    let mut script = vec![kind, n as u64, 2];
    let mut push = |list: &[f64]| script.extend(list.iter().map(|x| x.to_bits()));
    if kind == 3 {
        push(&[case.radius, 100.0, 0.125, 1e-9]);
    } else {
        // Its magnitude counts. No tolerance: a session that is done asks no kernel.
        let sign = random.pick(&[1.0, 1.0, -1.0]);
        push(&[sign * case.radius, 0.0005, 1e-8, 0.0, 1e-9]);
    }
    script.extend([5, 2, random.pick(&[1, 3, LARGEST_ALLOWANCE]), dogleg]);
    let from = if random.once_in(4) { 8 } else { 0 };
    let point: Vec<f64> = (0..n).map(|_| whole(random, from)).collect();
    let mut push = |list: &[f64]| script.extend(list.iter().map(|x| x.to_bits()));
    push(&[whole(random, from)]);
    push(&point);
    push(&case.gradient.0);
    push(case.hessian.entries());
    script.extend([1, n as u64]);
    script
}

/// Mostly small.
fn size(random: &mut Random) -> usize {
    let (low, high) = match random.below(200) {
        0..190 => (1, 6),
        190..197 => (7, 20),
        197..199 => (21, 63),
        _ => (64, 64),
    };
    random.between(low, high) as usize
}

/// Any of them.
pub fn any(random: &mut Random) -> Case {
    match random.below(100) {
        0..8 => at(random, whole_radius),
        8..20 => at(random, radius_of_whole),
        20..36 => at(random, radius_of_first),
        36..45 => at(random, first_radius),
        45..66 => at(random, second_radius),
        66..76 => without_curvature(random),
        76..84 => without_inverse(random),
        84..92 => far(random),
        _ => wild(random),
    }
}

/// A gradient and a Hessian with g·H·g above zero, and a radius by the norms of pu and pb.
fn at(random: &mut Random, radius: impl Fn(&mut Random, f64, f64) -> f64) -> Case {
    let n = size(random);
    let (g, h) = curved(random, n);
    let (gradient, hessian) = (Vector(g), Matrix::new(n, h));
    let (pu, pb) = points(&gradient, &hessian);
    let radius = radius(random, pu.norm(), pb.map_or(1.0, |pb| pb.norm()));
    Case {
        gradient,
        hessian,
        radius: sound(random, radius),
    }
}

/// pu, and pb if there is one.
fn points(g: &Vector, h: &Matrix) -> (Vector, Option<Vector>) {
    let pb = h.inverse().map(|inverse| times(&inverse.times(g), -1.0));
    (times(g, -g.dot(g) / g.weighted_dot(h, g)), pb)
}

/// Another one where it is none that a session takes.
fn sound(random: &mut Random, radius: f64) -> f64 {
    if radius.is_finite() && radius > 0.0 {
        radius
    } else {
        random.pick(&[1.0, 2.5, 1e-3, 1e3, 1e-160, 1e155, 1e-300, 1e300, 5e-324])
    }
}

fn whole_radius(random: &mut Random, _pu: f64, pb: f64) -> f64 {
    pb * random.pick(&[1.0 + 1e-9, 1.001, 1.5, 4.0, 1e10])
}

fn radius_of_whole(random: &mut Random, _pu: f64, pb: f64) -> f64 {
    beside(random, pb)
}

fn radius_of_first(random: &mut Random, pu: f64, _pb: f64) -> f64 {
    beside(random, pu)
}

fn first_radius(random: &mut Random, pu: f64, _pb: f64) -> f64 {
    let share = random.pick(&[0.5, 0.9, 0.25, 1e-3, 1.0 - 1e-9, 1e-10, 0.0]);
    if share == 0.0 {
        // Any other digits.
        pu * with_exponent(random, -1).abs()
    } else {
        pu * share
    }
}

fn second_radius(random: &mut Random, pu: f64, pb: f64) -> f64 {
    let digits = with_exponent(random, -1).abs();
    let share = random.pick(&[0.5, 0.1, 1e-6, 1e-12, 1.0 - 1e-9, digits, digits - 0.5]);
    pu + (pb - pu) * share
}

/// Of any size, mostly definite. Some are not symmetric: then pb may lie anywhere.
fn curved(random: &mut Random, n: usize) -> (Vec<f64>, Vec<f64>) {
    let kind = random.pick(&[Kind::Whole, Kind::Whole, Kind::Ordinary]);
    let mut g: Vec<f64> = (0..n).map(|_| kind.number(random)).collect();
    if g.iter().all(|x| *x == 0.0) {
        g[0] = 3.0;
    }
    let mut h = match random.below(12) {
        // pb and pu meet, or nearly.
        0 => {
            let x = random.pick(&[1.0, 0.25, 3.0, 0.1]);
            diagonal(n, |_| x)
        }
        1 => near_identity(random, n),
        2 => ill_conditioned(random, n),
        3..6 => {
            let kind = random.pick(&[Kind::Whole, Kind::Ordinary]);
            diagonal(n, |_| kind.number(random).abs().max(0.125))
        }
        6 => {
            let mut h = definite(random, n);
            turn(random, n, &mut h);
            h
        }
        // Indefinite, with g along a direction that bends upwards.
        7 => diagonal(n, |i| if g[i] * g[i] >= 4.0 { 2.0 } else { -0.125 }),
        _ => definite(random, n),
    };
    if random.once_in(5) {
        scale(random, &mut g);
    }
    if random.once_in(5) {
        scale(random, &mut h);
    }
    (g, h)
}

/// Adds something that is not symmetric.
fn turn(random: &mut Random, n: usize, h: &mut [f64]) {
    for i in 0..n {
        for j in 0..i {
            let x = whole(random, 6);
            h[i * n + j] += x;
            h[j * n + i] -= x;
        }
    }
}

/// By a power of two; what would overflow stays as it is.
fn scale(random: &mut Random, numbers: &mut [f64]) {
    let some = random.between(-1060, 1000);
    let by = power_of_two(random.pick(&[-1050, -600, -530, -300, -60, 60, 300, 500, 520, some]));
    for x in numbers {
        if (*x * by).is_finite() {
            *x *= by;
        }
    }
}

/// g·H·g is negative, zero, a NaN, or as small as can be.
fn without_curvature(random: &mut Random) -> Case {
    let n = size(random);
    let mut g: Vec<f64> = (0..n).map(|_| whole(random, 4)).collect();
    let mut h = match random.below(12) {
        0 | 1 => definite(random, n).into_iter().map(|x| -x).collect(),
        2 => symmetric(random, n),
        3 => vec![0.0; n * n],
        // It is exactly zero: what is not symmetric falls out of it.
        4 => {
            let mut h = vec![0.0; n * n];
            turn(random, n, &mut h);
            h
        }
        // The same, or beside it by a digit, with an inverse.
        5 => {
            g = vec![random.pick(&[1.0, 3.0, 0.1]); n];
            let x = random.pick(&[1.0, 0.75, 0.1]);
            let mut h = diagonal(n, |i| if i % 2 == 0 { x } else { -x });
            if n % 2 == 0 {
                h[0] = beside(random, x);
            }
            h
        }
        // No inverse, and none is asked for.
        6 => low_rank(random, n).into_iter().map(|x| -x.abs()).collect(),
        7 => {
            g = vec![random.pick(&[0.0, -0.0]); n];
            definite(random, n)
        }
        // Infinities of both signs, or of one.
        8 | 9 => {
            g = (0..n).map(|_| with_exponent(random, 520).abs()).collect();
            let signs = random.once_in(4);
            (0..n * n)
                .map(|_| {
                    let x = with_exponent(random, 510);
                    if signs {
                        x.abs()
                    } else {
                        x
                    }
                })
                .collect()
        }
        // The least number above zero, or a little more; or the squares vanish.
        10 => {
            let e = random.pick(&[-537, -536, -530, -538, -540]);
            g = vec![0.0; n];
            let i = random.below(n as u64) as usize;
            g[i] = power_of_two(e) * random.pick(&[1.0, -1.0, 1.5]);
            diagonal(n, |_| 1.0)
        }
        _ => {
            g = (0..n).map(|_| f64::from_bits(subnormal(random))).collect();
            definite(random, n)
        }
    };
    if random.once_in(8) {
        scale(random, &mut h);
    }
    let radius = random.pick(&[1.0, 2.5, 5.0, 0.1, 1e-160, 1e-300, 1e155, 1e300]);
    Case {
        gradient: Vector(g),
        hessian: Matrix::new(n, h),
        radius,
    }
}

/// No inverse, or hardly one: by a pivot of zero, or one near the bound of refusal 6.
fn without_inverse(random: &mut Random) -> Case {
    let hessian = if random.once_in(3) {
        let n = size(random).max(2);
        Matrix::new(n, low_rank(random, n))
    } else {
        pivots::near(random, true)
    };
    let n = hessian.size();
    let e = random.between(-4, 4);
    let mut gradient = Vector(vec![1.0; n]);
    // Mostly with g·H·g above zero, so that an inverse is asked for.
    for _ in 0..8 {
        let g = (0..n).map(|_| with_exponent(random, e)).collect();
        gradient = Vector(g);
        if gradient.weighted_dot(&hessian, &gradient) > 0.0 {
            break;
        }
    }
    let (pu, pb) = points(&gradient, &hessian);
    let length = random.pick(&[pu.norm(), pb.map_or(1.0, |pb| pb.norm())]);
    let radius = length * random.pick(&[0.5, 1.0, 2.0]);
    Case {
        radius: sound(random, radius),
        gradient,
        hessian,
    }
}

/// Points so far off that a leg's numbers overflow, or vanish.
fn far(random: &mut Random) -> Case {
    let n = size(random).max(2);
    let near = random.between(-8, 8);
    let (g, h, radius) = match random.below(8) {
        // pu is infinite, or its norm is.
        0 => (515, -600, 0),
        1 => (near, -520, 0),
        2 => (near, -520, 515),
        // pu is a NaN, or nothing at all.
        3 => (520, near, 0),
        4 => (400, 500, -200),
        // All vanishes.
        5 => (-500, near, -515),
        6 => (-530, near, -531),
        _ => (near, 0, 0),
    };
    let gradient = Vector((0..n).map(|_| with_exponent(random, g)).collect());
    let entries = diagonal(n, |_| with_exponent(random, h).abs());
    let mut hessian = Matrix::new(n, entries);
    if (h, radius) == (0, 0) {
        // pb is far off along one direction, and pu is not.
        let e = random.pick(&[-39, -38, -30]);
        let down = random.pick(&[1.0, power_of_two(-500)]);
        let entries = diagonal(n, |i| if i == 0 { power_of_two(e) } else { 1.0 } * down);
        hessian = Matrix::new(n, entries);
        let (pu, _) = points(&gradient, &hessian);
        let radius = 2.0 * pu.norm();
        return Case {
            radius: sound(random, radius),
            gradient,
            hessian,
        };
    }
    Case {
        gradient,
        hessian,
        radius: with_exponent(random, radius).abs(),
    }
}

/// Any numbers.
fn wild(random: &mut Random) -> Case {
    let n = size(random);
    let gradient = Vector(gradient(random, n));
    let hessian = Matrix::new(n, hessian(random, n));
    let (pu, pb) = points(&gradient, &hessian);
    let other = some_kind(random).number(random).abs();
    let radius = random.pick(&[pu.norm(), pb.map_or(1.0, |pb| pb.norm()), 1.0, other]);
    let radius = radius * random.pick(&[1.0, 1.0, 0.5, 2.0]);
    Case {
        radius: sound(random, radius),
        gradient,
        hessian,
    }
}

/// What is counted, and whether a case of the second dogleg is that.
type Row = (&'static str, fn(&Seen) -> bool);

/// A case and what came of it.
struct Seen {
    /// g·H·g.
    w: f64,
    leg: Leg,
    step: Option<Vector>,
    pu: f64,
    pb: Option<f64>,
    radius: f64,
    has_inverse: bool,
    n: usize,
    /// What the second leg has under its root, radius² − pu·pu.
    room: f64,
}

impl Seen {
    fn new(case: &Case) -> Seen {
        let (g, h, radius) = (&case.gradient, &case.hessian, case.radius);
        let (leg, step) = textbook::by_leg(g, h, radius);
        let (pu, pb) = points(g, h);
        Seen {
            w: g.weighted_dot(h, g),
            leg,
            step,
            pu: pu.norm(),
            has_inverse: pb.is_some(),
            pb: pb.map(|pb| pb.norm()),
            radius,
            n: g.0.len(),
            room: radius * radius - pu.dot(&pu),
        }
    }

    /// Refusal 8.
    fn is_too_far(&self) -> bool {
        let finite = |step: &Vector| step.0.iter().all(|x| x.is_finite());
        let step = self.step.as_ref();
        step.is_some_and(|step| !(finite(step) && step.norm().is_finite()))
    }

    fn is_zero(&self) -> bool {
        let zero = |step: &Vector| step.0.iter().all(|x| *x == 0.0);
        self.step.as_ref().is_some_and(zero)
    }

    /// Outside, or on the second point's own border.
    fn asks_first(&self) -> bool {
        matches!(self.leg, Leg::First | Leg::Second)
    }
}

const ROWS: &[Row] = &[
    ("Cauchy answers", |s| {
        s.leg == Leg::Cauchy && !s.is_too_far()
    }),
    ("Cauchy is refused by 8", |s| {
        s.leg == Leg::Cauchy && s.is_too_far()
    }),
    ("  g.H.g is below zero", |s| s.w < 0.0),
    ("  g.H.g is zero", |s| s.w == 0.0),
    ("  g.H.g is a NaN", |s| s.w.is_nan()),
    ("  there is no inverse", |s| {
        s.leg == Leg::Cauchy && !s.has_inverse
    }),
    ("refused by 6", |s| s.leg == Leg::NoInverse),
    ("whole step", |s| s.leg == Leg::Whole && !s.is_too_far()),
    ("  norm of pb = radius", |s| {
        s.leg == Leg::Whole && s.pb == Some(s.radius)
    }),
    ("  just below it", |s| {
        s.leg == Leg::Whole && s.pb == Some(s.radius.next_down())
    }),
    ("first leg", |s| s.leg == Leg::First && !s.is_too_far()),
    ("  norm of pu = radius", |s| {
        s.leg == Leg::First && s.pu == s.radius
    }),
    ("  just above it", |s| {
        s.leg == Leg::First && s.pu == s.radius.next_up()
    }),
    ("  norm of pu is infinite", |s| {
        s.leg == Leg::First && s.pu.is_infinite()
    }),
    ("  norm of pb just above it", |s| {
        s.leg == Leg::First && s.pb == Some(s.radius.next_up())
    }),
    ("  the step is zero", |s| s.leg == Leg::First && s.is_zero()),
    ("first leg, refused by 8", |s| {
        s.leg == Leg::First && s.is_too_far()
    }),
    ("second leg", |s| s.leg == Leg::Second && !s.is_too_far()),
    ("  norm of pu just below radius", |s| {
        s.leg == Leg::Second && s.pu == s.radius.next_down()
    }),
    ("  norm of pb just above it", |s| {
        s.leg == Leg::Second && s.pb == Some(s.radius.next_up())
    }),
    ("  radius.radius - pu.pu is 0", |s| {
        s.leg == Leg::Second && s.room == 0.0
    }),
    ("second leg, refused by 8", |s| {
        s.leg == Leg::Second && s.is_too_far()
    }),
    ("g.H.g above zero, below 2^-1022", |s| {
        s.w > 0.0 && s.w < f64::MIN_POSITIVE
    }),
    ("g.H.g infinite", |s| s.w == f64::INFINITY),
    ("outside, n = 1", |s| s.asks_first() && s.n == 1),
    ("outside, n = 2 to 6", |s| {
        s.asks_first() && (2..=6).contains(&s.n)
    }),
    ("outside, n = 7 to 63", |s| {
        s.asks_first() && (7..=63).contains(&s.n)
    }),
    ("outside, n = 64", |s| s.asks_first() && s.n == 64),
];

/// How many of these cases lie on each leg.
pub fn report(count: u64, seed: u64, out: &mut impl Write) -> io::Result<()> {
    let (counts, ported) = counted(count, seed);
    for ((name, _), counted) in ROWS.iter().zip(counts) {
        writeln!(out, "{counted:8}  {name}")?;
    }
    writeln!(out, "{ported:8}  the ported dogleg, beside")?;
    writeln!(out, "{count:8}  all")
}

fn counted(count: u64, seed: u64) -> (Vec<u64>, u64) {
    let (mut counts, mut ported) = (vec![0; ROWS.len()], 0);
    for asked in Asks::new(seed).take(count as usize) {
        if asked.dogleg == PORTED {
            ported += 1;
            continue;
        }
        let seen = Seen::new(&asked.case);
        for (counted, (_, is)) in counts.iter_mut().zip(ROWS) {
            *counted += u64::from(is(&seen));
        }
    }
    (counts, ported)
}

#[cfg(test)]
mod tests {
    use super::*;
    use crate::scripts;
    use crate::session::Formulas;

    /// Nothing is missing from the mix; and no leg has less than its share.
    #[test]
    fn every_leg_comes_up() {
        let (counts, ported) = counted(4000, 1);
        for ((name, _), counted) in ROWS.iter().zip(&counts) {
            assert!(*counted > 0, "{name}");
        }
        let many = |wanted: &str| {
            let place = ROWS.iter().position(|(name, _)| *name == wanted).unwrap();
            counts[place]
        };
        for name in ["Cauchy answers", "whole step", "first leg", "second leg"] {
            assert!(many(name) > 300, "{name}: {}", many(name));
        }
        for name in [
            "refused by 6",
            "  norm of pu = radius",
            "  norm of pb = radius",
        ] {
            assert!(many(name) > 60, "{name}: {}", many(name));
        }
        assert!(ported > 200);
    }

    /// Each starts, and proposes or is refused by 6 or 8; the same seed gives the same bytes.
    #[test]
    fn scripts_are_sound() {
        let bytes = input(1000, 3);
        let mut out = Vec::new();
        let tally = scripts::answer(&bytes, &Formulas, &mut out).unwrap();
        let both = |row| tally.get(row, 1) + tally.get(row, 3);
        assert_eq!(both("start"), 1000);
        let said = ["proposed", "refused 6", "refused 8"].map(both);
        assert_eq!(said.iter().sum::<u64>(), 1000);
        assert!(said.iter().all(|counted| *counted > 0), "{said:?}");
        assert!(bytes == input(1000, 3) && bytes != input(1000, 4));
    }
}
