//! Wrong programs: the three kernels with one slip put in. They show that the cases of `cases` tell
//! each slip apart from what document 01 says.

use crate::cases::Cases;
use crate::formulas;
use crate::step::{self, Call, Kernel};
use crate::vector::{largest, root, Matrix, Vector, PIVOT_SHARE};
use std::io::{self, Write};

macro_rules! slips {
    ($($name:ident: $text:literal,)*) => {
        #[derive(Clone, Copy, Debug, PartialEq, Eq)]
        enum Slip {
            $($name,)*
        }

        /// Each slip and what it is.
        const SLIPS: &[(Slip, &str)] = &[$((Slip::$name, $text)),*];
    };
}

slips! {
    Nothing: "no slip (must be 0)",
    RefusesAll: "everything is refused by 8",
    ZeroStep: "the step is always zero",
    SquareForCube: "Cauchy: the square of the norm for its cube",
    TauNotCapped: "Cauchy: tau not capped at 1",
    TauNan: "Cauchy: a NaN ratio is tau",
    CurvatureUnread: "Cauchy: w at most 0 not looked at",
    PivotZero: "Dogleg: only a pivot of zero refused",
    PivotStrict: "Dogleg: a pivot at the bound taken",
    PivotShare: "Dogleg: 2^-41 for 2^-40",
    PivotSigned: "Dogleg: a pivot's magnitude not taken",
    PivotColumn: "Dogleg: the largest magnitude of the pivot's column",
    PivotRows: "Dogleg: the largest magnitude of [H | I]",
    PivotAnew: "Dogleg: the largest magnitude of the rows under way, anew in each column",
    BestScaled: "Dogleg: pb scaled to the radius where it is to be returned",
    BestTurned: "Dogleg: norm of pb >= radius for <=",
    BestStrict: "Dogleg: norm of pb < radius for <=",
    SecondCandidateFirst: "Dogleg: the second candidate before the first",
    CandidatesBackwards: "Dogleg: candidates from the last to the first",
    CandidateStrict: "Dogleg: a candidate replaces only a smaller one",
    CandidateAbove: "Dogleg: candidates above 2 kept",
    CandidateTwo: "Dogleg: a candidate of 2 not kept",
    FirstKept: "Dogleg: the first kept candidate is taken",
    TextbookLeg: "Dogleg: first leg cut where the textbook cuts it",
    LegAtOne: "Dogleg: tau <= 1 for < 1",
    OutsideStrict: "Steihaug: norm of q > radius for >=",
    CurvatureStrict: "Steihaug: d.H.d < 0 for <= 0",
    SecondRootFirst: "Steihaug: the second root first",
    LatestTie: "Steihaug: of equal models the latest",
    ThirdAlways: "Steihaug: third root always",
    ThirdNever: "Steihaug: third root never",
    ThirdForNan: "Steihaug: third root for NaN alone",
    NanSkipped: "Steihaug: a NaN model passed over",
    ForwardForModel: "Steihaug: the forward root where the model decides",
    ModelForForward: "Steihaug: the model decides where the forward root is taken",
    ForwardSmallest: "Steihaug: the smallest root >= 0",
    MorePasses: "Steihaug: passes + 1",
    OnePass: "Steihaug: always 1 pass",
    EndedPasses: "Steihaug: only passes that went on are counted",
    LimitLate: "Steihaug: one pass more than the limit",
    StartNotStrict: "Steihaug: norm of g <= epsilon for <",
    EndNotStrict: "Steihaug: norm of s <= for <",
    EndNotScaled: "Steihaug: norm of s < epsilon alone",
    RootOfBelowOne: "the root of the number just below 1 is 1",
    RootRoundedDown: "roots rounded towards zero",
    DotBackwards: "dots from the last index down",
    DotFused: "products in dots not rounded",
}

use Slip::*;

/// Writes for each slip how many of these cases it answers wrongly.
pub fn report(count: u64, seed: u64, out: &mut impl Write) -> io::Result<()> {
    writeln!(
        out,
        "of {count} cases, answered otherwise by a program with:"
    )?;
    for (&(_, text), differing) in SLIPS.iter().zip(counts(count, seed)) {
        writeln!(out, "{differing:8}  {text}")?;
    }
    Ok(())
}

/// For each slip how many answers differ.
fn counts(count: u64, seed: u64) -> Vec<u64> {
    let mut counts = vec![0; SLIPS.len()];
    for case in Cases::new(seed).take(count as usize) {
        let right = step::answer(&case, formulas::solve);
        for (counted, &(slip, _)) in counts.iter_mut().zip(SLIPS) {
            let wrong = step::answer(&case, |call| Wrong(slip).solve(call));
            *counted += u64::from(!wrong.same(&right));
        }
    }
    counts
}

/// The kernels with this slip.
struct Wrong(Slip);

impl Wrong {
    fn is(&self, slip: Slip) -> bool {
        self.0 == slip
    }

    fn solve(&self, call: &Call) -> Result<(Vector, u64), u8> {
        let (g, h, radius) = (&call.gradient, &call.hessian, call.radius);
        let (step, passes) = match call.kernel {
            Kernel::Cauchy => (self.cauchy(g, h, radius), 0),
            Kernel::Dogleg => (self.dogleg(g, h, radius)?, 0),
            Kernel::Steihaug => self.steihaug(call)?,
            Kernel::Textbook => unreachable!("program `step` has no such kernel"),
        };
        match self.0 {
            RefusesAll => Err(8),
            ZeroStep => Ok((scaled(&step, 0.0), passes)),
            _ => Ok((step, passes)),
        }
    }

    fn cauchy(&self, g: &Vector, h: &Matrix, radius: f64) -> Vector {
        let w = self.weighted(g, h, g);
        let norm = self.norm(g);
        let power = if self.is(SquareForCube) {
            norm * norm
        } else {
            norm * norm * norm
        };
        let ratio = power / (radius * w);
        let tau = if w <= 0.0 && !self.is(CurvatureUnread) {
            1.0
        } else if self.is(TauNotCapped) || self.is(TauNan) && ratio.is_nan() {
            ratio
        } else {
            f64::min(1.0, ratio)
        };
        scaled(g, -tau * radius / norm)
    }

    fn inverse(&self, h: &Matrix) -> Option<Matrix> {
        let (n, bound) = (h.size(), h.pivot_bound());
        match self.0 {
            PivotZero => h.inverse_above(0.0),
            PivotStrict => h.inverse_unless(|pivot, _, _| pivot.abs() < bound),
            PivotShare => h.inverse_above(0.5 * PIVOT_SHARE * largest(h.entries())),
            PivotSigned => h.inverse_unless(|pivot, _, _| pivot <= bound),
            PivotColumn => h.inverse_unless(|pivot, _, j| {
                let column: Vec<f64> = (0..n).map(|i| h.row(i)[j]).collect();
                pivot.abs() <= PIVOT_SHARE * largest(&column)
            }),
            PivotRows => h.inverse_above(PIVOT_SHARE * largest(h.entries()).max(1.0)),
            PivotAnew => h.inverse_unless(|pivot, rows, _| {
                let left: Vec<f64> = rows.iter().flat_map(|row| row[..n].to_vec()).collect();
                pivot.abs() <= PIVOT_SHARE * largest(&left)
            }),
            _ => h.inverse(),
        }
    }

    fn dogleg(&self, g: &Vector, h: &Matrix, radius: f64) -> Result<Vector, u8> {
        let pb = scaled(&self.product(&self.inverse(h).ok_or(6)?, g), -1.0);
        let norm = self.norm(&pb);
        let inside = match self.0 {
            BestTurned => norm >= radius,
            BestStrict => norm < radius,
            _ => norm <= radius,
        };
        if inside {
            let scale = radius / norm;
            return Ok(if self.is(BestScaled) {
                scaled(&pb, scale)
            } else {
                pb
            });
        }
        let pu = scaled(g, -self.dot(g, g) / self.weighted(g, h, g));
        let v = added(&pb, &scaled(&pu, -1.0));
        let (c, k, u) = (self.dot(&pu, &v), self.dot(&v, &v), self.dot(&pu, &pu));
        let delta = radius * radius;
        if self.is(TextbookLeg) && u >= delta {
            return Ok(scaled(&pu, radius / self.root(u)));
        }
        let t = self.root(c * c + delta * k - k * u);
        let mut candidates = [
            -(t + c - k) / k,
            (t - c + k) / k,
            (2.0 * c + delta - u) / (2.0 * c),
        ];
        match self.0 {
            SecondCandidateFirst => candidates.swap(0, 1),
            CandidatesBackwards => candidates.reverse(),
            _ => {}
        }
        let kept = candidates.into_iter().filter(|&tau| match self.0 {
            CandidateAbove => tau >= 0.0 && tau.is_finite(),
            CandidateTwo => (0.0..2.0).contains(&tau),
            _ => (0.0..=2.0).contains(&tau),
        });
        let tau = match self.0 {
            FirstKept => kept.take(1).fold(0.0, |_, tau| tau),
            CandidateStrict => kept.fold(0.0, |held, tau| if tau > held { tau } else { held }),
            _ => kept.fold(0.0, |held, tau| if tau >= held { tau } else { held }),
        };
        Ok(if tau < 1.0 || tau == 1.0 && self.is(LegAtOne) {
            scaled(&pu, tau)
        } else {
            added(&pu, &scaled(&v, tau - 1.0))
        })
    }

    fn steihaug(&self, call: &Call) -> Result<(Vector, u64), u8> {
        let (step, begun, ended_inside) = self.passes(call)?;
        let passes = match self.0 {
            MorePasses => begun + 1,
            OnePass => 1,
            EndedPasses => begun - u64::from(ended_inside),
            _ => begun,
        };
        Ok((step, passes))
    }

    /// The step, the passes begun, and whether the last of them ended the iteration.
    fn passes(&self, call: &Call) -> Result<(Vector, u64, bool), u8> {
        let (g, h, radius) = (&call.gradient, &call.hessian, call.radius);
        let start = self.norm(g);
        let limit = call.limit + u64::from(self.is(LimitLate));
        let mut p = Vector(vec![0.0; g.0.len()]);
        let mut r = g.clone();
        let mut d = scaled(g, -1.0);
        let mut rtr = self.dot(g, g);
        if start < call.epsilon || start == call.epsilon && self.is(StartNotStrict) {
            return Ok((p, 0, false));
        }
        for pass in 1..=limit {
            let hd = self.product(h, &d);
            let dhd = self.dot(&d, &hd);
            if dhd < 0.0 || dhd == 0.0 && !self.is(CurvatureStrict) {
                let tau = if self.is(ForwardForModel) {
                    self.forward(&self.roots(&p, &d, radius))
                } else {
                    self.by_model(&self.roots(&p, &d, radius), &p, &d, call)
                };
                return Ok((added(&p, &scaled(&d, tau?)), pass, true));
            }
            let alpha = rtr / dhd;
            let q = added(&p, &scaled(&d, alpha));
            let norm = self.norm(&q);
            if norm > radius || norm == radius && !self.is(OutsideStrict) {
                let tau = if self.is(ModelForForward) {
                    self.by_model(&self.roots(&p, &d, radius), &p, &d, call)
                } else {
                    self.forward(&self.roots(&p, &d, radius))
                };
                return Ok((added(&p, &scaled(&d, tau?)), pass, true));
            }
            let s = added(&r, &scaled(&hd, alpha));
            let end = if self.is(EndNotScaled) {
                call.epsilon
            } else {
                call.epsilon * start
            };
            let norm = self.norm(&s);
            if norm < end || norm == end && self.is(EndNotStrict) {
                return Ok((q, pass, true));
            }
            let sts = self.dot(&s, &s);
            d = added(&scaled(&s, -1.0), &scaled(&d, sts / rtr));
            (p, r, rtr) = (q, s, sts);
        }
        Ok((p, limit, false))
    }

    fn roots(&self, p: &Vector, d: &Vector, radius: f64) -> Vec<f64> {
        let (a, b, c) = (self.dot(p, p), self.dot(d, d), self.dot(p, d));
        let delta = radius * radius;
        let t = self.root(-a * b + b * delta + c * c);
        let mut roots = vec![-(t + c) / b, (t - c) / b];
        let third = match self.0 {
            ThirdAlways => true,
            ThirdNever => false,
            ThirdForNan => roots.iter().any(|tau| tau.is_nan()),
            _ => roots.iter().any(|tau| !tau.is_finite()),
        };
        if self.is(SecondRootFirst) {
            roots.reverse();
        }
        if third {
            roots.push((delta - a) / (2.0 * c));
        }
        roots
    }

    fn by_model(&self, roots: &[f64], p: &Vector, d: &Vector, call: &Call) -> Result<f64, u8> {
        let mut best = None;
        for &tau in roots {
            let x = added(p, &scaled(d, tau));
            let curved = self.weighted(&x, &call.hessian, &x);
            let model = self.dot(&call.gradient, &x) + 0.5 * curved;
            if model.is_nan() {
                if self.is(NanSkipped) {
                    continue;
                }
                return Err(7);
            }
            let better = match best {
                None => true,
                Some((_, least)) => model < least || model == least && self.is(LatestTie),
            };
            if better {
                best = Some((tau, model));
            }
        }
        best.map(|(tau, _)| tau).ok_or(7)
    }

    fn forward(&self, roots: &[f64]) -> Result<f64, u8> {
        let usable = roots.iter().copied().filter(|tau| *tau >= 0.0);
        let chosen = if self.is(ForwardSmallest) {
            usable.reduce(|held, tau| if tau < held { tau } else { held })
        } else {
            usable.reduce(|held, tau| if tau > held { tau } else { held })
        };
        chosen.ok_or(7)
    }

    fn root(&self, x: f64) -> f64 {
        let nearest = root(x);
        match self.0 {
            RootOfBelowOne if x == 1f64.next_down() => 1.0,
            // The rest x − r² is exact when fused; below zero, r was rounded up.
            RootRoundedDown if nearest.mul_add(-nearest, x) < 0.0 => nearest.next_down(),
            _ => nearest,
        }
    }

    fn dot(&self, a: &Vector, b: &Vector) -> f64 {
        let pairs = a.0.iter().zip(&b.0);
        match self.0 {
            DotBackwards => pairs.rev().fold(0.0, |sum, (x, y)| sum + x * y),
            DotFused => pairs.fold(0.0, |sum, (x, y)| x.mul_add(*y, sum)),
            _ => a.dot(b),
        }
    }

    fn norm(&self, a: &Vector) -> f64 {
        self.root(self.dot(a, a))
    }

    fn product(&self, h: &Matrix, d: &Vector) -> Vector {
        let rows = (0..h.size()).map(|i| Vector(h.row(i).to_vec()));
        Vector(rows.map(|row| self.dot(&row, d)).collect())
    }

    fn weighted(&self, a: &Vector, h: &Matrix, b: &Vector) -> f64 {
        self.dot(a, &self.product(h, b))
    }
}

fn scaled(a: &Vector, x: f64) -> Vector {
    Vector(a.0.iter().map(|y| y * x).collect())
}

fn added(a: &Vector, b: &Vector) -> Vector {
    Vector(a.0.iter().zip(&b.0).map(|(x, y)| x + y).collect())
}

#[cfg(test)]
mod tests {
    use super::*;

    #[test]
    fn every_slip_is_told_apart() {
        let counts = counts(2750, 1);
        for (&(slip, text), counted) in SLIPS.iter().zip(counts) {
            if slip == Nothing {
                assert_eq!(counted, 0, "{text}");
            } else {
                assert!(counted > 0, "{text}");
            }
        }
    }
}
