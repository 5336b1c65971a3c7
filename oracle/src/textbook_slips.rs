//! Wrong programs about request Six: the second dogleg with one slip put in, and starts that read its
//! setting wrongly. They show that the scripts of `textbook`, `special` and `scripts` tell each apart from
//! what the request says.

use crate::formulas::{self, cauchy, minus, plus, times};
use crate::input::words;
use crate::legs;
use crate::replay;
use crate::scripts::{self, words_of};
use crate::session::{Engine, Formulas, Station, Tried, Verdict, PORTED, TEXTBOOK};
use crate::special;
use crate::step::{Call, Kernel};
use crate::vector::{root, Matrix, Vector};
use std::io::{self, Write};

macro_rules! slips {
    ($($name:ident: $text:literal,)*) => {
        #[derive(Clone, Copy, Debug, PartialEq, Eq)]
        enum Slip {
            $($name,)*
        }

        /// Each slip and what it is.
        const SLIPS: &[(Slip, &str)] = &[$((Slip::$name, $text)),*];
    };
}

slips! {
    Nothing: "no slip (must be 0)",
    FirstStrict: "norm of pu > radius for >=",
    FirstSquared: "pu.pu >= radius.radius for the norm",
    CurvatureZero: "g.H.g >= 0 for > 0",
    CurvatureNan: "a NaN g.H.g taken as above zero",
    CurvatureUnread: "g.H.g not looked at",
    Transposed: "g.H.g by columns",
    InverseFirst: "the inverse taken first",
    PivotZero: "only a pivot of zero refused",
    NoCurvatureSix: "refusal 6 where g.H.g is not above zero",
    WholeStrict: "norm of pb < radius for <=",
    WholeLate: "the whole step asked for behind the first leg",
    RootPorted: "t the root of (c.c + D.k) - k.u",
    RootSpread: "t the root of c.c + (k.D - k.u)",
    RootFactored: "D - u as (radius - norm).(radius + norm)",
    RootSum: "(t + c)/k",
    RootBehind: "the other root, -(t + c)/k",
    FromWhole: "the second leg from pb",
    QuotientLate: "(v.(t - c))/k",
    QuotientApart: "t/k - c/k",
    Reciprocal: "(t - c).(1/k)",
    StretchedWhole: "the first leg scales pb",
    ScaledLate: "(pu.radius)/norm",
    ScaledEarly: "(pu/norm).radius",
    CauchyOutside: "the first leg by Cauchy's factor",
    Straight: "no second leg: pb cut to the radius",
    ChoiceThree: "choice 3 taken as 1",
    ChoiceThreeNew: "choice 3 taken as 2",
    ChoiceZero: "choice 0 taken as 1",
    ChoiceHalf: "the low half of a choice alone",
    ChoiceOfDogleg: "the choice looked at with kernel 2 alone",
    ChoiceIgnored: "always the ported dogleg",
    ChoiceTurned: "1 and 2 in each other's place",
    ChoiceDefault: "the second dogleg where none is named",
    FurtherThree: "a third further setting of kind 3 passed over",
}

use Slip::*;

#[cfg(test)]
impl Slip {
    /// It is about the setting, not the kernel.
    fn is_of_setting(self) -> bool {
        matches!(
            self,
            ChoiceThree
                | ChoiceThreeNew
                | ChoiceZero
                | ChoiceHalf
                | ChoiceOfDogleg
                | ChoiceIgnored
                | ChoiceTurned
                | ChoiceDefault
                | FurtherThree
        )
    }
}

/// Writes for each slip how many scripts it answers otherwise: of `textbook`, of `special`, and of as many
/// made-up sessions each of kinds 3 and 4.
pub fn report(count: u64, seed: u64, out: &mut impl Write) -> io::Result<()> {
    let counted = counts(count, seed);
    writeln!(
        out,
        "of {count} single proposals, of the marked scripts, and of {count} sessions each of kinds 3 and 4, answered otherwise with:"
    )?;
    for (place, (_, text)) in SLIPS.iter().enumerate() {
        let [single, marked, sessions] = [0, 1, 2].map(|list: usize| counted[list][place]);
        writeln!(out, "{single:8}{marked:8}{sessions:8}  {text}")?;
    }
    Ok(())
}

fn counts(count: u64, seed: u64) -> [Vec<u64>; 3] {
    let sessions = [3, 4].map(|kind| scripts::input(count, seed, Some(kind)));
    [
        legs::input(count, seed),
        special::input(),
        sessions.concat(),
    ]
    .map(|input| told_apart(&input))
}

/// For each slip the scripts of an input that it answers otherwise.
fn told_apart(input: &[u8]) -> Vec<u64> {
    let mut counts = vec![0; SLIPS.len()];
    let mut left = input;
    while let Some((script, rest)) = scripts::split(left) {
        let right = lines(script, &Formulas);
        for (counted, &(slip, _)) in counts.iter_mut().zip(SLIPS) {
            *counted += u64::from(lines(&read(slip, script), &Wrong(slip)) != right);
        }
        left = rest;
    }
    counts
}

fn lines(script: &[u8], engine: &impl Engine) -> Vec<u8> {
    let mut lines = Vec::new();
    replay::answer(script, engine, &mut lines).expect("memory can be written");
    lines
}

/// The script as one with a slip about the setting would have to be, for the right program to answer it so.
fn read(slip: Slip, script: &[u8]) -> Vec<u8> {
    let mut list: Vec<u64> = words_of(script).collect();
    let place = match list.first() {
        Some(3) => 8,
        Some(4) => 9,
        _ => return script.to_vec(),
    };
    let kernel = list.get(2).copied();
    let many = list.get(place).copied();
    // In kind 4 it is the edition (edition_slips.rs).
    if slip == FurtherThree && place == 8 && many == Some(3) && list.len() > place + 3 {
        list[place] = 2;
        list.remove(place + 3);
    }
    if slip == ChoiceDefault && matches!(many, Some(0 | 1)) {
        let here = many.unwrap_or(0) as usize;
        if list.len() > place + here {
            list[place] = 2;
            // A missing allowance is a thousand.
            let missing = [1_000, TEXTBOOK];
            let behind = place + 1 + here;
            list.splice(behind..behind, missing[here..].iter().copied());
        }
    }
    if let (Some(2 | 3), Some(choice)) = (many, list.get_mut(place + 2)) {
        *choice = match (slip, *choice) {
            (ChoiceThree, 3) | (ChoiceZero, 0) => PORTED,
            (ChoiceThreeNew, 3) => TEXTBOOK,
            (ChoiceHalf, choice) => choice & u64::from(u32::MAX),
            (ChoiceOfDogleg, _) if matches!(kernel, Some(1 | 3)) => PORTED,
            (ChoiceIgnored, TEXTBOOK) => PORTED,
            (ChoiceTurned, PORTED) => TEXTBOOK,
            (ChoiceTurned, TEXTBOOK) => PORTED,
            (_, choice) => choice,
        };
    }
    let mut bytes = Vec::new();
    words(&mut bytes, &list);
    // Bytes that make no word stay.
    bytes.extend(&script[script.len() / 8 * 8..]);
    bytes
}

/// Sessions whose second dogleg has this slip.
struct Wrong(Slip);

impl Engine for Wrong {
    fn solve(&self, call: &Call) -> Result<(Vector, u64), u8> {
        match call.kernel {
            Kernel::Textbook => Ok((self.step(&call.gradient, &call.hessian, call.radius)?, 0)),
            _ => formulas::solve(call),
        }
    }

    fn judge(&self, station: &Station, tried: &Tried) -> Verdict {
        Formulas.judge(station, tried)
    }
}

impl Wrong {
    fn is(&self, slip: Slip) -> bool {
        self.0 == slip
    }

    fn step(&self, g: &Vector, h: &Matrix, radius: f64) -> Result<Vector, u8> {
        let w = if self.is(Transposed) {
            let n = h.size();
            let turned = (0..n * n).map(|k| h.row(k % n)[k / n]).collect();
            g.weighted_dot(&Matrix::new(n, turned), g)
        } else {
            g.weighted_dot(h, g)
        };
        let curved = match self.0 {
            CurvatureZero => w >= 0.0,
            CurvatureNan => w > 0.0 || w.is_nan(),
            CurvatureUnread => true,
            _ => w > 0.0,
        };
        let inverse = match self.0 {
            PivotZero => h.inverse_above(0.0),
            _ => h.inverse(),
        };
        if !curved {
            return match self.0 {
                InverseFirst if inverse.is_none() => Err(6),
                NoCurvatureSix => Err(6),
                _ => Ok(cauchy(g, h, radius)),
            };
        }
        let pb = times(&inverse.ok_or(6)?.times(g), -1.0);
        let pu = times(g, -g.dot(g) / w);
        let (whole, length) = (pb.norm(), pu.norm());
        let inside = match self.0 {
            WholeStrict => whole < radius,
            _ => whole <= radius,
        };
        let (u, d) = (pu.dot(&pu), radius * radius);
        let first = match self.0 {
            FirstStrict => length > radius,
            FirstSquared => u >= d,
            _ => length >= radius,
        };
        if inside && !(self.is(WholeLate) && first) {
            return Ok(pb);
        }
        if self.is(Straight) {
            return Ok(times(&pb, radius / whole));
        }
        if first {
            let each =
                |change: &dyn Fn(f64) -> f64| Vector(pu.0.iter().map(|x| change(*x)).collect());
            return Ok(match self.0 {
                StretchedWhole => times(&pb, radius / whole),
                ScaledLate => each(&|x| x * radius / length),
                ScaledEarly => each(&|x| x / length * radius),
                CauchyOutside => times(g, -radius / g.norm()),
                _ => times(&pu, radius / length),
            });
        }
        let v = minus(&pb, &pu);
        let (c, k) = (pu.dot(&v), v.dot(&v));
        let t = root(match self.0 {
            RootPorted => (c * c + d * k) - k * u,
            RootSpread => c * c + (k * d - k * u),
            RootFactored => c * c + k * ((radius - length) * (radius + length)),
            _ => c * c + k * (d - u),
        });
        let share = match self.0 {
            RootSum => (t + c) / k,
            RootBehind => -(t + c) / k,
            QuotientApart => t / k - c / k,
            Reciprocal => (t - c) * (1.0 / k),
            _ => (t - c) / k,
        };
        Ok(match self.0 {
            FromWhole => plus(&pb, &times(&v, share)),
            QuotientLate => {
                let late = v.0.iter().map(|x| x * (t - c) / k).collect();
                plus(&pu, &Vector(late))
            }
            _ => plus(&pu, &times(&v, share)),
        })
    }
}

#[cfg(test)]
mod tests {
    use super::*;

    /// Slips of the kernel by the single proposals and by the marked scripts, those of the setting by the
    /// marked scripts and by the sessions; each alone.
    #[test]
    fn every_slip_is_told_apart() {
        let [single, marked, sessions] = counts(600, 1);
        for (place, &(slip, text)) in SLIPS.iter().enumerate() {
            let counted = [single[place], marked[place], sessions[place]];
            if slip == Nothing {
                assert_eq!(counted, [0; 3], "{text}");
                continue;
            }
            assert!(marked[place] > 0, "special: {text}");
            if slip.is_of_setting() {
                assert!(sessions[place] > 0, "scripts: {text}");
            } else {
                assert!(single[place] > 0, "textbook: {text}");
            }
        }
    }
}
