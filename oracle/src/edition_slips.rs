//! Wrong programs about request Seven: SR1's answer with one slip in edition 2's test or in what a skipped update
//! leaves, and starts that read the edition wrongly. They show that the scripts of `special-editions` and `editions`
//! tell each apart from what the request says.
//!
//! One slip is none: to take +0 alone for zero. A dot begins at +0, so that q is never −0.

use crate::editions;
use crate::input::words;
use crate::marked_editions;
use crate::replay::{self, Call};
use crate::scripts::{self, words_of};
use crate::session::{
    Engine, Formulas, Kind, Phase, Secant, Station, Tried, Verdict, LARGEST_ALLOWANCE, PORTED,
    PORTED_UPDATE, TEXTBOOK_UPDATE,
};
use crate::step;
use crate::vector::{Matrix, Vector};
use std::io::{self, Write};

macro_rules! slips {
    ($($name:ident: $text:literal,)*) => {
        #[derive(Clone, Copy, Debug, PartialEq, Eq)]
        enum Slip {
            $($name,)*
        }

        /// Each slip and what it is.
        const SLIPS: &[(Slip, &str)] = &[$((Slip::$name, $text)),*];
    };
}

slips! {
    Nothing: "no slip (must be 0)",
    ZeroUpdates: "q = 0 not looked at",
    ZeroMinus: "-0 alone taken for zero",
    ZeroSubnormal: "a subnormal q taken for zero",
    ZeroNear: "a q of at most 2^-52 taken for zero",
    ZeroRefused: "refusal 8 where q is 0",
    Strict: "> for >=",
    NotLess: "not < for >=, so that a NaN updates",
    StepForZ: "norm of s for norm of z",
    QForZ: "|q| for norm of z, edition 1's test",
    QForZNotZero: "the same, where q is not 0",
    ZForQ: "norm of z for |q| on the left",
    Signed: "q for |q|",
    ZFactor: "(factor.norm of z).norm of s",
    LateFactor: "factor.(norm of s.norm of z)",
    OwnNorm: "the step's own norm for the phase's",
    NormSize: "the magnitude of the phase's norm",
    NoNorm: "factor.norm of z, without the step",
    NoFactor: "norm of s.norm of z, without the factor",
    SquaredZ: "z.z for its norm",
    Squares: "both sides squared",
    Divided: "|q|/norm of z >= factor.norm of s",
    BothTests: "edition 1's test asked too",
    EitherTest: "an update where either edition updates",
    InfiniteSkips: "a skip where 1/q is infinite",
    NotFiniteSkips: "a skip where the update is not finite",
    RejectedSkips: "only accepted trials update",
    HiddenSkips: "a NaN cost does not update",
    SkipRefused: "a skip is refused by 8",
    SkipClears: "a skip sets the Hessian to 0",
    SkipAddsZero: "a skip adds 0 to the Hessian",
    SkipKeepsRadius: "a skip leaves the radius",
    SkipKeepsCount: "a skip leaves the count",
    SkipKeepsPoint: "a skip leaves the point",
    SkipKeepsCost: "a skip leaves the cost",
    SkipKeepsGradient: "a skip leaves the gradient",
    SkipKeepsPhase: "a skip still awaits the cost",
    SkipRejects: "a skip rejects the trial",
    PortedByBook: "edition 1 by the book's test",
    PortedNotZero: "edition 1 skips where q is 0",
    Turned: "1 and 2 in each other's place",
    Ignored: "always edition 1",
    BookWhereNone: "edition 2 where none is named",
    ThreeTaken: "edition 3 taken as 2",
    ThreePorted: "edition 3 taken as 1",
    ZeroTaken: "edition 0 taken as 1",
    UnknownPorted: "any but 2 taken as 1",
    LowHalf: "the low half of an edition alone",
    LowByte: "the low byte of an edition alone",
    OfDogleg: "the edition looked at with kernel 2 alone",
    BehindCost: "4 before 2 where the edition is unknown",
    DoglegsPlace: "edition and dogleg in each other's place",
    AllowancesPlace: "edition and allowance in each other's place",
    ThirdBad: "three further settings of kind 4 are bad",
    ThirdOfOther: "a third further setting of kind 3 passed over",
    Fourth: "a fourth further setting of kind 4 passed over",
}

use Slip::*;

#[cfg(test)]
impl Slip {
    /// It concerns sessions of edition 1 alone.
    fn is_of_ported(self) -> bool {
        matches!(self, PortedByBook | PortedNotZero)
    }
}

/// Writes for each slip how many scripts it answers otherwise: of `special-editions`, and of `editions` of either edition.
pub fn report(count: u64, seed: u64, out: &mut impl Write) -> io::Result<()> {
    let counted = counts(count, seed);
    writeln!(
        out,
        "of the marked scripts, and of {count} sessions each of editions 1 and 2, answered otherwise with:"
    )?;
    for (place, (_, text)) in SLIPS.iter().enumerate() {
        let [marked, ported, book] = [0, 1, 2].map(|list: usize| counted[list][place]);
        writeln!(out, "{marked:8}{ported:8}{book:8}  {text}")?;
    }
    Ok(())
}

fn counts(count: u64, seed: u64) -> [Vec<u64>; 3] {
    [
        marked_editions::input(),
        editions::input(count, seed, PORTED_UPDATE),
        editions::input(count, seed, TEXTBOOK_UPDATE),
    ]
    .map(|input| told_apart(&input))
}

/// For each slip the scripts of an input that it answers otherwise.
fn told_apart(input: &[u8]) -> Vec<u64> {
    let mut counts = vec![0; SLIPS.len()];
    let mut left = input;
    while let Some((script, rest)) = scripts::split(left) {
        let mut right = Vec::new();
        replay::answer(script, &Formulas, &mut right).expect("memory can be written");
        for (counted, &(slip, _)) in counts.iter_mut().zip(SLIPS) {
            let mut lines = Vec::new();
            let run = |station: &mut Station, call: Call, out: &mut Vec<u8>| {
                run(slip, station, call, out)
            };
            replay::answer_by(run, &read(slip, script), &mut lines).expect("memory can be written");
            *counted += u64::from(lines != right);
        }
        left = rest;
    }
    counts
}

/// The script as one with a slip about the setting would have to be, for the right program to answer it so.
fn read(slip: Slip, script: &[u8]) -> Vec<u8> {
    let mut list: Vec<u64> = words_of(script).collect();
    let place = match list.first() {
        Some(3) => 8,
        Some(4) => 9,
        _ => return script.to_vec(),
    };
    let many = list.get(place).copied();
    // So many words stand behind that one.
    let behind = list.len().saturating_sub(place + 1) as u64;
    match (place, many) {
        (8, Some(3)) if slip == ThirdOfOther && behind >= 3 => {
            list[place] = 2;
            list.remove(place + 3);
        }
        (9, Some(4)) if slip == Fourth && behind >= 4 => {
            list[place] = 3;
            list.remove(place + 4);
        }
        (9, Some(here @ 0..3)) if slip == BookWhereNone && behind >= here => {
            let missing = [LARGEST_ALLOWANCE, PORTED, TEXTBOOK_UPDATE];
            let at = place + 1 + here as usize;
            list[place] = 3;
            list.splice(at..at, missing[here as usize..].iter().copied());
        }
        (9, Some(3)) if behind >= 4 => read_three(slip, place, &mut list),
        _ => {}
    }
    let mut bytes = Vec::new();
    words(&mut bytes, &list);
    // Bytes that make no word stay.
    bytes.extend(&script[script.len() / 8 * 8..]);
    bytes
}

/// The same where all three are named.
fn read_three(slip: Slip, place: usize, list: &mut [u64]) {
    match slip {
        ThirdBad => list[place] = 4,
        DoglegsPlace => list.swap(place + 2, place + 3),
        AllowancesPlace => list.swap(place + 1, place + 3),
        _ => {}
    }
    let (kernel, cost) = (list[2], f64::from_bits(list[place + 4]));
    let edition = &mut list[place + 3];
    let is_unknown = !(PORTED_UPDATE..=TEXTBOOK_UPDATE).contains(edition);
    *edition = match (slip, *edition) {
        (ThreeTaken, 3) => TEXTBOOK_UPDATE,
        (ThreePorted, 3) | (ZeroTaken, 0) => PORTED_UPDATE,
        (UnknownPorted, _) if is_unknown => PORTED_UPDATE,
        (LowHalf, edition) => edition & u64::from(u32::MAX),
        (LowByte, edition) => edition & u64::from(u8::MAX),
        (OfDogleg, _) if matches!(kernel, 1 | 3) => PORTED_UPDATE,
        (BehindCost, _) if is_unknown && !cost.is_finite() => PORTED_UPDATE,
        (_, edition) => edition,
    };
}

/// A call to the session with this slip.
fn run(slip: Slip, station: &mut Station, call: Call, out: &mut Vec<u8>) -> io::Result<()> {
    let before = station.clone();
    let skips = skips(station, &call);
    // A trial that a caller made up is judged by the wrong session too.
    if let Phase::Cost { made_up, .. } = &mut station.phase {
        *made_up = false;
    }
    let mut lines = Vec::new();
    replay::run(station, call, &Wrong(slip), &mut lines)?;
    let is_taken = lines.starts_with(b"accepted") || lines.starts_with(b"rejected");
    let q = skips.filter(|_| is_taken);
    let is_refused = match slip {
        SkipRefused => q.is_some(),
        ZeroRefused => q == Some(0.0),
        _ => false,
    };
    if is_refused {
        *station = before;
        return writeln!(out, "refused 8");
    }
    if q.is_some() {
        leave(slip, station, before);
    }
    out.write_all(&lines)
}

/// q, where this answer is to be judged under edition 2 and skips the update.
fn skips(station: &Station, call: &Call) -> Option<f64> {
    let Kind::Sr1 {
        edition: TEXTBOOK_UPDATE,
        ..
    } = station.settings.kind
    else {
        return None;
    };
    let (Phase::Cost { promised, norm, .. }, Call::Cost(_, cost, gradient)) = (station.phase, call)
    else {
        return None;
    };
    let tried = Tried {
        cost: *cost,
        gradient: gradient.as_ref(),
        promised,
        norm,
    };
    let secant = Secant::new(station, &tried)?;
    (!secant.updates_by_the_book()).then_some(secant.q)
}

/// What a skip leaves that it should not, or changes.
fn leave(slip: Slip, station: &mut Station, before: Station) {
    let n = station.size();
    match slip {
        SkipClears => station.hessian = Matrix::new(n, vec![0.0; n * n]),
        SkipAddsZero => {
            let entries = station.hessian.entries().iter();
            station.hessian = Matrix::new(n, entries.map(|h| h + 0.0).collect());
        }
        SkipKeepsCount => station.count = before.count,
        SkipKeepsPoint => station.point = before.point,
        SkipKeepsCost => station.cost = before.cost,
        SkipKeepsGradient => station.gradient = before.gradient,
        SkipKeepsPhase => station.phase = before.phase,
        _ => {}
    }
}

/// Sessions whose test has this slip.
struct Wrong(Slip);

impl Engine for Wrong {
    fn solve(&self, call: &step::Call) -> Result<(Vector, u64), u8> {
        Formulas.solve(call)
    }

    fn judge(&self, station: &Station, tried: &Tried) -> Verdict {
        let mut verdict = Formulas.judge(station, tried);
        let (Kind::Sr1 { edition, .. }, Some(secant)) =
            (station.settings.kind, Secant::new(station, tried))
        else {
            return verdict;
        };
        let edition = match (self.0, edition) {
            (Ignored, _) | (Turned, TEXTBOOK_UPDATE) => PORTED_UPDATE,
            (PortedByBook, _) | (Turned, PORTED_UPDATE) => TEXTBOOK_UPDATE,
            _ => edition,
        };
        let updated = secant.updated(&station.hessian);
        let is_finite = updated.entries().iter().all(|x| x.is_finite());
        let updates = if edition == PORTED_UPDATE {
            secant.updates_as_ported() && !(self.0 == PortedNotZero && secant.q == 0.0)
        } else {
            self.updates(&secant, station)
                && match self.0 {
                    RejectedSkips => verdict.accepted,
                    HiddenSkips => !tried.cost.is_nan(),
                    NotFiniteSkips => is_finite,
                    _ => true,
                }
        };
        if edition == TEXTBOOK_UPDATE && !updates {
            match self.0 {
                SkipKeepsRadius => verdict.radius = station.radius,
                SkipRejects => verdict.accepted = false,
                _ => {}
            }
        }
        verdict.hessian = Some(if updates {
            updated
        } else {
            station.hessian.clone()
        });
        verdict
    }
}

impl Wrong {
    /// Edition 2's test.
    fn updates(&self, secant: &Secant, station: &Station) -> bool {
        let Secant { z, q, factor, norm } = secant;
        let (q, factor, norm, length) = (*q, *factor, *norm, z.norm());
        let size = q.abs();
        let is_zero = match self.0 {
            ZeroUpdates | QForZ => false,
            ZeroMinus => q.to_bits() == (-0f64).to_bits(),
            ZeroSubnormal => size < f64::MIN_POSITIVE,
            ZeroNear => size <= f64::EPSILON,
            InfiniteSkips => (1.0 / q).is_infinite(),
            _ => q == 0.0,
        };
        let other = match self.0 {
            StepForZ => (factor * norm) * norm,
            QForZ | QForZNotZero => (factor * norm) * size,
            ZFactor => (factor * length) * norm,
            LateFactor => factor * (norm * length),
            OwnNorm => (factor * station.step.norm()) * length,
            NormSize => (factor * norm.abs()) * length,
            NoNorm => factor * length,
            NoFactor => norm * length,
            SquaredZ => (factor * norm) * z.dot(z),
            _ => (factor * norm) * length,
        };
        let is_enough = match self.0 {
            Strict => size > other,
            NotLess => !(size < other),
            ZForQ => length >= other,
            Signed => q >= other,
            Squares => q * q >= (factor * norm) * (factor * norm) * z.dot(z),
            Divided => size / length >= factor * norm,
            BothTests => size >= other && secant.updates_as_ported(),
            EitherTest => size >= other || secant.updates_as_ported(),
            _ => size >= other,
        };
        is_enough && !is_zero
    }
}

#[cfg(test)]
mod tests {
    use super::*;

    /// Each by the marked scripts, and by made-up sessions of the edition that it concerns.
    #[test]
    fn every_slip_is_told_apart() {
        let [marked, ported, book] = counts(600, 1);
        for (place, &(slip, text)) in SLIPS.iter().enumerate() {
            if slip == Nothing {
                assert_eq!(
                    [marked[place], ported[place], book[place]],
                    [0; 3],
                    "{text}"
                );
                continue;
            }
            assert!(marked[place] > 0, "special-editions: {text}");
            let random = if slip.is_of_ported() { &ported } else { &book };
            assert!(random[place] > 0, "editions: {text}");
        }
    }
}
