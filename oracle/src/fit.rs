//! The example of program `replay`: the knee's bend over one stride, fitted by two bumps. Each has a
//! height in degrees, a place and a width in hundredths of the stride: six parameters. The angles are
//! made up from other bumps, with small errors. The script has what a fit station sees: markers that
//! are hidden now and then, and calls out of turn.

use crate::input::words;
use crate::random::Random;
use crate::replay::{self, Call};
use crate::session::{Formulas, Kind, Phase, Settings, Station, LARGEST_ALLOWANCE, PORTED};
use crate::vector::{Matrix, Vector};

const SIZE: usize = 6;
const SAMPLES: usize = 51;

/// Where the angles come from, and where the fit begins.
const MADE_FROM: [f64; SIZE] = [18.0, 14.0, 9.0, 61.0, 72.0, 11.0];
const BEGIN: [f64; SIZE] = [30.0, 30.0, 8.0, 30.0, 55.0, 20.0];

/// So many trials at most.
const TRIALS: usize = 60;

/// The input: it has only + − · / in it, so it is the same on every machine.
pub fn input() -> Vec<u8> {
    let fit = Fit::new();
    let point = BEGIN.to_vec();
    let settings = Settings {
        kind: Kind::TrustRegion { max_radius: 100.0 },
        kernel: 3,
        radius: 1.0,
        eta: 0.125,
        epsilon: 1e-9,
        limit: 12,
        allowance: LARGEST_ALLOWANCE,
        dogleg: PORTED,
    };
    let cost = fit.cost(&point);
    let (gradient, hessian) = fit.derivatives(&point);
    let mut script = vec![1, SIZE as u64, settings.kernel, settings.radius.to_bits()];
    push_all(&mut script, &[100.0, settings.eta, settings.epsilon]);
    script.push(settings.limit);
    push_all(&mut script, &[cost]);
    for list in [&point, &gradient, &hessian] {
        push_all(&mut script, list);
    }
    let matrix = Matrix::new(SIZE, hessian);
    let station = Station::start(settings, cost, Vector(point), Vector(gradient), matrix);
    let mut maker = Maker {
        fit,
        station: station.expect("settings in range"),
        script,
    };
    maker.fit();
    let mut bytes = Vec::new();
    words(&mut bytes, &maker.script);
    bytes
}

struct Maker {
    fit: Fit,
    station: Station,
    script: Vec<u64>,
}

impl Maker {
    fn fit(&mut self) {
        for trial in 0..TRIALS {
            self.call(Call::Propose(6));
            if self.station.phase == Phase::Ready {
                // Refused: nothing moves any more.
                return;
            }
            match trial {
                // Calls out of turn, and an n of another fit.
                4 => self.call(Call::Propose(6)),
                9 => self.derivatives(),
                12 => self.call(Call::Cost(12, self.fit.cost(&self.station.trial.0), None)),
                _ => {}
            }
            // A marker is hidden: the cost cannot be told.
            let hidden = matches!(trial, 2 | 6 | 7 | 15 | 21);
            let cost = if hidden {
                f64::NAN
            } else {
                self.fit.cost(&self.station.trial.0)
            };
            self.call(Call::Cost(6, cost, None));
            if self.station.phase == Phase::Derivatives {
                if trial == 5 {
                    // Too early.
                    self.call(Call::Propose(6));
                }
                self.derivatives();
            }
            if self.station.gradient.norm() < 1e-6 {
                return;
            }
        }
    }

    /// The derivatives at the session's point.
    fn derivatives(&mut self) {
        let (gradient, hessian) = self.fit.derivatives(&self.station.point.0);
        let hessian = Matrix::new(SIZE, hessian);
        self.call(Call::Derivatives(6, Vector(gradient), hessian));
    }

    /// Writes a call's words, and makes it.
    fn call(&mut self, call: Call) {
        match &call {
            Call::Propose(n) => self.script.extend([1, *n]),
            Call::Cost(n, cost, _) => self.script.extend([2, *n, cost.to_bits()]),
            Call::Derivatives(n, gradient, hessian) => {
                self.script.extend([3, *n]);
                push_all(&mut self.script, &gradient.0);
                push_all(&mut self.script, hessian.entries());
            }
            Call::Put(..) | Call::Count(_) => unreachable!("a fit station changes no session"),
        }
        let mut lines = Vec::new();
        replay::run(&mut self.station, call, &Formulas, &mut lines).expect("memory can be written");
    }
}

fn push_all(script: &mut Vec<u64>, numbers: &[f64]) {
    script.extend(numbers.iter().map(|x| x.to_bits()));
}

/// Angles that were measured, at even times from 0 to 100.
struct Fit(Vec<(f64, f64)>);

impl Fit {
    fn new() -> Fit {
        let mut random = Random::new(1);
        let sample = |i: usize| {
            let time = 100.0 * i as f64 / (SAMPLES - 1) as f64;
            // Up to a degree and a half to either side.
            let error = random.between(-96, 96) as f64 / 64.0;
            (time, curve(&MADE_FROM, time) + error)
        };
        Fit((0..SAMPLES).map(sample).collect())
    }

    /// Half the sum of the squared residuals.
    fn cost(&self, point: &[f64]) -> f64 {
        let residuals = self.0.iter().map(|&(t, angle)| curve(point, t) - angle);
        0.5 * residuals.map(|r| r * r).sum::<f64>()
    }

    /// Jᵀr and JᵀJ, for the Jacobian J of the residuals r.
    fn derivatives(&self, point: &[f64]) -> (Vec<f64>, Vec<f64>) {
        let mut gradient = vec![0.0; SIZE];
        let mut hessian = vec![0.0; SIZE * SIZE];
        for &(t, angle) in &self.0 {
            let residual = curve(point, t) - angle;
            let slopes = slopes(point, t);
            for i in 0..SIZE {
                gradient[i] += slopes[i] * residual;
                for k in 0..SIZE {
                    hessian[i * SIZE + k] += slopes[i] * slopes[k];
                }
            }
        }
        (gradient, hessian)
    }
}

/// The sum of the bumps height/(1 + ((t − place)/width)²).
fn curve(point: &[f64], t: f64) -> f64 {
    point.chunks(3).map(|bump| bump[0] * shape(bump, t).0).sum()
}

/// A bump of height 1, and how far from its place t is, in widths.
fn shape(bump: &[f64], t: f64) -> (f64, f64) {
    let away = (t - bump[1]) / bump[2];
    (1.0 / (1.0 + away * away), away)
}

/// The slopes of the curve along each parameter.
fn slopes(point: &[f64], t: f64) -> Vec<f64> {
    let of = |bump: &[f64]| {
        let (one, away) = shape(bump, t);
        let place = 2.0 * bump[0] * one * one * away / bump[2];
        [one, place, place * away]
    };
    point.chunks(3).flat_map(of).collect()
}

#[cfg(test)]
mod tests {
    use super::*;

    /// The slopes are those of the curve.
    #[test]
    fn slopes_are_differences() {
        for i in 0..SIZE {
            let (mut low, mut high) = (BEGIN, BEGIN);
            low[i] -= 1e-5;
            high[i] += 1e-5;
            for t in [0.0, 13.0, 40.0, 71.0] {
                let difference = (curve(&high, t) - curve(&low, t)) / 2e-5;
                assert!((difference - slopes(&BEGIN, t)[i]).abs() < 1e-6);
            }
        }
    }

    /// The example has what it is for, and the fit finds what the angles were made from.
    #[test]
    fn the_example() {
        let mut out = Vec::new();
        replay::answer(&input(), &Formulas, &mut out).unwrap();
        let lines = String::from_utf8(out).unwrap();
        for (start, least) in [
            ("accepted", 10),
            ("rejected 7ff8000000000000", 5),
            ("rejected ", 7),
            ("refused 1", 1),
            ("refused 3", 3),
            ("end ready", 1),
        ] {
            let counted = lines.lines().filter(|line| line.starts_with(start)).count();
            assert!(counted >= least, "{counted} lines {start}:\n{lines}");
        }
        let point = lines.lines().find_map(|line| line.strip_prefix("point "));
        for (word, made_from) in point.unwrap().split(' ').zip(MADE_FROM) {
            let found = f64::from_bits(u64::from_str_radix(word, 16).unwrap());
            assert!((found - made_from).abs() < 1.0, "{found} {made_from}");
        }
    }
}
