//! Two examples of program `replay` for request Seven, both of kind 4 and under either edition. They have only + − · / and roots in
//! them, so they are the same on every machine.
//!
//! The first is a fit whose Hessian is right from the start: six angles, and half the squared distance for a cost. The model says what
//! the trial's gradient will be, so z is exactly 0, and q with it. Edition 1 updates nevertheless and divides by q: the answer is refused
//! by 8, as often as it is told, and the fit stands on its start. Edition 2 skips the update, which had nothing to add, and the fit arrives.
//!
//! The second is document 01's case 5: the ported dogleg proposes the zero step, so q is 0 whatever the caller answers. Edition 1 refuses
//! every answer by 8. Edition 2 takes them, but it moves nothing by itself: the dogleg proposes the zero step as long as the whole step is
//! longer than the radius, and equal costs halve that. It arrives when the caller puts a greater radius in.

use crate::input::words;
use crate::replay::{self, Call};
use crate::session::{Formulas, Kind, Phase, Settings, Station, LARGEST_ALLOWANCE, PORTED};
use crate::vector::{Matrix, Vector};

/// Where six angles belong, in degrees, and how far off the start is: by 16 in all, so that the half of it is exact.
const ANGLES: [f64; 6] = [12.0, -31.0, 58.0, 7.0, -24.0, 16.0];
const OFF: [f64; 6] = [10.0, -9.0, 7.0, -4.0, 3.0, 1.0];

/// The same of two angles: g is (3, 4).
const TWO_ANGLES: [f64; 2] = [20.0, -10.0];
const TWO_OFF: [f64; 2] = [3.0, 4.0];

/// So often the caller tells what is refused.
const PATIENCE: usize = 3;

/// The fit whose Hessian is right.
pub fn exact(edition: u64) -> Vec<u8> {
    let mut fit = Fit::new(&ANGLES, &OFF, 3, 8.0, edition);
    fit.go_on();
    fit.bytes()
}

/// The zero step.
pub fn zero_step(edition: u64) -> Vec<u8> {
    let mut fit = Fit::new(&TWO_ANGLES, &TWO_OFF, 2, 1.0, edition);
    // Trials at the start itself: the cost is the same three times, then a marker trembles and it is a little higher, and then it is
    // what it was.
    let cost = fit.station.cost;
    for found in [cost, cost, cost, cost.next_up(), cost] {
        fit.propose();
        if !fit.is_taken(found) {
            break;
        }
    }
    // The caller makes the session ready by hand, with a radius in which the whole step lies.
    fit.make_ready(8.0);
    fit.go_on();
    fit.bytes()
}

struct Fit<'a> {
    angles: &'a [f64],
    station: Station,
    words: Vec<u64>,
}

impl Fit<'_> {
    fn new<'a>(angles: &'a [f64], off: &[f64], kernel: u64, radius: f64, edition: u64) -> Fit<'a> {
        let (factor, tol_grad) = (1e-8, 1e-3);
        let settings = Settings {
            kind: Kind::Sr1 {
                factor,
                tol_grad,
                edition,
            },
            kernel,
            radius,
            eta: 0.0005,
            epsilon: 1e-9,
            limit: 12,
            allowance: LARGEST_ALLOWANCE,
            dogleg: PORTED,
        };
        let n = angles.len();
        let point: Vec<f64> = angles.iter().zip(off).map(|(x, off)| x + off).collect();
        let start = Station::start(
            settings,
            cost(angles, &point),
            Vector(point.clone()),
            gradient(angles, &point),
            identity(n),
        );
        let mut fit = Fit {
            angles,
            station: start.expect("settings in range"),
            words: vec![4, n as u64, kernel],
        };
        fit.push(&[radius, settings.eta, factor, tol_grad, settings.epsilon]);
        let further = [3, settings.allowance, settings.dogleg, edition];
        fit.words.push(settings.limit);
        fit.words.extend(further);
        fit.push(&[fit.station.cost]);
        fit.push(&point);
        fit.push(&gradient(angles, &point).0);
        fit.push(identity(n).entries());
        fit
    }

    fn bytes(&self) -> Vec<u8> {
        let mut bytes = Vec::new();
        words(&mut bytes, &self.words);
        bytes
    }

    fn n(&self) -> u64 {
        self.angles.len() as u64
    }

    fn push(&mut self, numbers: &[f64]) {
        self.words.extend(numbers.iter().map(|x| x.to_bits()));
    }

    fn run(&mut self, call: Call) {
        let mut lines = Vec::new();
        replay::run(&mut self.station, call, &Formulas, &mut lines).expect("memory can be written");
    }

    fn awaits(&self) -> bool {
        matches!(self.station.phase, Phase::Cost { .. })
    }

    /// Trials until the session is done, or refuses an answer as often as the caller tells it.
    fn go_on(&mut self) {
        loop {
            self.propose();
            if !self.awaits() {
                return;
            }
            let found = cost(self.angles, &self.station.trial.0);
            if !self.is_taken(found) {
                return;
            }
        }
    }

    fn propose(&mut self) {
        self.words.extend([1, self.n()]);
        self.run(Call::Propose(self.n()));
    }

    /// Tells this cost, and the gradient at the trial; and again, where it is refused.
    fn is_taken(&mut self, cost: f64) -> bool {
        for _ in 0..PATIENCE {
            let there = gradient(self.angles, &self.station.trial.0);
            self.words.extend([2, self.n(), cost.to_bits()]);
            self.push(&there.0);
            self.run(Call::Cost(self.n(), cost, Some(there)));
            if !self.awaits() {
                return true;
            }
        }
        false
    }

    fn make_ready(&mut self, radius: f64) {
        let cost = self.station.cost;
        self.words.push(4);
        self.push(&[radius, cost]);
        self.words.extend([0, 0, 0]);
        self.run(Call::Put(radius, cost, Phase::Ready));
    }
}

/// Half the squared distance.
fn cost(angles: &[f64], x: &[f64]) -> f64 {
    let mut sum = 0.0;
    for off in gradient(angles, x).0 {
        sum += off * off;
    }
    0.5 * sum
}

fn gradient(angles: &[f64], x: &[f64]) -> Vector {
    Vector(x.iter().zip(angles).map(|(x, angle)| x - angle).collect())
}

fn identity(n: usize) -> Matrix {
    let one = |k: usize| if k % (n + 1) == 0 { 1.0 } else { 0.0 };
    Matrix::new(n, (0..n * n).map(one).collect())
}

#[cfg(test)]
mod tests {
    use super::*;
    use crate::session::{PORTED_UPDATE, TEXTBOOK_UPDATE};

    fn lines(input: &[u8]) -> Vec<String> {
        let mut out = Vec::new();
        replay::answer(input, &Formulas, &mut out).unwrap();
        let lines = String::from_utf8(out).unwrap();
        lines.lines().map(str::to_string).collect()
    }

    fn begin(lines: &[String], with: &str) -> usize {
        lines.iter().filter(|line| line.starts_with(with)).count()
    }

    fn numbers(lines: &[String], name: &str) -> Vec<f64> {
        let line = lines.iter().find_map(|line| line.strip_prefix(name));
        let words = line.unwrap().trim().split(' ');
        let bits = words.map(|word| u64::from_str_radix(word, 16).unwrap());
        bits.map(f64::from_bits).collect()
    }

    /// One proposal, the same answer thrice, and nothing moved.
    #[test]
    fn edition_1_refuses_an_exact_model() {
        let lines = lines(&exact(PORTED_UPDATE));
        assert_eq!(begin(&lines, "proposed"), 1);
        assert_eq!(begin(&lines, "refused 8"), PATIENCE);
        assert_eq!(begin(&lines, "accepted") + begin(&lines, "rejected"), 0);
        assert_eq!(begin(&lines, "end cost"), 1);
        let start: Vec<f64> = ANGLES.iter().zip(OFF).map(|(x, off)| x + off).collect();
        assert_eq!(numbers(&lines, "point "), start);
    }

    /// Two trials, and the angles to the last digit; the Hessian is what it was.
    #[test]
    fn edition_2_arrives() {
        let lines = lines(&exact(TEXTBOOK_UPDATE));
        let said = [
            "start", "proposed", "accepted", "proposed", "accepted", "done", "end",
        ];
        let found = lines.iter().map(|line| line.split(' ').next().unwrap());
        let found: Vec<&str> = found.filter(|word| said.contains(word)).collect();
        assert_eq!(found, said);
        assert_eq!(begin(&lines, "refused"), 0);
        assert_eq!(numbers(&lines, "point "), ANGLES);
        assert_eq!(numbers(&lines, "hessian "), identity(6).entries());
    }

    /// Three answers to the zero step, and with the greater radius three to the whole one: all refused.
    #[test]
    fn edition_1_refuses_the_zero_step() {
        let lines = lines(&zero_step(PORTED_UPDATE));
        assert_eq!(begin(&lines, "proposed"), 2);
        assert_eq!(begin(&lines, "refused 8"), 2 * PATIENCE);
        assert_eq!(begin(&lines, "end cost"), 1);
        assert_eq!(numbers(&lines, "point "), [23.0, -6.0]);
    }

    /// The predicted fall is −0: an equal cost gives a NaN, a higher one +inf, a lower one −inf.
    #[test]
    fn edition_2_takes_the_zero_step() {
        let lines = lines(&zero_step(TEXTBOOK_UPDATE));
        let verdicts: Vec<&String> = lines
            .iter()
            .filter(|line| line.starts_with("accepted") || line.starts_with("rejected"))
            .collect();
        let still = [
            "rejected 7ff8000000000000 radius 3fe0000000000000",
            "rejected 7ff8000000000000 radius 3fd0000000000000",
            "rejected 7ff8000000000000 radius 3fc0000000000000",
            "accepted 7ff0000000000000 radius 3fc0000000000000",
            "rejected fff0000000000000 radius 3fb0000000000000",
        ];
        assert_eq!(verdicts[..5], still);
        assert_eq!(verdicts.len(), 6);
        assert!(verdicts[5].starts_with("accepted 3ff0000000000001 radius 4020"));
        assert_eq!(begin(&lines, "done"), 1);
        assert_eq!(numbers(&lines, "point "), TWO_ANGLES);
    }

    /// Without the caller's help it never moves: equal costs halve the radius down to 0, and then a proposal is refused by 5.
    #[test]
    fn edition_2_alone_stands_too() {
        let mut fit = Fit::new(&TWO_ANGLES, &TWO_OFF, 2, 1.0, TEXTBOOK_UPDATE);
        let (n, cost) = (fit.n(), fit.station.cost);
        let mut trials = 0;
        let refused = loop {
            if let Err(number) = fit.station.propose(n, &Formulas) {
                break number;
            }
            assert_eq!(fit.station.step.0, [0.0; 2]);
            assert!(fit.is_taken(cost));
            trials += 1;
        };
        assert_eq!((refused, trials), (5, 1075));
        assert_eq!(fit.station.point.0, [23.0, -6.0]);
    }
}
