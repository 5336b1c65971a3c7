//! Scripts of sessions that chance would hardly make, for program `replays`.

use crate::hidden::marked;
use crate::input::words;
use crate::marked_legs;
use crate::session::{PORTED, TEXTBOOK};
use crate::standing;

/// A script of size 2, with the identity for a Hessian and the Cauchy point for a kernel.
struct Script(Vec<u64>);

impl Script {
    fn start(radius: f64, tol_grad: f64, cost: f64, gradient: [f64; 2]) -> Script {
        let mut script = Script(vec![2, 2, 1]);
        script.numbers(&[radius, 0.0005, 1e-8, tol_grad, 1e-9]);
        script.0.push(5);
        script.numbers(&[cost, 0.0, 0.0]);
        script.numbers(&gradient);
        script.numbers(&[1.0, 0.0, 0.0, 1.0]);
        script
    }

    fn numbers(&mut self, numbers: &[f64]) {
        self.0.extend(numbers.iter().map(|x| x.to_bits()));
    }

    fn propose(mut self) -> Script {
        self.0.extend([1, 2]);
        self
    }

    fn answer(mut self, cost: f64, gradient: [f64; 2]) -> Script {
        self.0.extend([2, 2]);
        self.numbers(&[cost]);
        self.numbers(&gradient);
        self
    }

    /// The session awaits a cost, with this radius, cost, predicted fall and step norm.
    fn awaiting(mut self, radius: f64, cost: f64, predicted: f64, norm: f64) -> Script {
        self.0.push(4);
        self.numbers(&[radius, cost]);
        self.0.push(1);
        self.numbers(&[predicted, norm]);
        self
    }
}

/// The Dogleg of a session of this kind, with two markers almost in line: every proposal is refused by 6 and leaves the session
/// as it was. A TrustRegion session begins with another Hessian, takes this one with its derivatives, and is out of turn then
/// for a cost; in an SR1TrustRegion session it stands from the start.
fn dogleg_in_line(kind: u64) -> Script {
    let line = [0.05, 0.05, 0.05, 0.05f64.next_up()];
    let mut script = Script(vec![kind, 2, 2]);
    if kind == 1 {
        script.numbers(&[1.0, 100.0, 0.125, 1e-9]);
    } else {
        script.numbers(&[1.0, 0.0005, 1e-8, 1e-3, 1e-9]);
    }
    script.0.push(5);
    script.numbers(&[10.0, 0.0, 0.0, 0.3, 0.4]);
    if kind == 1 {
        script.numbers(&[1.0, 0.0, 0.0, 1.0]);
        script = script.propose();
        script.0.extend([2, 2]);
        script.numbers(&[9.875]);
        script.0.extend([3, 2]);
        script.numbers(&[0.02, 0.03]);
    }
    script.numbers(&line);
    script = script.propose().propose();
    script.0.extend([2, 2]);
    script.numbers(&[9.5]);
    if kind == 2 {
        script.numbers(&[0.02, 0.03]);
    }
    script
}

/// All of them, each with its length before it: first those of document 01 and of request Two, then those of request Five, then those of
/// request Six, and at the end the fit that stood on its start, by either dogleg.
pub fn input() -> Vec<u8> {
    let least = f64::from_bits(1);
    let scripts = [
        // Marked cases 14 and 15, from a proposal: s is (1, 0).
        Script::start(1.0, 1e-3, 10.0, [-1.0, 0.0])
            .propose()
            .answer(9.5, [2.0, 0.0]),
        Script::start(1.0, 1e-3, 10.0, [-1.0, 0.0])
            .propose()
            .answer(9.5, [0.0, 1.0])
            .propose(),
        // A NaN cost that updates the Hessian; the radius halves, and the next proposal goes by the new Hessian.
        Script::start(1.0, 1e-3, 10.0, [-3.0, -4.0])
            .propose()
            .answer(f64::NAN, [1.0, 2.0])
            .propose()
            .answer(9.0, [0.5, -0.25])
            .propose(),
        // The radius halves down to 0, and the next proposal is refused by it.
        Script::start(1.0, 1e-3, 10.0, [-3.0, -4.0])
            .propose()
            .awaiting(4.0 * least, 10.0, 1.0, 1.0)
            .answer(11.0, [1.0, 2.0])
            .awaiting(2.0 * least, 10.0, 1.0, 1.0)
            .answer(11.0, [1.0, 3.0])
            .awaiting(least, 10.0, 1.0, 1.0)
            .answer(11.0, [2.0, 3.0])
            .propose(),
        // Doubling overflows: refusal 8, and the cost is still awaited.
        Script::start(1.0, 1e-3, 10.0, [-3.0, -4.0])
            .propose()
            .awaiting(1.5e308, 1.0, 1.0, 1.4e308)
            .answer(0.0, [1.0, 2.0])
            .answer(0.5, [1.0, 2.0])
            .propose(),
        // ‖s‖ = 0.8·radius keeps the radius, the next number above it doubles it; 0.1 and 0.75 keep it.
        Script::start(1.0, 1e-3, 10.0, [-3.0, -4.0])
            .propose()
            .awaiting(10.0, 1.0, 1.0, 8.0)
            .answer(0.0, [1.0, 2.0])
            .awaiting(10.0, 1.0, 1.0, 8f64.next_up())
            .answer(0.0, [1.0, 3.0])
            .awaiting(10.0, 0.1, 1.0, 1.0)
            .answer(0.0, [1.0, 4.0])
            .awaiting(10.0, 0.75, 1.0, 9.0)
            .answer(0.0, [2.0, 4.0]),
        // Done: at the start, after an acceptance, and at a radius of 0, which is looked at later.
        Script::start(1.0, 5.0, 10.0, [-3.0, -3.0])
            .propose()
            .propose(),
        Script::start(1.0, 5.0, 10.0, [-3.0, -4.0])
            .propose()
            .answer(9.0, [3.0, 3.0])
            .propose(),
        Script::start(1.0, 5.0, 10.0, [-3.0, -4.0])
            .propose()
            .awaiting(least, 10.0, 1.0, 1.0)
            .answer(9.0, [3.0, 3.0])
            .awaiting(least, 9.0, 1.0, 1.0)
            .answer(10.0, [3.0, 2.0])
            .propose(),
        // A radius below zero is taken by magnitude.
        Script::start(-2.5, 1e-3, 10.0, [-3.0, -4.0])
            .propose()
            .answer(9.0, [1.0, 2.0]),
        dogleg_in_line(1),
        dogleg_in_line(2),
    ];
    let hidden = marked().into_iter().map(|marked| marked.words);
    let legs = marked_legs::marked();
    let legs = legs.into_iter().map(|marked| marked.words);
    let mut bytes = Vec::new();
    let first = scripts.map(|Script(words)| words).into_iter();
    let fits = [PORTED, TEXTBOOK].map(standing::script).into_iter();
    for script in first.chain(hidden).chain(legs).chain(fits) {
        words(&mut bytes, &[script.len() as u64]);
        words(&mut bytes, &script);
    }
    bytes
}
