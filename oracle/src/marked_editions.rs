//! Marked sessions of request Seven, for `special-editions`: both tests at their borders, what a skipped update
//! leaves and what it does not, and the setting that names the edition. Each has beside it what is to be said and
//! how the session ends, worked out by hand from the request's text.

use crate::edition_examples;
use crate::input::words;
use crate::random::power_of_two;
use crate::session::{PORTED, PORTED_UPDATE, TEXTBOOK, TEXTBOOK_UPDATE};

/// A script, and what it says: a word for each call that says something, the number alone where it is refused; then, where the
/// session has an end, behind bars the phase with the count, the radius, the point and the Hessian.
pub struct Marked {
    pub words: Vec<u64>,
    pub said: String,
}

/// A start at 0 with cost 10.
#[derive(Clone)]
struct Start {
    kind: u64,
    kernel: u64,
    radius: f64,
    factor: f64,
    tol_grad: f64,
    /// Behind the limit.
    further: Vec<u64>,
    cost: f64,
    gradient: Vec<f64>,
    hessian: Vec<f64>,
}

const LIMIT: u64 = 5;
const NAN: f64 = f64::NAN;
const INFINITY: f64 = f64::INFINITY;

/// Costs that give a ratio of 1 and of −2 where the predicted fall is 1/2.
const LOWER: f64 = 9.5;
const HIGHER: f64 = 11.0;

/// Two parameters, the Cauchy point, g = (−1, 0) and the identity: the step is (1, −0), its norm 1 and the predicted fall 1/2.
fn along(edition: u64) -> Start {
    Start {
        kind: 4,
        kernel: 1,
        radius: 1.0,
        factor: 1e-8,
        tol_grad: 1e-3,
        further: vec![3, 5, PORTED, edition],
        cost: 10.0,
        gradient: vec![-1.0, 0.0],
        hessian: IDENTITY.to_vec(),
    }
}

const IDENTITY: [f64; 4] = [1.0, 0.0, 0.0, 1.0];

/// Gradients at that trial: z is (2, 0) and q 2 as in document 01's case 14, z is (0, 1) and q 0 as in case 15, and z is 0.
const UPDATES: [f64; 2] = [2.0, 0.0];
const ACROSS: [f64; 2] = [0.0, 1.0];
const IN_LINE: [f64; 2] = [0.0, 0.0];
/// What the first makes of the identity.
const UPDATED: [f64; 4] = [3.0, 0.0, 0.0, 1.0];

/// The same with four parameters and the factor 1/2: a gradient of (z₁, z₂, z₃, z₄) makes z so, and q is z₁.
fn along_four(edition: u64) -> Start {
    Start {
        factor: 0.5,
        gradient: vec![-1.0, 0.0, 0.0, 0.0],
        hessian: identity(4),
        ..along(edition)
    }
}

fn identity(n: usize) -> Vec<f64> {
    let one = |k: usize| if k % (n + 1) == 0 { 1.0 } else { 0.0 };
    (0..n * n).map(one).collect()
}

/// The identity and z·zᵀ/q beside it.
fn updated_by(z: &[f64], q: f64) -> Vec<f64> {
    let n = z.len();
    let entries = identity(n).into_iter().enumerate();
    let entries = entries.map(|(k, h)| h + (z[k / n] * z[k % n]) * (1.0 / q));
    entries.collect()
}

impl Start {
    fn script(&self) -> Script {
        let n = self.gradient.len();
        let mut script = Script {
            n: n as u64,
            words: vec![self.kind, n as u64, self.kernel],
        };
        if self.kind == 3 {
            script.numbers(&[self.radius, 100.0, 0.125, 1e-9]);
        } else {
            script.numbers(&[self.radius, 0.0005, self.factor, self.tol_grad, 1e-9]);
        }
        script.words.push(LIMIT);
        script.words.extend(&self.further);
        script.numbers(&[self.cost]);
        script.numbers(&vec![0.0; n]);
        script.numbers(&self.gradient);
        script.numbers(&self.hessian);
        script
    }

    fn propose(&self) -> Script {
        self.script().propose()
    }
}

/// A script under way.
#[derive(Clone)]
struct Script {
    n: u64,
    words: Vec<u64>,
}

impl Script {
    fn numbers(&mut self, numbers: &[f64]) {
        self.words.extend(numbers.iter().map(|x| x.to_bits()));
    }

    fn with(mut self, words: &[u64]) -> Script {
        self.words.extend(words);
        self
    }

    fn propose(self) -> Script {
        let n = self.n;
        self.with(&[1, n])
    }

    fn tell(self, cost: f64, gradient: &[f64]) -> Script {
        let n = self.n;
        self.tell_all(n, cost, gradient)
    }

    fn tell_all(mut self, n: u64, cost: f64, gradient: &[f64]) -> Script {
        self.words.extend([2, n]);
        self.numbers(&[cost]);
        self.numbers(gradient);
        self
    }

    fn count(self, count: u64) -> Script {
        self.with(&[5, count])
    }

    /// Call 4: a cost is awaited, with this radius, cost, predicted fall and norm.
    fn awaiting(mut self, numbers: [f64; 4]) -> Script {
        self.words.push(4);
        self.numbers(&numbers[..2]);
        self.words.push(1);
        self.numbers(&numbers[2..]);
        self
    }

    /// The same with another norm alone, behind the first proposal.
    fn with_norm(self, norm: f64) -> Script {
        self.awaiting([1.0, 10.0, 0.5, norm])
    }

    fn says(self, said: &str) -> Marked {
        Marked {
            words: self.words,
            said: said.to_string(),
        }
    }

    fn ends(self, said: &str, radius: f64, point: &[f64], hessian: &[f64]) -> Marked {
        let said = format!(
            "{said} | radius {radius:?} | point{} | hessian{}",
            listed(point),
            listed(hessian)
        );
        self.says(&said)
    }

    /// The first trial at its end: accepted by a ratio of 1, so that the radius doubles.
    fn accepted(self, hessian: &[f64]) -> Marked {
        let point = self.point(1.0);
        let said = "start proposed accepted | ready 0";
        self.ends(said, 2.0, &point, hessian)
    }

    /// Rejected, and the radius halves.
    fn rejected(self, hessian: &[f64]) -> Marked {
        let point = self.point(0.0);
        let said = "start proposed rejected | ready 0";
        self.ends(said, 0.5, &point, hessian)
    }

    /// Not taken by 8: nothing moves.
    fn not_taken(self, hessian: &[f64]) -> Marked {
        let point = self.point(0.0);
        let said = "start proposed 8 | cost 0";
        self.ends(said, 1.0, &point, hessian)
    }

    fn point(&self, first: f64) -> Vec<f64> {
        let mut point = vec![0.0; self.n as usize];
        point[0] = first;
        point
    }
}

fn listed(numbers: &[f64]) -> String {
    numbers.iter().map(|x| format!(" {x:?}")).collect()
}

/// The input of program `replays`: all of them and the two examples, each with its length before it.
pub fn input() -> Vec<u8> {
    let mut bytes = Vec::new();
    for script in marked() {
        words(&mut bytes, &[script.words.len() as u64]);
        words(&mut bytes, &script.words);
    }
    for edition in EDITIONS {
        for example in [edition_examples::exact, edition_examples::zero_step] {
            let example = example(edition);
            words(&mut bytes, &[example.len() as u64 / 8]);
            bytes.extend(example);
        }
    }
    bytes
}

const EDITIONS: [u64; 2] = [PORTED_UPDATE, TEXTBOOK_UPDATE];

/// All of them.
pub fn marked() -> Vec<Marked> {
    let mut all = Vec::new();
    for edition in EDITIONS {
        all.extend(cases_of_document_01(edition));
        all.extend(whatever_the_verdict(edition));
        all.extend(borders(edition));
        all.extend(norms_of_the_phase(edition));
        all.extend(sizes(edition));
        all.extend(numbers_that_are_none(edition));
        all.extend(ends_of_the_factor(edition));
        all.extend(zero_steps(edition));
        all.extend(refusals(edition));
        all.extend(names(edition));
    }
    all.extend(unknown());
    all.extend(how_many());
    all.extend(places());
    all
}

/// An update where q is 0: refused by 8 under edition 1, none under edition 2.
fn at_zero(edition: u64, script: Script, hessian: &[f64]) -> Marked {
    if edition == PORTED_UPDATE {
        script.not_taken(hessian)
    } else {
        script.accepted(hessian)
    }
}

/// Cases 14 and 15, and z = 0; then how a session goes on.
fn cases_of_document_01(edition: u64) -> Vec<Marked> {
    let start = along(edition);
    let mut all = vec![
        start.propose().tell(LOWER, &UPDATES).accepted(&UPDATED),
        at_zero(edition, start.propose().tell(LOWER, &ACROSS), &IDENTITY),
        at_zero(edition, start.propose().tell(LOWER, &IN_LINE), &IDENTITY),
    ];
    // The other dogleg and the other kernels: the same step.
    for (kernel, dogleg) in [
        (1, TEXTBOOK),
        (2, PORTED),
        (2, TEXTBOOK),
        (3, PORTED),
        (3, TEXTBOOK),
    ] {
        let start = Start {
            kernel,
            further: vec![3, 5, dogleg, edition],
            ..start.clone()
        };
        all.push(at_zero(
            edition,
            start.propose().tell(LOWER, &ACROSS),
            &IDENTITY,
        ));
        all.push(start.propose().tell(LOWER, &UPDATES).accepted(&UPDATED));
    }
    if edition == PORTED_UPDATE {
        // As often as it is told, until another gradient is.
        let again = start.propose().tell(LOWER, &ACROSS).tell(LOWER, &ACROSS);
        let again = again.tell(HIGHER, &ACROSS).tell(LOWER, &UPDATES);
        let said = "start proposed 8 8 8 accepted | ready 0";
        all.push(again.ends(said, 2.0, &[1.0, 0.0], &UPDATED));
    } else {
        // The gradient was taken: the next step is (−0, −1). A gradient of (0, 2) there makes z (0, 2) and q −2.
        let again = start.propose().tell(LOWER, &ACROSS).propose();
        let said = "start proposed accepted proposed accepted | ready 0";
        let again = again.tell(9.0, &[0.0, 2.0]);
        all.push(again.ends(said, 2.0, &[1.0, -1.0], &[1.0, 0.0, 0.0, -1.0]));
        // And the other way round: z is (1, 0), H becomes diag(2, 1), the next step is (−1/2, −0), and at its end the gradient is
        // what the model says, 0.
        let again = start.propose().tell(LOWER, &[1.0, 0.0]).propose();
        let said = "start proposed accepted proposed accepted done | ready 0";
        let again = again.tell(9.25, &IN_LINE).propose();
        all.push(again.ends(said, 2.0, &[0.5, 0.0], &[2.0, 0.0, 0.0, 1.0]));
    }
    // Beside the diagonal −0: an update makes +0 of it, a skipped one does not.
    let minus = [1.0, -0.0, -0.0, 1.0];
    let start = Start {
        hessian: minus.to_vec(),
        ..start
    };
    all.push(start.propose().tell(LOWER, &UPDATES).accepted(&UPDATED));
    all.push(at_zero(
        edition,
        start.propose().tell(LOWER, &ACROSS),
        &minus,
    ));
    all.push(at_zero(
        edition,
        start.propose().tell(LOWER, &IN_LINE),
        &minus,
    ));
    all
}

/// Rejected and hidden trials update and skip as accepted ones do, and the count goes on as before.
fn whatever_the_verdict(edition: u64) -> Vec<Marked> {
    let start = along(edition);
    let hidden = "start proposed rejected | ready 1";
    let mut all = vec![
        start.propose().tell(HIGHER, &UPDATES).rejected(&UPDATED),
        start
            .propose()
            .tell(NAN, &UPDATES)
            .ends(hidden, 0.5, &[0.0; 2], &UPDATED),
    ];
    let across = start.propose().tell(HIGHER, &ACROSS);
    let across_hidden = start.propose().tell(NAN, &ACROSS);
    let told = start.propose().count(3).tell(LOWER, &ACROSS);
    let one = Start {
        further: vec![3, 1, PORTED, edition],
        ..start
    };
    let at_allowance = one.propose().tell(NAN, &ACROSS).propose();
    if edition == PORTED_UPDATE {
        all.extend([
            across.not_taken(&IDENTITY),
            across_hidden.not_taken(&IDENTITY),
            told.says("start proposed 8 | cost 3 | radius 1.0 | point 0.0 0.0 | hessian 1.0 0.0 0.0 1.0"),
            at_allowance.says("start proposed 8 3 | cost 0 | radius 1.0 | point 0.0 0.0 | hessian 1.0 0.0 0.0 1.0"),
        ]);
    } else {
        all.extend([
            across.rejected(&IDENTITY),
            across_hidden.ends(hidden, 0.5, &[0.0; 2], &IDENTITY),
            told.accepted(&IDENTITY),
            at_allowance.ends(
                "start proposed rejected 9 | ready 1",
                0.5,
                &[0.0; 2],
                &IDENTITY,
            ),
        ]);
    }
    all
}

/// Trials that were proposed, with both sides of the book's test equal or one digit apart. Edition 1 updates at all of them but the
/// last.
fn borders(edition: u64) -> Vec<Marked> {
    let book = edition == TEXTBOOK_UPDATE;
    let mut all = Vec::new();
    // z = (±1, 1, 1, 1): its norm is 2, so that the other side is twice the factor.
    for first in [1.0, -1.0] {
        let z = [first, 1.0, 1.0, 1.0];
        for (factor, updates) in [
            (0.5, true),
            (0.5f64.next_up(), false),
            (0.5f64.next_down(), true),
            (0.75, false),
            (0.25, true),
        ] {
            let start = Start {
                factor,
                ..along_four(edition)
            };
            let script = start.propose().tell(LOWER, &z);
            all.push(if updates || !book {
                script.accepted(&updated_by(&z, first))
            } else {
                script.accepted(&identity(4))
            });
        }
    }
    // z = (3, 4): 0.6·5 rounds to 3.
    for (factor, updates) in [
        (0.6, true),
        (0.6f64.next_up(), false),
        (0.6f64.next_down(), true),
    ] {
        let start = Start {
            factor,
            ..along(edition)
        };
        let script = start.propose().tell(LOWER, &[3.0, 4.0]);
        all.push(if updates || !book {
            script.accepted(&updated_by(&[3.0, 4.0], 3.0))
        } else {
            script.accepted(&IDENTITY)
        });
    }
    // q is a small share of both norms, and the default factor is a smaller one still: 2^-26 and 2^-27 beside 1e-8.
    for (first, updates) in [(power_of_two(-26), true), (power_of_two(-27), false)] {
        let z = [first, 1.0];
        let script = along(edition).propose().tell(LOWER, &z);
        all.push(if updates || !book {
            script.accepted(&updated_by(&z, first))
        } else {
            script.accepted(&IDENTITY)
        });
    }
    // The step is (2, −0), z (4, 0) and q 8; 0.75·2 is above 1, so that edition 1 skips. The book's other side is 6.
    let start = Start {
        radius: 2.0,
        factor: 0.75,
        gradient: vec![-2.0, 0.0],
        ..along(edition)
    };
    let hessian = if book { UPDATED } else { IDENTITY };
    let said = "start proposed accepted | ready 0";
    let script = start.propose().tell(8.0, &[4.0, 0.0]);
    all.push(script.ends(said, 4.0, &[2.0, 0.0], &hessian));
    all
}

/// The norm in the phase counts, not the step's own, which is 1; and it may be any number.
fn norms_of_the_phase(edition: u64) -> Vec<Marked> {
    let mut all = Vec::new();
    let one = [1.0; 4];
    let five = [1.0, 2.0, 2.0, 4.0];
    let seven = 0.7;
    // z, the factor, the norm; whether edition 1 updates and whether edition 2 does. q is 1.
    for (z, factor, norm, ported, book) in [
        (one, 0.5, 1.0, true, true),
        (one, 0.5, 1f64.next_up(), true, false),
        (one, 0.5, 1f64.next_down(), true, true),
        // Edition 1's border is at a norm of 2.
        (one, 0.5, 2.0, true, false),
        (one, 0.5, 2f64.next_up(), false, false),
        (one, 0.5, 10.0, false, false),
        (five, 0.5, 1.0, true, false),
        (five, 0.5, 0.25, true, true),
        // (0.5·0.4)·5 rounds to 1, and so does (0.7·norm)·5; by another order of factors it would not.
        (five, 0.5, 0.4, true, true),
        (five, 0.5, 0.4f64.next_up(), true, false),
        (five, seven, 0.28571428571428575, true, true),
        (five, 0.5, 0.0, true, true),
        (five, 0.5, -0.0, true, true),
        // Below zero everything is above the other side.
        (five, 0.5, -1.0, true, true),
        (five, 0.5, -INFINITY, true, true),
        (five, 0.5, INFINITY, false, false),
        (five, 0.5, NAN, false, false),
    ] {
        let start = Start {
            factor,
            ..along_four(edition)
        };
        let script = start.propose().with_norm(norm).tell(HIGHER, &z);
        let updates = if edition == PORTED_UPDATE {
            ported
        } else {
            book
        };
        all.push(if updates {
            script.rejected(&updated_by(&z, 1.0))
        } else {
            script.rejected(&identity(4))
        });
    }
    // q is 0, and so is z in the second of them. Edition 1 compares 0 with 0, or with a NaN where the norm is not finite.
    for gradient in [ACROSS, IN_LINE] {
        for norm in [1.0, 0.0, -0.0, -1.0, -INFINITY, INFINITY, NAN] {
            let script = along(edition).propose().with_norm(norm);
            let script = script.tell(HIGHER, &gradient);
            all.push(if edition == PORTED_UPDATE && norm.is_finite() {
                script.not_taken(&IDENTITY)
            } else {
                script.rejected(&IDENTITY)
            });
        }
    }
    all
}

/// Norms and products that overflow or vanish although q does not.
fn sizes(edition: u64) -> Vec<Marked> {
    let (far, book) = (power_of_two(600), edition == TEXTBOOK_UPDATE);
    let mut all = Vec::new();
    // The norm of z is infinite; z·zᵀ is too, so that edition 1 is refused.
    for z in [[1.0, far], [far, far], [-far, 0.0]] {
        let script = along(edition).propose().tell(LOWER, &z);
        all.push(if book {
            script.accepted(&IDENTITY)
        } else {
            script.not_taken(&IDENTITY)
        });
    }
    // Norm times norm would overflow; with the factor 2^-1000 before it the other side is 2^100.
    let z = [power_of_two(500), 0.0];
    let start = Start {
        factor: power_of_two(-1000),
        ..along(edition)
    };
    let script = start.propose().with_norm(far).tell(HIGHER, &z);
    all.push(script.rejected(&[power_of_two(500), 0.0, 0.0, 1.0]));
    // g = (−x, 0) and H = x on the diagonal: the whole step of a dogleg is (1, −0), and a gradient of (z, 0) makes z small and q
    // with it. Its square vanishes: an update adds 0, and makes +0 of −0.
    for (x, small, updates) in [
        (power_of_two(-600), power_of_two(-599), true),
        // q is subnormal and its reciprocal 2^1023.
        (power_of_two(-1000), power_of_two(-1023), true),
        // The reciprocal is infinite, and times 0 it is a NaN.
        (power_of_two(-1000), power_of_two(-1024), false),
        (power_of_two(-1022), power_of_two(-1074), false),
    ] {
        let start = Start {
            kernel: 2,
            tol_grad: 0.0,
            gradient: vec![-x, 0.0],
            hessian: vec![x, -0.0, -0.0, x],
            ..along(edition)
        };
        let script = start.propose().tell(LOWER, &[small, 0.0]);
        all.push(if updates {
            script.accepted(&[x, 0.0, 0.0, x])
        } else {
            script.not_taken(&[x, -0.0, -0.0, x])
        });
        let script = start.propose().tell(LOWER, &IN_LINE);
        all.push(at_zero(edition, script, &[x, -0.0, -0.0, x]));
    }
    // The step is (2^-600, −0), its norm in the phase 0, and z (2^-599, 0): q vanishes although neither does. So does the predicted
    // fall, to −0.
    let x = power_of_two(-600);
    let start = Start {
        kernel: 2,
        tol_grad: 0.0,
        gradient: vec![-x, 0.0],
        ..along(edition)
    };
    let script = start.propose().tell(LOWER, &[2.0 * x, 0.0]);
    all.push(if book {
        script.rejected(&IDENTITY)
    } else {
        script.not_taken(&IDENTITY)
    });
    all
}

/// H·s overflows: the step is (2^30, −0).
fn numbers_that_are_none(edition: u64) -> Vec<Marked> {
    let (steep, radius) = (power_of_two(1000), power_of_two(30));
    let falling = |beside: f64| Start {
        radius,
        hessian: vec![-steep, 0.0, beside, -steep],
        ..along(edition)
    };
    let script = |beside: f64| falling(beside).propose().tell(LOWER, &[1.0, 1.0]);
    let point = [0.0; 2];
    vec![
        // z is (inf, 1) and q is inf: both sides are, and 1/q is 0. An update of NaN is refused, in both editions.
        script(0.0).ends(
            "start proposed 8 | cost 0",
            radius,
            &point,
            &[-steep, 0.0, 0.0, -steep],
        ),
        // z is (inf, −inf), and q inf + 0·inf: a NaN, which no test holds for. So is the ratio.
        script(steep).ends(
            "start proposed rejected | ready 0",
            0.5 * radius,
            &point,
            &[-steep, 0.0, steep, -steep],
        ),
    ]
}

/// The greatest and the least factor.
fn ends_of_the_factor(edition: u64) -> Vec<Marked> {
    let single = |factor| Start {
        factor,
        gradient: vec![-1.0],
        hessian: vec![1.0],
        ..along(edition)
    };
    let greatest = single(1f64.next_down());
    let least = single(5e-324);
    let one = 1.0 + f64::EPSILON;
    let mut all = vec![
        // z is 2 and q 2. By a norm of 1 + 2^-52 the other side rounds to 2 as well, by one more digit it does not.
        greatest.propose().tell(LOWER, &[2.0]).accepted(&[3.0]),
        greatest
            .propose()
            .with_norm(one)
            .tell(HIGHER, &[2.0])
            .rejected(&[3.0]),
        greatest
            .propose()
            .with_norm(one.next_up())
            .tell(HIGHER, &[2.0])
            .rejected(&[1.0]),
        least.propose().tell(LOWER, &[2.0]).accepted(&[3.0]),
        least
            .propose()
            .with_norm(f64::MAX)
            .tell(HIGHER, &[2.0])
            .rejected(&[3.0]),
    ];
    for start in [greatest, least] {
        let script = start.propose().tell(LOWER, &[0.0]);
        all.push(at_zero(edition, script, &[1.0]));
    }
    let out_of_range = [0.0, 1.0, NAN, -1e-8];
    all.extend(out_of_range.map(|factor| single(factor).propose().says("2")));
    all
}

/// The ported dogleg's zero step, document 01's case 5: q is 0 whatever the answer. The predicted fall is −0: an equal cost gives a ratio of
/// NaN, a lower one −inf, a higher one +inf, which is accepted.
fn zero_steps(edition: u64) -> Vec<Marked> {
    let start = Start {
        kernel: 2,
        gradient: vec![3.0, 4.0],
        ..along(edition)
    };
    let same = [3.0, 4.0];
    let script = start.propose().tell(10.0, &same).tell(10.0, &same);
    let said = [
        (script, "rejected 3", 0.5),
        (start.propose().tell(10.0, &[5.0, 5.0]), "rejected", 0.5),
        (start.propose().tell(9.0, &same), "rejected", 0.5),
        (start.propose().tell(11.0, &same), "accepted", 1.0),
        (start.propose().tell(NAN, &same), "rejected", 0.5),
        // The caller says that there was a trial, and there was none: the step is zero.
        (
            start.script().with_norm(1.0).tell(10.0, &same),
            "rejected",
            0.5,
        ),
    ];
    let mut all = Vec::new();
    for (place, (script, word, radius)) in said.into_iter().enumerate() {
        let proposed = if place == 5 { "" } else { "proposed " };
        let count = u64::from(place == 4);
        let (said, radius) = if edition == PORTED_UPDATE {
            let often = if place == 0 { "8 8" } else { "8" };
            (format!("start {proposed}{often} | cost 0"), 1.0)
        } else {
            (format!("start {proposed}{word} | ready {count}"), radius)
        };
        all.push(script.ends(&said, radius, &[0.0; 2], &IDENTITY));
    }
    all
}

/// Refusal 8 for the radius, whether or not the update is skipped; and the other refusals, which come first.
fn refusals(edition: u64) -> Vec<Marked> {
    let book = edition == TEXTBOOK_UPDATE;
    let start = along(edition);
    let over = [1.5e308, 1.0, 1.0, 1.4e308];
    let script = |gradient: &[f64]| {
        let script = start.propose().awaiting(over).tell(0.0, gradient);
        script.tell(0.5, gradient).says("")
    };
    // The first doubles the radius over the top, the second keeps it. By that norm both editions skip where q is not 0.
    let taken = "start proposed 8 accepted | ready 0 | radius 1.5e308 | point 1.0 0.0 | hessian 1.0 0.0 0.0 1.0";
    let not_taken =
        "start proposed 8 8 | cost 0 | radius 1.5e308 | point 0.0 0.0 | hessian 1.0 0.0 0.0 1.0";
    let zero = if book { taken } else { not_taken };
    let mut all = Vec::new();
    for (gradient, said) in [(UPDATES, taken), (ACROSS, zero), (IN_LINE, zero)] {
        let said = said.to_string();
        all.push(Marked {
            said,
            ..script(&gradient)
        });
    }
    // Out of turn, another n, numbers that are not finite, a radius below zero: whatever q is.
    let wrong = start
        .script()
        .tell(LOWER, &ACROSS)
        .propose()
        .tell_all(3, LOWER, &ACROSS)
        .tell(LOWER, &[NAN, 1.0])
        .tell(INFINITY, &ACROSS)
        .propose()
        .count(6)
        .tell(LOWER, &ACROSS)
        .count(0)
        .awaiting([-1.0, 10.0, 0.5, 1.0])
        .tell(LOWER, &ACROSS)
        .with_norm(1.0)
        .tell(LOWER, &UPDATES)
        .tell(LOWER, &ACROSS);
    let said = "start 3 proposed 1 4 4 3 2 2 accepted 3 | ready 0";
    all.push(wrong.ends(said, 2.0, &[1.0, 0.0], &UPDATED));
    all
}

/// The edition stands beside every kernel and either dogleg, and what else is wrong is refused beside it.
fn names(edition: u64) -> Vec<Marked> {
    let start = along(edition);
    let with = |kernel: u64, further: &[u64], cost: f64| Start {
        kernel,
        further: further.to_vec(),
        cost,
        ..start.clone()
    };
    let mut all = Vec::new();
    for kernel in 1..=3 {
        for dogleg in [PORTED, TEXTBOOK] {
            let start = with(kernel, &[3, 1000, dogleg, edition], 10.0);
            all.push(start.propose().says(
                "start proposed | cost 0 | radius 1.0 | point 0.0 0.0 | hessian 1.0 0.0 0.0 1.0",
            ));
        }
        all.push(
            with(kernel, &[3, 5, PORTED, edition], NAN)
                .propose()
                .says("4"),
        );
        all.push(with(kernel, &[3, 5, 3, edition], 10.0).propose().says("2"));
        all.push(
            with(kernel, &[3, 0, PORTED, edition], 10.0)
                .propose()
                .says("2"),
        );
    }
    all.push(with(4, &[3, 5, PORTED, edition], 10.0).propose().says("2"));
    all
}

/// Editions that are none, with every kernel, before every call and before a cost that is not finite.
fn unknown() -> Vec<Marked> {
    let mut all = Vec::new();
    let far = [1 << 32, (1 << 32) + 1, (1 << 32) + 2, 1 << 63 | 1, u64::MAX];
    for kernel in 1..=3 {
        for edition in [&[0, 3, 4, 257, 258][..], &far].concat() {
            let start = Start {
                kernel,
                ..along(edition)
            };
            let hidden = Start {
                cost: NAN,
                ..start.clone()
            };
            all.extend([
                start.script().says("2"),
                start.propose().tell(LOWER, &ACROSS).says("2"),
                start.script().tell(LOWER, &UPDATES).says("2"),
                start.script().with(&[9, 9]).says("2"),
                hidden.script().says("2"),
            ]);
        }
    }
    all
}

/// So many further settings as there are words, or others: kind 4 knows three and kind 3 two.
fn how_many() -> Vec<Marked> {
    let start = |further: &[u64]| Start {
        further: further.to_vec(),
        ..along(PORTED_UPDATE)
    };
    let mut all = Vec::new();
    // Where none is named it is edition 1.
    for further in [&[0][..], &[1, 5], &[2, 5, PORTED], &[2, 5, TEXTBOOK]] {
        let script = start(further).propose().tell(LOWER, &ACROSS);
        all.push(script.not_taken(&IDENTITY));
    }
    for edition in EDITIONS {
        let script = start(&[3, 5, PORTED, edition]).propose();
        all.push(at_zero(edition, script.tell(LOWER, &ACROSS), &IDENTITY));
    }
    for many in [4, 5, (1 << 32) + 3, 1 << 63 | 3, u64::MAX] {
        for further in [&[5, PORTED, 2][..], &[5, PORTED, 2, 2], &[5, PORTED, 1, 1]] {
            let further = [&[many], further].concat();
            all.push(start(&further).propose().says("bad"));
        }
    }
    // Ends inside them, and behind them.
    for further in [&[3][..], &[3, 5], &[3, 5, 1], &[3, 5, 1, 2]] {
        let mut script = start(further).script();
        script.words.truncate(script.words.len() - 9);
        all.push(script.says("bad"));
    }
    // TrustRegion has no edition.
    let other = |further: &[u64]| Start {
        kind: 3,
        ..start(further)
    };
    for further in [
        &[3, 5, PORTED, 1][..],
        &[3, 5, PORTED, 2],
        &[4, 5, PORTED, 2, 2],
    ] {
        all.push(other(further).propose().says("bad"));
    }
    for further in [&[0][..], &[1, 5], &[2, 5, TEXTBOOK]] {
        all.push(other(further).propose().says(
            "start proposed | cost 0 | radius 1.0 | point 0.0 0.0 | hessian 1.0 0.0 0.0 1.0",
        ));
    }
    all
}

/// Each of the three has its own place. With g = (3, 4), the identity and a radius of 2.5 the ported dogleg stands still, and the other
/// one goes (−1.5, −2); the gradient there is (1.5, 2).
fn places() -> Vec<Marked> {
    let start = |further: &[u64]| Start {
        kernel: 2,
        radius: 2.5,
        gradient: vec![3.0, 4.0],
        further: further.to_vec(),
        ..along(PORTED_UPDATE)
    };
    let there = [1.5, 2.0];
    let moved = start(&[3, 5, TEXTBOOK, PORTED_UPDATE]).propose();
    let both = start(&[3, 5, TEXTBOOK, TEXTBOOK_UPDATE]).propose();
    let stood = start(&[3, 5, PORTED, TEXTBOOK_UPDATE]).propose();
    let one = start(&[3, 1, TEXTBOOK, TEXTBOOK_UPDATE]).propose();
    let two = start(&[3, 2, PORTED, PORTED_UPDATE]).count(2);
    vec![
        moved
            .tell(0.625, &there)
            .ends("start proposed 8 | cost 0", 2.5, &[0.0; 2], &IDENTITY),
        // The fall is as predicted, 9.375: the radius doubles.
        both.tell(0.625, &there).ends(
            "start proposed accepted | ready 0",
            5.0,
            &[-1.5, -2.0],
            &IDENTITY,
        ),
        stood.tell(10.0, &there).ends(
            "start proposed rejected | ready 0",
            1.25,
            &[0.0; 2],
            &IDENTITY,
        ),
        // An allowance of one, and of two.
        one.tell(NAN, &there).propose().ends(
            "start proposed rejected 9 | ready 1",
            1.25,
            &[0.0; 2],
            &IDENTITY,
        ),
        two.propose()
            .ends("start 9 | ready 2", 2.5, &[0.0; 2], &IDENTITY),
    ]
}

impl Start {
    fn count(&self, count: u64) -> Script {
        self.script().count(count)
    }
}

#[cfg(test)]
mod tests {
    use super::*;
    use crate::replay;
    use crate::session::Formulas;

    /// The lines of a script in short.
    fn short(words_of: &[u64]) -> String {
        let (mut input, mut out) = (Vec::new(), Vec::new());
        words(&mut input, words_of);
        replay::answer(&input, &Formulas, &mut out).unwrap();
        let lines = String::from_utf8(out).unwrap();
        let (mut said, mut end) = (Vec::new(), Vec::new());
        for line in lines.lines() {
            let words: Vec<&str> = line.split(' ').collect();
            let number = |word: &&str| f64::from_bits(u64::from_str_radix(word, 16).unwrap());
            let numbers = || -> Vec<f64> { words[1..].iter().map(number).collect() };
            match words[..] {
                ["step" | "trial" | "cost" | "gradient", ..] => {}
                ["refused", number] => said.push(number.to_string()),
                ["count", number] => said.push(number.to_string()),
                ["end", phase, ..] => said.push(format!("| {phase}")),
                ["radius" | "point" | "hessian", ..] => {
                    end.push(format!(" | {}{}", words[0], listed(&numbers())));
                }
                _ => said.push(words[0].to_string()),
            }
        }
        said.join(" ") + &end.concat()
    }

    #[test]
    fn each_says_what_the_request_says() {
        for (number, marked) in marked().iter().enumerate() {
            let found = short(&marked.words);
            assert_eq!(found, marked.said, "script {number}");
        }
    }
}
