//! Marked sessions of request Five, for `special`: allowances at their ends, counts that a caller put in, and where 9 stands among
//! the refusals. Each has beside it, in short, what is to be said, worked out by hand from the request's text.

use crate::random::NANS;

/// A script, and what it says: a word for each call that says something, the number alone where it is refused; behind a bar
/// the phase at the end, and in kinds 3 and 4 the count.
pub struct Marked {
    pub words: Vec<u64>,
    pub said: &'static str,
}

/// A start at 0 with cost 10, radius 1 and further settings as they are given.
struct Start<'a> {
    kind: u64,
    kernel: u64,
    further: &'a [u64],
    cost: f64,
    tol_grad: f64,
    gradient: &'a [f64],
    hessian: &'a [f64],
}

/// One parameter, the Cauchy point, g = 2 and H = 1: the step is −1, the model value 8.5, the predicted fall 1.5.
fn of<'a>(kind: u64, further: &'a [u64]) -> Start<'a> {
    Start {
        kind,
        kernel: 1,
        further,
        cost: 10.0,
        tol_grad: 1e-3,
        gradient: &[2.0],
        hessian: &[1.0],
    }
}

/// The same with this allowance.
fn allowing(kind: u64, allowance: u64) -> Script {
    of(kind, &[1, allowance]).script()
}

impl Start<'_> {
    fn script(&self) -> Script {
        let n = self.gradient.len();
        let mut script = Script {
            kind: self.kind,
            gradient: self.gradient.to_vec(),
            hessian: self.hessian.to_vec(),
            words: vec![self.kind, n as u64, self.kernel],
        };
        if script.is_sr1() {
            script.numbers(&[1.0, 0.0005, 1e-8, self.tol_grad, 1e-9]);
        } else {
            script.numbers(&[1.0, 100.0, 0.125, 1e-9]);
        }
        script.words.push(5);
        script.words.extend(self.further);
        script.numbers(&[self.cost]);
        script.numbers(&vec![0.0; n]);
        script.numbers(self.gradient);
        script.numbers(self.hessian);
        script
    }
}

/// A script under way, with the gradient and the Hessian that it began with.
struct Script {
    kind: u64,
    gradient: Vec<f64>,
    hessian: Vec<f64>,
    words: Vec<u64>,
}

/// Costs that are accepted and rejected in every session here.
const LOWER: f64 = 9.0;
const HIGHER: f64 = 11.0;

impl Script {
    fn is_sr1(&self) -> bool {
        self.kind % 2 == 0
    }

    fn n(&self) -> u64 {
        self.gradient.len() as u64
    }

    /// One that is wrong.
    fn other_n(&self) -> u64 {
        self.n() + 1
    }

    fn numbers(&mut self, numbers: &[f64]) {
        self.words.extend(numbers.iter().map(|x| x.to_bits()));
    }

    fn with(mut self, words: &[u64]) -> Script {
        self.words.extend(words);
        self
    }

    fn propose(self) -> Script {
        let n = self.n();
        self.with(&[1, n])
    }

    /// The cost at the trial. In an SR1 session these gradients make q another number than 0 at every step that is proposed here.
    fn tell(self, cost: f64) -> Script {
        let share = if cost == LOWER { 0.125 } else { -0.5 };
        let gradient: Vec<f64> = self.gradient.iter().map(|g| share * g).collect();
        let n = self.n();
        self.tell_all(n, cost, &gradient)
    }

    fn tell_all(mut self, n: u64, cost: f64, gradient: &[f64]) -> Script {
        self.words.extend([2, n, cost.to_bits()]);
        if self.is_sr1() {
            self.numbers(gradient);
        }
        self
    }

    fn hide(self) -> Script {
        self.tell(f64::NAN)
    }

    /// A trial that is hidden.
    fn hidden(self) -> Script {
        self.propose().hide()
    }

    /// A NaN cost at the first trial with the gradient that the model has there: q is 0, and SR1 refuses it by 8.
    fn hide_in_line(self) -> Script {
        let n = self.n();
        self.tell_all(n, f64::NAN, &[1.0])
    }

    /// The derivatives, as at the start; SR1 sessions have no such call.
    fn renew(self) -> Script {
        let n = self.n();
        let gradient = self.gradient.clone();
        self.renew_all(n, &gradient)
    }

    fn renew_all(mut self, n: u64, gradient: &[f64]) -> Script {
        if !self.is_sr1() {
            self.words.extend([3, n]);
            self.numbers(gradient);
            let hessian = self.hessian.clone();
            self.numbers(&hessian);
        }
        self
    }

    /// Every call with a wrong n.
    fn wrong(self) -> Script {
        let (n, gradient) = (self.other_n(), self.gradient.clone());
        self.with(&[1, n])
            .tell_all(n, f64::NAN, &gradient)
            .renew_all(n, &gradient)
    }

    /// Call 5.
    fn count(self, count: u64) -> Script {
        self.with(&[5, count])
    }

    /// Call 4: ready, with this radius.
    fn ready(mut self, radius: f64) -> Script {
        self.words.push(4);
        self.numbers(&[radius, 10.0]);
        self.with(&[0, 0, 0])
    }

    /// Call 4: a cost is awaited, with the model value or the predicted fall in `promised`, and a step norm of 1.
    fn awaiting(mut self, radius: f64, promised: f64) -> Script {
        self.words.push(4);
        self.numbers(&[radius, 10.0]);
        self.words.push(1);
        self.numbers(&[promised, 1.0]);
        self
    }

    fn says(self, said: &'static str) -> Marked {
        Marked {
            words: self.words,
            said,
        }
    }

    /// What is said by TrustRegion and by SR1TrustRegion.
    fn say(self, trust_region: &'static str, sr1: &'static str) -> Marked {
        let said = if self.is_sr1() { sr1 } else { trust_region };
        self.says(said)
    }
}

/// All of them.
pub fn marked() -> Vec<Marked> {
    let mut all = Vec::new();
    for kind in [3, 4] {
        all.extend(allowances(kind));
        all.extend(counts_by_hand(kind));
        all.extend(order(kind));
        all.extend(refused_answers(kind));
        all.extend(answers_that_reset(kind));
        all.extend(above(kind));
        all.extend(kernels(kind));
        all.extend(bad_words(kind));
    }
    all.extend([1, 2].map(old_kind));
    all
}

/// 1, 2 and 1,000, none named, and those out of range.
fn allowances(kind: u64) -> Vec<Marked> {
    let named = [
        allowing(kind, 1)
            .hidden()
            .propose()
            .propose()
            .count(0)
            .propose()
            .tell(LOWER)
            .say(
                "start proposed rejected 9 9 proposed accepted | derivatives 0",
                "start proposed rejected 9 9 proposed accepted | ready 0",
            ),
        // A lower count than the allowance, and not 0, lets it go on as far as it says.
        allowing(kind, 2)
            .hidden()
            .hidden()
            .propose()
            .propose()
            .count(1)
            .hidden()
            .propose()
            .says("start proposed rejected proposed rejected 9 9 proposed rejected 9 | ready 2"),
        allowing(kind, 1_000)
            .count(998)
            .hidden()
            .hidden()
            .propose()
            .says("start proposed rejected proposed rejected 9 | ready 1000"),
        // Any NaN is one.
        NANS[1..6]
            .iter()
            .fold(allowing(kind, 5), |script, &bits| {
                script.propose().tell(f64::from_bits(bits))
            })
            .propose()
            .says(
                "start proposed rejected proposed rejected proposed rejected proposed rejected \
                 proposed rejected 9 | ready 5",
            ),
        // None is named: a thousand.
        of(kind, &[0])
            .script()
            .count(999)
            .hidden()
            .propose()
            .count(1_000)
            .propose()
            .count(1_001)
            .propose()
            .says("start proposed rejected 9 9 2 | ready 1001"),
        of(kind, &[0])
            .script()
            .hidden()
            .propose()
            .says("start proposed rejected proposed | cost 1"),
        // The start's cost is looked at later.
        Start {
            cost: f64::NAN,
            ..of(kind, &[1, 0])
        }
        .script()
        .says("2"),
        Start {
            cost: f64::NAN,
            ..of(kind, &[1, 1_000])
        }
        .script()
        .says("4"),
    ];
    let out_of_range = [0, 1_001, (1 << 32) + 1, u64::MAX];
    let refused = out_of_range.map(|allowance| allowing(kind, allowance).propose().says("2"));
    named.into_iter().chain(refused).collect()
}

/// Below the allowance, at it and above it in every phase, with every call: wrong n, out of turn, in turn.
fn counts_by_hand(kind: u64) -> Vec<Marked> {
    let ready = |count| {
        let script = allowing(kind, 3).count(count).wrong();
        script.hide().renew().propose()
    };
    let cost = |count| {
        let script = allowing(kind, 3).propose().count(count).wrong();
        script.propose().renew().hide()
    };
    let derivatives = |count| {
        let script = allowing(kind, 3).propose().tell(LOWER).count(count);
        script.wrong().propose().hide().renew()
    };
    let mut all = vec![
        ready(2).say(
            "start 1 1 1 3 3 proposed | cost 2",
            "start 1 1 3 proposed | cost 2",
        ),
        ready(3).say("start 1 1 1 3 3 9 | ready 3", "start 1 1 3 9 | ready 3"),
        ready(4).say("start 1 1 1 2 2 2 | ready 4", "start 1 1 2 2 | ready 4"),
        cost(2).propose().say(
            "start proposed 1 1 1 3 3 rejected 9 | ready 3",
            "start proposed 1 1 3 rejected 9 | ready 3",
        ),
        // A NaN answer is taken at the allowance too, and every call is refused then.
        cost(3).propose().hide().renew().wrong().say(
            "start proposed 1 1 1 3 3 rejected 2 2 2 1 1 1 | ready 4",
            "start proposed 1 1 3 rejected 2 2 1 1 | ready 4",
        ),
        cost(4).say(
            "start proposed 1 1 1 2 2 2 | cost 4",
            "start proposed 1 1 2 2 | cost 4",
        ),
        // All 64 bits count.
        allowing(kind, 3)
            .count(1 << 32)
            .propose()
            .count((1 << 32) + 3)
            .propose()
            .count(u64::MAX)
            .propose()
            .hide()
            .count(3)
            .propose()
            .says("start 2 2 2 2 9 | ready 3"),
    ];
    if kind == 3 {
        all.extend([
            derivatives(2).says("start proposed accepted 1 1 1 3 3 taken | ready 0"),
            derivatives(3).says("start proposed accepted 1 1 1 3 3 taken | ready 0"),
            derivatives(4).says("start proposed accepted 1 1 1 2 2 2 | derivatives 4"),
        ]);
    }
    all
}

/// Refusal 9 comes behind 1 to 5 and SR1's done, and before the kernel's own.
fn order(kind: u64) -> Vec<Marked> {
    let infinite = Start {
        gradient: &[f64::INFINITY],
        ..of(kind, &[1, 1])
    };
    let singular = Start {
        kernel: 2,
        gradient: &[0.3, 0.4],
        hessian: &[1.0; 4],
        ..of(kind, &[1, 1])
    };
    let rootless = Start {
        kernel: 3,
        gradient: &[1e200, 1e200],
        hessian: &[-1.0, 0.0, 0.0, -1.0],
        ..of(kind, &[1, 1])
    };
    // Without a tolerance SR1 is not done at it.
    let level = Start {
        tol_grad: 0.0,
        gradient: &[0.0],
        ..of(kind, &[1, 1])
    };
    let mut all = vec![
        // 5 before 9, at either zero, and 2 before both. Call 4 leaves the count.
        allowing(kind, 1)
            .count(1)
            .ready(0.0)
            .propose()
            .ready(-0.0)
            .propose()
            .ready(1.0)
            .propose()
            .count(2)
            .ready(0.0)
            .propose()
            .says("start 5 5 9 2 | ready 2"),
        // 4 before 5 and 9.
        infinite
            .script()
            .count(1)
            .propose()
            .ready(0.0)
            .propose()
            .says("start 4 4 | ready 1"),
        // 9 before 6, 7 and 8, and 5 before 9.
        singular
            .script()
            .propose()
            .count(1)
            .propose()
            .ready(0.0)
            .propose()
            .ready(1.0)
            .count(0)
            .propose()
            .says("start 6 9 5 6 | ready 0"),
        rootless
            .script()
            .propose()
            .count(1)
            .propose()
            .says("start 7 9 | ready 1"),
        level
            .script()
            .propose()
            .count(1)
            .propose()
            .says("start 8 9 | ready 1"),
    ];
    if kind == 4 {
        // Done before 5 and 9, but behind 2.
        let done = Start {
            tol_grad: 5.0,
            ..of(kind, &[1, 1])
        };
        let script = done.script().count(1).propose().ready(0.0).propose();
        all.push(
            script
                .count(2)
                .propose()
                .says("start done done 2 | ready 2"),
        );
    }
    all
}

/// A refused answer leaves the count, whether its cost is a NaN, infinite or told.
fn refused_answers(kind: u64) -> Vec<Marked> {
    // One trial was hidden, and a second one is awaited.
    let second = || allowing(kind, 2).hidden().propose();
    let other_n = second().other_n();
    let mut all = vec![
        // By 1 and by 3.
        second()
            .tell_all(other_n, f64::NAN, &[1.0])
            .says("start proposed rejected proposed 1 | cost 1"),
        second()
            .tell_all(other_n, f64::NAN, &[1.0])
            .hide()
            .hide()
            .propose()
            .says("start proposed rejected proposed 1 rejected 3 9 | ready 2"),
        allowing(kind, 2)
            .hidden()
            .hide()
            .says("start proposed rejected 3 | ready 1"),
        // By 2: the radius is below zero.
        second()
            .awaiting(-1.0, 8.5)
            .hide()
            .says("start proposed rejected proposed 2 | cost 1"),
        // By 4.
        second()
            .tell(f64::INFINITY)
            .tell(f64::NEG_INFINITY)
            .says("start proposed rejected proposed 4 4 | cost 1"),
        second()
            .tell(f64::INFINITY)
            .hide()
            .propose()
            .says("start proposed rejected proposed 4 rejected 9 | ready 2"),
        // A cost that is told, with another n and out of turn.
        second()
            .tell_all(other_n, LOWER, &[1.0])
            .hide()
            .propose()
            .says("start proposed rejected proposed 1 rejected 9 | ready 2"),
        allowing(kind, 2)
            .count(2)
            .tell(LOWER)
            .propose()
            .says("start 3 9 | ready 2"),
    ];
    if kind == 4 {
        all.extend([
            // A NaN cost whose gradient is not finite.
            second()
                .tell_all(1, f64::NAN, &[f64::INFINITY])
                .says("start proposed rejected proposed 4 | cost 1"),
            // By 8, below the allowance and at it.
            allowing(kind, 2)
                .propose()
                .count(1)
                .hide_in_line()
                .says("start proposed 8 | cost 1"),
            allowing(kind, 2)
                .propose()
                .count(1)
                .hide_in_line()
                .hide()
                .propose()
                .says("start proposed 8 rejected 9 | ready 2"),
            allowing(kind, 2)
                .propose()
                .count(2)
                .hide_in_line()
                .hide_in_line()
                .says("start proposed 8 8 | cost 2"),
        ]);
    }
    all
}

/// A cost that is told sets the count to 0, and so do derivatives.
fn answers_that_reset(kind: u64) -> Vec<Marked> {
    let mut all = vec![
        allowing(kind, 2)
            .hidden()
            .propose()
            .tell(LOWER)
            .renew()
            .hidden()
            .propose()
            .tell(HIGHER)
            .hidden()
            .hidden()
            .propose()
            .say(
                "start proposed rejected proposed accepted taken proposed rejected proposed rejected \
                 proposed rejected proposed rejected 9 | ready 2",
                "start proposed rejected proposed accepted proposed rejected proposed rejected \
                 proposed rejected proposed rejected 9 | ready 2",
            ),
        // At the allowance, where no proposal leads.
        allowing(kind, 2)
            .propose()
            .count(2)
            .tell(LOWER)
            .say(
                "start proposed accepted | derivatives 0",
                "start proposed accepted | ready 0",
            ),
        allowing(kind, 2)
            .propose()
            .count(2)
            .tell(HIGHER)
            .propose()
            .says("start proposed rejected proposed | cost 0"),
        // The ratio is a NaN, 0/0, and the cost is none.
        allowing(kind, 2)
            .propose()
            .count(2)
            .awaiting(1.0, if kind == 3 { 10.0 } else { 0.0 })
            .tell(10.0)
            .says("start proposed rejected | ready 0"),
    ];
    if kind == 3 {
        let due = || allowing(kind, 2).propose().tell(LOWER).count(2);
        all.extend([
            // Derivatives that are refused, by 1 and by 4, leave it.
            due()
                .renew_all(2, &[2.0])
                .renew_all(1, &[f64::NAN])
                .says("start proposed accepted 1 4 | derivatives 2"),
            due()
                .renew_all(2, &[2.0])
                .renew()
                .hidden()
                .hidden()
                .propose()
                .says("start proposed accepted 1 taken proposed rejected proposed rejected 9 | ready 2"),
        ]);
    }
    all
}

/// A NaN answer at the allowance is taken, and leads above it: nothing goes on until a caller sets the count.
fn above(kind: u64) -> Vec<Marked> {
    let promised = if kind == 3 { 8.5 } else { 1.5 };
    vec![
        allowing(kind, 2)
            .propose()
            .count(2)
            .hide()
            .says("start proposed rejected | ready 3"),
        allowing(kind, 1_000)
            .propose()
            .count(1_000)
            .hide()
            .propose()
            .says("start proposed rejected 2 | ready 1001"),
        // The phase is put in, and once more, which helps as little. The step is the last one, whose own answer SR1's Hessian
        // has already: other gradients.
        allowing(kind, 2)
            .hidden()
            .hidden()
            .propose()
            .awaiting(1.0, promised)
            .tell_all(1, f64::NAN, &[5.0])
            .propose()
            .hide()
            .renew()
            .awaiting(1.0, promised)
            .hide()
            .tell(LOWER)
            .count(2)
            .tell_all(1, HIGHER, &[7.0])
            .propose()
            .say(
                "start proposed rejected proposed rejected 9 rejected 2 2 2 2 2 rejected proposed | cost 0",
                "start proposed rejected proposed rejected 9 rejected 2 2 2 2 rejected proposed | cost 0",
            ),
    ]
}

/// Every kernel, with more than one parameter: up to the allowance, and on.
fn kernels(kind: u64) -> Vec<Marked> {
    let identity = |n: usize| -> Vec<f64> {
        let one = |k: usize| if k % (n + 1) == 0 { 1.0 } else { 0.0 };
        (0..n * n).map(one).collect()
    };
    let scripts = [(1, 2), (2, 2), (3, 2), (1, 3), (2, 3), (3, 3)].map(|(kernel, n)| {
        let start = Start {
            kernel,
            gradient: &[0.3, 0.4, -0.2][..n],
            hessian: &identity(n),
            ..of(kind, &[1, 2])
        };
        let stopped = start.script().hidden().hidden().propose();
        stopped.count(0).propose().tell(LOWER).say(
            "start proposed rejected proposed rejected 9 proposed accepted | derivatives 0",
            "start proposed rejected proposed rejected 9 proposed accepted | ready 0",
        )
    });
    scripts.into()
}

/// Words that make no start, or no call.
fn bad_words(kind: u64) -> Vec<Marked> {
    let far = (1 << 32) + 1;
    let ends = |further: &[u64]| {
        let mut script = of(kind, further).script();
        // Cost, point, gradient and Hessian are a word each.
        script.words.truncate(script.words.len() - 4);
        script
    };
    let no_kernel = Start {
        kernel: 4,
        ..of(kind, &[2, 1, 1])
    };
    let mut all = vec![
        // Two further settings were bad when these were made; now the second one chooses the dogleg.
        of(kind, &[2, 1, 1])
            .script()
            .propose()
            .says("start proposed | cost 0"),
        // More than there are.
        of(kind, &[far, 1]).script().propose().says("bad"),
        of(kind, &[u64::MAX, 1]).script().propose().says("bad"),
        no_kernel.script().propose().says("2"),
        // Ends before the further settings, inside them, and behind them.
        ends(&[]).says("bad"),
        ends(&[1]).says("bad"),
        ends(&[1, 1]).says("bad"),
        // A call without its count, and one that there is not.
        allowing(kind, 1)
            .hidden()
            .with(&[5])
            .says("start proposed rejected bad"),
        allowing(kind, 1).with(&[6, 0]).says("start bad"),
        // No kind: the next one, and one that is this kind in its low half alone.
        of(kind + 2, &[1, 1]).script().propose().says("bad"),
        of(kind + (1 << 32), &[1, 1]).script().propose().says("bad"),
    ];
    if kind == 4 {
        all.extend([
            // As in kind 2: no derivatives, and no phase that awaits them.
            allowing(kind, 1).with(&[3, 1, 0, 0]).says("start bad"),
            allowing(kind, 1)
                .with(&[4, 0, 0, 2, 0, 0])
                .says("start bad"),
        ]);
    }
    all
}

/// Kinds 1 and 2 have the count too, and a thousand is allowed; they do not tell it.
fn old_kind(kind: u64) -> Marked {
    of(kind, &[])
        .script()
        .count(1_000)
        .propose()
        .count(1_001)
        .propose()
        .hide()
        .count(999)
        .hidden()
        .propose()
        .count(0)
        .propose()
        .says("start 9 2 2 proposed rejected 9 proposed | cost")
}

#[cfg(test)]
mod tests {
    use super::*;
    use crate::input::words;
    use crate::replay;
    use crate::session::Formulas;

    /// The lines of a script in short.
    fn short(words_of: &[u64]) -> String {
        let (mut input, mut out) = (Vec::new(), Vec::new());
        words(&mut input, words_of);
        replay::answer(&input, &Formulas, &mut out).unwrap();
        let lines = String::from_utf8(out).unwrap();
        let said = lines.lines().filter_map(|line| {
            let words: Vec<&str> = line.split(' ').collect();
            Some(match words[..] {
                ["step" | "trial" | "radius" | "cost" | "point" | "gradient" | "hessian", ..] => {
                    return None
                }
                ["refused" | "count", number] => number.to_string(),
                ["end", phase, ..] => format!("| {phase}"),
                _ => words[0].to_string(),
            })
        });
        said.collect::<Vec<_>>().join(" ")
    }

    #[test]
    fn each_says_what_the_request_says() {
        for (number, marked) in marked().iter().enumerate() {
            let kind = marked.words[0];
            assert_eq!(
                short(&marked.words),
                marked.said,
                "script {number}, kind {kind}"
            );
        }
    }
}
