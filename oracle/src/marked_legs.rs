//! Marked sessions of request Six, for `special`: the second dogleg on each leg and at each border, and
//! the setting that chooses it. Each has beside it what is to be said, worked out by hand from the
//! request's text.

use crate::random::power_of_two;
use crate::session::{PORTED, TEXTBOOK};

/// What a proposal comes to.
#[derive(Clone, Debug)]
enum Said {
    Step(Vec<f64>),
    Refused(u8),
}

use Said::*;

/// A script, and the lines it begins with.
pub struct Marked {
    pub words: Vec<u64>,
    pub said: String,
}

struct Case {
    g: Vec<f64>,
    h: Vec<f64>,
    radius: f64,
}

fn case(g: &[f64], h: &[f64], radius: f64) -> Case {
    Case {
        g: g.to_vec(),
        h: h.to_vec(),
        radius,
    }
}

/// A diagonal of two.
fn two(g: [f64; 2], h: [f64; 2], radius: f64) -> Case {
    case(&g, &[h[0], 0.0, 0.0, h[1]], radius)
}

impl Case {
    /// A start at 0 with cost 10 and these words behind `limit`.
    fn start(&self, kind: u64, kernel: u64, further: &[u64]) -> Vec<u64> {
        let n = self.g.len();
        let mut words = vec![kind, n as u64, kernel];
        let settings: &[f64] = match kind {
            3 => &[self.radius, 100.0, 0.125, 1e-9],
            _ => &[self.radius, 0.0005, 1e-8, 0.0, 1e-9],
        };
        words.extend(settings.iter().map(|x| x.to_bits()));
        words.push(5);
        words.extend(further);
        let numbers = [&[10.0][..], &vec![0.0; n], &self.g, &self.h].concat();
        words.extend(numbers.iter().map(|x| x.to_bits()));
        words
    }

    /// One proposal.
    fn says(&self, kind: u64, dogleg: u64, said: Said) -> Marked {
        let n = self.g.len() as u64;
        let mut words = self.start(kind, 2, &[2, 1, dogleg]);
        words.extend([1, n]);
        let said = match said {
            Refused(number) => format!("start\nrefused {number}\nend ready\n"),
            Step(step) => {
                let bits: Vec<String> = step
                    .iter()
                    .map(|x| format!(" {:016x}", x.to_bits()))
                    .collect();
                format!("start\nproposed 0\nstep{}\ntrial", bits.concat())
            }
        };
        Marked { words, said }
    }
}

/// All of them.
pub fn marked() -> Vec<Marked> {
    let mut all = Vec::new();
    for kind in [3, 4] {
        for (case, said) in first_leg().into_iter().chain(second_leg()).chain(no_leg()) {
            all.push(case.says(kind, TEXTBOOK, said));
        }
        for (case, said) in ported() {
            all.push(case.says(kind, PORTED, said));
        }
        all.extend(choices(kind));
        all.extend(in_turn(kind));
    }
    all
}

const IDENTITY: [f64; 2] = [1.0, 1.0];
const FAR: f64 = 1e160;

/// pu = pb = −g where H is the identity: every step outside is cut from pu.
fn first_leg() -> Vec<(Case, Said)> {
    let five = 5f64;
    // H = diag(1, 1/4), g = (4, 4): pb is (−4, −16), pu (−6.4, −6.4) as it rounds, and longer than 9.
    let (bent, pu) = ([1.0, 0.25], -32.0 / 20.0 * 4.0f64);
    let length = (pu * pu + pu * pu).sqrt();
    let cut = |radius: f64| vec![pu * (radius / length); 2];
    vec![
        // The request's example, document 01's case 5, and the whole step at its border.
        (two([3.0, 4.0], IDENTITY, 2.5), Step(vec![-1.5, -2.0])),
        (
            two([3.0, 4.0], IDENTITY, 1.0),
            Step(vec![-3.0 * 0.2, -4.0 * 0.2]),
        ),
        (two([3.0, 4.0], IDENTITY, 5.0), Step(vec![-3.0, -4.0])),
        (
            two([3.0, 4.0], IDENTITY, five.next_up()),
            Step(vec![-3.0, -4.0]),
        ),
        (
            two([3.0, 4.0], IDENTITY, five.next_down()),
            Step([-3.0, -4.0].map(|x| x * (five.next_down() / five)).to_vec()),
        ),
        // The scale rounds before it multiplies: 3·(1/3) is 1, and 7·(5/7) is not (7·5)/7.
        (case(&[3.0], &[1.0], 1.0), Step(vec![-3.0 * (1.0 / 3.0)])),
        (case(&[49.0], &[1.0], 1.0), Step(vec![-49.0 * (1.0 / 49.0)])),
        // At ‖pu‖ = radius the scale is 1 and the step pu itself; just below it is cut.
        (two([4.0, 4.0], bent, length), Step(vec![pu, pu])),
        (
            two([4.0, 4.0], bent, length.next_down()),
            Step(cut(length.next_down())),
        ),
        (two([4.0, 4.0], bent, 1.0), Step(cut(1.0))),
        // The least radius: the quotient is the least number too, or vanishes.
        (case(&[1.0], &[1.0], 5e-324), Step(vec![-5e-324])),
        (two([3.0, 4.0], IDENTITY, 5e-324), Step(vec![-0.0, -0.0])),
        // ‖pu‖ is infinite and pu is not: radius/‖pu‖ is 0, and so is the step.
        (case(&[1.0], &[1.0 / FAR], 1.0), Step(vec![-0.0])),
        (case(&[-1.0], &[1.0 / FAR], 1e300), Step(vec![0.0])),
        // pu is infinite too, and times 0 it is a NaN.
        (case(&[1e155], &[1e-200], 1.0), Refused(8)),
    ]
}

/// From pu on.
fn second_leg() -> Vec<(Case, Said)> {
    // H = diag(1, 1/4), g = (4, 4), as above.
    let (pb, pu) = ([-4.0, -16.0], -32.0 / 20.0 * 4.0f64);
    let length = (pu * pu + pu * pu).sqrt();
    let v = [pb[0] - pu, pb[1] - pu];
    let (c, k, u) = (
        (0.0 + pu * v[0]) + pu * v[1],
        (0.0 + v[0] * v[0]) + v[1] * v[1],
        pu * pu + pu * pu,
    );
    let on = |radius: f64| {
        let t = (c * c + k * (radius * radius - u)).sqrt();
        Step(vec![pu + v[0] * ((t - c) / k), pu + v[1] * ((t - c) / k)])
    };
    let bent = |radius| two([4.0, 4.0], [1.0, 0.25], radius);
    let whole = (4.0f64 * 4.0 + 16.0 * 16.0).sqrt();
    vec![
        (bent(length.next_up()), on(length.next_up())),
        (bent(10.0), on(10.0)),
        (bent(12.5), on(12.5)),
        (bent(whole.next_down()), on(whole.next_down())),
        (bent(whole), Step(pb.to_vec())),
        (bent(whole.next_up()), Step(pb.to_vec())),
        // ‖pb‖ = radius again, where the second leg would end beside pb by a digit.
        (two([0.75, 8.0], [0.25, 2.0], 5.0), Step(vec![-3.0, -4.0])),
        // pb is (−2, 1) and pu is longer: the whole step comes first.
        (two([2.0, 1.0], [1.0, -1.0], 3.0), Step(vec![-2.0, 1.0])),
        // pu is −0: g·H·g is infinite and g·g is not. t is the root of k·D and v is pb.
        (
            case(
                &[power_of_two(400)],
                &[power_of_two(500)],
                power_of_two(-150),
            ),
            Step(vec![-(power_of_two(-150))]),
        ),
        // pb is near (−2^519, −2^490), pu near (−2^480, −2^490): v·v overflows, and (t − c)/k is a NaN.
        (
            two(
                [1.0, 1024.0],
                [power_of_two(-519), power_of_two(-480)],
                power_of_two(500),
            ),
            Refused(8),
        ),
        // In units of 2^-537 pb is near (0.75, 0.65) and pu (0.7, 0.7): of all their squares that of 0.75 alone does not vanish, so
        // the norm of pb is 1 and that of pu 0; and (t − c)/k is 0/0.
        (
            two(
                [power_of_two(-400); 2],
                [power_of_two(137) / 0.75, power_of_two(137) / 0.65],
                power_of_two(-538),
            ),
            Refused(8),
        ),
        // g·g and g·H·g are both infinite: pu is a NaN, and no norm is at least the radius.
        (case(&[FAR], &[1.0], 1.0), Refused(8)),
    ]
}

/// Cauchy's answers, which ask for no inverse, and refusals by 6.
fn no_leg() -> Vec<(Case, Said)> {
    let along = Step(vec![-1.5, -2.0]);
    let g = [3.0, 4.0];
    let least = power_of_two(-537);
    // A pivot at the bound 2^-40 of the largest magnitude, and just above it.
    let bound = power_of_two(-40);
    vec![
        // Below zero and zero, with an inverse and without.
        (two(g, [-1.0, -1.0], 2.5), along.clone()),
        (two(g, [16.0, -9.0], 2.5), along.clone()),
        (two(g, [0.0, 0.0], 2.5), along.clone()),
        (two(g, [-1.0, 0.0], 2.5), along.clone()),
        (case(&g, &[-1.0; 4], 2.5), along.clone()),
        (case(&g, &[0.0, 1.0, -1.0, 0.0], 2.5), along),
        // g·H·g is a NaN: inf − inf. In the first ‖g‖ is infinite, and Cauchy's factor is −0.
        (
            case(&[FAR, FAR], &[FAR, -FAR, FAR, -FAR], 1.0),
            Step(vec![-0.0, -0.0]),
        ),
        (
            case(
                &[1.0, 1.0],
                &[f64::MAX, f64::MAX, -f64::MAX, -f64::MAX],
                1.0,
            ),
            Step(vec![-1.0 / 2f64.sqrt(); 2]),
        ),
        // Nothing to go by: 0/0 in Cauchy's factor.
        (two([0.0, 0.0], IDENTITY, 1.0), Refused(8)),
        // The least number above zero is above zero: the whole step. One digit less is Cauchy's, whose
        // norm is 0.
        (case(&[least], &[1.0], 1.0), Step(vec![-least])),
        (case(&[0.5 * least], &[1.0], 1.0), Refused(8)),
        // By rows a product vanishes that does not by columns: g·H·g is zero.
        (
            case(
                &[power_of_two(500), power_of_two(-540)],
                &[0.0, power_of_two(-540), 0.0, 0.0],
                1.0,
            ),
            Step(vec![-1.0, -power_of_two(-1040)]),
        ),
        // g·H·g is above zero and there is no inverse.
        (case(&g, &[1.0; 4], 2.5), Refused(6)),
        (two(g, [1.0, 0.0], 2.5), Refused(6)),
        (two(g, [bound, 1.0], 2.5), Refused(6)),
        (two(g, [1.0, -bound], 2.5), Refused(6)),
        (
            two([3.0 * bound, 4.0], [bound.next_up(), 1.0], 8.0),
            Step(vec![-(1.0 / bound.next_up() * (3.0 * bound)), -4.0]),
        ),
    ]
}

/// The ported one on the same questions, where it is known.
fn ported() -> Vec<(Case, Said)> {
    let still = Step(vec![-0.0, -0.0]);
    vec![
        (two([3.0, 4.0], IDENTITY, 1.0), still.clone()),
        (two([3.0, 4.0], IDENTITY, 2.5), still),
        (two([3.0, 4.0], IDENTITY, 5.0), Step(vec![-3.0, -4.0])),
        (case(&[3.0, 4.0], &[-1.0; 4], 2.5), Refused(6)),
        (two([0.0, 0.0], IDENTITY, 1.0), Step(vec![-0.0, -0.0])),
    ]
}

/// Every choice with every kernel; what follows a refused start is not looked at.
fn choices(kind: u64) -> Vec<Marked> {
    let asked = two([3.0, 4.0], IDENTITY, 2.5);
    // The calls in turn, and one that there is not.
    let propose = [1, 2];
    let cost: &[u64] = &[2, 2, 9f64.to_bits(), 0, 0][..if kind == 3 { 3 } else { 5 }];
    let derivatives = [3, 2, 0, 0, 0, 0, 0, 0];
    let far = [(1 << 32) + 1, (1 << 32) + 2, 1 << 63 | 1, u64::MAX];
    let mut all = Vec::new();
    let mut says = |words: Vec<u64>, said: &str| {
        let said = said.to_string();
        all.push(Marked { words, said });
    };
    for kernel in 1..=3 {
        for dogleg in [&[0, 3, 4][..], &far].concat() {
            let start = asked.start(kind, kernel, &[2, 1, dogleg]);
            says(start.clone(), "refused 2\n");
            for call in [&propose[..], cost, &derivatives, &[9, 9]] {
                says([&start, call].concat(), "refused 2\n");
            }
        }
        for dogleg in [PORTED, TEXTBOOK] {
            let mut words = asked.start(kind, kernel, &[2, 1, dogleg]);
            words.extend(propose);
            let step = match (kernel, dogleg) {
                (2, PORTED) => "proposed 0\nstep 8000000000000000 8000000000000000\n",
                (3, _) => "proposed 1\nstep bff8000000000000 c000000000000000\n",
                _ => "proposed 0\nstep bff8000000000000 c000000000000000\n",
            };
            says(words, &format!("start\n{step}"));
        }
    }
    // A bad choice comes before a bad cost; a bad kernel is refused beside either choice.
    let mut words = asked.start(kind, 2, &[2, 1, 3]);
    let place = words.len() - 9;
    words[place] = f64::NAN.to_bits();
    says(words, "refused 2\n");
    let mut words = asked.start(kind, 2, &[2, 1, TEXTBOOK]);
    words[place] = f64::NAN.to_bits();
    says(words, "refused 4\n");
    says(asked.start(kind, 4, &[2, 1, TEXTBOOK]), "refused 2\n");
    says(asked.start(kind, 2, &[2, 0, TEXTBOOK]), "refused 2\n");
    // None named, or the allowance alone: the ported one.
    for further in [&[0][..], &[1, 5]] {
        let mut words = asked.start(kind, 2, further);
        words.extend(propose);
        says(
            words,
            "start\nproposed 0\nstep 8000000000000000 8000000000000000\n",
        );
    }
    // More than there are, and an end behind the first or the second of them. Three were bad in kind 4 when these were made; now the
    // third one is the edition.
    for many in [3, 4, (1 << 32) + 2, u64::MAX] {
        let mut words = asked.start(kind, 2, &[many, 1, 2, 2]);
        words.extend(propose);
        let said = match (kind, many) {
            (4, 3) => "start\nproposed 0\nstep bff8000000000000 c000000000000000\n",
            _ => "bad input\n",
        };
        says(words, said);
    }
    for further in [&[2][..], &[2, 1], &[2, 1, 2]] {
        let mut words = asked.start(kind, 2, further);
        words.truncate(words.len() - 9);
        says(words, "bad input\n");
    }
    all
}

/// More than one call: a refusal by 6 and by 8 leaves the session, and 5 and 9 come before both; in an
/// SR1TrustRegion session there are no derivatives.
fn in_turn(kind: u64) -> Vec<Marked> {
    let mut all = Vec::new();
    let no_inverse = case(&[3.0, 4.0], &[1.0; 4], 2.5);
    let nothing = two([0.0, 0.0], IDENTITY, 1.0);
    for (case, number) in [(no_inverse, 6), (nothing, 8)] {
        let mut words = case.start(kind, 2, &[2, 1, TEXTBOOK]);
        // Refused; out of turn; at the allowance; at a radius of zero; refused as before.
        words.extend([1, 2, 2, 2, 9f64.to_bits()]);
        if kind == 4 {
            words.extend([0, 0]);
        }
        words.extend([5, 1, 1, 2]);
        let radius = case.radius.to_bits();
        words.extend([4, 0, 10f64.to_bits(), 0, 0, 0, 1, 2, 5, 0, 1, 2]);
        words.extend([4, radius, 10f64.to_bits(), 0, 0, 0, 1, 2]);
        let said = format!("start\nrefused {number}\nrefused 3\nrefused 9\nrefused 5\nrefused 5\nrefused {number}\nend ready\n");
        all.push(Marked { words, said });
    }
    // The first leg twice. The model at (−1.5, −2) is 10 − 12.5 + 3.125, and a cost of 0.625 gives a ratio of 1: the radius doubles.
    if kind == 3 {
        let mut words = two([3.0, 4.0], IDENTITY, 2.5).start(kind, 2, &[2, 1, TEXTBOOK]);
        let numbers = |list: &[f64]| list.iter().map(|x| x.to_bits()).collect::<Vec<_>>();
        words.extend([1, 2, 2, 2]);
        words.extend(numbers(&[0.625]));
        words.extend([3, 2]);
        words.extend(numbers(&[6.0, 8.0, 1.0, 0.0, 0.0, 1.0]));
        words.extend([1, 2]);
        let said = "\
start
proposed 0
step bff8000000000000 c000000000000000
trial bff8000000000000 c000000000000000
accepted 3ff0000000000000 radius 4014000000000000
taken
proposed 0
step c008000000000000 c010000000000000
trial c012000000000000 c018000000000000
end cost";
        let said = said.to_string();
        all.push(Marked { words, said });
    }
    all
}

#[cfg(test)]
mod tests {
    use super::*;
    use crate::input::words;
    use crate::replay;
    use crate::session::Formulas;

    #[test]
    fn each_says_what_the_request_says() {
        for (number, marked) in marked().iter().enumerate() {
            let (mut input, mut out) = (Vec::new(), Vec::new());
            words(&mut input, &marked.words);
            replay::answer(&input, &Formulas, &mut out).unwrap();
            let lines = String::from_utf8(out).unwrap();
            assert!(
                lines.starts_with(&marked.said),
                "script {number}, to say\n{}\nsays\n{lines}",
                marked.said
            );
        }
    }
}
