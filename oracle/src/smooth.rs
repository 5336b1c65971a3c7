//! Inputs of program `replays`: fits of smooth functions, trial by trial, each some dozen trials long. The costs and the
//! derivatives are those of the trial points, and some trials are answered with NaN. In kinds 3 and 4 mostly one to five of these are
//! allowed in a row; markers stay hidden for a while, and after a refusal by 9 the caller shows them and puts the count to 0. Their
//! dogleg is the ported one or the textbook's. Fits of kind 4 may name their edition; then one in four is of a function whose Hessian is
//! right from the start, in numbers that are mostly exact.

use crate::cases::whole;
use crate::random::{made_bits, with_exponent, Random};
use crate::replay::{self, Call};
use crate::scripts::many;
use crate::session::{
    Formulas, Kind, Phase, Settings, Station, LARGEST_ALLOWANCE, PORTED, PORTED_UPDATE,
};
use crate::sessions::some_dogleg;
use crate::vector::{Matrix, Vector};

/// `count` scripts of a kind of session.
pub fn input(count: u64, seed: u64, kind: u64) -> Vec<u8> {
    many(count, seed, |random| script(random, kind, None))
}

/// `count` scripts of kind 4 that name this edition.
pub fn of_edition(count: u64, seed: u64, edition: u64) -> Vec<u8> {
    many(count, seed, |random| script(random, 4, Some(edition)))
}

/// Half the sum of the squares of a_i·(x_i − c_i) and of b·(x_(i+1) − x_i²): a curved valley.
struct Valley {
    a: Vec<f64>,
    c: Vec<f64>,
    b: f64,
    /// The whole second derivative, or that part of it which Gauss and Newton take.
    whole: bool,
}

fn number(random: &mut Random, low: i64, high: i64) -> f64 {
    let e = random.between(low, high);
    with_exponent(random, e)
}

impl Valley {
    fn new(random: &mut Random, n: usize) -> Valley {
        Valley {
            a: (0..n).map(|_| number(random, -3, 2)).collect(),
            c: (0..n).map(|_| number(random, -2, 2)).collect(),
            b: number(random, -2, 3),
            whole: random.once_in(2),
        }
    }

    /// A bowl: its Hessian is the same everywhere.
    fn flat(random: &mut Random, n: usize) -> Valley {
        Valley {
            a: (0..n).map(|_| random.pick(&[0.5, 1.0, 2.0])).collect(),
            c: (0..n).map(|_| whole(random, 4)).collect(),
            b: 0.0,
            whole: true,
        }
    }

    /// b·(x_(i+1) − x_i²), and 0 for the last i.
    fn bend(&self, x: &[f64], i: usize) -> f64 {
        x.get(i + 1)
            .map_or(0.0, |next| self.b * (next - x[i] * x[i]))
    }

    fn cost(&self, x: &[f64]) -> f64 {
        let mut sum = 0.0;
        for i in 0..x.len() {
            let (off, bend) = (self.a[i] * (x[i] - self.c[i]), self.bend(x, i));
            sum += off * off + bend * bend;
        }
        0.5 * sum
    }

    fn gradient(&self, x: &[f64]) -> Vector {
        let slope = |i: usize| {
            let before = if i > 0 {
                self.b * self.bend(x, i - 1)
            } else {
                0.0
            };
            self.a[i] * self.a[i] * (x[i] - self.c[i]) - 2.0 * self.b * x[i] * self.bend(x, i)
                + before
        };
        Vector((0..x.len()).map(slope).collect())
    }

    fn hessian(&self, x: &[f64]) -> Matrix {
        let n = x.len();
        let mut h = vec![0.0; n * n];
        let bb = self.b * self.b;
        for i in 0..n {
            h[i * n + i] += self.a[i] * self.a[i];
            if i + 1 < n {
                h[i * n + i] += 4.0 * bb * x[i] * x[i];
                if self.whole {
                    h[i * n + i] -= 2.0 * self.b * self.bend(x, i);
                }
                h[(i + 1) * n + i + 1] += bb;
                h[i * n + i + 1] = -2.0 * bb * x[i];
                h[(i + 1) * n + i] = -2.0 * bb * x[i];
            }
        }
        Matrix::new(n, h)
    }
}

/// Kinds 3 and 4 have an allowance.
fn is_hidden(kind: u64) -> bool {
    kind > 2
}

/// Kinds 2 and 4 are those of SR1TrustRegion.
fn is_sr1(kind: u64) -> bool {
    kind % 2 == 0
}

fn settings(random: &mut Random, kind: u64) -> Settings {
    let radius = random.pick(&[1.0, 0.5, 2.5, 8.0, 0.01]);
    Settings {
        kind: if is_sr1(kind) {
            Kind::Sr1 {
                factor: 1e-8,
                tol_grad: random.pick(&[1e-3, 1e-9]),
                edition: PORTED_UPDATE,
            }
        } else {
            Kind::TrustRegion {
                max_radius: random.pick(&[100.0, 4.0, 1000.0]),
            }
        },
        kernel: random.pick(&[1, 2, 3]),
        radius,
        eta: if is_sr1(kind) {
            random.pick(&[0.0005, 0.009])
        } else {
            random.pick(&[0.125, 0.0, 0.2])
        },
        epsilon: random.pick(&[1e-9, 1e-3]),
        limit: random.pick(&[5, 20, 100]),
        allowance: LARGEST_ALLOWANCE,
        dogleg: PORTED,
    }
}

/// The further settings of kinds 3 and 4, which are put in, and their words: none of the two, the
/// allowance alone, or both.
fn further(random: &mut Random, settings: &mut Settings) -> Vec<u64> {
    if random.once_in(100) {
        // More than there were when these were made. In kind 4 three are good by now; nothing follows the start.
        return vec![2 + random.pick(&[1, 2, 1 << 32]), 1, 1, 1];
    }
    if random.once_in(20) {
        return vec![0];
    }
    settings.allowance = random.between(1, 5) as u64;
    if random.once_in(6) {
        return vec![1, settings.allowance];
    }
    settings.dogleg = some_dogleg(random, 50);
    // More fits by the two doglegs than by each other kernel.
    if random.once_in(3) {
        settings.kernel = 2;
    }
    vec![2, settings.allowance, settings.dogleg]
}

/// The same where the edition is named: all three, now and then an edition that is none, or one setting more than there are.
fn named(random: &mut Random, settings: &mut Settings, edition: u64) -> Vec<u64> {
    settings.allowance = random.between(1, 5) as u64;
    settings.dogleg = some_dogleg(random, 50);
    if random.once_in(3) {
        settings.kernel = 2;
    }
    let unknown = random.pick(&[0, 3, (1 << 32) + 1, (1 << 32) + 2, u64::MAX]);
    let edition = if random.once_in(50) { unknown } else { edition };
    let more = random.once_in(100);
    settings.kind = Kind::Sr1 {
        // By the greater ones more is skipped.
        factor: random.pick(&[1e-8, 1e-8, 1e-8, 0.1, 0.5, 0.9]),
        tol_grad: random.pick(&[1e-3, 1e-9]),
        edition,
    };
    let mut words = vec![3, settings.allowance, settings.dogleg, edition];
    if more {
        words[0] = 4;
        words.push(1);
    }
    words
}

/// Whether trials are hidden.
struct Markers {
    kind: u64,
    /// So many trials more, in kinds 3 and 4.
    hidden: u64,
}

impl Markers {
    fn are_hidden(&mut self, random: &mut Random) -> bool {
        if !is_hidden(self.kind) {
            return random.once_in(8);
        }
        if self.hidden == 0 && random.once_in(5) {
            self.hidden = random.between(1, 8) as u64;
        }
        let hidden = self.hidden > 0;
        self.hidden = self.hidden.saturating_sub(1);
        hidden
    }

    /// The caller shows them, which helps every other time.
    fn show(&mut self, random: &mut Random) {
        if random.once_in(2) {
            self.hidden = 0;
        }
    }
}

fn script(random: &mut Random, kind: u64, edition: Option<u64>) -> Vec<u64> {
    let n = random.between(1, 4) as usize;
    let is_flat = edition.is_some() && random.once_in(4);
    let valley = if is_flat {
        Valley::flat(random, n)
    } else {
        Valley::new(random, n)
    };
    let mut settings = settings(random, kind);
    let further = match edition {
        Some(edition) => named(random, &mut settings, edition),
        None if is_hidden(kind) => further(random, &mut settings),
        None => Vec::new(),
    };
    let point: Vec<f64> = if is_flat {
        (0..n).map(|_| whole(random, 4)).collect()
    } else {
        (0..n).map(|_| number(random, -2, 2)).collect()
    };
    let (cost, gradient, hessian) = (
        valley.cost(&point),
        valley.gradient(&point),
        valley.hessian(&point),
    );
    let mut script = vec![kind, n as u64, settings.kernel, settings.radius.to_bits()];
    let own = match settings.kind {
        Kind::TrustRegion { max_radius } => vec![max_radius, settings.eta],
        Kind::Sr1 {
            factor, tol_grad, ..
        } => vec![settings.eta, factor, tol_grad],
    };
    let bits = |list: &[f64]| -> Vec<u64> { list.iter().map(|&x| made_bits(x)).collect() };
    script.extend(bits(&own));
    script.extend([settings.epsilon.to_bits(), settings.limit]);
    let most = if edition.is_some() { 3 } else { 2 };
    let is_bad = further.first().is_some_and(|many| *many > most);
    script.extend(further);
    script.push(made_bits(cost));
    script.extend(bits(&point));
    script.extend(bits(&gradient.0));
    script.extend(bits(hessian.entries()));
    let start = Station::start(settings, cost, Vector(point), gradient, hessian);
    let Ok(mut station) = start else {
        return script;
    };
    if is_bad {
        return script;
    }
    let told = n as u64;
    let mut markers = Markers { kind, hidden: 0 };
    for _ in 0..random.between(20, 100) {
        let call = match station.phase {
            Phase::Ready => {
                script.extend([1, told]);
                Call::Propose(told)
            }
            Phase::Cost { .. } => {
                let found = valley.cost(&station.trial.0);
                let hidden = markers.are_hidden(random);
                let found = if hidden { f64::NAN } else { found };
                let gradient = is_sr1(kind).then(|| valley.gradient(&station.trial.0));
                script.extend([2, told, made_bits(found)]);
                script.extend(gradient.iter().flat_map(|g| bits(&g.0)));
                Call::Cost(told, found, gradient)
            }
            Phase::Derivatives => {
                let (g, h) = (
                    valley.gradient(&station.point.0),
                    valley.hessian(&station.point.0),
                );
                script.extend([3, told]);
                script.extend(bits(&g.0));
                script.extend(bits(h.entries()));
                Call::Derivatives(told, g, h)
            }
        };
        let mut lines = Vec::new();
        replay::run(&mut station, call, &Formulas, &mut lines).expect("memory can be written");
        if lines == b"refused 9\n" {
            markers.show(random);
            script.extend([5, 0]);
            station.count = 0;
            continue;
        }
        // A session that refuses here is stuck: the calls come in turn.
        if lines.starts_with(b"refused") || lines.starts_with(b"done") {
            break;
        }
    }
    script
}

#[cfg(test)]
mod tests {
    use super::*;
    use crate::scripts;

    /// Fits of kinds 3 and 4 are refused by 9 again and again, and go on.
    #[test]
    fn fits_go_on_after_a_refusal() {
        for kind in [3, 4] {
            let mut out = Vec::new();
            let tally = scripts::answer(&input(300, 1, kind), &Formulas, &mut out).unwrap();
            let all = |row| (0..4).map(|kernel| tally.get(row, kernel)).sum::<u64>();
            assert!(all("refused 9") > 300, "{}", all("refused 9"));
            assert!(all("accepted") > all("refused 9"));
            // A dogleg that is none, or too many settings.
            let not_started = [all("refused 2"), all("bad input")];
            assert_eq!(all("start") + not_started[0] + not_started[1], 300);
            assert!(not_started.iter().all(|counted| (1..20).contains(counted)));
        }
    }

    /// Those that name an edition update and skip; the bowls are refused by 8 under edition 1 and go on under edition 2.
    #[test]
    fn fits_of_either_edition() {
        let [ported, book] = [1, 2].map(|edition| {
            let mut out = Vec::new();
            let input = of_edition(300, 1, edition);
            let tally = scripts::answer(&input, &Formulas, &mut out).unwrap();
            [
                "start",
                "refused 8",
                "updated",
                "skipped",
                "editions differ",
                "done",
            ]
            .map(|row| (0..4).map(|kernel| tally.get(row, kernel)).sum::<u64>())
        });
        for counted in [ported, book] {
            assert!((280..300).contains(&counted[0]), "{counted:?}");
            assert!(counted[2] > 1000 && counted[4] > 50, "{counted:?}");
        }
        assert!(ported[1] > 30 && book[1] < ported[1], "{ported:?} {book:?}");
        assert!(book[3] > 300 && book[5] > ported[5], "{ported:?} {book:?}");
    }

    #[test]
    fn derivatives_are_those_of_the_cost() {
        let mut random = Random::new(5);
        let mut valley = Valley::new(&mut random, 3);
        valley.whole = true;
        let x = [0.75, -0.5, 1.25];
        let h = 1e-5;
        let moved = |i: usize, by: f64| {
            let mut y = x;
            y[i] += by;
            y
        };
        for i in 0..3 {
            let slope = (valley.cost(&moved(i, h)) - valley.cost(&moved(i, -h))) / (2.0 * h);
            assert!((slope - valley.gradient(&x).0[i]).abs() < 1e-4 * (1.0 + slope.abs()));
            for j in 0..3 {
                let bend = (valley.gradient(&moved(i, h)).0[j]
                    - valley.gradient(&moved(i, -h)).0[j])
                    / (2.0 * h);
                let found = valley.hessian(&x).entries()[i * 3 + j];
                assert!((bend - found).abs() < 1e-4 * (1.0 + bend.abs()));
            }
        }
    }
}
