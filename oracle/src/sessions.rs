//! Inputs of program `replay`: random sessions whose calls mostly come in turn, with answers that
//! often lie exactly on a border, and with everything a caller can do wrong among them.

use crate::cases::{gradient, hessian, some_kind, whole};
use crate::input::words;
use crate::random::{made_bits, with_exponent, Random, NANS};
use crate::replay::{self, Call};
use crate::session::{
    Formulas, Kind, Phase, Settings, Station, LARGEST_ALLOWANCE, PORTED, PORTED_UPDATE, TEXTBOOK,
};
use crate::vector::{Matrix, Vector};

const INFINITY: u64 = 0x7ff0_0000_0000_0000;
const MINUS: u64 = 1 << 63;

/// The input of this seed, of kind 1 or 2.
pub fn input(seed: u64) -> Vec<u8> {
    made(Random::new(seed), 0)
}

/// The same of kind 3 or 4, mostly with a small allowance: trials are hidden again and again, and
/// counts are put in.
pub fn hidden(seed: u64) -> Vec<u8> {
    let mut random = Random::new(seed);
    let hidden = random.pick(&[1, 3, 5, 6, 7]);
    made(random, hidden)
}

fn made(random: Random, hidden: u64) -> Vec<u8> {
    let mut maker = Maker {
        random,
        words: Vec::new(),
        hidden,
    };
    maker.session();
    let mut bytes = Vec::new();
    words(&mut bytes, &maker.words);
    // Some end too early.
    if maker.random.once_in(16) {
        let length = maker.random.below(bytes.len() as u64);
        bytes.truncate(length as usize);
    }
    bytes
}

struct Maker {
    random: Random,
    words: Vec<u64>,
    /// So many costs out of eight are hidden in kinds 3 and 4. 0 in kinds 1 and 2: they have what
    /// `trial_cost` gives, and their words are stored.
    hidden: u64,
}

impl Maker {
    fn session(&mut self) {
        let n = self.size();
        let settings = self.settings(n);
        let cost = self.cost();
        let point = self.numbers(n);
        let (gradient, hessian) = self.derivatives(n);
        self.words.push(cost.to_bits());
        self.push_all(&point);
        self.push_all(&gradient.0);
        self.push_all(hessian.entries());
        let start = Station::start(settings, cost, Vector(point), gradient, hessian);
        let Ok(mut station) = start else {
            // What follows a refused start is not looked at.
            self.words.extend([9; 2]);
            return;
        };
        let mut refusals = 0;
        // A hidden trial takes two calls, and some in a row are wanted.
        for _ in 0..self.random.below(if self.hidden > 0 { 60 } else { 30 }) {
            let call = self.call(&station);
            let mut lines = Vec::new();
            replay::run(&mut station, call, &Formulas, &mut lines).expect("memory can be written");
            // A session that is stuck says little more.
            refusals = if lines.starts_with(b"refused") || lines.starts_with(b"done") {
                refusals + 1
            } else {
                0
            };
            if refusals > 4 {
                break;
            }
        }
        if self.random.once_in(30) {
            // Call 5 was unknown once, and the words of kinds 1 and 2 are stored.
            let next = if self.hidden > 0 { 6 } else { 5 };
            let unknown = self.random.pick(&[0, next, (1 << 32) + 1, u64::MAX]);
            self.words.extend([unknown, 0, 0]);
        }
    }

    /// Mostly small. Sessions of kinds 3 and 4 are longer, and hardly ever of more than ten.
    fn size(&mut self) -> usize {
        let n = match self.random.below(40) {
            0..36 => self.random.between(1, 4),
            36..39 => self.random.between(5, 10),
            _ if self.hidden > 0 && !self.random.once_in(10) => self.random.between(1, 4),
            _ => self.random.between(11, 64),
        };
        n as usize
    }

    fn settings(&mut self, n: usize) -> Settings {
        let mut settings = sound_settings(&mut self.random, n);
        // Kernel 2 is two kernels in kinds 3 and 4.
        if self.hidden > 0 && self.random.once_in(4) {
            settings.kernel = 2;
        }
        if self.random.once_in(14) {
            spoil(&mut self.random, &mut settings);
        }
        let (mut kind, own) = match settings.kind {
            Kind::TrustRegion { max_radius } => (1, vec![max_radius, settings.eta]),
            Kind::Sr1 {
                factor, tol_grad, ..
            } => (2, vec![settings.eta, factor, tol_grad]),
        };
        if self.hidden > 0 {
            kind += 2;
        }
        self.words
            .extend([kind, n as u64, settings.kernel, settings.radius.to_bits()]);
        self.push_all(&own);
        self.words
            .extend([settings.epsilon.to_bits(), settings.limit]);
        if self.hidden > 0 {
            (settings.allowance, settings.dogleg) = self.further();
        }
        settings
    }

    /// The words behind the limit: allowance and dogleg. Those of some sessions name none of them, or
    /// the first alone.
    fn further(&mut self) -> (u64, u64) {
        if self.random.once_in(20) {
            self.words.push(0);
            return (LARGEST_ALLOWANCE, PORTED);
        }
        let random = &mut self.random;
        let allowance = match random.below(40) {
            0..36 => random.between(1, 5) as u64,
            36 | 37 => random.between(6, 20) as u64,
            38 => LARGEST_ALLOWANCE,
            _ => random.pick(&[0, LARGEST_ALLOWANCE + 1, (1 << 32) + 1, u64::MAX]),
        };
        if random.once_in(6) {
            self.words.extend([1, allowance]);
            return (allowance, PORTED);
        }
        let dogleg = some_dogleg(random, 40);
        self.words.extend([2, allowance, dogleg]);
        (allowance, dogleg)
    }

    fn push_all(&mut self, numbers: &[f64]) {
        self.words.extend(numbers.iter().map(|x| x.to_bits()));
    }

    fn cost(&mut self) -> f64 {
        if self.random.once_in(25) {
            return not_finite(&mut self.random);
        }
        sound_cost(&mut self.random)
    }

    fn numbers(&mut self, n: usize) -> Vec<f64> {
        let kind = some_kind(&mut self.random);
        let numbers = (0..n).map(|_| kind.number(&mut self.random)).collect();
        self.damaged(numbers)
    }

    /// With an entry that is not finite, now and then.
    fn damaged(&mut self, mut numbers: Vec<f64>) -> Vec<f64> {
        if self.random.once_in(50) {
            let k = self.random.below(numbers.len() as u64) as usize;
            numbers[k] = not_finite(&mut self.random);
        }
        numbers
    }

    /// A gradient and a Hessian of any kind. In kinds 3 and 4 they are mostly plain: a session that
    /// its numbers stop counts nothing.
    fn derivatives(&mut self, n: usize) -> (Vector, Matrix) {
        if self.hidden > 0 && !self.random.once_in(4) {
            return plain(&mut self.random, n);
        }
        let g = gradient(&mut self.random, n);
        let g = self.damaged(g);
        let h = hessian(&mut self.random, n);
        (Vector(g), Matrix::new(n, self.damaged(h)))
    }

    /// Writes a call and hands it back: mostly the one whose turn it is.
    fn call(&mut self, station: &Station) -> Call {
        let sr1 = matches!(station.settings.kind, Kind::Sr1 { .. });
        if self.hidden > 0 {
            if let Some(call) = self.by_hand(station, sr1) {
                return call;
            }
        }
        let mut turn = match station.phase {
            Phase::Ready => 1,
            Phase::Cost { .. } => 2,
            Phase::Derivatives => 3,
        };
        if self.random.once_in(12) {
            turn = self.random.pick(&[1, 2, if sr1 { 2 } else { 3 }]);
        }
        if self.random.once_in(16) {
            turn = 4;
        }
        let n = station.size();
        let told = self.told(n as u64);
        match turn {
            1 => {
                self.words.extend([1, told]);
                Call::Propose(told)
            }
            2 => {
                let cost = self.trial_cost(station);
                self.words.extend([2, told, cost.to_bits()]);
                let gradient = sr1.then(|| {
                    let Vector(numbers) = self.trial_gradient(station);
                    Vector(self.damaged(numbers))
                });
                if let Some(gradient) = &gradient {
                    self.push_all(&gradient.0);
                }
                Call::Cost(told, cost, gradient)
            }
            3 => {
                let (g, h) = self.derivatives(n);
                self.words.extend([3, told]);
                self.push_all(&g.0);
                self.push_all(h.entries());
                Call::Derivatives(told, g, h)
            }
            _ => self.put(station, sr1),
        }
    }

    /// The n that a call is told.
    fn told(&mut self, n: u64) -> u64 {
        if self.random.once_in(25) {
            self.random
                .pick(&[0, 65, n + 1, n - 1, n | 1 << 32, u64::MAX])
        } else {
            n
        }
    }

    fn trial_cost(&mut self, station: &Station) -> f64 {
        if self.hidden > 0 && self.random.below(8) < self.hidden {
            return f64::from_bits(self.random.pick(&NANS));
        }
        trial_cost(&mut self.random, station)
    }

    /// In kinds 3 and 4 mostly one that updates the Hessian without a refusal.
    fn trial_gradient(&mut self, station: &Station) -> Vector {
        if self.hidden == 0 || self.random.once_in(4) {
            return trial_gradient(&mut self.random, station);
        }
        let Vector(predicted) = station.hessian.times(&station.step);
        let expected = station
            .gradient
            .0
            .iter()
            .zip(&predicted)
            .map(|(g, p)| g + p);
        let mut off = || self.random.pick(&[-2.0, -1.0, 1.0, 3.0]);
        let found = expected.map(|x| if x.is_finite() { x + off() } else { 1.0 });
        Vector(found.collect())
    }

    /// In kinds 3 and 4 a caller often changes the session, most often where the count or a number
    /// stops it.
    fn by_hand(&mut self, station: &Station, sr1: bool) -> Option<Call> {
        let Station { radius, cost, .. } = *station;
        let stopped = station.count >= station.settings.allowance;
        let ill = !(radius.is_finite() && radius > 0.0 && cost.is_finite());
        if self.random.once_in(if stopped { 3 } else { 12 }) {
            return Some(self.count(station.settings.allowance));
        }
        if ill && self.random.once_in(2) {
            return Some(self.push_put(1.0, 10.0, 0, 1.0, 1.0));
        }
        if stopped && self.random.once_in(6) {
            // No radius, or a phase in which an answer is still taken.
            let radius = self.random.pick(&[0.0, -0.0, radius]);
            let phase = self.random.pick(&[0, 1, 1, if sr1 { 1 } else { 2 }]);
            return Some(self.push_put(radius, cost, phase, 1.0, 1.0));
        }
        None
    }

    fn count(&mut self, allowance: u64) -> Call {
        let random = &mut self.random;
        let count = match random.below(16) {
            0..6 => 0,
            6..8 => random.below(allowance),
            8..10 => allowance - 1,
            10..13 => allowance,
            13 | 14 => allowance + 1,
            _ => random.pick(&[1 << 32, 1 << 32 | allowance, 1 << 63, u64::MAX]),
        };
        self.words.extend([5, count]);
        Call::Count(count)
    }

    fn put(&mut self, station: &Station, sr1: bool) -> Call {
        let random = &mut self.random;
        let near = |random: &mut Random, x: f64| match random.below(8) {
            0..3 => x,
            3 => 0.0,
            4 => random.pick(&[-0.0, -1.0]),
            5 => not_finite(random),
            _ => with_exponent(random, 1),
        };
        let radius = near(random, station.radius).abs();
        let radius = if random.once_in(6) { -radius } else { radius };
        let cost = near(random, station.cost);
        let (promised, norm) = (near(random, cost - 1.0), near(random, radius));
        let phase = random.pick(&[0, 0, 0, 1, 1, if sr1 { 1 } else { 2 }]);
        self.push_put(radius, cost, phase, promised, norm)
    }

    fn push_put(&mut self, radius: f64, cost: f64, phase: u64, promised: f64, norm: f64) -> Call {
        self.words.push(4);
        self.push_all(&[radius, cost]);
        self.words.push(phase);
        self.push_all(&[promised, norm]);
        let phase = match phase {
            0 => Phase::Ready,
            1 => Phase::Cost {
                promised,
                norm,
                made_up: true,
            },
            _ => Phase::Derivatives,
        };
        Call::Put(radius, cost, phase)
    }
}

/// Mostly the textbook's. Once in so many none that there is; in its low half or its low bits it may be
/// one.
pub(crate) fn some_dogleg(random: &mut Random, times: u64) -> u64 {
    if random.once_in(times) {
        let far = [1 << 32, (1 << 32) + 1, (1 << 32) + 2, 1 << 63 | 2, 257];
        let near = [0, 3, 4, u64::MAX];
        return if random.once_in(3) {
            random.pick(&far)
        } else {
            random.pick(&near)
        };
    }
    random.pick(&[PORTED, PORTED, TEXTBOOK, TEXTBOOK, TEXTBOOK])
}

/// Whole numbers other than 0, and a definite diagonal.
fn plain(random: &mut Random, n: usize) -> (Vector, Matrix) {
    let g = (0..n).map(|_| random.pick(&[-3.0, -2.0, -1.0, 1.0, 2.0, 4.0]));
    let g = Vector(g.collect());
    let mut h = vec![0.0; n * n];
    for i in 0..n {
        h[i * n + i] = random.between(1, 4) as f64;
    }
    (g, Matrix::new(n, h))
}

fn sound_settings(random: &mut Random, n: usize) -> Settings {
    let kernel = random.pick(&[1, 2, 3, 3]);
    let size = random.between(-4, 8);
    let ordinary = with_exponent(random, size).abs();
    let radius = random.pick(&[1.0, 1.0, 2.5, 5.0, 0.5, 100.0, 1e-160, 1e155, ordinary]);
    let epsilon = random.pick(&[1e-9, 1e-9, 1e-3, 1e-300]);
    let limit = random.pick(&[0, 1, 2, 5, 5, 20, 10_000 / n as u64]);
    if random.once_in(2) {
        let max_radius = random.pick(&[100.0, 100.0, radius, 4.0, 2.0 * radius, 0.5 * radius]);
        Settings {
            kind: Kind::TrustRegion { max_radius },
            kernel,
            radius,
            eta: random.pick(&[0.125, 0.125, 0.0, -0.0, 0.2, 0.25f64.next_down()]),
            epsilon,
            limit,
            allowance: LARGEST_ALLOWANCE,
            dogleg: PORTED,
        }
    } else {
        let factor = random.pick(&[1e-8, 1e-8, 0.5, 1f64.next_down(), 5e-324]);
        let tol_grad = random.pick(&[1e-3, 1e-3, 0.0, -0.0, 1.0, 5.0]);
        Settings {
            kind: Kind::Sr1 {
                factor,
                tol_grad,
                edition: PORTED_UPDATE,
            },
            kernel,
            radius: radius * random.pick(&[1.0, 1.0, -1.0]),
            eta: random.pick(&[0.0005, 0.0005, 0.009, 5e-324, 0.01f64.next_down()]),
            epsilon,
            limit,
            allowance: LARGEST_ALLOWANCE,
            dogleg: PORTED,
        }
    }
}

fn sound_cost(random: &mut Random) -> f64 {
    match random.below(4) {
        0 => some_kind(random).number(random),
        1 => whole(random, 20),
        // Then a cost follows a ratio without rounding.
        _ => 0.0,
    }
}

/// A station that was started, with nothing wrong about it.
#[cfg(all(test, feature = "argmin"))]
pub(crate) fn sound_station(random: &mut Random) -> Station {
    let n = random.between(1, 4) as usize;
    let settings = sound_settings(random, n);
    let cost = sound_cost(random);
    let point = (0..n).map(|_| whole(random, 4)).collect();
    let (gradient, hessian) = derivatives(random, n);
    Station::start(settings, cost, Vector(point), gradient, hessian).expect("sound settings")
}

#[cfg(all(test, feature = "argmin"))]
pub(crate) fn derivatives(random: &mut Random, n: usize) -> (Vector, Matrix) {
    let g = gradient(random, n);
    (Vector(g), Matrix::new(n, hessian(random, n)))
}

/// A cost that gives a marked ratio, or none.
pub(crate) fn trial_cost(random: &mut Random, station: &Station) -> f64 {
    let fall = match (station.phase, station.settings.kind) {
        (Phase::Cost { promised, .. }, Kind::TrustRegion { .. }) => station.cost - promised,
        (Phase::Cost { promised, .. }, Kind::Sr1 { .. }) => promised,
        _ => 1.0,
    };
    let ratio = random.pick(&[
        1.0,
        1.0,
        1.0,
        0.9,
        0.75,
        0.76,
        0.5,
        0.25,
        0.24,
        0.125,
        0.13,
        0.1,
        0.09,
        0.01,
        0.0,
        -0.5,
        2.0,
        -3.0,
        station.settings.eta,
    ]);
    let cost = match random.below(16) {
        0..12 => f64::from_bits(made_bits(station.cost - ratio * fall)),
        12 | 13 => f64::from_bits(random.pick(&NANS)),
        14 => whole(random, 20),
        _ => station.cost,
    };
    if random.once_in(50) {
        not_finite(random)
    } else {
        cost
    }
}

/// Another gradient for SR1.
pub(crate) fn trial_gradient(random: &mut Random, station: &Station) -> Vector {
    let n = station.size();
    let Vector(predicted) = station.hessian.times(&station.step);
    let old = &station.gradient.0;
    let numbers: Vec<f64> = match random.below(5) {
        0 => gradient(random, n),
        1 => old.clone(),
        // As the model says: z is zero, or what rounding left.
        2 => (0..n).map(|i| old[i] + predicted[i]).collect(),
        _ => (0..n)
            .map(|i| old[i] + predicted[i] + whole(random, 2))
            .collect(),
    };
    // An overflow here would be refused more often than it is worth.
    let numbers = numbers.into_iter();
    Vector(
        numbers
            .map(|x| if x.is_finite() { x } else { 1.0 })
            .collect(),
    )
}

fn spoil(random: &mut Random, settings: &mut Settings) {
    let wrong = random.pick(&[0.0, -1.0, f64::NAN, f64::INFINITY, 1.0, 0.25, 0.01, 5e-324]);
    match random.below(7) {
        0 => settings.kernel = random.pick(&[0, 4, (1 << 32) + 1, u64::MAX]),
        1 => settings.radius = wrong,
        2 => settings.eta = wrong,
        3 => settings.epsilon = wrong,
        4 => settings.limit = random.pick(&[10_001, 1 << 32, u64::MAX]),
        _ => {
            settings.kind = match settings.kind {
                Kind::TrustRegion { .. } => Kind::TrustRegion { max_radius: wrong },
                Kind::Sr1 {
                    factor, edition, ..
                } if random.once_in(2) => Kind::Sr1 {
                    factor,
                    tol_grad: wrong,
                    edition,
                },
                Kind::Sr1 {
                    tol_grad, edition, ..
                } => Kind::Sr1 {
                    factor: wrong,
                    tol_grad,
                    edition,
                },
            }
        }
    }
}

fn not_finite(random: &mut Random) -> f64 {
    f64::from_bits(random.pick(&[INFINITY, MINUS | INFINITY, NANS[0], NANS[1], NANS[4]]))
}
