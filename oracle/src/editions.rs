//! Inputs of program `replays` for request Seven: sessions of kind 4 that name their edition, with answers at
//! the borders of both editions' tests. Starts have numbers whose products are exact, so that z can be laid
//! across the step, along it, or nowhere; the factor, or a norm that the caller puts into the phase, is then
//! chosen to meet the other side, or to miss it by the last digit. Every script has its own seed: the same
//! COUNT and SEED give both editions the same starts, and the same answers as long as the sessions go alike.

use crate::cases::{beside, diagonal, gradient, hessian, whole};
use crate::random::{made_bits, power_of_two, with_exponent, Random, NANS};
use crate::replay::{self, Call};
use crate::scripts::{many, split};
use crate::session::{
    Formulas, Kind, Phase, Proposal, Secant, Settings, Station, Tried, LARGEST_ALLOWANCE,
};
use crate::sessions::{some_dogleg, trial_cost};
use crate::vector::{Matrix, Vector};
use std::io::{self, Write};

/// `count` scripts, each after a word with its length in words.
pub fn input(count: u64, seed: u64, edition: u64) -> Vec<u8> {
    many(count, seed, |random| script(random.word(), edition))
}

/// Editions that are none; in its low half or its low bits one may be one.
const UNKNOWN: [u64; 9] = [
    0,
    3,
    3,
    4,
    1 << 32,
    (1 << 32) + 1,
    (1 << 32) + 2,
    1 << 63 | 2,
    u64::MAX,
];

/// The places of the kind's word, of a number that kind 3 has not, and of the word that counts the further settings: allowance,
/// dogleg and edition stand behind it.
const KIND: usize = 0;
const TOL_GRAD: usize = 6;
const FURTHER: usize = 9;
const EDITION: usize = FURTHER + 3;

fn script(seed: u64, edition: u64) -> Vec<u64> {
    let mut random = Random::new(seed);
    let mut begin = Begin::any(&mut random);
    let plan = begin.plan(&mut random);
    if random.once_in(60) {
        begin.spoil(&mut random);
    }
    // Both editions are damaged alike, whatever their calls.
    let mut damages = Random::new(random.word());
    let mut maker = Maker {
        words: begin.words(edition),
        station: begin.station(edition).ok(),
        random,
    };
    maker.calls(plan);
    let mut words = maker.words;
    if damages.once_in(12) {
        damage(&mut damages, &mut words);
    }
    words
}

/// Another edition, or another number of further settings, or an end anywhere.
fn damage(random: &mut Random, words: &mut Vec<u64>) {
    match random.below(12) {
        0..4 => {
            words[EDITION] = random.pick(&UNKNOWN);
            // The cost is looked at later.
            if random.once_in(3) {
                words[EDITION + 1] = f64::INFINITY.to_bits();
            }
        }
        4 | 5 => {
            // Fewer: the missing ones have the values of kind 2.
            let left = random.pick(&[2, 2, 1, 0]);
            words[FURTHER] = left;
            words.drain(FURTHER + 1 + left as usize..=EDITION);
        }
        6 => {
            words[FURTHER] = 4;
            words.insert(EDITION + 1, random.pick(&[1, 2]));
        }
        7 => words[FURTHER] = random.pick(&[4, (1 << 32) + 3, 1 << 63 | 3, u64::MAX]),
        8 => {
            // Kind 3 knows no edition.
            words[KIND] = 3;
            words.remove(TOL_GRAD);
        }
        9 => words.extend([random.pick(&[0, 3, 6, (1 << 32) + 1]), 1, 1, 1, 1, 1]),
        _ => {
            let length = random.below(words.len() as u64 + 1);
            words.truncate(length as usize);
        }
    }
}

/// A start, but for its edition.
struct Begin {
    kernel: u64,
    dogleg: u64,
    allowance: u64,
    radius: f64,
    factor: f64,
    tol_grad: f64,
    cost: f64,
    point: Vec<f64>,
    gradient: Vec<f64>,
    hessian: Vec<f64>,
}

impl Begin {
    fn any(random: &mut Random) -> Begin {
        let n = match random.below(40) {
            0..38 => random.between(1, 6),
            38 => random.between(7, 10),
            _ => random.between(11, 24),
        } as usize;
        let mut begin = Begin {
            kernel: random.pick(&[1, 1, 2, 2, 2, 3, 3]),
            dogleg: some_dogleg(random, 100),
            allowance: random.pick(&[LARGEST_ALLOWANCE, LARGEST_ALLOWANCE, 1, 2, 3, 5]),
            radius: 1.0,
            factor: some_factor(random),
            tol_grad: random.pick(&[0.0, 0.0, 0.0, 1e-3, 1.0]),
            // Then a cost follows a ratio without rounding.
            cost: random.pick(&[0.0, 0.0, 10.0, 1.0]),
            point: (0..n).map(|_| whole(random, 3)).collect(),
            gradient: exact(random, n),
            hessian: simple(random, n),
        };
        match random.below(20) {
            0..12 => begin.near(random),
            12 => begin.steep(random),
            13 => begin.falling(random),
            14 => begin.tiny(random),
            15 => begin.far(random),
            16 => begin.standing(),
            _ => begin.wild(random),
        }
        begin
    }

    fn norm(&self) -> f64 {
        Vector(self.gradient.clone()).norm()
    }

    /// The radius is a power of two times the gradient's norm, or greater than any step. The ported dogleg would mostly stand still
    /// inside a small one.
    fn near(&mut self, random: &mut Random) {
        if self.kernel == 2 && self.dogleg == 1 && !random.once_in(6) {
            self.radius = self.norm() * power_of_two(random.between(2, 5));
            return;
        }
        let by = power_of_two(random.between(-3, 3));
        self.radius = random.pick(&[self.norm() * by, self.norm() * by, 1.0, 2.5, 1000.0]);
    }

    /// The whole step of a dogleg, from numbers so large that a difference of gradients overflows.
    fn steep(&mut self, random: &mut Random) {
        let e = random.pick(&[1000, 990, 1010]);
        let n = self.gradient.len();
        self.kernel = 2;
        self.hessian = diagonal(n, |_| power_of_two(e));
        let top = (e + 22).min(1023);
        self.gradient = (0..n).map(|_| with_exponent(random, top)).collect();
        self.radius = power_of_two(60);
    }

    /// To the edge of the region, along a curve so steep that H·s overflows; an entry beside the diagonal meets a step of 0.
    fn falling(&mut self, random: &mut Random) {
        let n = self.gradient.len();
        let x = -power_of_two(random.between(1000, 1015));
        self.kernel = random.pick(&[1, 3]);
        self.hessian = diagonal(n, |_| x);
        if n > 1 {
            self.gradient[0] = 0.0;
            let place = random.below((n * n) as u64) as usize;
            self.hessian[place] = random.pick(&[-x, x, 0.0]);
        }
        if self.norm() == 0.0 {
            self.gradient[n - 1] = 1.0;
        }
        self.radius = self.norm() * power_of_two(random.between(8, 40));
    }

    /// Steps whose squares are subnormal, or vanish.
    fn tiny(&mut self, random: &mut Random) {
        let by = power_of_two(random.pick(&[-500, -520, -535, -540, -600]));
        self.gradient.iter_mut().for_each(|x| *x *= by);
        self.kernel = random.pick(&[2, 2, 3, 1]);
        self.radius = random.pick(&[1.0, self.norm(), 4.0 * by]).max(by);
    }

    /// Steps of a length near 2^500, on which edition 1 skips.
    fn far(&mut self, random: &mut Random) {
        let n = self.gradient.len();
        self.kernel = random.pick(&[1, 3]);
        self.hessian = diagonal(n, |_| -1.0);
        let by = random.pick(&[20, 30, 100, 400, 500, 510]);
        self.radius = self.norm() * power_of_two(by);
    }

    /// The ported dogleg's zero step.
    fn standing(&mut self) {
        let n = self.gradient.len();
        (self.kernel, self.dogleg) = (2, 1);
        self.hessian = diagonal(n, |_| 1.0);
        self.radius = 0.5 * self.norm();
    }

    fn wild(&mut self, random: &mut Random) {
        let n = self.gradient.len();
        self.gradient = gradient(random, n);
        self.hessian = hessian(random, n);
        let e = random.between(-4, 8);
        let ordinary = with_exponent(random, e).abs();
        self.radius = random.pick(&[1.0, 2.5, 100.0, 1e-160, 1e155, ordinary]);
    }

    /// One setting that is out of range.
    fn spoil(&mut self, random: &mut Random) {
        match random.below(4) {
            0 => self.factor = random.pick(&[0.0, 1.0, -1e-8, f64::from_bits(NANS[0])]),
            1 => self.allowance = random.pick(&[0, LARGEST_ALLOWANCE + 1]),
            2 => self.kernel = random.pick(&[0, 4]),
            _ => self.cost = f64::INFINITY,
        }
    }

    fn settings(&self, edition: u64) -> Settings {
        Settings {
            kind: Kind::Sr1 {
                factor: self.factor,
                tol_grad: self.tol_grad,
                edition,
            },
            kernel: self.kernel,
            radius: self.radius,
            eta: ETA,
            epsilon: EPSILON,
            limit: LIMIT,
            allowance: self.allowance,
            dogleg: self.dogleg,
        }
    }

    fn station(&self, edition: u64) -> Result<Station, u8> {
        Station::start(
            self.settings(edition),
            self.cost,
            Vector(self.point.clone()),
            Vector(self.gradient.clone()),
            Matrix::new(self.gradient.len(), self.hessian.clone()),
        )
    }

    fn words(&self, edition: u64) -> Vec<u64> {
        let mut words = vec![4, self.gradient.len() as u64, self.kernel];
        push(
            &mut words,
            &[self.radius, ETA, self.factor, self.tol_grad, EPSILON],
        );
        words.extend([LIMIT, 3, self.allowance, self.dogleg, edition]);
        push(&mut words, &[self.cost]);
        for list in [&self.point, &self.gradient, &self.hessian] {
            push(&mut words, list);
        }
        words
    }

    /// For some of them the gradient of the first answer, with a factor by which that lies on a border. The factor has no part in a
    /// proposal, so that the first step is known before it.
    fn plan(&mut self, random: &mut Random) -> Option<Vector> {
        if random.once_in(3) {
            return None;
        }
        let mut station = self.station(1).ok()?;
        let n = station.size() as u64;
        let Ok(Proposal::Made { .. }) = station.propose(n, &Formulas) else {
            return None;
        };
        let next = aimed(random, &station);
        let secant = secant(&station, &next)?;
        let (q, norm, length) = (secant.q.abs(), secant.norm, secant.z.norm());
        let factor = match random.below(3) {
            // Edition 1's border.
            0 => meeting(random, 1.0 / norm, 1.0, |factor| factor * norm),
            1 if random.once_in(4) => return Some(next),
            _ => meeting(random, q / norm / length, q, |factor| {
                (factor * norm) * length
            }),
        };
        if factor > 0.0 && factor < 1.0 {
            self.factor = factor;
        }
        Some(next)
    }
}

const ETA: f64 = 0.0005;
const EPSILON: f64 = 1e-9;
const LIMIT: u64 = 20;

fn push(words: &mut Vec<u64>, numbers: &[f64]) {
    words.extend(numbers.iter().map(|&x| made_bits(x)));
}

/// The ends of its range, those that tell associations apart, and those under which more is skipped than by the default.
fn some_factor(random: &mut Random) -> f64 {
    let any = with_exponent(random, -1).abs();
    random.pick(&[
        1e-8,
        1e-8,
        0.5,
        0.6,
        0.1,
        1f64.next_down(),
        1f64.next_down().next_down(),
        5e-324,
        power_of_two(-1000),
        any,
    ])
}

/// Whole numbers whose norm is whole too, in any order and with any signs, times a power of two.
fn exact(random: &mut Random, n: usize) -> Vec<f64> {
    let list: &[f64] = match n {
        1 => random.pick(&[&[1.0][..], &[3.0]]),
        2 => random.pick(&[&[3.0, 4.0][..], &[5.0, 12.0], &[1.0, 0.0]]),
        3 => random.pick(&[&[1.0, 2.0, 2.0][..], &[2.0, 3.0, 6.0], &[0.0, 3.0, 4.0]]),
        4 => random.pick(&[&[1.0; 4][..], &[2.0, 2.0, 4.0, 5.0], &[1.0, 1.0, 3.0, 5.0]]),
        5 => random.pick(&[&[1.0, 1.0, 1.0, 2.0, 3.0][..], &[0.0, 1.0, 1.0, 1.0, 1.0]]),
        6 => random.pick(&[
            &[10.0, 9.0, 7.0, 4.0, 3.0, 1.0][..],
            &[1.0, 1.0, 1.0, 2.0, 3.0, 0.0],
        ]),
        _ => &[1.0; 24][..n],
    };
    let by = power_of_two(random.between(-2, 2));
    let turn = random.below(n as u64) as usize;
    let mut numbers: Vec<f64> = list
        .iter()
        .map(|x| x * by * random.pick(&[1.0, -1.0]))
        .collect();
    numbers.rotate_left(turn);
    numbers
}

/// A diagonal of powers of two, mostly one of them throughout. Beside it stands −0 at times: an update makes +0 of it, whatever it
/// adds.
fn simple(random: &mut Random, n: usize) -> Vec<f64> {
    let one = power_of_two(random.between(-2, 2)) * random.pick(&[1.0, 1.0, 1.0, 1.0, -1.0]);
    let all = random.once_in(4);
    let mut h = diagonal(n, |_| {
        if all {
            power_of_two(random.between(-2, 2))
        } else {
            one
        }
    });
    if random.once_in(3) {
        for x in &mut h {
            if *x == 0.0 {
                *x = -0.0;
            }
        }
    }
    h
}

/// Near the guess the number whose product is the target, or the next one above or below it.
fn meeting(random: &mut Random, guess: f64, target: f64, product: impl Fn(f64) -> f64) -> f64 {
    let wanted = beside(random, target);
    let mut x = guess;
    for _ in 0..4 {
        x = x.next_down();
    }
    for _ in 0..9 {
        if product(x) == wanted {
            return x;
        }
        x = x.next_up();
    }
    guess
}

/// What this gradient says at the trial that is awaited.
fn secant(station: &Station, gradient: &Vector) -> Option<Secant> {
    let Phase::Cost { promised, norm, .. } = station.phase else {
        return None;
    };
    let tried = Tried {
        cost: 0.0,
        gradient: Some(gradient),
        promised,
        norm,
    };
    Secant::new(station, &tried)
}

/// A gradient that lays z somewhere, as far as rounding lets it.
fn aimed(random: &mut Random, station: &Station) -> Vector {
    let s = &station.step.0;
    let Vector(model) = station.hessian.times(&station.step);
    let z = wanted(random, s);
    let parts = z.iter().zip(&model).zip(&station.gradient.0);
    // It is refused by 4 where it is not finite. Beside a gradient that is far off, one on the other side makes the difference overflow.
    let finite = parts.map(|((z, model), g)| {
        let x = (z + model) + g;
        if !x.is_finite() {
            random.pick(&[1.0, 0.0, f64::MAX, -f64::MAX])
        } else if g.abs() > 1e300 && random.once_in(4) {
            -g.signum() * f64::MAX
        } else {
            x
        }
    });
    Vector(finite.collect())
}

fn wanted(random: &mut Random, s: &[f64]) -> Vec<f64> {
    let n = s.len();
    // Beside a zero step the others are zero too.
    let least = if s.iter().all(|x| *x == 0.0) { 12 } else { 0 };
    match random.between(least, 26) {
        0 => vec![0.0; n],
        1..4 => across(random, s),
        // Some digits beside it.
        4..10 => {
            let by = power_of_two(-random.between(1, 40)) * random.pick(&[1.0, -1.0]);
            plus(&across(random, s), &times(s, by))
        }
        10 | 11 => {
            let by = random.pick(&[1.0, -1.0, 2.0, -0.5, 3.0]);
            times(s, by)
        }
        12 => {
            let mut z = vec![0.0; n];
            z[random.below(n as u64) as usize] = whole(random, 4);
            z
        }
        // Squares that overflow, with q along the step or across it.
        13 | 14 => {
            let by = power_of_two(random.pick(&[505, 511, 515, 600, 1010]));
            let part = random.pick(&[0.0, 1.0, -1.0, power_of_two(-60)]);
            plus(&times(&across(random, s), by), &times(s, part))
        }
        15 => {
            let e = random.pick(&[510, 511, 512, 600, 1000]);
            (0..n).map(|_| with_exponent(random, e)).collect()
        }
        // Squares that vanish, and a q that nearly does.
        16 => {
            let e = random.pick(&[-530, -537, -540, -600]);
            (0..n).map(|_| with_exponent(random, e)).collect()
        }
        17 => {
            let by = power_of_two(random.pick(&[-540, -600, -1000, -1022, -1030]));
            times(s, by)
        }
        _ => (0..n).map(|_| whole(random, 3)).collect(),
    }
}

/// A vector whose dot with this one is exactly 0: two entries change places, and one its sign. There is none but 0 beside a single
/// number.
fn across(random: &mut Random, s: &[f64]) -> Vec<f64> {
    let n = s.len();
    let i = random.below(n as u64) as usize;
    let j = (i + 1 + random.below(n.max(2) as u64 - 1) as usize) % n;
    let by = random.pick(&[1.0, -1.0, 2.0, 0.5, -4.0]);
    let mut z = vec![0.0; n];
    if n == 1 || s[i] == 0.0 {
        z[i] = by;
    } else {
        (z[i], z[j]) = (s[j] * by, -s[i] * by);
    }
    z
}

fn plus(a: &[f64], b: &[f64]) -> Vec<f64> {
    a.iter().zip(b).map(|(x, y)| x + y).collect()
}

fn times(a: &[f64], by: f64) -> Vec<f64> {
    a.iter().map(|x| x * by).collect()
}

/// A script under way.
struct Maker {
    random: Random,
    words: Vec<u64>,
    /// Nothing where the start was refused.
    station: Option<Station>,
}

impl Maker {
    /// Mostly in turn. A session that is stuck says little more.
    fn calls(&mut self, plan: Option<Vector>) {
        if self.station.is_none() {
            self.words.extend([9; 2]);
            return;
        }
        if let Some(gradient) = plan {
            self.propose();
            self.tell(gradient);
        }
        let mut refusals = 0;
        for _ in 0..self.random.between(2, 14) {
            if self.call() {
                refusals += 1;
            } else {
                refusals = 0;
            }
            if refusals > 4 {
                break;
            }
        }
    }

    fn station(&self) -> &Station {
        self.station.as_ref().expect("a session that started")
    }

    /// Whether the call was refused, or the session is done.
    fn run(&mut self, call: Call) -> bool {
        let station = self.station.as_mut().expect("a session that started");
        let mut lines = Vec::new();
        replay::run(station, call, &Formulas, &mut lines).expect("memory can be written");
        lines.starts_with(b"refused") || lines.starts_with(b"done")
    }

    fn call(&mut self) -> bool {
        let awaits = matches!(self.station().phase, Phase::Cost { .. });
        if self.random.once_in(30) {
            let allowance = self.station().settings.allowance;
            let count = self.random.pick(&[0, 0, allowance, allowance + 1]);
            self.words.extend([5, count]);
            return self.run(Call::Count(count));
        }
        if !awaits && self.random.once_in(30) {
            return self.make_ready();
        }
        let in_turn = !self.random.once_in(16);
        if awaits == in_turn {
            self.answer()
        } else if self.random.once_in(12) {
            // The caller makes a trial up: of the last step, or of none.
            self.put(None)
        } else {
            self.propose()
        }
    }

    /// The n that a call is told.
    fn told(&mut self) -> u64 {
        let n = self.station().size() as u64;
        if self.random.once_in(40) {
            self.random.pick(&[0, n + 1, n | 1 << 32])
        } else {
            n
        }
    }

    fn propose(&mut self) -> bool {
        let told = self.told();
        self.words.extend([1, told]);
        self.run(Call::Propose(told))
    }

    fn answer(&mut self) -> bool {
        let station = self.station.as_ref().expect("a session that started");
        let mut gradient = aimed(&mut self.random, station);
        let secant = secant(station, &gradient);
        if self.random.once_in(3) && secant.is_some() {
            self.put(secant);
        }
        if self.random.once_in(60) {
            gradient.0[0] = f64::INFINITY;
        }
        self.tell(gradient)
    }

    fn tell(&mut self, gradient: Vector) -> bool {
        let told = self.told();
        let station = self.station.as_ref().expect("a session that started");
        let cost = match self.random.below(6) {
            0 => f64::from_bits(self.random.pick(&NANS)),
            _ => trial_cost(&mut self.random, station),
        };
        self.words.extend([2, told, cost.to_bits()]);
        push(&mut self.words, &gradient.0);
        self.run(Call::Cost(told, cost, Some(gradient)))
    }

    /// Call 4: the session stays ready, with another radius or none.
    fn make_ready(&mut self) -> bool {
        let radius = self.random.pick(&[0.0, -0.0, 1.0, 8.0]);
        let cost = self.station().cost;
        self.words.push(4);
        push(&mut self.words, &[radius, cost]);
        self.words.extend([0, 0, 0]);
        self.run(Call::Put(radius, cost, Phase::Ready))
    }

    /// Call 4: a trial is awaited, with another norm than the step's, mostly one that meets what the next answer will say.
    fn put(&mut self, secant: Option<Secant>) -> bool {
        let Station {
            mut radius,
            mut cost,
            phase,
            ..
        } = *self.station();
        let (mut promised, own) = match phase {
            Phase::Cost { promised, norm, .. } => (promised, norm),
            _ => (1.0, 1.0),
        };
        let random = &mut self.random;
        if random.once_in(4) {
            promised = random.pick(&[1.0, 0.0, -1.0, 4.0]);
        }
        let mut norm = match &secant {
            Some(secant) => some_norm(random, secant, own),
            None => random.pick(&[1.0, 0.0, own]),
        };
        if random.once_in(10) {
            // A fall that is as promised then doubles it, and overflows.
            (radius, cost, promised) = (1.5e308, 1.0, 1.0);
            norm = random.pick(&[norm, 1.5e308, 1.3e308, 1.0]);
        } else if !radius.is_finite() || radius < 0.0 || !cost.is_finite() || random.once_in(40) {
            (radius, cost) = (random.pick(&[1.0, 1.0, 0.0, -1.0]), 1.0);
        }
        self.words.push(4);
        push(&mut self.words, &[radius, cost]);
        self.words.push(1);
        push(&mut self.words, &[promised, norm]);
        let phase = Phase::Cost {
            promised,
            norm,
            made_up: true,
        };
        self.run(Call::Put(radius, cost, phase))
    }
}

/// A norm by which a test of either edition meets its other side, or one that no step has.
fn some_norm(random: &mut Random, secant: &Secant, own: f64) -> f64 {
    let (q, factor, length) = (secant.q.abs(), secant.factor, secant.z.norm());
    match random.below(20) {
        0..9 => meeting(random, q / factor / length, q, |norm| {
            (factor * norm) * length
        }),
        9 | 10 => meeting(random, 1.0 / factor, 1.0, |norm| factor * norm),
        11 => f64::INFINITY,
        12 => f64::from_bits(random.pick(&NANS)),
        13 => random.pick(&[-own, -1.0, f64::NEG_INFINITY]),
        14 => random.pick(&[0.0, -0.0]),
        15 | 16 => own * power_of_two(random.between(-60, 60)),
        17 => random.pick(&[5e-324, 1e-300, 1e300, f64::MAX]),
        _ => own,
    }
}

/// An answer that was judged.
struct Seen {
    secant: Secant,
    updates: bool,
    /// The caller put the phase in.
    made_up: bool,
    /// The norm of the step that the session has.
    own: f64,
    is_zero_step: bool,
    hidden: bool,
    /// Nothing where it was refused by 8.
    accepted: Option<bool>,
    /// It would have been refused by 8 for the radius alone.
    radius_is_over: bool,
}

impl Seen {
    fn product(&self) -> f64 {
        (self.secant.factor * self.secant.norm) * self.secant.z.norm()
    }

    fn size(&self) -> f64 {
        self.secant.q.abs()
    }

    /// Both sides of the book's test are this number, and q is not 0.
    fn is_met(&self) -> bool {
        self.product() == self.size() && self.size().is_finite() && self.secant.q != 0.0
    }

    fn differs(&self) -> bool {
        self.secant.updates_as_ported() != self.secant.updates_by_the_book()
    }

    fn z_is_finite(&self) -> bool {
        self.secant.z.0.iter().all(|x| x.is_finite())
    }

    fn z_is_zero(&self) -> bool {
        self.secant.z.0.iter().all(|x| *x == 0.0)
    }
}

/// What is counted, and whether an answer is that.
type Row = (&'static str, fn(&Seen) -> bool);

const ROWS: &[Row] = &[
    ("updated", |s| s.updates),
    ("skipped", |s| !s.updates),
    ("the editions differ", |s| s.differs()),
    ("  edition 1 updates, 2 skips", |s| {
        s.differs() && s.secant.updates_as_ported()
    }),
    ("  edition 1 skips, 2 updates", |s| {
        s.differs() && !s.secant.updates_as_ported()
    }),
    ("of a trial that was proposed", |s| !s.made_up),
    ("  updated by both editions", |s| {
        !s.made_up && !s.differs() && s.updates
    }),
    ("  skipped by both editions", |s| {
        !s.made_up && !s.differs() && !s.updates
    }),
    ("  the editions differ", |s| !s.made_up && s.differs()),
    ("both sides of the book's test are equal, q is not 0", |s| {
        s.is_met()
    }),
    ("  of a trial that was proposed", |s| {
        s.is_met() && !s.made_up
    }),
    ("  not by edition 1", |s| s.is_met() && s.differs()),
    ("the other side is the next number above", |s| {
        s.size().is_finite() && s.product() == s.size().next_up()
    }),
    ("the other side is the next number below", |s| {
        s.size().is_finite() && s.product() == s.size().next_down()
    }),
    (
        "both sides of edition 1's test are equal, q is not 0",
        |s| {
            let other = (s.secant.factor * s.secant.norm) * s.size();
            s.size().is_finite() && other == s.size() && s.secant.q != 0.0
        },
    ),
    ("q is 0", |s| s.secant.q == 0.0),
    ("  of a trial that was proposed", |s| {
        s.secant.q == 0.0 && !s.made_up
    }),
    ("  the step is zero", |s| {
        s.secant.q == 0.0 && s.is_zero_step
    }),
    ("  z is zero", |s| s.z_is_zero()),
    ("  neither is", |s| {
        s.secant.q == 0.0 && !s.is_zero_step && !s.z_is_zero()
    }),
    ("  both sides are 0", |s| {
        s.secant.q == 0.0 && s.product() == 0.0
    }),
    ("  the other side is below it", |s| {
        s.secant.q == 0.0 && s.product() < 0.0
    }),
    ("q is subnormal", |s| s.secant.q.is_subnormal()),
    ("q is a NaN", |s| s.secant.q.is_nan()),
    ("q is infinite", |s| s.secant.q.is_infinite()),
    ("z has an entry that is not finite", |s| !s.z_is_finite()),
    ("z is finite, its norm is not", |s| {
        s.z_is_finite() && s.secant.z.norm().is_infinite()
    }),
    ("  and q is not 0", |s| {
        s.z_is_finite() && s.secant.z.norm().is_infinite() && s.secant.q != 0.0
    }),
    ("z is not zero, its norm is", |s| {
        !s.z_is_zero() && s.secant.z.norm() == 0.0
    }),
    ("the phase's norm is a NaN", |s| s.secant.norm.is_nan()),
    ("the phase's norm is infinite", |s| {
        s.secant.norm.is_infinite()
    }),
    ("the phase's norm is below zero", |s| s.secant.norm < 0.0),
    ("the phase's norm is zero, the step is not", |s| {
        s.secant.norm == 0.0 && !s.is_zero_step
    }),
    ("by the step's own norm it would be another end", |s| {
        let own = Secant {
            norm: s.own,
            ..s.secant.clone()
        };
        own.updates_by_the_book() != s.secant.updates_by_the_book()
    }),
    ("the factor is the least, or just below 1", |s| {
        [5e-324, 1f64.next_down()].contains(&s.secant.factor)
    }),
    ("accepted and updated", |s| {
        s.accepted == Some(true) && s.updates
    }),
    ("accepted and skipped", |s| {
        s.accepted == Some(true) && !s.updates
    }),
    ("rejected and updated", |s| {
        s.accepted == Some(false) && !s.hidden && s.updates
    }),
    ("rejected and skipped", |s| {
        s.accepted == Some(false) && !s.hidden && !s.updates
    }),
    ("hidden and updated", |s| {
        s.accepted == Some(false) && s.hidden && s.updates
    }),
    ("hidden and skipped", |s| {
        s.accepted == Some(false) && s.hidden && !s.updates
    }),
    ("refused by 8 for the Hessian", |s| {
        s.accepted.is_none() && !s.radius_is_over
    }),
    ("refused by 8 for the radius, skipped", |s| {
        s.accepted.is_none() && s.radius_is_over && !s.updates
    }),
];

/// How many answers of these scripts lie on each border.
pub fn report(count: u64, seed: u64, edition: u64, out: &mut impl Write) -> io::Result<()> {
    let (counts, all) = counted(&input(count, seed, edition));
    for ((name, _), counted) in ROWS.iter().zip(counts) {
        writeln!(out, "{counted:8}  {name}")?;
    }
    writeln!(out, "{all:8}  all answers that were judged")
}

/// Each row's count, and that of all answers.
fn counted(input: &[u8]) -> (Vec<u64>, u64) {
    let (mut counts, mut all) = (vec![0; ROWS.len()], 0);
    let mut left = input;
    while let Some((script, rest)) = split(left) {
        let run = |station: &mut Station, call: Call, _: &mut Vec<u8>| {
            if let Some(seen) = seen(station, call) {
                all += 1;
                for (counted, (_, is)) in counts.iter_mut().zip(ROWS) {
                    *counted += u64::from(is(&seen));
                }
            }
            Ok(())
        };
        replay::answer_by(run, script, &mut Vec::new()).expect("memory can be written");
        left = rest;
    }
    (counts, all)
}

/// Runs a call. What it shows, where it is an answer that was judged.
fn seen(station: &mut Station, call: Call) -> Option<Seen> {
    let before = station.clone();
    let mut lines = Vec::new();
    replay::run(station, call.clone(), &Formulas, &mut lines).expect("memory can be written");
    let accepted = match &lines[..] {
        b"refused 8\n" => None,
        said if said.starts_with(b"accepted") => Some(true),
        said if said.starts_with(b"rejected") => Some(false),
        _ => return None,
    };
    let Call::Cost(_, cost, Some(gradient)) = call else {
        return None;
    };
    let secant = secant(&before, &gradient)?;
    let (
        Kind::Sr1 { edition, .. },
        Phase::Cost {
            promised, made_up, ..
        },
    ) = (before.settings.kind, before.phase)
    else {
        return None;
    };
    let ratio = (before.cost - cost) / promised;
    let is_long = !(secant.norm <= 0.8 * before.radius);
    Some(Seen {
        updates: secant.updates(edition),
        made_up,
        own: before.step.norm(),
        is_zero_step: before.step.0.iter().all(|x| *x == 0.0),
        hidden: cost.is_nan(),
        accepted,
        radius_is_over: ratio > 0.75 && is_long && (2.0 * before.radius).is_infinite(),
        secant,
    })
}

#[cfg(test)]
mod tests {
    use super::*;
    use crate::scripts::{self, words_of};

    /// Nothing is missing from the mix, in either edition.
    #[test]
    fn every_border_comes_up() {
        for edition in [1, 2] {
            let (counts, all) = counted(&input(3000, 1, edition));
            for ((name, _), counted) in ROWS.iter().zip(&counts) {
                assert!(*counted > 0, "edition {edition}: {name}");
            }
            let many = |wanted: &str| {
                let place = ROWS.iter().position(|(name, _)| *name == wanted).unwrap();
                counts[place]
            };
            for name in ["updated", "skipped", "the editions differ", "q is 0"] {
                assert!(10 * many(name) > all, "{name}: {} of {all}", many(name));
            }
            let equal = many("both sides of the book's test are equal, q is not 0");
            assert!(40 * equal > all, "{equal} of {all}");
        }
    }

    /// Every kind of line, for every kernel that can have it.
    #[test]
    fn every_line_comes_up() {
        for edition in [1, 2] {
            let mut out = Vec::new();
            let tally = scripts::answer(&input(3000, 1, edition), &Formulas, &mut out).unwrap();
            for (name, kernels) in [
                ("start", 15),
                ("proposed", 15),
                ("accepted", 15),
                ("rejected", 15),
                ("rejected, NaN", 15),
                ("done", 15),
                ("bad input", 15),
                ("refused 1", 15),
                ("refused 2", 15),
                ("refused 3", 15),
                ("refused 4", 15),
                ("refused 5", 15),
                ("refused 6", 10),
                ("refused 7", 4),
                ("refused 8", 15),
                ("refused 9", 15),
                ("end ready", 15),
                ("end cost", 15),
                ("updated", 15),
                ("skipped", 15),
                ("editions differ", 15),
            ] {
                for kernel in 0..4 {
                    let comes = kernels & 1 << kernel != 0;
                    let counted = tally.get(name, kernel);
                    assert_eq!(counted > 0, comes, "edition {edition}, {name}: {kernel}");
                }
            }
        }
    }

    /// Up to their first call the scripts of both editions are one but for the word; a few per cent of them are not of this
    /// edition, or not sound.
    #[test]
    fn both_editions_are_alike() {
        let all = [1, 2].map(|edition| input(2000, 3, edition));
        let mut left = [&all[0][..], &all[1]];
        let mut named = 0;
        for _ in 0..2000 {
            let both = left.map(|input| split(input).unwrap());
            left = both.map(|(_, rest)| rest);
            let [mut first, mut second] =
                both.map(|(script, _)| words_of(script).collect::<Vec<_>>());
            let n = first.get(1).copied().unwrap_or(0) as usize;
            let start = EDITION + 2 + 2 * n + n * n;
            let is_sound =
                |script: &[u64]| script.len() >= start && (script[KIND], script[FURTHER]) == (4, 3);
            if !(is_sound(&first) && is_sound(&second)) {
                continue;
            }
            named += u64::from((first[EDITION], second[EDITION]) == (1, 2));
            (first[EDITION], second[EDITION]) = (0, 0);
            assert_eq!(first[..start], second[..start]);
        }
        assert!((1800..1980).contains(&named), "{named}");
        assert!(all[0] != input(2000, 4, 1));
    }
}
