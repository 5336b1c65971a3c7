//! The two sessions as document 01 has them, with request Five's count of NaN answers in a row, request
//! Six's choice of a dogleg and request Seven's editions of SR1's test: settings, phases, refusals, and what
//! each call leaves. argmin has none of the three. How a proposal is worked out and a trial judged is an
//! engine's part: by document 01's formulas here, by argmin's own code in argmin_sessions.rs.

use crate::formulas;
use crate::step::{self, Call, Kernel};
use crate::vector::{Matrix, Vector};

/// The most NaN answers in a row that a setting may allow.
pub const LARGEST_ALLOWANCE: u64 = 1_000;

/// The dogleg of a session: the ported one, or the one with the textbook's first leg (request Six).
pub const PORTED: u64 = 1;
pub const TEXTBOOK: u64 = 2;

/// The edition of SR1's test: the ported one, or the one that the book has (request Seven).
pub const PORTED_UPDATE: u64 = 1;
pub const TEXTBOOK_UPDATE: u64 = 2;

/// The settings of either kind, as given.
#[derive(Clone, Copy, Debug)]
pub struct Settings {
    pub kind: Kind,
    pub kernel: u64,
    pub radius: f64,
    pub eta: f64,
    pub epsilon: f64,
    pub limit: u64,
    /// So many NaN answers in a row are allowed.
    pub allowance: u64,
    /// Which dogleg kernel 2 is.
    pub dogleg: u64,
}

#[derive(Clone, Copy, Debug)]
pub enum Kind {
    TrustRegion {
        max_radius: f64,
    },
    Sr1 {
        factor: f64,
        tol_grad: f64,
        /// By which test the Hessian is updated or left.
        edition: u64,
    },
}

impl Settings {
    fn kernel(&self) -> Option<Kernel> {
        // The dogleg is looked at whatever the kernel.
        Some(match (self.kernel, self.dogleg) {
            (1, PORTED | TEXTBOOK) => Kernel::Cauchy,
            (2, PORTED) => Kernel::Dogleg,
            (2, TEXTBOOK) => Kernel::Textbook,
            (3, PORTED | TEXTBOOK) => Kernel::Steihaug,
            _ => return None,
        })
    }

    /// All of them, whatever the kernel. A NaN is in no range.
    fn are_sound(&self) -> bool {
        let above_zero = |x: f64| x.is_finite() && x > 0.0;
        let own = match self.kind {
            Kind::TrustRegion { max_radius } => {
                above_zero(self.radius) && above_zero(max_radius) && (0.0..0.25).contains(&self.eta)
            }
            Kind::Sr1 {
                factor,
                tol_grad,
                edition,
            } => {
                above_zero(self.radius.abs())
                    && matches!(edition, PORTED_UPDATE | TEXTBOOK_UPDATE)
                    && self.eta > 0.0
                    && self.eta < 0.01
                    && factor > 0.0
                    && factor < 1.0
                    && tol_grad >= 0.0
                    && tol_grad.is_finite()
            }
        };
        own && self.kernel().is_some()
            && above_zero(self.epsilon)
            && self.limit <= step::LARGEST_LIMIT
            && (1..=LARGEST_ALLOWANCE).contains(&self.allowance)
    }
}

#[derive(Clone, Copy, Debug, PartialEq)]
pub enum Phase {
    Ready,
    /// The model's value (for SR1 the predicted fall P) and the step's norm. `made_up` where a
    /// caller put them in: then no proposal of this session stands behind them.
    Cost {
        promised: f64,
        norm: f64,
        made_up: bool,
    },
    Derivatives,
}

/// A session and the vectors that are lent to it.
#[derive(Clone, Debug)]
pub struct Station {
    pub settings: Settings,
    pub radius: f64,
    pub cost: f64,
    pub phase: Phase,
    /// NaN answers in a row.
    pub count: u64,
    pub point: Vector,
    pub gradient: Vector,
    pub hessian: Matrix,
    pub step: Vector,
    pub trial: Vector,
}

/// What a proposal gives.
#[derive(Clone, Copy, Debug, PartialEq)]
pub enum Proposal {
    Made { passes: u64 },
    Done,
}

/// What becomes of a trial.
#[derive(Clone, Debug)]
pub struct Verdict {
    pub ratio: f64,
    pub accepted: bool,
    pub radius: f64,
    /// SR1's updated Hessian.
    pub hessian: Option<Matrix>,
    /// The point afterwards, where an engine has its own.
    pub point: Option<Vector>,
}

/// The answer to a trial: its cost, and for SR1 its gradient.
pub struct Tried<'a> {
    pub cost: f64,
    pub gradient: Option<&'a Vector>,
    pub promised: f64,
    pub norm: f64,
}

/// A way to work out steps and verdicts.
pub trait Engine {
    fn solve(&self, call: &Call) -> Result<(Vector, u64), u8>;

    /// The verdict on a trial that this session proposed.
    fn judge(&self, station: &Station, tried: &Tried) -> Verdict;
}

impl Station {
    /// A start takes settings and cost only.
    pub fn start(
        settings: Settings,
        cost: f64,
        point: Vector,
        gradient: Vector,
        hessian: Matrix,
    ) -> Result<Station, u8> {
        if !settings.are_sound() {
            return Err(2);
        }
        if !cost.is_finite() {
            return Err(4);
        }
        let zeros = Vector(vec![0.0; point.0.len()]);
        let radius = match settings.kind {
            Kind::TrustRegion { .. } => settings.radius,
            Kind::Sr1 { .. } => settings.radius.abs(),
        };
        Ok(Station {
            settings,
            radius,
            cost,
            phase: Phase::Ready,
            count: 0,
            point,
            gradient,
            hessian,
            step: zeros.clone(),
            trial: zeros,
        })
    }

    pub fn size(&self) -> usize {
        self.point.0.len()
    }

    /// Refusals 1 and 2, which every call has. The lent vectors have the start's lengths, so n is
    /// all that can be wrong. −0 is no negative radius.
    fn check(&self, n: u64) -> Result<(), u8> {
        if n != self.size() as u64 {
            return Err(1);
        }
        if !(self.radius.is_finite() && self.radius >= 0.0 && self.cost.is_finite()) {
            return Err(2);
        }
        if self.count > self.settings.allowance {
            return Err(2);
        }
        Ok(())
    }

    pub fn propose(&mut self, n: u64, engine: &impl Engine) -> Result<Proposal, u8> {
        self.check(n)?;
        if self.phase != Phase::Ready {
            return Err(3);
        }
        let entries = [&self.point.0, &self.gradient.0, self.hessian.entries()];
        if !entries.iter().all(|numbers| all_finite(numbers)) {
            return Err(4);
        }
        if let Kind::Sr1 { tol_grad, .. } = self.settings.kind {
            if self.gradient.norm() < tol_grad {
                return Ok(Proposal::Done);
            }
        }
        if self.radius == 0.0 {
            return Err(5);
        }
        if self.count == self.settings.allowance {
            return Err(9);
        }
        let (step, passes) = engine.solve(&self.call())?;
        let norm = step.norm();
        let trial = plus(&step, &self.point);
        if !(all_finite(&step.0) && norm.is_finite() && all_finite(&trial.0)) {
            return Err(8);
        }
        let linear = step.dot(&self.gradient);
        let curved = 0.5 * step.weighted_dot(&self.hessian, &step);
        let promised = match self.settings.kind {
            Kind::TrustRegion { .. } => (self.cost + linear) + curved,
            Kind::Sr1 { .. } => (-linear) - curved,
        };
        (self.step, self.trial) = (step, trial);
        self.phase = Phase::Cost {
            promised,
            norm,
            made_up: false,
        };
        Ok(Proposal::Made { passes })
    }

    /// The kernel's call; the settings were checked at the start.
    pub fn call(&self) -> Call {
        Call {
            kernel: self.settings.kernel().expect("a sound kernel"),
            radius: self.radius,
            epsilon: self.settings.epsilon,
            limit: self.settings.limit,
            gradient: self.gradient.clone(),
            hessian: self.hessian.clone(),
        }
    }

    /// The cost at the trial, and for SR1 the gradient there.
    pub fn answer(
        &mut self,
        n: u64,
        cost: f64,
        gradient: Option<&Vector>,
        engine: &impl Engine,
    ) -> Result<Verdict, u8> {
        self.check(n)?;
        let Phase::Cost {
            promised,
            norm,
            made_up,
        } = self.phase
        else {
            return Err(3);
        };
        let mut read = vec![&self.trial.0[..]];
        if let Some(gradient) = gradient {
            read.extend([&self.step.0, &self.gradient.0, self.hessian.entries()]);
            read.push(&gradient.0);
        }
        if !read.iter().all(|numbers| all_finite(numbers)) || cost.is_infinite() {
            return Err(4);
        }
        let tried = Tried {
            cost,
            gradient,
            promised,
            norm,
        };
        // What was never proposed has no counterpart in argmin.
        let verdict = if made_up {
            Formulas.judge(self, &tried)
        } else {
            engine.judge(self, &tried)
        };
        let hessian = verdict.hessian.as_ref();
        if !verdict.radius.is_finite() || hessian.is_some_and(|h| !all_finite(h.entries())) {
            return Err(8);
        }
        self.radius = verdict.radius;
        self.phase = Phase::Ready;
        // At most one above the allowance, since the count was not above it.
        self.count = if cost.is_nan() { self.count + 1 } else { 0 };
        if verdict.accepted {
            self.point = verdict.point.clone().unwrap_or_else(|| self.trial.clone());
            self.cost = cost;
            match gradient {
                Some(gradient) => self.gradient = gradient.clone(),
                None => self.phase = Phase::Derivatives,
            }
        }
        if let Some(hessian) = hessian {
            self.hessian = hessian.clone();
        }
        Ok(verdict)
    }

    /// The derivatives at an accepted point.
    pub fn renew(&mut self, n: u64, gradient: Vector, hessian: Matrix) -> Result<(), u8> {
        self.check(n)?;
        if self.phase != Phase::Derivatives {
            return Err(3);
        }
        if !(all_finite(&gradient.0) && all_finite(hessian.entries())) {
            return Err(4);
        }
        (self.gradient, self.hessian) = (gradient, hessian);
        (self.phase, self.count) = (Phase::Ready, 0);
        Ok(())
    }
}

/// Document 01's formulas.
pub struct Formulas;

impl Engine for Formulas {
    fn solve(&self, call: &Call) -> Result<(Vector, u64), u8> {
        formulas::solve(call)
    }

    fn judge(&self, station: &Station, tried: &Tried) -> Verdict {
        match (station.settings.kind, tried.gradient) {
            (Kind::TrustRegion { max_radius }, _) => judge_trust_region(station, tried, max_radius),
            (Kind::Sr1 { edition, .. }, _) => judge_sr1(station, tried, edition),
        }
    }
}

fn judge_trust_region(station: &Station, tried: &Tried, max_radius: f64) -> Verdict {
    let (f, m, norm) = (station.cost, tried.promised, tried.norm);
    let rho = (f - tried.cost) / (f - m);
    let radius = if rho < 0.25 {
        0.25 * norm
    } else if rho > 0.75 && (norm - station.radius).abs() <= 10.0 * f64::EPSILON {
        let doubled = 2.0 * station.radius;
        if doubled < max_radius {
            doubled
        } else {
            max_radius
        }
    } else {
        station.radius
    };
    Verdict {
        ratio: rho,
        accepted: rho > station.settings.eta,
        radius,
        hessian: None,
        point: None,
    }
}

fn judge_sr1(station: &Station, tried: &Tried, edition: u64) -> Verdict {
    let norm = tried.norm;
    let ap = (station.cost - tried.cost) / tried.promised;
    let radius = if ap > 0.75 {
        if norm <= 0.8 * station.radius {
            station.radius
        } else {
            2.0 * station.radius
        }
    } else if (0.1..=0.75).contains(&ap) {
        station.radius
    } else {
        0.5 * station.radius
    };
    let secant = Secant::new(station, tried).expect("SR1's answer brings a gradient");
    let hessian = if secant.updates(edition) {
        secant.updated(&station.hessian)
    } else {
        station.hessian.clone()
    };
    Verdict {
        ratio: ap,
        accepted: ap > station.settings.eta,
        radius,
        hessian: Some(hessian),
        point: None,
    }
}

/// What an answer of SR1 says about the Hessian, and what the tests of both editions look at.
#[derive(Clone, Debug)]
pub struct Secant {
    /// (G − g) − H·s.
    pub z: Vector,
    /// s·z. Never −0: a dot begins at +0.
    pub q: f64,
    pub factor: f64,
    /// The step's norm, as the phase has it.
    pub norm: f64,
}

impl Secant {
    /// Nothing where the session is no SR1TrustRegion.
    pub fn new(station: &Station, tried: &Tried) -> Option<Secant> {
        let (Kind::Sr1 { factor, .. }, Some(next)) = (station.settings.kind, tried.gradient) else {
            return None;
        };
        let (g, s) = (&station.gradient, &station.step);
        let z = minus(&minus(next, g), &station.hessian.times(s));
        Some(Secant {
            q: s.dot(&z),
            z,
            factor,
            norm: tried.norm,
        })
    }

    pub fn updates(&self, edition: u64) -> bool {
        match edition {
            PORTED_UPDATE => self.updates_as_ported(),
            TEXTBOOK_UPDATE => self.updates_by_the_book(),
            _ => unreachable!("the edition was looked at by the start"),
        }
    }

    /// Edition 1, argmin's own: the magnitude of q stands on both sides.
    pub fn updates_as_ported(&self) -> bool {
        self.q.abs() >= (self.factor * self.norm) * self.q.abs()
    }

    /// Edition 2, by request Seven's words. A comparison with a NaN does not hold, so that it skips.
    pub fn updates_by_the_book(&self) -> bool {
        self.q.abs() >= (self.factor * self.norm) * self.z.norm() && self.q != 0.0
    }

    /// The same in both editions.
    pub fn updated(&self, hessian: &Matrix) -> Matrix {
        let (z, n) = (&self.z.0, hessian.size());
        let entries = hessian.entries().iter().enumerate();
        let entries = entries.map(|(k, h)| h + (z[k / n] * z[k % n]) * (1.0 / self.q));
        Matrix::new(n, entries.collect())
    }
}

fn all_finite(numbers: &[f64]) -> bool {
    numbers.iter().all(|x| x.is_finite())
}

fn plus(a: &Vector, b: &Vector) -> Vector {
    Vector(a.0.iter().zip(&b.0).map(|(x, y)| x + y).collect())
}

fn minus(a: &Vector, b: &Vector) -> Vector {
    Vector(a.0.iter().zip(&b.0).map(|(x, y)| x - y).collect())
}

#[cfg(test)]
mod tests {
    use super::*;

    const TRUST_REGION: Settings = Settings {
        kind: Kind::TrustRegion { max_radius: 100.0 },
        kernel: 1,
        radius: 1.0,
        eta: 0.125,
        epsilon: 1e-9,
        limit: 5,
        allowance: 2,
        dogleg: PORTED,
    };

    const SR1: Settings = Settings {
        kind: Kind::Sr1 {
            factor: 1e-8,
            tol_grad: 1e-3,
            edition: PORTED_UPDATE,
        },
        eta: 0.5 * 1e-3,
        ..TRUST_REGION
    };

    fn start(settings: Settings, cost: f64) -> Result<Station, u8> {
        let identity = Matrix::new(2, vec![1.0, 0.0, 0.0, 1.0]);
        let point = Vector(vec![0.0; 2]);
        Station::start(settings, cost, point, Vector(vec![3.0, 4.0]), identity)
    }

    /// A station that awaits a cost.
    fn awaiting(settings: Settings, cost: f64, promised: f64, norm: f64) -> Station {
        let mut station = start(settings, cost).unwrap();
        station.phase = Phase::Cost {
            promised,
            norm,
            made_up: true,
        };
        station
    }

    /// Document 01's cases 10 to 13: ratio, accepted, radius.
    #[test]
    fn marked_ratios() {
        let judged = |settings: Settings, m, norm, next| {
            let mut station = awaiting(settings, 10.0, m, norm);
            let verdict = station.answer(2, next, None, &Formulas).unwrap();
            (verdict.ratio, verdict.accepted, station.radius)
        };
        assert_eq!(judged(TRUST_REGION, 6.0, 8.0, 9.5), (0.125, false, 2.0));
        assert_eq!(judged(TRUST_REGION, 6.0, 8.0, 9.0), (0.25, true, 1.0));
        let wide = Settings {
            kind: Kind::TrustRegion { max_radius: 4.0 },
            radius: 2.5,
            ..TRUST_REGION
        };
        assert_eq!(judged(wide, 6.0, 2.5, 6.0), (1.0, true, 4.0));
        assert_eq!(judged(TRUST_REGION, 14.0, 8.0, 12.0), (0.5, true, 1.0));
    }

    #[test]
    fn a_nan_cost_keeps_everything() {
        let mut station = awaiting(TRUST_REGION, 10.0, 6.0, 8.0);
        let verdict = station.answer(2, f64::NAN, None, &Formulas).unwrap();
        assert!(!verdict.accepted && verdict.ratio.is_nan());
        assert_eq!((station.radius, station.phase), (1.0, Phase::Ready));
    }

    /// The same settings with this edition, and with this factor.
    fn sr1_by(edition: u64, factor: f64) -> Settings {
        Settings {
            kind: Kind::Sr1 {
                factor,
                tol_grad: 1e-3,
                edition,
            },
            ..SR1
        }
    }

    /// Document 01's cases 14 and 15 under both editions.
    #[test]
    fn marked_updates() {
        let updated = |edition: u64, difference: [f64; 2]| {
            let mut station = awaiting(sr1_by(edition, 1e-8), 10.0, 6.0, 1.0);
            station.step = Vector(vec![1.0, 0.0]);
            let next = Vector(vec![3.0 + difference[0], 4.0 + difference[1]]);
            let verdict = station.answer(2, 9.0, Some(&next), &Formulas);
            verdict.map(|verdict| {
                assert!(verdict.accepted && station.gradient == next);
                station.hessian.entries().to_vec()
            })
        };
        for edition in [PORTED_UPDATE, TEXTBOOK_UPDATE] {
            assert_eq!(updated(edition, [3.0, 0.0]), Ok(vec![3.0, 0.0, 0.0, 1.0]));
        }
        assert_eq!(updated(PORTED_UPDATE, [1.0, 1.0]), Err(8));
        let left = Ok(vec![1.0, 0.0, 0.0, 1.0]);
        assert_eq!(updated(TEXTBOOK_UPDATE, [1.0, 1.0]), left);
        // z is nothing at all.
        assert_eq!(updated(PORTED_UPDATE, [1.0, 0.0]), Err(8));
        assert_eq!(updated(TEXTBOOK_UPDATE, [1.0, 0.0]), left);
    }

    /// z = (3, 4), so that q is 3 and the norm of z 5: with the factor 0.6 both sides are 3 where the phase has a norm of 1.
    #[test]
    fn the_books_test_at_its_border() {
        let updates = |norm: f64, step: f64| {
            let mut station = awaiting(sr1_by(TEXTBOOK_UPDATE, 0.6), 10.0, 6.0, norm);
            station.step = Vector(vec![step, 0.0]);
            let next = Vector(vec![3.0 + 3.0 + step, 4.0 + 4.0]);
            let verdict = station.answer(2, 9.0, Some(&next), &Formulas);
            let hessian = verdict.unwrap().hessian.unwrap();
            hessian.entries() != [1.0, 0.0, 0.0, 1.0]
        };
        assert!(updates(1.0, 1.0) && !updates(1f64.next_up(), 1.0));
        assert!(updates(1f64.next_down(), 1.0));
        // Both have their sign taken off, the norm of the phase has not.
        assert!(updates(1.0, -1.0) && updates(-1.0, 1.0) && updates(f64::NEG_INFINITY, 1.0));
        assert!(!updates(f64::INFINITY, 1.0) && !updates(f64::NAN, 1.0));
        // q is 0, whatever the other side is.
        assert!(!updates(-1.0, 0.0) && !updates(0.0, 0.0));
    }

    #[test]
    fn refusals_in_order() {
        let mut station = start(TRUST_REGION, 10.0).unwrap();
        assert_eq!(station.answer(2, 9.0, None, &Formulas).err(), Some(3));
        (station.radius, station.point.0[0]) = (0.0, f64::NAN);
        assert_eq!(station.propose(3, &Formulas), Err(1));
        assert_eq!(station.propose(2, &Formulas), Err(4));
        station.point.0[0] = 0.0;
        assert_eq!(station.propose(2, &Formulas), Err(5));
        station.radius = -1.0;
        assert_eq!(station.propose(2, &Formulas), Err(2));
        station.radius = 1.0;
        let made = Proposal::Made { passes: 0 };
        assert_eq!(station.propose(2, &Formulas), Ok(made));
        assert_eq!(station.propose(2, &Formulas), Err(3));
        let infinite = station.answer(2, f64::INFINITY, None, &Formulas);
        assert_eq!(infinite.err(), Some(4));
    }

    /// g = (3, 4), H = I and radius 1, as in document 01's case 5: the ported dogleg stands still.
    #[test]
    fn the_dogleg_is_chosen() {
        for settings in [TRUST_REGION, SR1] {
            let step = |kernel, dogleg| {
                let settings = Settings {
                    kernel,
                    dogleg,
                    ..settings
                };
                let mut station = start(settings, 10.0).unwrap();
                let made = Ok(Proposal::Made {
                    passes: u64::from(kernel == 3),
                });
                assert_eq!(station.propose(2, &Formulas), made);
                station.step.0
            };
            assert_eq!(step(2, PORTED), [0.0, 0.0]);
            assert_eq!(step(2, TEXTBOOK), [-3.0 * 0.2, -4.0 * 0.2]);
            for kernel in [1, 3] {
                assert_eq!(step(kernel, PORTED), step(kernel, TEXTBOOK));
            }
        }
    }

    #[test]
    fn done_comes_before_a_zero_radius() {
        let mut station = start(SR1, 10.0).unwrap();
        station.radius = 0.0;
        assert_eq!(station.propose(2, &Formulas), Err(5));
        station.gradient = Vector(vec![0.0; 2]);
        assert_eq!(station.propose(2, &Formulas), Ok(Proposal::Done));
    }

    /// Up to the allowance, which is 2, and on from there when the count is put back.
    #[test]
    fn hidden_trials_are_counted() {
        let mut station = start(TRUST_REGION, 10.0).unwrap();
        let made = Ok(Proposal::Made { passes: 0 });
        let hide = |station: &mut Station| {
            assert_eq!(station.propose(2, &Formulas), made);
            station.answer(2, f64::NAN, None, &Formulas).unwrap();
            station.count
        };
        assert_eq!([hide(&mut station), hide(&mut station)], [1, 2]);
        assert_eq!(station.propose(2, &Formulas), Err(9));
        assert_eq!((station.count, station.phase), (2, Phase::Ready));
        station.count = 0;
        assert_eq!([hide(&mut station), hide(&mut station)], [1, 2]);
    }

    /// A cost that is told sets the count to 0, whether it is accepted or not, and a ratio of NaN
    /// is no NaN answer; so do derivatives. What is refused leaves it.
    #[test]
    fn answers_and_the_count() {
        let counted = |promised, cost| {
            let mut station = awaiting(TRUST_REGION, 10.0, promised, 8.0);
            station.count = 2;
            let verdict = station.answer(2, cost, None, &Formulas).ok();
            (verdict.map(|v| (v.accepted, v.ratio.is_nan())), station)
        };
        let after = |promised, cost| {
            let (said, station) = counted(promised, cost);
            (said, station.count)
        };
        assert_eq!(after(6.0, 9.0), (Some((true, false)), 0));
        assert_eq!(after(6.0, 11.0), (Some((false, false)), 0));
        assert_eq!(after(10.0, 10.0), (Some((false, true)), 0));
        assert_eq!(after(6.0, f64::NAN), (Some((false, true)), 3));
        assert_eq!(after(6.0, f64::INFINITY), (None, 2));
        let (_, mut station) = counted(6.0, 9.0);
        station.count = 2;
        let next = Vector(vec![1.0; 2]);
        let hessian = station.hessian.clone();
        let renewed = station.renew(3, next.clone(), hessian.clone());
        assert_eq!((renewed, station.count), (Err(1), 2));
        assert_eq!(
            (station.renew(2, next, hessian), station.count),
            (Ok(()), 0)
        );
    }

    /// SR1's NaN answer updates the Hessian, and is not taken where that is refused.
    #[test]
    fn a_nan_answer_that_is_refused() {
        let mut station = awaiting(SR1, 10.0, 6.0, 1.0);
        (station.step, station.count) = (Vector(vec![1.0, 0.0]), 1);
        let next = |first, second| Vector(vec![3.0 + first, 4.0 + second]);
        let mut answer = |gradient: Vector| {
            let refused = station.answer(2, f64::NAN, Some(&gradient), &Formulas);
            (refused.err(), station.count)
        };
        assert_eq!(answer(next(1.0, 1.0)), (Some(8), 1));
        assert_eq!(answer(next(f64::NAN, 1.0)), (Some(4), 1));
        assert_eq!(answer(next(3.0, 0.0)), (None, 2));
        assert_eq!(answer(next(3.0, 0.0)), (Some(3), 2));
    }

    /// 9 comes behind everything but the kernel; a count above the allowance is 2 to every call,
    /// before its turn.
    #[test]
    fn refusal_nine_in_order() {
        let singular = Settings {
            kernel: 2,
            ..TRUST_REGION
        };
        let mut station = start(singular, 10.0).unwrap();
        station.hessian = Matrix::new(2, vec![1.0; 4]);
        assert_eq!(station.propose(2, &Formulas), Err(6));
        station.count = 2;
        assert_eq!(station.propose(2, &Formulas), Err(9));
        station.radius = 0.0;
        assert_eq!(station.propose(2, &Formulas), Err(5));
        station.gradient.0[1] = f64::INFINITY;
        assert_eq!(station.propose(2, &Formulas), Err(4));
        station.phase = Phase::Derivatives;
        assert_eq!(station.propose(2, &Formulas), Err(3));
        station.count = 3;
        let hessian = station.hessian.clone();
        assert_eq!(station.propose(2, &Formulas), Err(2));
        assert_eq!(station.answer(2, 9.0, None, &Formulas).err(), Some(2));
        assert_eq!(
            station.renew(2, Vector(vec![1.0; 2]), hessian.clone()),
            Err(2)
        );
        assert_eq!(station.renew(1, Vector(vec![1.0; 2]), hessian), Err(1));
        let mut done = start(SR1, 10.0).unwrap();
        (done.radius, done.count, done.gradient) = (0.0, 2, Vector(vec![0.0; 2]));
        assert_eq!(done.propose(2, &Formulas), Ok(Proposal::Done));
        done.count = 3;
        assert_eq!(done.propose(2, &Formulas), Err(2));
    }

    #[test]
    fn starts() {
        assert_eq!(start(TRUST_REGION, f64::NAN).err(), Some(4));
        for settings in [TRUST_REGION, SR1] {
            for (allowance, cost, refusal) in [
                (1, 1.0, None),
                (1_000, 1.0, None),
                (0, 1.0, Some(2)),
                (1_001, f64::NAN, Some(2)),
                (u64::MAX, 1.0, Some(2)),
            ] {
                let settings = Settings {
                    allowance,
                    ..settings
                };
                assert_eq!(start(settings, cost).err(), refusal);
            }
            assert_eq!(start(settings, 1.0).unwrap().count, 0);
        }
        for (edition, refusal) in [
            (PORTED_UPDATE, None),
            (TEXTBOOK_UPDATE, None),
            (0, Some(2)),
            (3, Some(2)),
            ((1 << 32) + 1, Some(2)),
            ((1 << 32) + 2, Some(2)),
            (u64::MAX, Some(2)),
        ] {
            assert_eq!(start(sr1_by(edition, 1e-8), 1.0).err(), refusal);
            let without_cost = start(sr1_by(edition, 1e-8), f64::NAN);
            assert_eq!(without_cost.err(), refusal.or(Some(4)));
        }
        for settings in [TRUST_REGION, SR1] {
            for kernel in 1..=3 {
                for (dogleg, refusal) in [
                    (PORTED, None),
                    (TEXTBOOK, None),
                    (0, Some(2)),
                    (3, Some(2)),
                    ((1 << 32) + 1, Some(2)),
                    (u64::MAX, Some(2)),
                ] {
                    let settings = Settings {
                        kernel,
                        dogleg,
                        ..settings
                    };
                    assert_eq!(start(settings, 1.0).err(), refusal);
                }
            }
        }
        let with_eta = |settings: Settings, eta| start(Settings { eta, ..settings }, 1.0).err();
        for (eta, refusal) in [
            (0.0, None),
            (-0.0, None),
            (0.25, Some(2)),
            (f64::NAN, Some(2)),
        ] {
            assert_eq!(with_eta(TRUST_REGION, eta), refusal);
        }
        for (eta, refusal) in [(0.0, Some(2)), (0.01, Some(2)), (0.0099, None)] {
            assert_eq!(with_eta(SR1, eta), refusal);
        }
        let backwards = Settings {
            radius: -2.0,
            ..SR1
        };
        assert_eq!(start(backwards, 1.0).unwrap().radius, 2.0);
        let backwards = Settings {
            radius: -2.0,
            ..TRUST_REGION
        };
        assert_eq!(start(backwards, 1.0).err(), Some(2));
    }
}
