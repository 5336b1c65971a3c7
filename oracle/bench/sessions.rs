//! Whole fits, timed: what a laboratory waits for. argmin's `TrustRegion` and `SR1TrustRegion` and ours
//! (`crates/foreign_sessions`, which the script bench-argmin links) fit the same function from the
//! same point, trial by trial, in turns; the best round of each counts. Both ask for the cost, and for
//! derivatives where they need them, of the same code, and its time is in both. argmin has no second
//! dogleg and no second edition of SR1's test: a fit by these is timed beside ours by the ported ones, and
//! held against the oracle's.

use argmin::core::{CostFunction, Error, Gradient, Hessian, Problem, Solver, State};
use argmin::solver::quasinewton::SR1TrustRegion;
use argmin::solver::trustregion::{CauchyPoint, Dogleg, Steihaug, TrustRegion, TrustRegionRadius};
use oracle::argmin_kernels::KernelState;
use oracle::random::{with_exponent, Random};
use oracle::session::{
    Formulas, Kind, Phase, Settings, Station, PORTED, PORTED_UPDATE, TEXTBOOK, TEXTBOOK_UPDATE,
};
use oracle::step::Kernel;
use oracle::vector::{Matrix, Vector};
use std::hint::black_box;
use std::time::Instant;

const SIZES: [usize; 3] = [6, 24, 64];
const TRIALS: usize = 4;
const ROUNDS: usize = 5;
/// A round is repeated until it takes about this long.
const ROUND_SECONDS: f64 = 0.1;

// The settings are the defaults of both, but for the tolerance; Steihaug may make n passes.
const RADIUS: f64 = 1.0;
const MAX_RADIUS: f64 = 100.0;
const ETA: f64 = 0.125;
const SR1_ETA: f64 = 0.5e-3;
const FACTOR: f64 = 1e-8;
// No tolerance: a fit that is done would be no trial.
const TOL_GRAD: f64 = 0.0;
const EPSILON: f64 = 1e-9;

/// x·Q·x/2 − c·x + Σ xᵢ⁴/4, with a definite Q.
struct Model {
    q: Matrix,
    c: Vector,
}

impl Model {
    fn new(n: usize) -> Model {
        let mut random = Random::new(n as u64);
        let mut entries = vec![0.0; n * n];
        for i in 0..n {
            for j in 0..=i {
                let x = with_exponent(&mut random, -3);
                entries[i * n + j] = x;
                entries[j * n + i] = x;
            }
            entries[i * n + i] = 4.0 + n as f64 / 4.0;
        }
        let c = (0..n).map(|_| with_exponent(&mut random, -1)).collect();
        Model {
            q: Matrix::new(n, entries),
            c: Vector(c),
        }
    }

    fn cost_at(&self, x: &Vector) -> f64 {
        let fourths: f64 = x.0.iter().map(|x| x * x * x * x).sum();
        0.5 * x.weighted_dot(&self.q, x) - self.c.dot(x) + 0.25 * fourths
    }

    fn gradient_at(&self, x: &Vector) -> Vector {
        let Vector(mut g) = self.q.times(x);
        for (i, g) in g.iter_mut().enumerate() {
            *g += x.0[i] * x.0[i] * x.0[i] - self.c.0[i];
        }
        Vector(g)
    }

    fn hessian_at(&self, x: &Vector) -> Matrix {
        let n = self.q.size();
        let mut entries = self.q.entries().to_vec();
        for i in 0..n {
            entries[i * n + i] += 3.0 * x.0[i] * x.0[i];
        }
        Matrix::new(n, entries)
    }

    /// Where a fit begins.
    fn start(&self) -> Start {
        let point = Vector(vec![0.0; self.q.size()]);
        Start {
            cost: self.cost_at(&point),
            gradient: self.gradient_at(&point),
            hessian: self.hessian_at(&point),
            point,
        }
    }
}

struct Start {
    point: Vector,
    cost: f64,
    gradient: Vector,
    hessian: Matrix,
}

// ---- argmin

impl CostFunction for &Model {
    type Param = Vector;
    type Output = f64;

    fn cost(&self, x: &Vector) -> Result<f64, Error> {
        Ok(self.cost_at(x))
    }
}

impl Gradient for &Model {
    type Param = Vector;
    type Gradient = Vector;

    fn gradient(&self, x: &Vector) -> Result<Vector, Error> {
        Ok(self.gradient_at(x))
    }
}

impl Hessian for &Model {
    type Param = Vector;
    type Hessian = Matrix;

    fn hessian(&self, x: &Vector) -> Result<Matrix, Error> {
        Ok(self.hessian_at(x))
    }
}

/// A fit by one of argmin's solvers; the point where it stands after its trials.
fn continued<'a, S>(mut solver: S, model: &'a Model, start: &Start) -> Result<Vector, Error>
where
    S: Solver<&'a Model, KernelState>,
{
    let state = KernelState::new()
        .param(start.point.clone())
        .cost(start.cost)
        .gradient(start.gradient.clone())
        .hessian(start.hessian.clone());
    let mut problem = Problem::new(model);
    let (mut state, _) = solver.init(&mut problem, state)?;
    for _ in 0..TRIALS {
        (state, _) = solver.next_iter(&mut problem, state)?;
    }
    Ok(state.take_param().ok_or("a fit without a point")?)
}

fn by_kernel<'a, K>(sr1: bool, kernel: K, model: &'a Model, start: &Start) -> Result<Vector, Error>
where
    K: Clone + TrustRegionRadius<f64> + Solver<&'a Model, KernelState>,
{
    if sr1 {
        continued(SR1TrustRegion::new(kernel), model, start)
    } else {
        continued(TrustRegion::new(kernel), model, start)
    }
}

fn by_argmin(sr1: bool, kernel: Kernel, model: &Model, start: &Start) -> Vector {
    let n = model.q.size() as u64;
    let end = match kernel {
        Kernel::Cauchy => by_kernel(sr1, CauchyPoint::new(), model, start),
        Kernel::Dogleg => by_kernel(sr1, Dogleg::new(), model, start),
        Kernel::Steihaug => Steihaug::new()
            .with_epsilon(EPSILON)
            .and_then(|kernel| by_kernel(sr1, kernel.with_max_iters(n), model, start)),
        Kernel::Textbook => unreachable!("argmin has no second dogleg"),
    };
    end.expect("argmin's fit goes through")
}

// ---- the oracle

/// The number of a kernel, and that of a dogleg.
fn numbers_of(kernel: Kernel) -> (u64, u64) {
    match kernel {
        Kernel::Cauchy => (1, PORTED),
        Kernel::Dogleg => (2, PORTED),
        Kernel::Steihaug => (3, PORTED),
        Kernel::Textbook => (2, TEXTBOOK),
    }
}

/// The end of a fit by the second dogleg or under the second edition, as the requests' texts have them.
fn by_oracle(fit: Fit, model: &Model, start: &Start) -> Vector {
    let n = model.q.size() as u64;
    let (kernel, dogleg) = numbers_of(fit.kernel);
    let (kind, eta) = if fit.sr1 {
        let kind = Kind::Sr1 {
            factor: FACTOR,
            tol_grad: TOL_GRAD,
            edition: fit.edition,
        };
        (kind, SR1_ETA)
    } else {
        let max_radius = MAX_RADIUS;
        (Kind::TrustRegion { max_radius }, ETA)
    };
    let settings = Settings {
        kind,
        kernel,
        radius: RADIUS,
        eta,
        epsilon: EPSILON,
        limit: n,
        allowance: ALLOWANCE,
        dogleg,
    };
    let (point, gradient) = (start.point.clone(), start.gradient.clone());
    let station = Station::start(settings, start.cost, point, gradient, start.hessian.clone());
    let mut station = station.expect("settings in range");
    for _ in 0..TRIALS {
        station.propose(n, &Formulas).expect("a proposal");
        let cost = model.cost_at(&station.trial);
        let gradient = fit.sr1.then(|| model.gradient_at(&station.trial));
        let verdict = station.answer(n, cost, gradient.as_ref(), &Formulas);
        verdict.expect("a verdict");
        if station.phase == Phase::Derivatives {
            let (g, h) = (model.gradient_at(&station.point), model.hessian_at(&station.point));
            station.renew(n, g, h).expect("derivatives in turn");
        }
    }
    station.point
}

// ---- ours

// include/mboyaxin.h says what each is given. A list is a pointer and its length.
const WORDS: usize = 10;
type List = *const f64;
type Lent = *mut f64;
type Words<'a> = &'a mut [u64; WORDS];
type Numbers<'a> = &'a mut [f64; 6];
#[rustfmt::skip]
unsafe extern "C" {
    fn mboyaxin_trustregion_start(words: Words, numbers: Numbers, settings: &[f64; 3]) -> u64;
    fn mboyaxin_trustregion_propose(words: Words, numbers: Numbers, settings: &[f64; 3], n: usize, point: List, _: usize, gradient: List, _: usize,
        hessian: List, _: usize, step: Lent, _: usize, trial: Lent, _: usize, scratch: Lent, _: usize) -> u64;
    fn mboyaxin_trustregion_answer_cost(words: Words, numbers: Numbers, settings: &[f64; 3], n: usize, cost: f64, point: Lent, _: usize,
        trial: List, _: usize) -> u64;
    fn mboyaxin_trustregion_answer_derivatives(words: Words, numbers: Numbers, settings: &[f64; 3], n: usize, new_gradient: List, _: usize,
        new_hessian: List, _: usize, gradient: Lent, _: usize, hessian: Lent, _: usize) -> u64;
    fn mboyaxin_sr1_start(words: Words, numbers: Numbers, settings: &[f64; 4]) -> u64;
    fn mboyaxin_sr1_propose(words: Words, numbers: Numbers, settings: &[f64; 4], n: usize, point: List, _: usize, gradient: List, _: usize,
        hessian: List, _: usize, step: Lent, _: usize, trial: Lent, _: usize, scratch: Lent, _: usize) -> u64;
    fn mboyaxin_sr1_answer(words: Words, numbers: Numbers, settings: &[f64; 4], n: usize, cost: f64, new_gradient: List, _: usize, point: Lent, _: usize,
        step: List, _: usize, trial: List, _: usize, gradient: Lent, _: usize, hessian: Lent, _: usize, scratch: Lent, _: usize) -> u64;
}

/// The phase's place among the words (how many there are, kernel, limit, allowance, which dogleg, edition, phase, count, what was
/// said, passes), and the phase in which derivatives are due.
const PHASE: usize = 6;
const AWAITING_DERIVATIVES: u64 = 2;
/// So many NaN answers in a row are allowed: the most that may be.
const ALLOWANCE: u64 = 1_000;

/// What a laboratory keeps between fits.
struct Lists {
    step: Vec<f64>,
    trial: Vector,
    scratch: Vec<f64>,
}

fn done(refusal: u64) {
    assert_eq!(refusal, 0, "our fit goes through");
}

/// Which fit is timed. TrustRegion does not look at the edition.
#[derive(Clone, Copy)]
struct Fit {
    sr1: bool,
    kernel: Kernel,
    edition: u64,
}

fn by_rattle(fit: Fit, model: &Model, start: &Start, lists: &mut Lists) -> Vector {
    let n = model.q.size();
    let (kernel, dogleg) = numbers_of(fit.kernel);
    let words = [WORDS as u64, kernel, n as u64, ALLOWANCE, dogleg, fit.edition, 0, 0, 0, 0];
    if fit.sr1 {
        by_our_sr1(words, model, start, lists)
    } else {
        by_our_trustregion(words, model, start, lists)
    }
}

fn by_our_trustregion(
    mut words: [u64; WORDS],
    model: &Model,
    start: &Start,
    lists: &mut Lists,
) -> Vector {
    let Lists {
        step,
        trial,
        scratch,
    } = lists;
    let n = step.len();
    let mut numbers = [EPSILON, 0.0, start.cost, 0.0, 0.0, 0.0];
    let settings = [RADIUS, MAX_RADIUS, ETA];
    let (mut point, mut g) = (start.point.clone(), start.gradient.0.clone());
    let mut h = start.hessian.entries().to_vec();
    // SAFETY: each pointer comes with its own list's length, and none of them overlap.
    unsafe {
        done(mboyaxin_trustregion_start(&mut words, &mut numbers, &settings));
        for _ in 0..TRIALS {
            #[rustfmt::skip]
            done(mboyaxin_trustregion_propose(&mut words, &mut numbers, &settings, n, point.0.as_ptr(), n, g.as_ptr(), n, h.as_ptr(), n * n,
                step.as_mut_ptr(), n, trial.0.as_mut_ptr(), n, scratch.as_mut_ptr(), scratch.len()));
            let cost = model.cost_at(trial);
            #[rustfmt::skip]
            done(mboyaxin_trustregion_answer_cost(&mut words, &mut numbers, &settings, n, cost, point.0.as_mut_ptr(), n, trial.0.as_ptr(), n));
            if words[PHASE] == AWAITING_DERIVATIVES {
                let (new_g, new_h) = (model.gradient_at(&point), model.hessian_at(&point));
                #[rustfmt::skip]
                done(mboyaxin_trustregion_answer_derivatives(&mut words, &mut numbers, &settings, n, new_g.0.as_ptr(), n, new_h.entries().as_ptr(), n * n,
                    g.as_mut_ptr(), n, h.as_mut_ptr(), n * n));
            }
        }
    }
    point
}

fn by_our_sr1(mut words: [u64; WORDS], model: &Model, start: &Start, lists: &mut Lists) -> Vector {
    let Lists {
        step,
        trial,
        scratch,
    } = lists;
    let n = step.len();
    let mut numbers = [EPSILON, 0.0, start.cost, 0.0, 0.0, 0.0];
    let settings = [RADIUS, SR1_ETA, FACTOR, TOL_GRAD];
    let (mut point, mut g) = (start.point.clone(), start.gradient.0.clone());
    let mut h = start.hessian.entries().to_vec();
    // SAFETY: as above.
    unsafe {
        done(mboyaxin_sr1_start(&mut words, &mut numbers, &settings));
        for _ in 0..TRIALS {
            #[rustfmt::skip]
            done(mboyaxin_sr1_propose(&mut words, &mut numbers, &settings, n, point.0.as_ptr(), n, g.as_ptr(), n, h.as_ptr(), n * n,
                step.as_mut_ptr(), n, trial.0.as_mut_ptr(), n, scratch.as_mut_ptr(), scratch.len()));
            let (cost, new_g) = (model.cost_at(trial), model.gradient_at(trial));
            #[rustfmt::skip]
            done(mboyaxin_sr1_answer(&mut words, &mut numbers, &settings, n, cost, new_g.0.as_ptr(), n, point.0.as_mut_ptr(), n, step.as_ptr(), n,
                trial.0.as_ptr(), n, g.as_mut_ptr(), n, h.as_mut_ptr(), n * n, scratch.as_mut_ptr(), scratch.len()));
        }
    }
    point
}

// ---- the rounds

/// Seconds for so many fits.
fn seconds(fits: usize, mut fit: impl FnMut() -> Vector) -> f64 {
    let start = Instant::now();
    for _ in 0..fits {
        black_box(fit());
    }
    start.elapsed().as_secs_f64()
}

fn bench(fit: Fit, n: usize) {
    let Fit { sr1, kernel, edition } = fit;
    let model = Model::new(n);
    let mut start = model.start();
    if sr1 {
        // SR1 begins with the diagonal and learns the rest.
        let entries = start.hessian.entries().iter().enumerate();
        let diagonal = entries.map(|(k, &x)| if k % (n + 1) == 0 { x } else { 0.0 });
        start.hessian = Matrix::new(n, diagonal.collect());
    }
    let lent = || Lists {
        step: vec![0.0; n],
        trial: start.point.clone(),
        scratch: vec![0.0; 2 * n * n + 8 * n],
    };
    let (mut lists, mut others) = (lent(), lent());
    // Ours with the ported dogleg or test, where argmin has none like it.
    let ported = match (kernel, edition) {
        (Kernel::Textbook, _) => Some(Fit { kernel: Kernel::Dogleg, ..fit }),
        (_, TEXTBOOK_UPDATE) => Some(Fit { edition: PORTED_UPDATE, ..fit }),
        _ => None,
    };
    let mut other = || match ported {
        Some(ported) => by_rattle(ported, black_box(&model), &start, &mut others),
        None => by_argmin(sr1, kernel, black_box(&model), &start),
    };
    let mut rattle = || by_rattle(fit, black_box(&model), &start, &mut lists);
    let bits = |x: Vector| x.0.iter().map(|x| x.to_bits()).collect::<Vec<_>>();
    let end = if ported.is_some() {
        by_oracle(fit, &model, &start)
    } else {
        other()
    };
    assert_ne!(bits(end.clone()), bits(start.point.clone()), "it moves");
    assert_eq!(bits(end), bits(rattle()), "both end at one point");
    let fits = (ROUND_SECONDS / seconds(1, &mut other)).ceil() as usize;
    let best = (0..ROUNDS).fold([f64::INFINITY; 2], |best, _| {
        let [a, r] = [seconds(fits, &mut other), seconds(fits, &mut rattle)];
        [best[0].min(a), best[1].min(r)]
    });
    let [a, r] = best.map(|seconds| seconds * 1e9 / (fits * TRIALS) as f64);
    let kind = if sr1 { "SR1TrustRegion" } else { "TrustRegion" };
    let kernel = format!("{kernel:?}");
    println!(
        "{kind:14} {kernel:8} {n:3} {a:10.0} {r:10.0}  ratio {:.2}",
        r / a
    );
}

fn heading(other: &str) {
    println!(
        "{:14} {:8} {:>3} {other:>10} {:>10}",
        "", "", "n", "Rattle"
    );
}

fn main() {
    println!("nanoseconds for a trial, best of {ROUNDS} rounds of fits of {TRIALS} trials");
    let edition = PORTED_UPDATE;
    heading("argmin");
    for sr1 in [false, true] {
        for kernel in [Kernel::Cauchy, Kernel::Dogleg, Kernel::Steihaug] {
            for n in SIZES {
                bench(Fit { sr1, kernel, edition }, n);
            }
        }
    }
    heading("Dogleg");
    for sr1 in [false, true] {
        for n in SIZES {
            let kernel = Kernel::Textbook;
            bench(Fit { sr1, kernel, edition }, n);
        }
    }
    let (sr1, edition) = (true, TEXTBOOK_UPDATE);
    heading("edition 1");
    for kernel in [Kernel::Cauchy, Kernel::Dogleg, Kernel::Steihaug] {
        for n in SIZES {
            bench(Fit { sr1, kernel, edition }, n);
        }
    }
}
