//! What argmin's own code does with what document 01 refuses: the tests behind docs/DIFFERENCES.md.

use crate::argmin_kernels::{solve, KernelState};
use crate::argmin_vector::with_zero_pivots_alone;
use crate::step::Call;
use crate::step::Kernel::{self, Cauchy, Dogleg, Steihaug};
use crate::vector::{Matrix, Vector};
use argmin::core::{CostFunction, Error, Gradient, Hessian, Problem, Solver, State, KV};
use argmin::core::{TerminationStatus, TrustRegionRadius};
use argmin::solver::quasinewton::SR1TrustRegion;
use argmin::solver::trustregion::{self as own, TrustRegion};
use std::cell::RefCell;
use std::panic::{catch_unwind, AssertUnwindSafe};

const NAN: f64 = f64::NAN;
const INFINITY: f64 = f64::INFINITY;
const G: [f64; 2] = [3.0, 4.0];
const IDENTITY: [f64; 4] = [1.0, 0.0, 0.0, 1.0];
const STEEPER: [f64; 4] = [2.0, 0.0, 0.0, 1.0];
const MINUS: [f64; 4] = [-1.0, 0.0, 0.0, -1.0];

fn call(kernel: Kernel, radius: f64, g: [f64; 2], h: [f64; 4]) -> Call {
    Call {
        kernel,
        radius,
        epsilon: 1e-9,
        limit: 5,
        gradient: Vector(g.to_vec()),
        hessian: Matrix::new(2, h.to_vec()),
    }
}

/// The step by argmin's own code, told by its digits: a NaN is a NaN, −0 is not 0.
fn step(kernel: Kernel, radius: f64, g: [f64; 2], h: [f64; 4]) -> String {
    told(solve(&call(kernel, radius, g, h)))
}

fn told(solved: Result<(Vector, u64), u8>) -> String {
    match solved {
        Ok((step, _)) => format!("{:?}", step.0),
        Err(7) => "panic".to_string(),
        Err(6) => "no inverse".to_string(),
        Err(_) => unreachable!("no other refusal here"),
    }
}

#[test]
fn a_zero_radius() {
    for h in [IDENTITY, STEEPER] {
        assert_eq!(step(Cauchy, 0.0, G, h), "[-0.0, -0.0]");
        assert_eq!(step(Dogleg, 0.0, G, h), "[-0.0, -0.0]");
        assert_eq!(step(Steihaug, 0.0, G, h), "[0.0, 0.0]");
        assert_eq!(step(Cauchy, -0.0, G, h), "[NaN, NaN]");
    }
    // The Dogleg's third candidate does not always vanish with the radius.
    let flat = [1.0, 0.0, 0.0, 1e-9];
    let moved = solve(&call(Dogleg, 0.0, [1.0; 2], flat)).unwrap().0;
    assert!(moved.0.iter().all(|x| (x + 2.0).abs() < 1e-7));
}

#[test]
fn a_negative_radius() {
    // Against the step that 1 gives, where nothing bounds it; the same, where its square is taken.
    assert_eq!(step(Cauchy, -1.0, G, MINUS), "[0.6000000000000001, 0.8]");
    assert_eq!(
        step(Steihaug, -1.0, G, IDENTITY),
        "[-0.6000000000000001, -0.8]"
    );
}

#[test]
fn a_nan_radius() {
    assert_eq!(step(Cauchy, NAN, G, IDENTITY), "[NaN, NaN]");
    assert_eq!(step(Dogleg, NAN, G, STEEPER), "[-0.0, -0.0]");
    // No border is ever met: the whole step; and no root where one is needed.
    assert_eq!(step(Steihaug, NAN, G, STEEPER), "[-1.5, -4.0]");
    assert_eq!(step(Steihaug, NAN, G, MINUS), "panic");
}

#[test]
fn an_infinite_radius() {
    assert_eq!(step(Cauchy, INFINITY, G, IDENTITY), "[NaN, NaN]");
    assert_eq!(step(Cauchy, INFINITY, G, MINUS), "[-inf, -inf]");
    assert_eq!(step(Dogleg, INFINITY, G, STEEPER), "[-1.5, -4.0]");
    assert_eq!(step(Steihaug, INFINITY, G, STEEPER), "[-1.5, -4.0]");
    assert_eq!(step(Steihaug, INFINITY, G, MINUS), "panic");
}

#[test]
fn entries_that_are_not_finite() {
    for kernel in [Cauchy, Dogleg, Steihaug] {
        assert_eq!(step(kernel, 1.0, [NAN, 1.0], IDENTITY), "[NaN, NaN]");
    }
    assert_eq!(step(Cauchy, 1.0, [INFINITY, 1.0], IDENTITY), "[NaN, -0.0]");
    // Some of them leave no trace in the step.
    let broken = [NAN, 0.0, 0.0, 1.0];
    assert_eq!(step(Cauchy, 1.0, G, broken), "[-0.6000000000000001, -0.8]");
    let infinite = [INFINITY, 0.0, 0.0, 1.0];
    let plain = with_zero_pivots_alone(|| step(Dogleg, 1.0, G, infinite));
    assert_eq!(plain, "[0.0, -1.0]");
}

/// Two thigh markers almost in line: the Hessian of 0.05·(a + b)²/2, but for the last place of one entry.
#[test]
fn two_markers_in_line() {
    let h = [0.05, 0.05, 0.05, 0.05f64.next_up()];
    let g = [0.02, 0.03];
    let ours = || step(Dogleg, 1e18, g, h);
    let before = with_zero_pivots_alone(ours);
    assert_eq!(before, "[1441151880758558.0, -1441151880758558.5]");
    assert_eq!(ours(), "no inverse");
}

#[test]
fn a_zero_gradient() {
    assert_eq!(step(Cauchy, 1.0, [0.0; 2], IDENTITY), "[NaN, NaN]");
    assert_eq!(step(Dogleg, 1.0, [0.0; 2], IDENTITY), "[-0.0, -0.0]");
    assert_eq!(step(Steihaug, 1.0, [0.0; 2], IDENTITY), "[0.0, 0.0]");
}

/// Steihaug's two panics: models that cannot be sorted, and no root that is at least 0.
#[test]
fn panics() {
    let single = |radius: f64, epsilon: f64, g: f64, h: f64| Call {
        radius,
        epsilon,
        gradient: Vector(vec![g]),
        hessian: Matrix::new(1, vec![h]),
        ..call(Steihaug, 1.0, G, IDENTITY)
    };
    assert_eq!(step(Steihaug, 1.0, [1e200; 2], MINUS), "panic");
    assert_eq!(told(solve(&single(1.0, 5e-324, 0.1, 1.0))), "panic");
    assert_eq!(told(solve(&single(1e-300, 1e-9, 1e200, 1e-200))), "panic");
}

/// Nothing ends these passes but the limit, and argmin's own is 2^64 − 1 unless it is told one.
#[test]
fn passes_without_end() {
    let open = Call {
        limit: 10_000,
        ..call(Steihaug, 1.0, [1e200; 2], [1e200, -1e200, 0.0, 1.0])
    };
    assert_eq!(solve(&open).unwrap().1, 10_000);
    // An infinite epsilon allows no pass.
    let epsilon = INFINITY;
    let none = solve(&Call {
        epsilon,
        ..call(Steihaug, 1.0, G, IDENTITY)
    });
    assert_eq!(none, Ok((Vector(vec![0.0; 2]), 0)));
    // Where epsilon is a NaN the passes go on after the best step is found, until no root is left.
    let never = Call {
        epsilon: NAN,
        ..call(Steihaug, 10.0, G, STEEPER)
    };
    assert_eq!(told(solve(&never)), "[-1.5000000000000002, -4.0]");
    let limit = 10_000;
    assert_eq!(told(solve(&Call { limit, ..never })), "panic");
}

/// Settings are held to their ranges by comparisons that a NaN passes. SR1's eta goes up to 10e-3.
#[test]
fn settings() {
    let trust = || TrustRegion::<_, f64>::new(own::CauchyPoint::<f64>::new());
    assert!(trust().with_radius(NAN).is_ok() && trust().with_radius(INFINITY).is_ok());
    assert!(trust().with_max_radius(NAN).is_ok() && trust().with_max_radius(INFINITY).is_ok());
    assert!(trust().with_eta(NAN).is_ok());
    assert!(trust().with_radius(0.0).is_err() && trust().with_max_radius(0.0).is_err());
    assert!(trust().with_eta(0.25).is_err() && trust().with_eta(-1e-300).is_err());
    let sr1 = || SR1TrustRegion::<_, f64>::new(own::CauchyPoint::<f64>::new());
    assert!(sr1().with_eta(NAN).is_ok() && sr1().with_denominator_factor(NAN).is_ok());
    assert!(sr1().with_tolerance_grad(NAN).is_ok() && sr1().with_tolerance_grad(INFINITY).is_ok());
    assert!(sr1().with_eta(0.0099).is_ok() && sr1().with_eta(10e-3).is_err());
    assert!(sr1().with_eta(0.0).is_err() && sr1().with_denominator_factor(1.0).is_err());
    assert!(sr1().with_tolerance_grad(-1e-300).is_err());
    let steihaug = own::Steihaug::<Vector, f64>::new;
    assert!(steihaug().with_epsilon(NAN).is_ok() && steihaug().with_epsilon(INFINITY).is_ok());
    assert!(steihaug().with_epsilon(0.0).is_err());
}

/// It is 1e-9: a gradient of 5e-10 is too small for a pass.
#[test]
fn the_default_epsilon() {
    let passes = |g: f64| {
        let mut kernel = own::Steihaug::<Vector, f64>::new();
        kernel.set_radius(1.0);
        let state = KernelState::new()
            .gradient(Vector(vec![g]))
            .hessian(Matrix::new(1, vec![1.0]));
        let mut problem = Problem::new(Answers::default());
        let (state, _) = kernel.init(&mut problem, state).unwrap();
        Solver::<Answers, _>::terminate(&mut kernel, &state) == TerminationStatus::NotTerminated
    };
    assert!(!passes(5e-10) && passes(1e-9));
}

/// A problem with the answers of a caller: costs in turn, and the same derivatives each time.
#[derive(Default)]
struct Answers {
    costs: RefCell<Vec<f64>>,
    gradient: Vec<f64>,
    hessian: Vec<f64>,
}

impl CostFunction for Answers {
    type Param = Vector;
    type Output = f64;

    fn cost(&self, _point: &Vector) -> Result<f64, Error> {
        Ok(self.costs.borrow_mut().remove(0))
    }
}

impl Gradient for Answers {
    type Param = Vector;
    type Gradient = Vector;

    fn gradient(&self, _point: &Vector) -> Result<Vector, Error> {
        Ok(Vector(self.gradient.clone()))
    }
}

impl Hessian for Answers {
    type Param = Vector;
    type Hessian = Matrix;

    fn hessian(&self, _point: &Vector) -> Result<Matrix, Error> {
        Ok(Matrix::new(self.gradient.len(), self.hessian.clone()))
    }
}

/// A start at 0 with this cost, g = (3, 4) and the identity.
fn start(cost: f64) -> KernelState {
    KernelState::new()
        .param(Vector(vec![0.0; 2]))
        .cost(cost)
        .gradient(Vector(G.to_vec()))
        .hessian(Matrix::new(2, IDENTITY.to_vec()))
}

/// The state and what the solver tells after each of the costs; g is every later gradient.
fn iterations<S>(
    mut solver: S,
    state: KernelState,
    costs: &[f64],
    g: [f64; 2],
) -> Vec<(KernelState, KV)>
where
    S: Solver<Answers, KernelState>,
{
    let mut problem = Problem::new(Answers {
        costs: RefCell::new(costs.to_vec()),
        gradient: g.to_vec(),
        hessian: IDENTITY.to_vec(),
    });
    let (mut state, _) = solver.init(&mut problem, state).unwrap();
    let mut all = Vec::new();
    while !problem_is_answered(&mut problem) {
        let (next, told) = solver.next_iter(&mut problem, state).unwrap();
        all.push((next.clone(), told.unwrap()));
        state = next;
    }
    all
}

fn problem_is_answered(problem: &mut Problem<Answers>) -> bool {
    let answers = problem.take_problem().unwrap();
    let none_left = answers.costs.borrow().is_empty();
    *problem = Problem::new(answers);
    none_left
}

fn point(state: &KernelState) -> &[f64] {
    &state.get_param().unwrap().0
}

/// The radius that an iteration of `TrustRegion` began with, or one of `SR1TrustRegion` ended with.
fn radius(told: &KV) -> f64 {
    told.get("radius").unwrap()
}

#[test]
fn a_cost_of_minus_infinity_is_accepted_and_ends_all_progress() {
    let solver = TrustRegion::new(own::CauchyPoint::new());
    let run = iterations(solver, start(20.0), &[-INFINITY, 5.0, 4.0, -INFINITY], G);
    let first = point(&run[0].0).to_vec();
    assert_eq!(run[0].0.get_cost(), -INFINITY);
    for (state, told) in &run[1..] {
        assert_eq!((point(state), state.get_cost()), (&first[..], -INFINITY));
        assert_eq!(radius(told), 2.0);
    }
}

#[test]
fn a_cost_of_infinity_shrinks_the_radius() {
    let solver = TrustRegion::new(own::CauchyPoint::new());
    let run = iterations(solver, start(20.0), &[INFINITY, INFINITY], G);
    assert_eq!(point(&run[1].0), [0.0, 0.0]);
    assert_eq!(radius(&run[1].1), 0.25);
}

#[test]
fn derivatives_that_are_nan_end_all_progress() {
    let solver = TrustRegion::new(own::CauchyPoint::new());
    let run = iterations(solver, start(20.0), &[16.0, 1.0, 1.0], [NAN, 1.0]);
    let first = point(&run[0].0).to_vec();
    assert!(first[0] < -0.5);
    assert!(run[1..].iter().all(|(state, _)| point(state) == first));
}

/// The Dogleg's zero step, with a higher cost: the radius is 0 from then on, and so is every step.
#[test]
fn a_radius_that_shrank_to_zero() {
    let solver = TrustRegion::new(own::Dogleg::new());
    let run = iterations(solver, start(20.0), &[21.0, 20.0, 19.0], G);
    for (state, told) in &run[1..] {
        assert_eq!((point(state), radius(told)), (&[0.0; 2][..], 0.0));
    }
}

#[test]
fn a_start_without_a_cost() {
    let trust = |cost| {
        let solver = TrustRegion::new(own::CauchyPoint::new());
        let run = iterations(solver, start(cost), &[7.0, NAN], G);
        run.last().unwrap().0.get_cost()
    };
    // +inf is asked for anew, −inf and NaN stay.
    assert_eq!(trust(INFINITY), 7.0);
    assert_eq!(trust(-INFINITY), -INFINITY);
    assert!(trust(NAN).is_nan());
    let sr1 = |cost| {
        let solver = SR1TrustRegion::new(own::CauchyPoint::new());
        let run = iterations(solver, start(cost), &[7.0, NAN], G);
        run.last().unwrap().0.get_cost()
    };
    assert_eq!(sr1(INFINITY), 7.0);
    assert_eq!(sr1(-INFINITY), 7.0);
    assert!(sr1(NAN).is_nan());
}

/// A zero step makes q = 0, and 1/q a Hessian of NaN.
#[test]
fn sr1_without_a_step() {
    let run = iterations(
        SR1TrustRegion::new(own::Dogleg::new()),
        start(20.0),
        &[19.0],
        G,
    );
    let hessian = run[0].0.get_hessian().unwrap().entries();
    assert!(hessian.iter().all(|entry| entry.is_nan()));
    // The same from a radius of 0, which is taken.
    let solver = SR1TrustRegion::new(own::CauchyPoint::new()).with_radius(0.0);
    let run = iterations(solver, start(20.0), &[19.0], G);
    let hessian = run[0].0.get_hessian().unwrap().entries();
    assert!(hessian.iter().all(|entry| entry.is_nan()));
}

/// Document 01's case 15: s is (1, −0), z is (0, 1), and q is 0. argmin updates nevertheless: 0·(1/0) and 1·(1/0).
#[test]
fn sr1_with_z_across_the_step() {
    let solver = SR1TrustRegion::new(own::CauchyPoint::new());
    let along = start(20.0).gradient(Vector(vec![-1.0, 0.0]));
    let run = iterations(solver, along, &[19.5], [0.0, 1.0]);
    assert_eq!(point(&run[0].0), [1.0, 0.0]);
    assert_eq!(run[0].1.get("hessian_update"), Some(1.0));
    let hessian = run[0].0.get_hessian().unwrap().entries();
    assert!(hessian[..3].iter().all(|entry| entry.is_nan()));
    assert_eq!(hessian[3], INFINITY);
}

/// A quadratic whose Hessian is right from the start, the simplest of all fits: z is 0, and after one trial no entry is a number. The
/// trial itself was accepted, and led to the minimum.
#[test]
fn sr1_with_an_exact_model() {
    let solver = SR1TrustRegion::new(own::CauchyPoint::new()).with_radius(5.0);
    let run = iterations(solver, start(12.5), &[0.0], [0.0; 2]);
    assert_eq!(
        (point(&run[0].0), run[0].0.get_cost()),
        (&[-3.0, -4.0][..], 0.0)
    );
    let hessian = run[0].0.get_hessian().unwrap().entries();
    assert!(hessian.iter().all(|entry| entry.is_nan()));
    // Halfway, the next step is asked of such a Hessian: it is a NaN, and nothing is accepted any more.
    let solver = SR1TrustRegion::new(own::CauchyPoint::new()).with_radius(2.5);
    let run = iterations(solver, start(12.5), &[3.125, 1.0, 0.0], [1.5, 2.0]);
    let radii: Vec<_> = run.iter().map(|(_, told)| radius(told)).collect();
    assert_eq!(radii, [5.0, 2.5, 1.25]);
    assert!(run.iter().all(|(state, _)| point(state) == [-1.5, -2.0]));
}

/// The test has |q| on both sides, so that only a long step skips: here 2^30 beside a factor of 1e-8.
#[test]
fn sr1_skips_by_the_length_of_the_step() {
    let updated = |long: f64| {
        let solver = SR1TrustRegion::new(own::CauchyPoint::new()).with_radius(long);
        let flat = Matrix::new(2, vec![-1.0, 0.0, 0.0, -1.0]);
        let run = iterations(solver, start(20.0).hessian(flat), &[19.0], [1.0; 2]);
        run[0].1.get("hessian_update") == Some(1.0)
    };
    assert!(updated(1.0) && updated(1e7) && !updated(1e9));
}

/// −inf is accepted, and no later cost is: each one halves the radius.
#[test]
fn sr1_with_a_cost_of_minus_infinity() {
    let solver = SR1TrustRegion::new(own::CauchyPoint::new());
    let run = iterations(solver, start(20.0), &[-INFINITY, 5.0, 4.0], [1.0; 2]);
    let radii: Vec<_> = run.iter().map(|(_, told)| radius(told)).collect();
    assert_eq!(radii, [2.0, 1.0, 0.5]);
    assert!(run.iter().all(|(state, _)| state.get_cost() == -INFINITY));
}

#[test]
fn sr1_with_a_cost_of_infinity() {
    let solver = SR1TrustRegion::new(own::CauchyPoint::new());
    let run = iterations(solver, start(20.0), &[INFINITY], [1.0; 2]);
    assert_eq!(point(&run[0].0), [0.0, 0.0]);
    assert_eq!(radius(&run[0].1), 0.5);
}

/// A NaN gradient is taken with the point; no trial after it is accepted.
#[test]
fn sr1_with_a_nan_gradient() {
    let solver = SR1TrustRegion::new(own::CauchyPoint::new());
    let run = iterations(solver, start(20.0), &[16.0, 1.0, 0.0], [NAN, 1.0]);
    let first = point(&run[0].0).to_vec();
    assert!(first[0] < -0.5);
    let radii: Vec<_> = run.iter().map(|(_, told)| radius(told)).collect();
    assert_eq!(radii, [2.0, 1.0, 0.5]);
    assert!(run[1..].iter().all(|(state, _)| point(state) == first));
}

/// `TrustRegion` proposes the same step again and again, as long as it is asked.
#[test]
fn a_marker_hidden_for_good() {
    let solver = TrustRegion::new(own::CauchyPoint::new());
    let run = iterations(solver, start(20.0), &[NAN; 5000], G);
    for (state, told) in &run {
        assert_eq!((point(state), radius(told)), (&[0.0; 2][..], 1.0));
        assert_eq!(state.get_cost(), 20.0);
    }
}

/// `SR1TrustRegion` halves its radius with each, down to 0. There it divides by zero, and no entry of its Hessian stays finite.
#[test]
fn sr1_with_a_marker_hidden_for_good() {
    let solver = SR1TrustRegion::new(own::CauchyPoint::new());
    let run = iterations(solver, start(20.0), &[NAN; 1100], [1.0; 2]);
    let radii: Vec<_> = run.iter().map(|(_, told)| radius(told)).collect();
    let halved = (1..=1074).map(|k| 0.5f64.powi(k));
    assert!(halved.eq(radii[..1074].iter().copied()));
    assert!(radii[1074..].iter().all(|&r| r == 0.0));
    assert!(run.iter().all(|(state, _)| point(state) == [0.0; 2]));
    let hessian = run[1099].0.get_hessian().unwrap().entries();
    assert!(!hessian.iter().any(|entry| entry.is_finite()));
}

/// A singular H is an error of the Dogleg's; the problem went with it, and the next iteration has none to take.
#[test]
fn an_iteration_after_an_error() {
    fn panics_again(mut solver: impl Solver<Answers, KernelState>) -> bool {
        let mut problem = Problem::new(Answers::default());
        let singular = start(20.0).hessian(Matrix::new(2, vec![1.0; 4]));
        let (state, _) = solver.init(&mut problem, singular).unwrap();
        assert!(solver.next_iter(&mut problem, state.clone()).is_err());
        let again = AssertUnwindSafe(|| solver.next_iter(&mut problem, state).is_ok());
        catch_unwind(again).is_err()
    }
    assert!(panics_again(TrustRegion::new(own::Dogleg::new())));
    assert!(panics_again(SR1TrustRegion::new(own::Dogleg::new())));
}

/// Calls that come before `init`, which an executor never makes.
#[test]
fn nothing_initialized() {
    let mut kernel = own::Steihaug::<Vector, f64>::new();
    let pass = || {
        kernel
            .next_iter(&mut Problem::new(Answers::default()), start(20.0))
            .is_ok()
    };
    assert!(catch_unwind(AssertUnwindSafe(pass)).is_err());
    let mut solver = SR1TrustRegion::<_, f64>::new(own::CauchyPoint::<f64>::new());
    let test = || Solver::<Answers, KernelState>::terminate(&mut solver, &KernelState::new());
    assert!(catch_unwind(AssertUnwindSafe(test)).is_err());
}

/// A NaN setting that was taken: never an acceptance, never an update, never an end.
#[test]
fn nan_settings() {
    let g = [1.0, 1.0];
    let eta = TrustRegion::new(own::CauchyPoint::new()).with_eta(NAN);
    let run = iterations(eta.unwrap(), start(20.0), &[1.0, 1.0], g);
    assert_eq!(point(&run[1].0), [0.0; 2]);
    let eta = SR1TrustRegion::new(own::CauchyPoint::new()).with_eta(NAN);
    let run = iterations(eta.unwrap(), start(20.0), &[1.0], g);
    assert_eq!(point(&run[0].0), [0.0; 2]);
    let factor = SR1TrustRegion::new(own::CauchyPoint::new()).with_denominator_factor(NAN);
    let run = iterations(factor.unwrap(), start(20.0), &[1.0, 1.0, 1.0], g);
    for (state, _) in run {
        assert_eq!(state.get_hessian().unwrap().entries(), IDENTITY);
    }
    let done = |tol_grad: f64, g: [f64; 2]| {
        let solver = SR1TrustRegion::<_, f64>::new(own::CauchyPoint::<f64>::new());
        let mut solver = solver.with_tolerance_grad(tol_grad).unwrap();
        let state = start(20.0).gradient(Vector(g.to_vec()));
        let status = Solver::<Answers, KernelState>::terminate(&mut solver, &state);
        status != TerminationStatus::NotTerminated
    };
    assert!(!done(NAN, [0.0; 2]) && done(INFINITY, [1e150; 2]));
}

/// NaN as the greatest radius is passed over by `min`: nothing holds the radius.
#[test]
fn a_nan_max_radius() {
    let solver = TrustRegion::new(own::CauchyPoint::new()).with_radius(100.0);
    let solver = solver.and_then(|solver| solver.with_max_radius(NAN));
    let far = start(1e9).gradient(Vector(vec![3e3, 4e3]));
    let run = iterations(solver.unwrap(), far, &[9.9e7, 0.0], [3e3, 4e3]);
    assert_eq!(radius(&run[1].1), 200.0);
}

/// ‖s‖ overflows, so that the step counts as long, and twice the radius is infinite.
#[test]
fn a_radius_that_doubles_over_the_top() {
    let solver = SR1TrustRegion::new(own::CauchyPoint::new()).with_radius(1e308);
    let flat = Matrix::new(2, vec![-1e-308, 0.0, 0.0, -1e-308]);
    let start = start(20.0).gradient(Vector(vec![1.0, 0.0])).hessian(flat);
    let run = iterations(solver, start, &[-1.5e308], G);
    assert_eq!(run[0].1.get("radius"), Some(INFINITY));
}
