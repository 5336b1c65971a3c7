//! A trial of a session as argmin's own `TrustRegion` and `SR1TrustRegion` judge it: one iteration
//! of theirs, from the session's radius, cost and vectors, with the given answers. argmin's test of SR1's
//! update is edition 1. Under edition 2 all else is argmin's own too, and so is the Hessian wherever its
//! test and edition 2's come to the same; where they do not, the Hessian is the formulas'.

use crate::argmin_kernels::{self, KernelState};
use crate::session::{Engine, Kind, Secant, Station, Tried, Verdict};
use crate::step::{Call, Kernel};
use crate::textbook;
use crate::vector::{Matrix, Vector};
use argmin::core::{
    CostFunction, Error, Gradient, Hessian, Problem, Solver, State, TerminationReason,
    TerminationStatus, KV,
};
use argmin::solver::quasinewton::SR1TrustRegion;
use argmin::solver::trustregion::{
    reduction_ratio, CauchyPoint, Dogleg, Steihaug, TrustRegion, TrustRegionRadius,
};
use std::cell::{Cell, RefCell};
use std::collections::VecDeque;
use std::rc::Rc;

pub struct Argmin;

impl Engine for Argmin {
    fn solve(&self, call: &Call) -> Result<(Vector, u64), u8> {
        argmin_kernels::solve(call)
    }

    /// The proposal was made, so no kernel fails here, and no setting is refused.
    fn judge(&self, station: &Station, tried: &Tried) -> Verdict {
        match station.settings.kind {
            Kind::TrustRegion { max_radius } => trust_region(station, tried, max_radius),
            Kind::Sr1 { .. } => sr1(station, tried),
        }
        .expect("argmin judges every trial that was proposed")
    }
}

fn trust_region(station: &Station, tried: &Tried, max_radius: f64) -> Result<Verdict, Error> {
    let kernel = Watched::new(&station.call())?;
    let watch = kernel.watch.clone();
    let mut solver = TrustRegion::new(kernel)
        .with_radius(station.radius)?
        .with_max_radius(max_radius)?
        .with_eta(station.settings.eta)?;
    let mut problem = Problem::new(Answers::new(station, tried));
    let (state, _) = solver.init(&mut problem, state_of(station))?;
    let (mut state, _) = solver.next_iter(&mut problem, state)?;
    let answers = problem.take_problem().ok_or("the problem was put back")?;
    // It asks for derivatives where it accepts, and only there.
    let accepted = answers.gradients.borrow().is_empty();
    check_end(&state, station, tried, accepted)?;
    Ok(Verdict {
        ratio: reduction_ratio(station.cost, tried.cost, station.cost, tried.promised),
        accepted,
        radius: next_radius(solver, &state, &watch),
        hessian: None,
        point: state.take_param(),
    })
}

/// argmin's own cost and gradient after a trial are the trial's where it is accepted, and otherwise
/// the session's. (The point and the Hessian are handed on, and compared there.)
fn check_end(
    state: &KernelState,
    station: &Station,
    tried: &Tried,
    accepted: bool,
) -> Result<(), Error> {
    let bits = |list: &[f64]| list.iter().map(|x| x.to_bits()).collect::<Vec<_>>();
    let (cost, gradient) = match tried.gradient {
        Some(gradient) if accepted => (tried.cost, gradient),
        None if accepted => (tried.cost, &station.gradient),
        _ => (station.cost, &station.gradient),
    };
    let end = state.get_gradient().ok_or("a state without a gradient")?;
    if bits(&[state.get_cost()]) != bits(&[cost]) || bits(&end.0) != bits(&gradient.0) {
        return Err("argmin ends a trial with another cost or gradient".into());
    }
    Ok(())
}

/// A solver's radius is not to be seen, but its next iteration begins by telling it to the kernel,
/// which is stopped there.
fn next_radius<S>(mut solver: S, state: &KernelState, watch: &Watch) -> f64
where
    S: Solver<Answers, KernelState>,
{
    watch.stop.set(true);
    let stopped = solver.next_iter(&mut Problem::new(Answers::default()), state.clone());
    assert!(stopped.is_err(), "the kernel was not asked");
    watch.radius.get()
}

fn sr1(station: &Station, tried: &Tried) -> Result<Verdict, Error> {
    let Kind::Sr1 {
        factor,
        tol_grad,
        edition,
    } = station.settings.kind
    else {
        return Err("another kind of session".into());
    };
    let mut solver = SR1TrustRegion::new(Watched::new(&station.call())?)
        .with_radius(station.radius)
        .with_eta(station.settings.eta)?
        .with_denominator_factor(factor)?
        .with_tolerance_grad(tol_grad)?;
    let mut problem = Problem::new(Answers::new(station, tried));
    let (state, _) = solver.init(&mut problem, state_of(station))?;
    if solver.terminate(&state) != TerminationStatus::NotTerminated {
        return Err("a session that is done made a proposal".into());
    }
    let (mut state, told) = solver.next_iter(&mut problem, state)?;
    let told = told.ok_or("an iteration that tells nothing")?;
    let tell = |name| told.get(name).ok_or("an iteration that does not tell all");
    let ratio = tell("ap")?;
    let accepted = ratio > station.settings.eta;
    check_end(&state, station, tried, accepted)?;
    let own = state.take_hessian().ok_or("a state without a Hessian")?;
    let updated = tell("hessian_update")? == 1.0;
    Ok(Verdict {
        ratio,
        accepted,
        radius: tell("radius")?,
        hessian: Some(hessian_by(edition, station, tried, own, updated)?),
        point: state.take_param(),
    })
}

/// argmin's own Hessian, if its test and that of the edition come to the same; else that of the formulas.
fn hessian_by(
    edition: u64,
    station: &Station,
    tried: &Tried,
    own: Matrix,
    updated: bool,
) -> Result<Matrix, Error> {
    let secant = Secant::new(station, tried).ok_or("an answer without a gradient")?;
    if secant.updates_as_ported() != updated {
        return Err("argmin's test is not edition 1's".into());
    }
    Ok(match secant.updates(edition) {
        updates if updates == updated => own,
        true => secant.updated(&station.hessian),
        false => station.hessian.clone(),
    })
}

fn state_of(station: &Station) -> KernelState {
    KernelState::new()
        .param(station.point.clone())
        .cost(station.cost)
        .gradient(station.gradient.clone())
        .hessian(station.hessian.clone())
}

/// The problem: it answers what the caller answered, in turn.
#[derive(Default)]
struct Answers {
    costs: Queue<f64>,
    gradients: Queue<Vector>,
    hessians: Queue<Matrix>,
}

type Queue<T> = RefCell<VecDeque<T>>;

impl Answers {
    /// Of one trial. `TrustRegion` asks for derivatives in the same iteration, and a session is
    /// given them later. Until then the old ones stand in; nothing is worked out from them.
    fn new(station: &Station, tried: &Tried) -> Answers {
        let answers = Answers::default();
        let gradient = tried.gradient.unwrap_or(&station.gradient);
        answers.costs.borrow_mut().push_back(tried.cost);
        answers.gradients.borrow_mut().push_back(gradient.clone());
        answers
            .hessians
            .borrow_mut()
            .push_back(station.hessian.clone());
        answers
    }
}

fn next<T>(queue: &Queue<T>) -> Result<T, Error> {
    let answer = queue.borrow_mut().pop_front();
    answer.ok_or_else(|| "argmin asks for more than it was answered".into())
}

impl CostFunction for Answers {
    type Param = Vector;
    type Output = f64;

    fn cost(&self, _point: &Vector) -> Result<f64, Error> {
        next(&self.costs)
    }
}

impl Gradient for Answers {
    type Param = Vector;
    type Gradient = Vector;

    fn gradient(&self, _point: &Vector) -> Result<Vector, Error> {
        next(&self.gradients)
    }
}

impl Hessian for Answers {
    type Param = Vector;
    type Hessian = Matrix;

    fn hessian(&self, _point: &Vector) -> Result<Matrix, Error> {
        next(&self.hessians)
    }
}

/// One of argmin's kernels, whose radius can be read and which can be stopped.
#[derive(Clone)]
struct Watched {
    kernel: Inner,
    watch: Rc<Watch>,
}

#[derive(Default)]
struct Watch {
    radius: Cell<f64>,
    stop: Cell<bool>,
}

#[derive(Clone)]
enum Inner {
    Cauchy(CauchyPoint<f64>),
    Dogleg(Dogleg<f64>),
    Steihaug(Steihaug<Vector, f64>),
    Textbook(Textbook),
}

/// The second dogleg, for argmin's solvers to ask: they take any kernel, and judge its step as they
/// judge those of their own.
#[derive(Clone, Default)]
struct Textbook {
    radius: f64,
}

impl Solver<Answers, KernelState> for Textbook {
    fn name(&self) -> &str {
        "textbook"
    }

    fn next_iter(&mut self, _problem: &mut Problem<Answers>, mut state: KernelState) -> Iterated {
        let gradient = state.take_gradient().ok_or("a state without a gradient")?;
        let hessian = state.take_hessian().ok_or("a state without a Hessian")?;
        let step = textbook::solve(&gradient, &hessian, self.radius);
        let step = step.map_err(|_| "a proposal without an inverse")?;
        Ok((state.param(step), None))
    }

    /// It is no iteration.
    fn terminate(&mut self, state: &KernelState) -> TerminationStatus {
        if state.get_iter() == 0 {
            TerminationStatus::NotTerminated
        } else {
            TerminationStatus::Terminated(TerminationReason::MaxItersReached)
        }
    }
}

impl Watched {
    fn new(call: &Call) -> Result<Watched, Error> {
        Ok(Watched {
            kernel: match call.kernel {
                Kernel::Cauchy => Inner::Cauchy(CauchyPoint::new()),
                Kernel::Dogleg => Inner::Dogleg(Dogleg::new()),
                Kernel::Steihaug => {
                    let kernel = Steihaug::new().with_epsilon(call.epsilon)?;
                    Inner::Steihaug(kernel.with_max_iters(call.limit))
                }
                Kernel::Textbook => Inner::Textbook(Textbook::default()),
            },
            watch: Rc::default(),
        })
    }
}

impl TrustRegionRadius<f64> for Watched {
    fn set_radius(&mut self, radius: f64) {
        self.watch.radius.set(radius);
        match &mut self.kernel {
            Inner::Cauchy(kernel) => kernel.set_radius(radius),
            Inner::Dogleg(kernel) => kernel.set_radius(radius),
            Inner::Steihaug(kernel) => kernel.set_radius(radius),
            Inner::Textbook(kernel) => kernel.radius = radius,
        }
    }
}

type Iterated = Result<(KernelState, Option<KV>), Error>;

impl Watched {
    fn solver(&mut self) -> &mut dyn Solver<Answers, KernelState> {
        match &mut self.kernel {
            Inner::Cauchy(kernel) => kernel,
            Inner::Dogleg(kernel) => kernel,
            Inner::Steihaug(kernel) => kernel,
            Inner::Textbook(kernel) => kernel,
        }
    }
}

impl Solver<Answers, KernelState> for Watched {
    fn name(&self) -> &str {
        "watched"
    }

    fn init(&mut self, problem: &mut Problem<Answers>, state: KernelState) -> Iterated {
        if self.watch.stop.get() {
            return Err("stopped".into());
        }
        self.solver().init(problem, state)
    }

    fn next_iter(&mut self, problem: &mut Problem<Answers>, state: KernelState) -> Iterated {
        self.solver().next_iter(problem, state)
    }

    fn terminate(&mut self, state: &KernelState) -> TerminationStatus {
        self.solver().terminate(state)
    }
}

#[cfg(test)]
mod tests {
    use super::*;
    use crate::random::Random;
    use crate::session::{Formulas, Phase, Proposal, PORTED, TEXTBOOK, TEXTBOOK_UPDATE};
    use crate::sessions;

    /// A session by the formulas, and the answers that its trials were given.
    struct Run {
        start: Station,
        end: Station,
        trials: u64,
        accepted: u64,
        answers: Answers,
    }

    /// Up to twenty trials without anything between them.
    fn run(seed: u64) -> Option<Run> {
        let mut random = Random::new(seed);
        let mut start = sessions::sound_station(&mut random);
        // argmin's solver goes on and on with the second dogleg as with its own kernels.
        start.settings.dogleg = if seed % 2 == 0 { TEXTBOOK } else { PORTED };
        if let Kind::Sr1 { edition, .. } = &mut start.settings.kind {
            if seed % 3 == 0 {
                *edition = TEXTBOOK_UPDATE;
            }
        }
        let answers = Answers::default();
        let mut run = Run {
            end: start.clone(),
            start,
            trials: 0,
            accepted: 0,
            answers,
        };
        let end = &mut run.end;
        let n = end.size() as u64;
        for _ in 0..20 {
            let Ok(Proposal::Made { .. }) = end.propose(n, &Formulas) else {
                break;
            };
            let cost = sessions::trial_cost(&mut random, end);
            let sr1 = matches!(end.settings.kind, Kind::Sr1 { .. });
            let gradient = sr1.then(|| sessions::trial_gradient(&mut random, end));
            let before = end.clone();
            if !tests_agree(end, cost, gradient.as_ref()) {
                // Under edition 2 argmin's run would be another one from here on.
                end.phase = Phase::Ready;
                break;
            }
            let Ok(verdict) = end.answer(n, cost, gradient.as_ref(), &Formulas) else {
                // argmin refuses nothing: the run ends before this trial.
                *end = before;
                end.phase = Phase::Ready;
                break;
            };
            run.trials += 1;
            run.accepted += u64::from(verdict.accepted);
            run.answers.costs.borrow_mut().push_back(cost);
            run.answers.gradients.borrow_mut().extend(gradient);
            if end.phase == Phase::Derivatives {
                let (gradient, hessian) = sessions::derivatives(&mut random, n as usize);
                let mut gradients = run.answers.gradients.borrow_mut();
                gradients.push_back(gradient.clone());
                run.answers.hessians.borrow_mut().push_back(hessian.clone());
                end.renew(n, gradient, hessian)
                    .expect("derivatives in turn");
            }
        }
        (run.trials > 0).then_some(run)
    }

    /// Whether the session's test comes to the same as argmin's.
    fn tests_agree(station: &Station, cost: f64, gradient: Option<&Vector>) -> bool {
        let Phase::Cost { promised, norm, .. } = station.phase else {
            return true;
        };
        let tried = Tried {
            cost,
            gradient,
            promised,
            norm,
        };
        match (station.settings.kind, Secant::new(station, &tried)) {
            (Kind::Sr1 { edition, .. }, Some(secant)) => {
                secant.updates(edition) == secant.updates_as_ported()
            }
            _ => true,
        }
    }

    /// The same trials by one solver of argmin that goes on and on; its state and radius after.
    fn continued<S>(mut solver: S, watch: &Watch, run: Run) -> Result<(KernelState, f64), Error>
    where
        S: Solver<Answers, KernelState>,
    {
        let mut problem = Problem::new(run.answers);
        let (mut state, _) = solver.init(&mut problem, state_of(&run.start))?;
        for _ in 0..run.trials {
            assert_eq!(solver.terminate(&state), TerminationStatus::NotTerminated);
            (state, _) = solver.next_iter(&mut problem, state)?;
        }
        let radius = next_radius(solver, &state, watch);
        Ok((state, radius))
    }

    /// s = (1, −0) and the identity. Where the tests agree the Hessian is argmin's own, where they do not the formulas'.
    #[test]
    fn the_hessian_under_edition_2() {
        let secant = |next: [f64; 2], own: f64, updated: bool| {
            let mut random = Random::new(1);
            let mut station = sessions::sound_station(&mut random);
            station.settings.kind = Kind::Sr1 {
                factor: 0.5,
                tol_grad: 0.0,
                edition: TEXTBOOK_UPDATE,
            };
            station.gradient = Vector(vec![-1.0, 0.0]);
            station.step = Vector(vec![1.0, -0.0]);
            station.hessian = Matrix::new(2, vec![1.0, 0.0, 0.0, 1.0]);
            let next = Vector(next.to_vec());
            let tried = Tried {
                cost: 0.0,
                gradient: Some(&next),
                promised: 1.0,
                norm: 1.0,
            };
            // Numbers that no formula gives: what comes back tells whose it is.
            let own = Matrix::new(2, vec![own; 4]);
            let hessian = hessian_by(TEXTBOOK_UPDATE, &station, &tried, own, updated);
            hessian.map(|hessian| hessian.entries().to_vec()).ok()
        };
        assert_eq!(secant([2.0, 0.0], 7.0, true), Some(vec![7.0; 4]));
        // q is 1, the norm of z is above 2: argmin updates, and edition 2 skips.
        let left = vec![1.0, 0.0, 0.0, 1.0];
        assert_eq!(secant([1.0, 4.0], 7.0, true), Some(left.clone()));
        assert_eq!(secant([0.0, 1.0], 7.0, true), Some(left));
        // An argmin whose test is another one is found out.
        assert_eq!(secant([2.0, 0.0], 7.0, false), None);
    }

    #[test]
    fn whole_runs_agree() {
        let (mut runs, mut accepted) = ([0; 2], 0);
        let (mut textbook, mut by_the_book) = (0, 0);
        for run in (0..3000).filter_map(run) {
            let end = run.end.clone();
            let settings = end.settings;
            accepted += run.accepted;
            textbook += u64::from(run.start.call().kernel == Kernel::Textbook);
            let kernel = Watched::new(&run.start.call()).unwrap();
            let watch = kernel.watch.clone();
            let continued = match settings.kind {
                Kind::TrustRegion { max_radius } => {
                    runs[0] += 1;
                    let solver = TrustRegion::new(kernel)
                        .with_radius(settings.radius)
                        .and_then(|solver| solver.with_max_radius(max_radius))
                        .and_then(|solver| solver.with_eta(settings.eta));
                    continued(solver.unwrap(), &watch, run)
                }
                Kind::Sr1 {
                    factor,
                    tol_grad,
                    edition,
                } => {
                    runs[1] += 1;
                    by_the_book += u64::from(edition == TEXTBOOK_UPDATE);
                    let solver = SR1TrustRegion::new(kernel)
                        .with_radius(settings.radius)
                        .with_eta(settings.eta)
                        .and_then(|solver| solver.with_denominator_factor(factor))
                        .and_then(|solver| solver.with_tolerance_grad(tol_grad));
                    continued(solver.unwrap(), &watch, run)
                }
            };
            let (state, radius) = continued.unwrap();
            let bits = |numbers: &[f64]| numbers.iter().map(|x| x.to_bits()).collect::<Vec<_>>();
            let [point, gradient] = [state.get_param(), state.get_gradient()].map(Option::unwrap);
            assert_eq!(bits(&[radius]), bits(&[end.radius]));
            assert_eq!(bits(&[state.get_cost()]), bits(&[end.cost]));
            assert_eq!(bits(&point.0), bits(&end.point.0));
            assert_eq!(bits(&gradient.0), bits(&end.gradient.0));
            let hessian = state.get_hessian().unwrap();
            assert_eq!(bits(hessian.entries()), bits(end.hessian.entries()));
        }
        assert!(
            runs[0] > 300 && runs[1] > 300 && accepted > 2000,
            "{runs:?} {accepted}"
        );
        assert!(
            textbook > 100 && by_the_book > 100,
            "{textbook} {by_the_book}"
        );
    }
}
