//! The three kernels as argmin's own files work them out, each run by an executor as argmin's
//! `TrustRegion` runs its subproblem.

use crate::argmin_vector::NoPivot;
use crate::step::{Call, Kernel};
use crate::textbook;
use crate::vector::{Matrix, Vector};
use argmin::core::{Error, Executor, Gradient, Hessian, IterState, Solver, State};
use argmin::solver::trustregion::{CauchyPoint, Dogleg, Steihaug, TrustRegionRadius};
use std::cell::Cell;
use std::panic::{self, AssertUnwindSafe, UnwindSafe};
use std::sync::Once;

/// The step and its passes, or refusal 6 or 7.
pub fn solve(call: &Call) -> Result<(Vector, u64), u8> {
    let found = match call.kernel {
        // argmin has none.
        Kernel::Textbook => {
            let step = textbook::solve(&call.gradient, &call.hessian, call.radius)?;
            return Ok((step, 0));
        }
        Kernel::Cauchy => run(CauchyPoint::new(), call),
        Kernel::Dogleg => run(Dogleg::new(), call),
        Kernel::Steihaug => Steihaug::new()
            .with_epsilon(call.epsilon)
            .and_then(|kernel| {
                let kernel = kernel.with_max_iters(call.limit);
                without_root(AssertUnwindSafe(|| run(kernel, call)))?
            }),
    };
    let (step, iterations) = found.map_err(refusal)?;
    // The other two are no iterations, and document 01 counts none for them.
    let passes = match call.kernel {
        Kernel::Steihaug => iterations,
        Kernel::Cauchy | Kernel::Dogleg | Kernel::Textbook => 0,
    };
    Ok((step, passes))
}

pub type KernelState = IterState<Vector, Vector, (), Matrix, (), f64>;

/// The parameter vector and the number of iterations that an executor leaves.
fn run<S>(mut kernel: S, call: &Call) -> Result<(Vector, u64), Error>
where
    S: TrustRegionRadius<f64> + Solver<Unasked, KernelState>,
{
    kernel.set_radius(call.radius);
    let mut result = Executor::new(Unasked, kernel)
        .configure(|state| {
            // Where the point lies is nothing to a kernel that is given both derivatives.
            let point = Vector(vec![0.0; call.gradient.0.len()]);
            state
                .param(point)
                .gradient(call.gradient.clone())
                .hessian(call.hessian.clone())
        })
        .ctrlc(false)
        .run()?;
    let step = result.state.take_param().ok_or("a run without a step")?;
    Ok((step, result.state.get_iter()))
}

/// Document 01's number for an error. Any other error is none of its refusals, and ends the oracle.
fn refusal(error: Error) -> u8 {
    if error.is::<NoPivot>() {
        6
    } else if error.is::<NoUsableRoot>() {
        7
    } else {
        panic!("argmin ends with an error that no refusal stands for: {error}");
    }
}

/// A problem that is never asked: the kernels take their derivatives from the state.
struct Unasked;

impl Gradient for Unasked {
    type Param = Vector;
    type Gradient = Vector;

    fn gradient(&self, _point: &Vector) -> Result<Vector, Error> {
        Err("a kernel asked for a gradient".into())
    }
}

impl Hessian for Unasked {
    type Param = Vector;
    type Hessian = Matrix;

    fn hessian(&self, _point: &Vector) -> Result<Matrix, Error> {
        Err("a kernel asked for a Hessian".into())
    }
}

/// argmin's Steihaug panics where it has no usable root.
#[derive(Debug)]
struct NoUsableRoot;

impl std::fmt::Display for NoUsableRoot {
    fn fmt(&self, out: &mut std::fmt::Formatter) -> std::fmt::Result {
        write!(out, "no usable root")
    }
}

impl std::error::Error for NoUsableRoot {}

thread_local! {
    /// Whether argmin's code is running.
    static RUNNING: Cell<bool> = const { Cell::new(false) };
    /// Whether the last panic in it arose in its own file.
    static IN_STEIHAUG: Cell<bool> = const { Cell::new(false) };
}

/// Runs argmin's Steihaug. A panic that arises in its file is an error here and says nothing; any
/// other goes its way.
fn without_root<T>(run: impl FnOnce() -> T + UnwindSafe) -> Result<T, Error> {
    static HOOK: Once = Once::new();
    HOOK.call_once(|| {
        let usual = panic::take_hook();
        panic::set_hook(Box::new(move |info| {
            let file = info.location().map_or("", |place| place.file());
            IN_STEIHAUG.set(file.ends_with("steihaug.rs"));
            if !(RUNNING.get() && IN_STEIHAUG.get()) {
                usual(info);
            }
        }));
    });
    RUNNING.set(true);
    let result = panic::catch_unwind(run);
    RUNNING.set(false);
    match result {
        Ok(value) => Ok(value),
        Err(_) if IN_STEIHAUG.get() => Err(NoUsableRoot.into()),
        Err(other) => panic::resume_unwind(other),
    }
}

#[cfg(test)]
mod tests {
    use super::*;
    use crate::cases::Cases;
    use crate::step::{answer, Answer};

    fn steihaug(radius: f64, g: &[f64], h: &[f64]) -> Result<(Vector, u64), u8> {
        solve(&Call {
            kernel: Kernel::Steihaug,
            radius,
            epsilon: 1e-9,
            limit: 5,
            gradient: Vector(g.to_vec()),
            hessian: Matrix::new(g.len(), h.to_vec()),
        })
    }

    /// Document 01's cases 1 to 9 come first; its answers.
    #[test]
    fn marked_cases() {
        let full = [-3.0, -4.0];
        let half = [-1.5, -2.0];
        let steps = [
            (full, 0),
            (half, 0),
            (half, 0),
            (full, 0),
            ([-0.0, -0.0], 0),
            (full, 1),
            (half, 1),
            (half, 1),
            ([0.0, 0.0], 0),
        ];
        for (case, (step, passes)) in Cases::new(0).zip(steps) {
            let step = step.to_vec();
            let expected = Answer::Step { step, passes };
            assert!(answer(&case, solve).same(&expected), "{expected:?}");
        }
    }

    #[test]
    fn a_panic_of_argmin_is_refusal_seven() {
        // d·d overflows: both roots are NaN, and so are their models.
        let huge = 1e200;
        let minus = [-1.0, 0.0, 0.0, -1.0];
        assert_eq!(steihaug(1.0, &[huge, huge], &minus), Err(7));
        // The next one is none.
        assert_eq!(steihaug(1.0, &[2.0], &[-1.0]), Ok((Vector(vec![-1.0]), 1)));
    }

    #[test]
    fn a_panic_of_ours_is_no_refusal() {
        // It goes on, and the hook has its say, which is what this line of the test's output is.
        let outcome = panic::catch_unwind(|| without_root(|| panic!("expected, from a test")));
        assert!(outcome.is_err());
    }

    #[test]
    fn a_zero_pivot_is_refusal_six() {
        let call = Call {
            kernel: Kernel::Dogleg,
            radius: 1.0,
            epsilon: 0.0,
            limit: 0,
            gradient: Vector(vec![1.0, 1.0]),
            hessian: Matrix::new(2, vec![1.0, 1.0, 1.0, 1.0]),
        };
        assert_eq!(solve(&call), Err(6));
    }
}
