//! What a solver knows between two iterations.

use super::ArgminFloat;
use std::marker::PhantomData;

#[derive(Clone, Copy, Debug, PartialEq, Eq)]
pub enum TerminationReason {
    MaxItersReached,
    SolverConverged,
}

#[derive(Clone, Copy, Debug, PartialEq, Eq)]
pub enum TerminationStatus {
    NotTerminated,
    Terminated(TerminationReason),
}

/// What the executor needs of a state.
pub trait State {
    fn new() -> Self;
    fn get_iter(&self) -> u64;
    fn increment_iter(&mut self);
    fn terminate_with(self, reason: TerminationReason) -> Self;
    fn terminated(&self) -> bool;
}

/// Point, cost and derivatives. Jacobian (J) and residuals (R) are other solvers'.
#[derive(Clone, Debug)]
pub struct IterState<P, G, J, H, R, F> {
    param: Option<P>,
    gradient: Option<G>,
    hessian: Option<H>,
    cost: F,
    iter: u64,
    status: TerminationStatus,
    others: PhantomData<(J, R)>,
}

impl<P, G, J, H, R, F: ArgminFloat> IterState<P, G, J, H, R, F> {
    #[must_use]
    pub fn param(mut self, param: P) -> Self {
        self.param = Some(param);
        self
    }

    #[must_use]
    pub fn gradient(mut self, gradient: G) -> Self {
        self.gradient = Some(gradient);
        self
    }

    #[must_use]
    pub fn hessian(mut self, hessian: H) -> Self {
        self.hessian = Some(hessian);
        self
    }

    #[must_use]
    pub fn cost(mut self, cost: F) -> Self {
        self.cost = cost;
        self
    }

    pub fn take_param(&mut self) -> Option<P> {
        self.param.take()
    }

    pub fn take_gradient(&mut self) -> Option<G> {
        self.gradient.take()
    }

    pub fn take_hessian(&mut self) -> Option<H> {
        self.hessian.take()
    }

    pub fn get_param(&self) -> Option<&P> {
        self.param.as_ref()
    }

    pub fn get_gradient(&self) -> Option<&G> {
        self.gradient.as_ref()
    }

    pub fn get_hessian(&self) -> Option<&H> {
        self.hessian.as_ref()
    }

    pub fn get_cost(&self) -> F {
        self.cost
    }
}

impl<P, G, J, H, R, F: ArgminFloat> State for IterState<P, G, J, H, R, F> {
    /// Nothing is known. The solvers take an infinite cost for one not yet asked for.
    fn new() -> Self {
        IterState {
            param: None,
            gradient: None,
            hessian: None,
            cost: F::infinity(),
            iter: 0,
            status: TerminationStatus::NotTerminated,
            others: PhantomData,
        }
    }

    fn get_iter(&self) -> u64 {
        self.iter
    }

    fn increment_iter(&mut self) {
        self.iter += 1;
    }

    fn terminate_with(mut self, reason: TerminationReason) -> Self {
        self.status = TerminationStatus::Terminated(reason);
        self
    }

    fn terminated(&self) -> bool {
        self.status != TerminationStatus::NotTerminated
    }
}
