//! The problem that is solved, and its derivatives.

use super::Error;

pub trait CostFunction {
    type Param;
    type Output;
    fn cost(&self, param: &Self::Param) -> Result<Self::Output, Error>;
}

pub trait Gradient {
    type Param;
    type Gradient;
    fn gradient(&self, param: &Self::Param) -> Result<Self::Gradient, Error>;
}

pub trait Hessian {
    type Param;
    type Hessian;
    fn hessian(&self, param: &Self::Param) -> Result<Self::Hessian, Error>;
}

/// Holds the problem; a solver takes it out to lend it to the solver of its subproblem.
pub struct Problem<O> {
    problem: Option<O>,
}

impl<O> Problem<O> {
    pub fn new(problem: O) -> Problem<O> {
        Problem {
            problem: Some(problem),
        }
    }

    pub fn take_problem(&mut self) -> Option<O> {
        self.problem.take()
    }

    /// Puts back what was lent.
    pub fn consume_problem(&mut self, mut other: Problem<O>) {
        self.problem = other.take_problem();
    }

    fn held(&self) -> &O {
        self.problem.as_ref().expect("the problem was put back")
    }
}

impl<O: CostFunction> Problem<O> {
    pub fn cost(&mut self, param: &O::Param) -> Result<O::Output, Error> {
        self.held().cost(param)
    }
}

impl<O: Gradient> Problem<O> {
    pub fn gradient(&mut self, param: &O::Param) -> Result<O::Gradient, Error> {
        self.held().gradient(param)
    }
}

impl<O: Hessian> Problem<O> {
    pub fn hessian(&mut self, param: &O::Param) -> Result<O::Hessian, Error> {
        self.held().hessian(param)
    }
}
