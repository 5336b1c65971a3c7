//! The loop around a solver. argmin's own is not among the files: the order here (an end test
//! before each iteration, the counter from 0) is document 01's.

use super::{Error, Problem, State, TerminationStatus, KV};

pub trait Solver<O, I> {
    fn name(&self) -> &str;

    fn init(&mut self, _problem: &mut Problem<O>, state: I) -> Result<(I, Option<KV>), Error> {
        Ok((state, None))
    }

    fn next_iter(&mut self, problem: &mut Problem<O>, state: I) -> Result<(I, Option<KV>), Error>;

    fn terminate(&mut self, _state: &I) -> TerminationStatus {
        TerminationStatus::NotTerminated
    }
}

pub struct Executor<O, S, I> {
    problem: Problem<O>,
    solver: S,
    state: I,
}

/// What a run leaves.
pub struct OptimizationResult<O, S, I> {
    pub problem: Problem<O>,
    pub solver: S,
    pub state: I,
}

impl<O, S, I> Executor<O, S, I>
where
    S: Solver<O, I>,
    I: State,
{
    pub fn new(problem: O, solver: S) -> Self {
        Executor {
            problem: Problem::new(problem),
            solver,
            state: I::new(),
        }
    }

    /// Sets what is known at the start.
    #[must_use]
    pub fn configure(mut self, start: impl FnOnce(I) -> I) -> Self {
        self.state = start(self.state);
        self
    }

    /// No signal is caught here, asked for or not.
    #[must_use]
    pub fn ctrlc(self, _caught: bool) -> Self {
        self
    }

    pub fn run(self) -> Result<OptimizationResult<O, S, I>, Error> {
        let Executor {
            mut problem,
            mut solver,
            state,
        } = self;
        let (mut state, _) = solver.init(&mut problem, state)?;
        // An iteration may itself end the run; it counts all the same.
        while !state.terminated() {
            if let TerminationStatus::Terminated(reason) = solver.terminate(&state) {
                state = state.terminate_with(reason);
                break;
            }
            (state, _) = solver.next_iter(&mut problem, state)?;
            state.increment_iter();
        }
        Ok(OptimizationResult {
            problem,
            solver,
            state,
        })
    }
}

#[cfg(test)]
mod tests {
    use super::super::{IterState, TerminationReason};
    use super::*;

    type Counts = IterState<(), (), (), (), (), f64>;

    /// Ends by itself in iteration `last` (counted from 1), or by its test once `limit` were done.
    struct Counter {
        last: u64,
        limit: u64,
        tests: u64,
    }

    impl Solver<(), Counts> for Counter {
        fn name(&self) -> &str {
            "counter"
        }

        fn next_iter(
            &mut self,
            _problem: &mut Problem<()>,
            state: Counts,
        ) -> Result<(Counts, Option<KV>), Error> {
            let ends = state.get_iter() + 1 == self.last;
            Ok(if ends {
                let reason = TerminationReason::SolverConverged;
                (state.terminate_with(reason), None)
            } else {
                (state, None)
            })
        }

        fn terminate(&mut self, state: &Counts) -> TerminationStatus {
            self.tests += 1;
            if state.get_iter() >= self.limit {
                TerminationStatus::Terminated(TerminationReason::MaxItersReached)
            } else {
                TerminationStatus::NotTerminated
            }
        }
    }

    /// How many iterations were begun, and how many tests were made.
    fn run(last: u64, limit: u64) -> (u64, u64) {
        let counter = Counter {
            last,
            limit,
            tests: 0,
        };
        let result = Executor::new((), counter).run().unwrap();
        assert!(result.state.terminated());
        (result.state.get_iter(), result.solver.tests)
    }

    #[test]
    fn the_test_comes_before_each_iteration() {
        assert_eq!(run(9, 0), (0, 1));
        assert_eq!(run(9, 3), (3, 4));
    }

    #[test]
    fn an_iteration_that_ends_the_run_counts() {
        assert_eq!(run(1, 5), (1, 1));
        assert_eq!(run(3, 5), (3, 3));
    }
}
