//! What the solvers take from argmin's core.

mod executor;
mod float;
mod problem;
mod state;

pub use crate::solver::trustregion::TrustRegionRadius;
pub use executor::{Executor, OptimizationResult, Solver};
pub use float::ArgminFloat;
pub use problem::{CostFunction, Gradient, Hessian, Problem};
pub use state::{IterState, State, TerminationReason, TerminationStatus};

use std::fmt;

/// Whatever ended a run. A caller finds out which by downcasting.
pub type Error = Box<dyn std::error::Error + Send + Sync>;

/// The errors that the solvers themselves make.
#[derive(Debug)]
pub enum ArgminError {
    InvalidParameter { text: String },
    NotInitialized { text: String },
    PotentialBug { text: String },
}

impl fmt::Display for ArgminError {
    fn fmt(&self, out: &mut fmt::Formatter) -> fmt::Result {
        let (kind, text) = match self {
            ArgminError::InvalidParameter { text } => ("invalid parameter", text),
            ArgminError::NotInitialized { text } => ("not initialized", text),
            ArgminError::PotentialBug { text } => ("potential bug", text),
        };
        write!(out, "{kind}: {text}")
    }
}

impl std::error::Error for ArgminError {}

/// What a solver tells observers after an iteration, by name. Numbers only: a truth is 1 or 0.
#[derive(Clone, Debug, Default, PartialEq)]
pub struct KV(pub Vec<(&'static str, f64)>);

impl KV {
    pub fn get(&self, name: &str) -> Option<f64> {
        let found = self.0.iter().find(|(key, _)| *key == name);
        found.map(|&(_, value)| value)
    }
}

/// A number of the solver's own type `F`.
macro_rules! float {
    ($x:expr) => {
        <F as $crate::core::ArgminFloat>::from_f64($x)
    };
}

macro_rules! argmin_error {
    ($kind:ident, $text:expr) => {
        $crate::core::Error::from($crate::core::ArgminError::$kind {
            text: ($text).to_string(),
        })
    };
}

macro_rules! argmin_error_closure {
    ($kind:ident, $text:expr) => {
        || argmin_error!($kind, $text)
    };
}

macro_rules! kv {
    ($($key:expr => $value:expr;)*) => {
        $crate::core::KV(vec![$(($key, ($value).into())),*])
    };
}
