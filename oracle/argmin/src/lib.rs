//! argmin's trust-region solvers: its own files, unchanged, compiled from where ARGMIN_SRC says.
//!
//! What they lean on is not among those files. `core` and `math` stand in for it, written from the
//! uses in them and from document 01. The names are argmin's, so that the files find them; only
//! what they use is there.

// The files take vector arithmetic from a crate `argmin_math`, which is this one too.
extern crate self as argmin_math;

#[macro_use]
pub mod core;
mod math;

pub use math::*;

/// Solvers
pub mod solver {
    include!(concat!(env!("OUT_DIR"), "/solver.rs"));
}
