//! The developers' oracle: plain Rust that is run against the Rattle programs, bit for bit.
//! README.md says which word makes which file.

#[cfg(feature = "argmin")]
pub mod agree;
#[cfg(feature = "argmin")]
pub mod argmin_kernels;
#[cfg(feature = "argmin")]
pub mod argmin_sessions;
#[cfg(feature = "argmin")]
mod argmin_vector;
pub mod calls;
pub mod cases;
pub mod damaged;
pub mod decimals;
pub mod edition_examples;
pub mod edition_slips;
pub mod editions;
pub mod fit;
pub mod formulas;
pub mod geometry;
pub mod hidden;
pub mod input;
pub mod leaves;
pub mod legs;
pub mod marked_editions;
pub mod marked_legs;
#[cfg(all(test, feature = "argmin"))]
mod outside;
pub mod pivots;
pub mod random;
pub mod replay;
pub mod roots;
pub mod scripts;
pub mod session;
#[cfg(test)]
mod session_slips;
pub mod sessions;
pub mod slips;
pub mod smooth;
pub mod special;
pub mod standing;
pub mod step;
pub mod table;
pub mod tally;
pub mod textbook;
pub mod textbook_slips;
pub mod vector;
pub mod wide;
