//! Whether the comparison can fail: the self-test puts mutants of the model in the library's place, and each must be found.
//! `mistakes` has the mutants. `examples` has small cases worked out by hand, which the model itself must answer first.
//!
//! It uses the model, drawing and comparing. Nothing uses it but `main`.

mod examples;
mod mistakes;
pub mod self_test;
