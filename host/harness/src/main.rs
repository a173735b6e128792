//! Compares the library with an implementation of its own of documents 01 and 02, on seeded random and damaged input,
//! and looks whether what the library leaves keeps what the documents promise.
//!
//!     harness [--seed S] [--cases N] [--only K] [--kind NAME]   compares the library with the model
//!     harness --listing PATH [--seed S] [--cases N] [--only K]  compares a listing program with the model
//!     harness --self-test [--seed S] [--cases N]                shows that the comparison finds each of many mistakes
//!
//! With a kind, all cases are of that kind: as in `--kind campaigns --cases 100000`. Cases of the kinds `lasting`, `long` and
//! `last` take long, and run only where they are named.
//! Status 0: no difference. 1: a difference, or a mistake that wasn't found. 2: bad arguments.

mod comparing;
mod drawing;
mod model;
mod mutants;
mod options;

use std::process::ExitCode;

use crate::mutants::self_test;
use crate::options::Options;

const BAD_ARGUMENTS: u8 = 2;

fn main() -> ExitCode {
    let Options { cases, self_test, listing } = match Options::from_arguments(std::env::args().skip(1)) {
        Ok(options) => options,
        Err(message) => {
            eprintln!("harness: {message}");
            eprintln!("usage: harness [--seed S] [--cases N] [--only K] [--kind NAME] [--listing PATH] [--self-test]");
            return ExitCode::from(BAD_ARGUMENTS);
        }
    };
    let passed = if self_test { self_test::run(&cases) } else { comparing::run(cases, listing) };
    if passed {
        ExitCode::SUCCESS
    } else {
        ExitCode::FAILURE
    }
}
