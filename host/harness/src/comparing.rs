//! The comparison of the library with the model. From the bottom up, each of these uses those before it:
//!
//! - `buffers`, what is lent to calls, and `difference`, what is reported;
//! - `facts`, what there was before and after calls;
//! - `laws`, what must hold of the facts whatever rules the model has;
//! - `counts`, what a run has met, which its summary shows;
//! - `compare`, calls made by both sides, one by one or several that give a fact;
//! - `sites`, who draw their calls as they go;
//! - `cases`, the kinds of cases, and the running of them.
//!
//! `library` and `program` are what is compared. All of it depends on the model and on drawing, and on nothing else.

pub mod buffers;
pub mod cases;
pub mod compare;
pub mod counts;
pub mod difference;
pub mod facts;
pub mod laws;
pub mod library;
pub mod program;
pub mod sites;

use cases::{first_difference, Cases};
use counts::Counts;
use library::Library;
use program::Program;

use crate::model::Model;

/// A broken library would differ in most cases; a few tell enough.
const MOST_DIFFERENCES: usize = 5;

/// Compares the library, or a listing program, with the model, and says what was met. Whether there was no difference.
pub fn run(mut cases: Cases, listing: Option<Program>) -> bool {
    let library = Library { listing };
    let model = Model::document();
    let mut counts = Counts::default();
    let mut differences = 0;
    while differences < MOST_DIFFERENCES {
        let Some(found) = first_difference(&library, &model, &mut cases, &mut counts) else { break };
        differences += 1;
        println!("seed {}, case {}, kind {}: {}", cases.seed, found.case, found.kind, found.difference);
    }
    print!("{counts}");
    println!("{} cases, {differences} differences", counts.cases);
    differences == 0
}
