//! A program that reads standard input and writes standard output, run as a child process.

use std::io::Write;
use std::path::PathBuf;
use std::process::{Command, Stdio};
use std::thread;

use crate::model::exit::Exit;

#[derive(Clone)]
pub struct Program {
    pub path: PathBuf,
}

impl Program {
    /// Runs it without arguments on the input.
    pub fn run(&self, input: &[u8]) -> Exit {
        let mut command = Command::new(&self.path);
        command.stdin(Stdio::piped()).stdout(Stdio::piped()).stderr(Stdio::piped());
        let mut child = command.spawn().unwrap_or_else(|error| panic!("{}: {error}", self.path.display()));
        let mut to_child = child.stdin.take().expect("a pipe to the child");
        // A thread of its own writes: with both pipes full, the child would wait for its output to be read, and nobody
        // would read it.
        let ended = thread::scope(|scope| {
            // A program may end before it has read all. What it wrote says whether it should have.
            scope.spawn(move || to_child.write_all(input).ok());
            child.wait_with_output()
        });
        let ended = ended.unwrap_or_else(|error| panic!("{}: {error}", self.path.display()));
        Exit { status: ended.status.code(), output: ended.stdout, errors: ended.stderr }
    }
}
