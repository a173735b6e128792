//! The arguments.

use crate::comparing::cases::{Cases, Kind, KINDS, LISTINGS};
use crate::comparing::program::Program;

const DEFAULT_SEED: u64 = 1;
const DEFAULT_CASES: u64 = 10_000;

pub struct Options {
    pub cases: Cases,
    pub self_test: bool,
    /// The listing program, if that is compared and not the library.
    pub listing: Option<Program>,
}

impl Options {
    pub fn from_arguments(mut arguments: impl Iterator<Item = String>) -> Result<Options, String> {
        let cases = Cases { seed: DEFAULT_SEED, numbers: 0..DEFAULT_CASES, kind: None };
        let mut options = Options { cases, self_test: false, listing: None };
        while let Some(argument) = arguments.next() {
            match argument.as_str() {
                "--seed" => options.cases.seed = number(&argument, arguments.next())?,
                "--cases" => {
                    let count = number(&argument, arguments.next())?;
                    // A run of no cases would pass and show nothing.
                    if count == 0 {
                        return Err("--cases: at least one".to_string());
                    }
                    options.cases.numbers = 0..count;
                }
                "--only" => {
                    let case = number(&argument, arguments.next())?;
                    let next = case.checked_add(1).ok_or("--only: the number is too great")?;
                    options.cases.numbers = case..next;
                }
                "--kind" => options.cases.kind = Some(kind(arguments.next())?),
                "--self-test" => options.self_test = true,
                "--listing" => options.listing = Some(program(arguments.next())?),
                _ => return Err(format!("unknown argument {argument}")),
            }
        }
        if options.listing.is_some() {
            // The program answers cases of one kind alone, and the self-test runs no program.
            if options.self_test || options.cases.kind.is_some() {
                return Err("--listing: neither with --kind nor with --self-test".to_string());
            }
            options.cases.kind = Some(&LISTINGS);
        }
        Ok(options)
    }
}

fn number(name: &str, text: Option<String>) -> Result<u64, String> {
    let text = text.ok_or(format!("{name} needs a number"))?;
    text.parse().map_err(|_| format!("{name}: {text} is no number"))
}

fn kind(name: Option<String>) -> Result<&'static Kind, String> {
    let name = name.ok_or("--kind needs a name")?;
    let names: Vec<&str> = KINDS.iter().map(|kind| kind.name).collect();
    let kind = KINDS.iter().find(|kind| kind.name == name);
    kind.ok_or(format!("--kind: {name} is none of {}", names.join(", ")))
}

fn program(path: Option<String>) -> Result<Program, String> {
    let name = path.ok_or("--listing needs a program")?;
    // In full: a name alone would be looked for among the system's commands.
    let path = std::path::absolute(&name).ok().filter(|path| path.is_file());
    Ok(Program { path: path.ok_or(format!("--listing: {name} is no file"))? })
}
