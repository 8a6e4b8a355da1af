//! Compares the project's library with the original Rust on random inputs:
//! differ [--group NAME] [--cases N] [--seed S] [--first CASE]
//! Built without the feature `ours` it makes the expected answers and compares nothing.
use std::{env, process::ExitCode};

use oracle::{differ::GROUPS, library::linked};

const USAGE: &str = "differ [--group NAME] [--cases N] [--seed S] [--first CASE]";

struct Options {
    group: Option<String>,
    cases: u64,
    seed: u64,
    first: u64,
}

fn options() -> Option<Options> {
    let mut options = Options {
        group: None,
        cases: 10_000,
        seed: 1,
        first: 0,
    };
    let mut words = env::args().skip(1);
    while let Some(word) = words.next() {
        let value = words.next()?;
        match word.as_str() {
            "--group" => options.group = Some(value),
            "--cases" => options.cases = value.parse().ok()?,
            "--seed" => options.seed = value.parse().ok()?,
            "--first" => options.first = value.parse().ok()?,
            _ => return None,
        }
    }
    Some(options)
}

fn main() -> ExitCode {
    let Some(options) = options() else {
        eprintln!("{USAGE}");
        return ExitCode::from(2);
    };
    let wanted = |name: &str| options.group.as_deref().is_none_or(|group| group == name);
    let library = linked();
    if library.is_none() {
        println!("built without the feature `ours`: answers are made, nothing is compared");
    }
    let (mut groups, mut differences) = (0, 0);
    for group in GROUPS.iter().filter(|group| wanted(group.name)) {
        let tally = group.run(library, options.seed, options.first, options.cases);
        println!("{}: {tally}", group.name);
        groups += 1;
        differences += tally.differences;
    }
    if groups == 0 {
        let names: Vec<_> = GROUPS.iter().map(|group| group.name).collect();
        eprintln!("no such group; there are {}", names.join(", "));
        return ExitCode::from(2);
    }
    ExitCode::from(u8::from(differences > 0))
}
