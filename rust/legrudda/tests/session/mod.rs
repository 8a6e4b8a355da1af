//! Replays a session of tests/oracle/vectors: NAME.in has a command a line, and comments; NAME.out has the answer of each
//! command. A comment `# Rust` or `# document 01` says where the answers after it come from. A verdict's yes is stored as
//! `yes` or as `ok`.
use std::{
    fmt::{Display, Write},
    fs,
};

use legrudda::Error;

/// A file of tests/oracle/vectors.
pub fn stored(name: &str) -> String {
    let crate_folder = env!("CARGO_MANIFEST_DIR");
    let path = format!("{crate_folder}/../../tests/oracle/vectors/{name}");
    fs::read_to_string(&path).expect(&path)
}

/// Asks `reply` for the answer of every command of a session, which is a name and its numbers, and holds it to the stored
/// one. Gives the number of commands.
pub fn replay(session: &str, mut reply: impl FnMut(&str, &[u32]) -> String) -> usize {
    let (input, output) = (
        stored(&format!("{session}.in")),
        stored(&format!("{session}.out")),
    );
    let commands = input.lines().filter(|line| !line.starts_with('#'));
    assert_eq!(commands.clone().count(), output.lines().count());
    let mut replayed = 0;
    for (command, answer) in commands.zip(output.lines()) {
        let (name, rest) = command.split_once(' ').unwrap_or((command, ""));
        let numbers: Vec<u32> = rest
            .split_whitespace()
            .map(|number| number.parse().expect("a number"))
            .collect();
        assert_eq!(reply(name, &numbers), answer, "command: {command}");
        replayed += 1;
    }
    replayed
}

/// The line that answers a call: its words, or its number, with both sides of 13 and 14.
pub fn answer(result: Result<impl IntoIterator<Item = impl Display>, Error>) -> String {
    let error = match result {
        Ok(words) => return line("ok", words),
        Err(error) => error,
    };
    let sides = match error {
        Error::S0Mismatch { s_0, s_0_sum_eval } => [s_0.words, s_0_sum_eval.words].concat(),
        Error::FinalSumMismatch { claim, final_sum } => [claim.words, final_sum.words].concat(),
        _ => vec![],
    };
    line(&format!("refused {}", error.number()), sides)
}

fn line(head: &str, words: impl IntoIterator<Item = impl Display>) -> String {
    let mut line = head.to_string();
    for word in words {
        write!(line, " {word}").unwrap();
    }
    line
}
