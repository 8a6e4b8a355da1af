//! The stored runs, `vectors/runs.in` and `vectors/first.in`, played through the linked library: every line must answer as
//! the stored answers say.
#![cfg(feature = "ours")]
use std::fmt::Write;

use oracle::{
    library::{Library, RunLent, StepAnswer, Words},
    ours::Ours,
    scope::{Call, Lists, RunInput},
};

/// What a session has set, and the run's work buffers and turn.
#[derive(Default)]
struct Held {
    input: RunInput,
    turn: u32,
    work: [Vec<u32>; 4],
    coefficients: Vec<u32>,
    claims: Vec<u32>,
    openings: Vec<u32>,
}

#[test]
fn the_library_answers_the_stored_runs() {
    let input = include_str!("../../vectors/runs.in");
    replay(input, include_str!("../../vectors/runs.out"));
}

/// Lines that no call of a run answers are passed over.
#[test]
fn the_library_answers_the_stored_first_polynomials() {
    let input = include_str!("../../vectors/first.in");
    replay(input, include_str!("../../vectors/first.out"));
}

fn replay(input: &str, output: &str) {
    let commands: Vec<&str> = input.lines().filter(|l| !l.starts_with('#')).collect();
    let answers: Vec<&str> = output.lines().collect();
    assert_eq!(commands.len(), answers.len());
    let mut held = Held::default();
    for (line, (command, answer)) in commands.iter().zip(&answers).enumerate() {
        let ours = held.answer(command, answer);
        assert_eq!(ours, *answer, "command {line}: {command}");
    }
}

fn words(text: &str) -> Vec<u32> {
    text.split_whitespace()
        .map(|word| word.parse().expect("a word"))
        .collect()
}

fn four(words: &[u32]) -> Words {
    words.try_into().expect("four words")
}

fn ok(words: &[u32]) -> String {
    let mut line = String::from("ok");
    for word in words {
        write!(line, " {word}").unwrap();
    }
    line
}

impl Held {
    /// The lengths of the work buffers are taken from the stored answer to `room`.
    fn answer(&mut self, command: &str, stored: &str) -> String {
        let (name, rest) = command.split_once(' ').unwrap_or((command, ""));
        let given = words(rest);
        match name {
            "shape" => {
                let (counts, words) = given[3..].split_at(given[2] as usize);
                self.input.lists = Lists {
                    l_skip: given[0],
                    n_stack: given[1],
                    counts: counts.to_vec(),
                    words: words.to_vec(),
                };
                ok(&[])
            }
            "matrix" => {
                self.input.matrices = given;
                ok(&[])
            }
            "point" => {
                self.input.r = given;
                ok(&[])
            }
            "lambda" => {
                self.input.lambda = four(&given);
                ok(&[])
            }
            "room" => {
                let lengths = words(stored.strip_prefix("ok").expect("room is made"));
                let lengths = four(&lengths);
                self.work = lengths.map(|length| vec![0; length as usize]);
                self.openings = vec![0; (lengths[0] >> self.input.lists.n_stack) as usize];
                self.coefficients = vec![0; 4 * self.input.lists.coefficient_count()];
                self.claims = vec![0; 4 * self.input.lists.claim_count()];
                ok(&lengths)
            }
            "work" => ok(&self.work.concat()),
            "start" => self.call(Call::Start, [0; 4]),
            "round0" => self.call(Call::First, [0; 4]),
            "column_openings" => match Ours.column_openings(&self.input, &mut self.claims) {
                0 => ok(&self.claims),
                number => format!("refused {number}"),
            },
            "fold0" => self.call(Call::FoldAtU0, four(&given)),
            "pair" => self.call(Call::Pair(given[0]), [0; 4]),
            "fold" => self.call(Call::Fold(given[0]), four(&given[1..])),
            "openings" => self.call(Call::Openings, [0; 4]),
            "cells" | "stack" | "challenges" | "claims" | "first" | "pairs" | "opened"
            | "verdict" | "observed" => stored.to_string(),
            _ => panic!("no such command: {name}"),
        }
    }

    fn call(&mut self, call: Call, challenge: Words) -> String {
        let lent = RunLent {
            input: &self.input,
            challenge,
            work: self.work.each_mut().map(|buffer| buffer.as_mut_slice()),
            coefficients: &mut self.coefficients,
            openings: &mut self.openings,
        };
        let StepAnswer { number, turn, pair } = Ours.run_call(self.turn, call, lent);
        self.turn = turn;
        match (number, call) {
            (0, Call::First) => ok(&self.coefficients),
            (0, Call::Pair(_)) => ok(&pair.concat()),
            (0, Call::Openings) => ok(&self.openings),
            (0, _) => ok(&[]),
            _ => format!("refused {number}"),
        }
    }
}
