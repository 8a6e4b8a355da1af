//! A session: commands, and the line that each must answer.
use std::fmt::Write;

use crate::{
    original,
    shape::{matrices, Shape},
};

/// Commitments count from 1 in the console's commands.
pub const FIRST_COMMITMENT: u32 = 1;

/// Where an answer comes from.
#[derive(Clone, Copy, PartialEq, Eq)]
pub enum Origin {
    Rust,
    Document,
    Sums,
}

pub struct Session {
    pub name: &'static str,
    pub input: String,
    pub output: String,
    pub commands: usize,
    origin: Option<Origin>,
}

impl Session {
    pub fn new(name: &'static str) -> Self {
        Self {
            name,
            input: String::new(),
            output: String::new(),
            commands: 0,
            origin: None,
        }
    }

    /// A comment, which the console answers by nothing.
    pub fn remark(&mut self, text: &str) {
        writeln!(self.input, "# {text}").unwrap();
    }

    /// The origin of the answers from here on.
    fn origin(&mut self, origin: Origin) {
        if self.origin.replace(origin) != Some(origin) {
            self.remark(match origin {
                Origin::Rust => "Rust",
                Origin::Document => "document 01",
                Origin::Sums => "C-13: document 01's sums",
            });
        }
    }

    pub fn ask(&mut self, origin: Origin, command: &str, answer: &str) {
        self.origin(origin);
        self.line(command, answer);
    }

    /// A call of the original that is done, with its words.
    pub fn done(&mut self, command: &str, words: &[u32]) {
        self.ask(Origin::Rust, command, &with_words("ok", words));
    }

    /// A refusal: 4 and 5 are the original's, the others document 01's, whose numbers document 02's calls have too.
    pub fn refused(&mut self, command: &str, number: u32) {
        let origin = match number {
            4 | 5 => Origin::Rust,
            _ => Origin::Document,
        };
        self.ask(origin, command, &format!("refused {number}"));
    }

    /// A line that sets something, or changes buffers, and has no words to answer.
    pub fn set(&mut self, command: &str, words: &[u32]) {
        self.line(&with_words(command, words), "ok");
    }

    pub fn set_shape(&mut self, shape: &Shape) {
        let lists = shape.by_words();
        let head = [lists.l_skip, lists.n_stack, lists.counts.len() as u32];
        self.set("shape", &[&head[..], &lists.counts, &lists.words].concat());
    }

    /// One commitment's list as it stands, heights or log heights.
    pub fn set_list(&mut self, l_skip: u32, n_stack: u32, list: &[u32]) {
        self.set_shape(&Shape::new(l_skip, n_stack, vec![matrices(list)]));
    }

    /// Makes room for a run; document 01 gives the lengths of the work buffers.
    pub fn room(&mut self, shape: &Shape) {
        let lengths = shape.room(original::stack_columns(shape));
        let lengths = lengths.map(|length| length as u32);
        self.ask(Origin::Document, "room", &with_words("ok", &lengths));
    }

    /// Hands these lengths to a program that does not reckon them, and those of the openings and of the first polynomial.
    pub fn lengths(&mut self, shape: &Shape) {
        let width = original::stack_columns(shape);
        let lengths = shape.room(width).into_iter().chain([4 * width]);
        let coefficients = 4 * ((2 << shape.l_skip) - 1);
        for (buffer, length) in lengths.enumerate().chain([(6, coefficients)]) {
            self.set(&format!("len {buffer}"), &[length as u32]);
        }
    }

    fn line(&mut self, command: &str, answer: &str) {
        writeln!(self.input, "{command}").unwrap();
        writeln!(self.output, "{answer}").unwrap();
        self.commands += 1;
    }
}

pub fn with_words(head: &str, words: &[u32]) -> String {
    let mut line = String::from(head);
    for word in words {
        write!(line, " {word}").unwrap();
    }
    line
}
