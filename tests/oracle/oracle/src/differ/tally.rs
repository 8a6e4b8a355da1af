//! What was asked, what was answered, and where the two sides differ.
use std::{
    collections::BTreeMap,
    fmt::{self, Debug, Display, Formatter, Result, Write},
};

/// Differences that are kept.
const SHOWN: usize = 5;

/// Bytes of a text that are kept of what was given and answered.
const MOST: usize = 1 << 16;

#[derive(Default)]
pub struct Tally {
    case: u64,
    pub cases: u64,
    /// Answers that were made, and how many of them a library's answer was compared with.
    pub answers: u64,
    pub compared: u64,
    pub differences: u64,
    /// Words of the compared answers and lent slices of stacking, runs and verdicts.
    pub words: u64,
    /// Accepted folds at a u_0 of the skip subgroup.
    pub powers: u64,
    /// Answers with a number, by number; 0 is done.
    numbers: BTreeMap<u32, u64>,
    shown: Vec<String>,
}

impl Tally {
    pub fn begin(&mut self, case: u64) {
        self.case = case;
        self.cases += 1;
    }

    /// Counts a call that answers with a number.
    pub fn number(&mut self, number: u32) {
        *self.numbers.entry(number).or_default() += 1;
    }

    /// Counts the words that a comparison goes through.
    pub fn words(&mut self, words: usize) {
        self.words += words as u64;
    }

    pub fn compare<T: Debug + PartialEq>(
        &mut self,
        call: &str,
        given: &dyn Debug,
        expected: T,
        ours: Option<T>,
    ) {
        self.answers += 1;
        let Some(ours) = ours else { return };
        self.compared += 1;
        if ours != expected {
            self.differences += 1;
            if self.shown.len() < SHOWN {
                let case = self.case;
                let [given, expected, ours] =
                    [given, &expected as &dyn Debug, &ours as &dyn Debug].map(text);
                self.shown.push(format!(
                    "case {case}: {call} of {given}\n  expected {expected}\n  ours     {ours}"
                ));
            }
        }
    }
}

/// A value's text, cut where it is too long to be read.
fn text(value: &dyn Debug) -> String {
    let mut cut = Cut(String::new());
    let whole = write!(cut, "{value:?}").is_ok();
    let Cut(mut text) = cut;
    if !whole {
        text.push_str("..");
    }
    text
}

struct Cut(String);

impl fmt::Write for Cut {
    fn write_str(&mut self, text: &str) -> Result {
        if self.0.len() + text.len() > MOST {
            return Err(fmt::Error);
        }
        self.0.push_str(text);
        Ok(())
    }
}

impl Display for Tally {
    fn fmt(&self, f: &mut Formatter) -> Result {
        write!(
            f,
            "{} cases, {} answers, {} compared, {} differences",
            self.cases, self.answers, self.compared, self.differences
        )?;
        for (number, count) in &self.numbers {
            let what = if *number == 0 { "done" } else { "refused" };
            write!(f, "\n  {what} {number}: {count}")?;
        }
        if self.powers > 0 {
            write!(
                f,
                "\n  folded at a power of the skip subgroup: {}",
                self.powers
            )?;
        }
        for difference in &self.shown {
            write!(f, "\n{difference}")?;
        }
        Ok(())
    }
}
