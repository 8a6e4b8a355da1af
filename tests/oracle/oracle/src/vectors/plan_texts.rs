//! Texts for the program `plan`: standard input and the expected standard output.
//!
//! `#` opens a case with its name and origin; `<` is a line of input, `-` input without the newline at
//! its end, `>` a line of output.
use std::fmt::Write;

use crate::{
    original, random,
    record::digits,
    rng::Rng,
    scope,
    shape::{matrices, Matrix},
};

pub struct PlanTexts {
    pub text: String,
    pub cases: usize,
}

pub fn plan_texts() -> PlanTexts {
    let mut out = PlanTexts {
        text: String::new(),
        cases: 0,
    };
    for (name, input) in fixed() {
        out.add(name, &input);
    }
    for case in 0..24 {
        let mut rng = Rng::of_case(0x9147, case);
        let input = drawn(&mut rng);
        out.add(&format!("random list {case}"), &input);
    }
    out
}

impl PlanTexts {
    fn add(&mut self, name: &str, input: &str) {
        let output = scope::plan_text(input.as_bytes());
        let origin = if check_with_original(input, &output) {
            "Rust"
        } else {
            "document 01"
        };
        self.cases += 1;
        writeln!(self.text, "# {name}; {origin}").unwrap();
        for line in input.split_inclusive('\n') {
            match line.strip_suffix('\n') {
                Some(line) => writeln!(self.text, "<{line}").unwrap(),
                None => writeln!(self.text, "-{line}").unwrap(),
            }
        }
        for line in output.lines() {
            writeln!(self.text, ">{line}").unwrap();
        }
    }
}

/// Whether the original has an answer of its own: a plan, 4 or 5. It must then be the same.
fn check_with_original(input: &str, output: &str) -> bool {
    if ["refused 1\n", "refused 2\n", "refused 6\n"].contains(&output) {
        return false;
    }
    let numbers: Vec<u32> = input
        .split_ascii_whitespace()
        .map(|x| x.parse().unwrap())
        .collect();
    let wanted = match original::plan(numbers[0], numbers[1], &matrices(&numbers[2..])) {
        Err(number) => format!("refused {number}\n"),
        Ok(plan) => {
            let head = format!("{} {} {}\n", plan.width, plan.height, plan.records.len());
            let records = plan.records.iter().map(|r| digits(*r) + "\n");
            head + &records.collect::<String>()
        }
    };
    assert_eq!(output, wanted, "the original differs on {input:?}");
    true
}

fn fixed() -> Vec<(&'static str, String)> {
    let texts = [ACCEPTED, REFUSED, MALFORMED].concat();
    let texts = texts
        .into_iter()
        .map(|(name, text)| (name, text.replace('|', "\n")));
    let many = lines("0 0", "0 0 0", 4_097);
    texts
        .chain([
            ("4,096 matrices of width 0", lines("0 0", "0 0 0", 4_096)),
            ("4,097 matrices", many.clone()),
            ("4,097 matrices, then malformed", many + "x\n"),
            ("255 matrices of one column", lines("0 0", "1 0 0", 255)),
            ("257 matrices of one column", lines("0 0", "1 0 0", 257)),
            (
                "4,096 matrices of one column",
                lines("0 12", "1 0 0", 4_096),
            ),
        ])
        .collect()
}

fn lines(head: &str, line: &str, count: usize) -> String {
    format!("{head}\n") + &format!("{line}\n").repeat(count)
}

/// In these texts `|` stands for a newline.
const ACCEPTED: &[(&str, &str)] = &[
    ("the example of document 01", "1 1|1 2 0|2 0 1|"),
    ("no matrix", "1 1|"),
    ("no matrix, largest sizes", "4 20|"),
    ("width 0 only", "0 2|0 0 0|"),
    (
        "width 0, its height is not looked at",
        "0 2|0 4294967295 1|",
    ),
    (
        "width 0 between rising heights is skipped",
        "0 2|1 1 0|0 2 0|1 0 0|",
    ),
    ("width 0 first, taller than H", "0 2|0 9 0|1 2 0|"),
    ("width 0 last", "0 2|1 2 0|0 0 1|"),
    ("a row exactly H opens no column by itself", "0 0|1 0 0|"),
    ("two full stack columns", "0 1|2 1 1|"),
    ("a stack column filled by two heights", "0 2|1 1 0|2 0 1|"),
    ("log 24", "4 20|1 24 0|"),
    ("log 24 at l_skip 10", "10 14|2 24 1|"),
    ("height 1", "0 0|1 0 1|"),
    ("height 1 at l_skip 10", "10 0|2 0 0|"),
    (
        "short columns of all heights",
        "3 1|1 3 0|1 2 0|1 1 0|1 0 0|",
    ),
    ("equal heights in two matrices", "1 2|2 2 0|1 2 1|"),
    ("4,096 columns", "0 12|4096 0 0|"),
    ("leading zeros", "01 001|0001 2 00|"),
    (
        "leading zeros, many",
        "1 1|00000000000000000001 000000000002 0|",
    ),
    ("log height of l_skip exactly", "2 1|1 2 1|1 1 1|"),
    ("n_stack 0", "2 0|1 2 0|1 0 1|"),
];

const REFUSED: &[(&str, &str)] = &[
    ("l_skip 11", "11 0|1 0 0|"),
    ("n_stack 21", "0 21|1 0 0|"),
    ("l_skip + n_stack 25", "5 20|1 0 0|"),
    ("sizes whose sum exceeds u32", "4294967295 4294967295|"),
    ("flag 2", "0 0|1 0 2|"),
    ("flag 2 at width 0", "0 0|0 0 2|"),
    ("flag 2 and 4,097 columns", "0 0|4097 0 2|"),
    ("4,097 columns", "0 0|4097 0 0|"),
    ("4,097 columns though a height is bad too", "0 0|4097 99 0|"),
    ("4,097 columns in two matrices", "0 0|4096 0 0|1 0 0|"),
    (
        "4,097 columns, the bad height before",
        "0 0|1 1 0|4096 0 0|",
    ),
    (
        "widths whose sum exceeds u32",
        "0 0|4294967295 0 0|4294967295 0 0|",
    ),
    (
        "widths whose sum is 2^32",
        "0 0|2147483648 0 0|2147483648 0 0|",
    ),
    ("taller than H", "1 1|1 3 0|"),
    ("log height of u32's largest", "1 1|1 4294967295 0|"),
    ("rows overflow", "0 3|1 2 0|1 3 0|"),
    ("5 before 4, as the walk meets it", "0 3|1 2 0|1 3 0|1 9 0|"),
    ("4 before 5, as the walk meets it", "0 3|1 9 0|1 2 0|1 3 0|"),
    (
        "4 at the matrix, before its columns could overflow",
        "0 3|1 2 0|1 4 0|",
    ),
    ("5 in a later stack column", "0 2|1 2 0|1 1 0|1 2 0|"),
    ("5 although heights rise", "0 2|1 0 0|1 2 0|"),
    ("heights rise though all fits", "0 2|1 0 0|1 1 0|"),
    ("heights rise, aligned", "0 2|2 0 0|1 1 0|"),
    ("heights rise below l_skip", "2 1|1 0 1|1 1 1|"),
    (
        "heights rise across a matrix of width 0",
        "0 2|1 0 0|0 2 0|1 1 0|",
    ),
    (
        "heights rise in the last matrix only",
        "1 2|1 2 0|1 1 0|1 2 0|",
    ),
];

const MALFORMED: &[(&str, &str)] = &[
    ("nothing", ""),
    ("one newline", "|"),
    ("no newline at the end", "1 1|1 2 0"),
    ("no newline after the sizes", "1 1"),
    ("two spaces", "1  1|"),
    ("two spaces in a matrix", "1 1|1  2 0|"),
    ("a space first", " 1 1|"),
    ("a space last", "1 1 |"),
    ("a tab", "1\t1|"),
    ("a carriage return", "1 1\r|"),
    ("a plus sign", "+1 1|"),
    ("a minus sign", "1 1|1 -2 0|"),
    ("a letter", "1 a|"),
    ("hexadecimal", "0x1 1|"),
    ("a digit that is not ASCII", "1 \u{0661}|"),
    ("an underscore", "1 1|1_0 0 0|"),
    ("an empty line between", "1 1||1 2 0|"),
    ("an empty line at the end", "1 1|1 2 0||"),
    ("one number in the first line", "1|"),
    ("three numbers in the first line", "1 1 1|"),
    ("two numbers for a matrix", "1 1|1 2|"),
    ("four numbers for a matrix", "1 1|1 2 0 0|"),
    ("two matrices in a line", "1 1|1 2 0 2 0 1|"),
    ("a width above u32", "1 1|4294967296 2 0|"),
    ("a height above u32 at width 0", "1 1|0 4294967296 0|"),
    ("a number far above u32", "1 1|1 99999999999999999999999 0|"),
    ("l_skip above u32", "4294967297 1|"),
    ("malformed after 4,097 columns", "0 0|4097 0 0|x|"),
    ("a comment", "1 1|# 2|"),
];

fn drawn(rng: &mut Rng) -> String {
    let (l_skip, n_stack) = (rng.below(5), rng.below(6));
    let mut list = random::list(rng, l_skip, n_stack, 5, 4);
    if rng.once_in(3) {
        let at = rng.below(list.len() as u32) as usize;
        list[at].log_height = rng.below(l_skip + n_stack + 2);
    }
    let head = format!("{l_skip} {n_stack}\n");
    let line = |m: &Matrix| format!("{} {} {}\n", m.width, m.log_height, m.flag);
    head + &list.iter().map(line).collect::<String>()
}
