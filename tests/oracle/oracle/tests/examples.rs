//! The sessions of `examples/` at the original: the words that a first polynomial, the trace columns' openings, a stacking and a
//! verdict are answered with there are the original's. Refusals up to 10 are passed over.
use std::{collections::BTreeMap, fs};

use oracle::{
    field::{element, elements, flat},
    original::{self, Committed, Outcome, Run},
    scope::{Lists, VerdictGiven},
    shape::{matrices, Shape},
};

const SESSIONS: [&str; 12] = [
    "honest",
    "wrong_claim",
    "wrong_first",
    "wrong_opening",
    "unlucky",
    "bring_up",
    "round_zero",
    "take",
    "weighted",
    "refused",
    "out_of_turn",
    "commands",
];

/// The words of the last line of each name, and by the names of a verdict's what the calls since the last start gave.
#[derive(Default)]
struct Held {
    lines: BTreeMap<String, Vec<u32>>,
    given: BTreeMap<&'static str, Vec<u32>>,
}

impl Held {
    fn slice(&self, name: &str) -> &[u32] {
        self.lines.get(name).map_or(&[], Vec::as_slice)
    }

    /// A line that was done.
    fn hold(&mut self, name: &str, numbers: Vec<u32>, answered: Vec<u32>) {
        let given = &mut self.given;
        match name {
            "start" => given.clear(),
            "fold0" => given.entry("challenges").or_default().extend(&numbers),
            "fold" => given.entry("challenges").or_default().extend(&numbers[1..]),
            "pair" => given.entry("pairs").or_default().extend(&answered),
            "openings" => *given.entry("opened").or_default() = answered,
            "round0" => *given.entry("first").or_default() = answered,
            "column_openings" => *given.entry("claims").or_default() = answered,
            "take" => {
                for name in ["challenges", "pairs", "opened", "first", "claims"] {
                    let taken = given.get(name).cloned().unwrap_or_default();
                    self.lines.insert(name.to_string(), taken);
                }
            }
            _ => {}
        }
        self.lines.insert(name.to_string(), numbers);
    }

    fn lists(&self) -> Lists {
        let shape = self.slice("shape");
        let (counts, words) = shape[3..].split_at(shape[2] as usize);
        Lists {
            l_skip: shape[0],
            n_stack: shape[1],
            counts: counts.to_vec(),
            words: words.to_vec(),
        }
    }

    fn lambda(&self) -> [u32; 4] {
        self.slice("lambda").try_into().expect("four words")
    }

    fn committed(&self) -> Committed {
        Committed::new(&Shape::of_words(&self.lists()), self.slice("matrix"))
    }

    /// The stacked matrix of the first commitment, whose list has heights.
    fn stacked(&self) -> Vec<u32> {
        let lists = self.lists();
        let mut list = matrices(&lists.words[..3 * lists.counts[0] as usize]);
        for matrix in &mut list {
            matrix.log_height = matrix.log_height.trailing_zeros();
        }
        original::stacked(lists.l_skip, lists.n_stack, &list, self.slice("cells"))
    }

    fn verdict(&self) -> String {
        let verdict = original::verdict_by_words(&VerdictGiven {
            lists: &self.lists(),
            r: self.slice("point"),
            lambda: self.lambda(),
            challenges: self.slice("challenges"),
            claims: self.slice("claims"),
            first: self.slice("first"),
            pairs: self.slice("pairs"),
            openings: self.slice("opened"),
            observed: 0,
        });
        match verdict.outcome {
            Outcome::Accepted => String::from("yes"),
            Outcome::Refused(number, left, right) => {
                line(&format!("refused {number}"), &flat(&[left, right]))
            }
        }
    }
}

fn line(head: &str, words: &[u32]) -> String {
    let words: String = words.iter().map(|word| format!(" {word}")).collect();
    head.to_string() + &words
}

#[test]
fn the_original_answers_the_examples() {
    let mut compared = BTreeMap::new();
    for session in SESSIONS {
        let path = format!("{}/../../../examples/{session}", env!("CARGO_MANIFEST_DIR"));
        let [input, output] =
            ["in", "out"].map(|kind| fs::read_to_string(format!("{path}.{kind}")).expect(&path));
        let commands = input.lines().filter(|line| !line.starts_with('#'));
        assert_eq!(
            commands.clone().count(),
            output.lines().count(),
            "{session}"
        );
        let mut held = Held::default();
        for (command, answer) in commands.zip(output.lines()) {
            let (name, rest) = command.split_once(' ').unwrap_or((command, ""));
            let sided = answer.starts_with("refused 13 ") || answer.starts_with("refused 14 ");
            if !(answer.starts_with("ok") || answer == "yes" || sided) {
                continue;
            }
            let words = |text: &str| {
                text.split(' ')
                    .map_while(|word| word.parse().ok())
                    .collect()
            };
            held.hold(name, words(rest), words(answer.trim_start_matches("ok ")));
            let expected = match name {
                "stack" => line("ok", &held.stacked()),
                "round0" => {
                    let (committed, r) = (held.committed(), elements(held.slice("point")));
                    let mut run = Run::start(&committed, &r, element(held.lambda()));
                    line("ok", &flat(&run.first_polynomial()))
                }
                "column_openings" => {
                    let r = elements(held.slice("point"));
                    line("ok", &flat(&held.committed().claims(&r)))
                }
                "verdict" => held.verdict(),
                _ => continue,
            };
            assert_eq!(answer, expected, "{session}: {command}");
            *compared.entry(name.to_string()).or_insert(0) += 1;
        }
    }
    let names = ["column_openings", "round0", "stack", "verdict"];
    assert!(
        compared.keys().map(String::as_str).eq(names),
        "{compared:?}"
    );
}
