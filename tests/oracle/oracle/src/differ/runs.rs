//! Whole runs, each call beside the original's prover, or document 01's sums where u_0 lies in the skip subgroup, with refused
//! calls between.
use super::{lent::Lent, run_faults::damaged, Tally};
use crate::{
    field::{element, elements, flat, words, PrimeCharacteristicRing, TwoAdicField, F, P},
    library::{Library, RunLent, StepAnswer, Words},
    original::Committed,
    random,
    rng::Rng,
    scope::{self, Call, RunGiven, RunInput, Turn, WorkBuffers},
    shape::Shape,
    sums::AnyRun,
};

/// All that a call of a run is given, by words.
#[derive(Clone, Debug)]
pub struct Drawn {
    pub turn: u32,
    pub call: Call,
    pub input: RunInput,
    pub challenge: Words,
    /// q_evals, eq_r, k_rot_r and eq_ub.
    pub work: [Vec<u32>; 4],
    pub coefficients: usize,
    pub openings: usize,
}

/// What a call leaves behind: its answer, the work buffers, and the slices of the first polynomial and of the openings.
struct Left {
    answer: StepAnswer,
    work: [Vec<u32>; 4],
    coefficients: Option<Vec<u32>>,
    openings: Option<Vec<u32>>,
}

/// Number, turn and the eight words of a pair.
const ANSWER: usize = 10;

/// The library that is compared, if there is one, and the tally.
struct Side<'a> {
    library: Option<&'a dyn Library>,
    tally: &'a mut Tally,
}

pub fn case(rng: &mut Rng, library: Option<&dyn Library>, tally: &mut Tally) {
    let shape = random::run_shape(rng);
    let any_words = rng.once_in(2);
    let matrices = random::matrices(rng, &shape, any_words);
    whole(rng, &Committed::new(&shape, &matrices), library, tally);
}

/// A whole run on these stacked matrices.
pub fn whole(
    rng: &mut Rng,
    committed: &Committed,
    library: Option<&dyn Library>,
    tally: &mut Tally,
) {
    let mut drawn = Drawn::before_start(rng, committed);
    let mut side = Side { library, tally };
    let calls = calls(committed.shape.n_stack);
    // Start is taken at every turn: some runs are begun anew.
    if rng.once_in(8) {
        let some = rng.between(1, calls.len() as u32) as usize;
        play(rng, committed, &mut drawn, &calls[..some], &mut side);
    }
    play(rng, committed, &mut drawn, &calls, &mut side);
    refused_calls(rng, &drawn, &mut side);
}

fn calls(n_stack: u32) -> Vec<Call> {
    let rounds = (1..=n_stack).flat_map(|round| [Call::Pair(round), Call::Fold(round)]);
    [Call::Start, Call::First, Call::FoldAtU0]
        .into_iter()
        .chain(rounds)
        .chain([Call::Openings])
        .collect()
}

/// The accepted calls, from a start on, each after some that are refused.
fn play<'a>(
    rng: &mut Rng,
    committed: &'a Committed,
    drawn: &mut Drawn,
    calls: &[Call],
    side: &mut Side,
) {
    let mut run: Option<AnyRun<'a>> = None;
    for &call in calls {
        drawn.call = call;
        refused_calls(rng, drawn, side);
        let left_before = drawn.work.clone();
        drawn.draw(rng);
        let mut pair = [[0; 4]; 2];
        let (mut coefficients, mut openings) = (None, None);
        let challenge = element(drawn.challenge);
        match (call, &mut run) {
            (Call::Start, _) => {
                let (r, lambda) = (elements(&drawn.input.r), element(drawn.input.lambda));
                run = Some(AnyRun::start(committed, &r, lambda));
            }
            (Call::First, Some(run)) => coefficients = Some(flat(&run.first_polynomial())),
            (Call::FoldAtU0, Some(run)) => run.fold_at_u_0(challenge),
            (Call::Pair(round), Some(run)) => pair = run.pair(round as usize).map(words),
            (Call::Fold(round), Some(run)) => run.fold(round as usize, challenge),
            (Call::Openings, _) => {
                openings = run.take().map(|run| flat(&run.openings()));
            }
            (_, None) => unreachable!("a run begins with its start"),
        }
        let turn = match call {
            Call::Start => 1,
            _ => drawn.turn + 1,
        };
        let written = match (call, &run) {
            (Call::First | Call::Pair(_) | Call::Openings, _) | (_, None) => None,
            (_, Some(run)) => Some(run.work_buffers()),
        };
        let answer = StepAnswer {
            number: 0,
            turn,
            pair,
        };
        let left = Left {
            answer,
            work: written.clone().unwrap_or_else(|| drawn.work.clone()),
            coefficients,
            openings,
        };
        assert_eq!(drawn.number(), 0, "document 01 accepts {drawn:?}");
        let l_skip = drawn.input.lists.l_skip;
        if call == Call::FoldAtU0 && scope::in_skip_subgroup(l_skip, drawn.challenge) {
            side.tally.powers += 1;
        }
        compare(rng, drawn, left, side);
        drawn.turn = turn;
        drawn.work = written.unwrap_or(left_before);
    }
}

/// Up to three calls that document 01 refuses; they leave all as it was.
fn refused_calls(rng: &mut Rng, drawn: &Drawn, side: &mut Side) {
    for _ in 0..rng.below(4) {
        let drawn = damaged(rng, drawn);
        let number = drawn.number();
        if number == 0 {
            continue;
        }
        let answer = StepAnswer {
            number,
            turn: drawn.turn,
            ..Default::default()
        };
        let left = Left {
            answer,
            work: drawn.work.clone(),
            coefficients: None,
            openings: None,
        };
        compare(rng, &drawn, left, side);
    }
}

fn compare(rng: &mut Rng, drawn: &Drawn, left: Left, side: &mut Side) {
    side.tally.number(left.answer.number);
    let work_words: usize = drawn.work.iter().map(Vec::len).sum();
    side.tally
        .words(ANSWER + work_words + drawn.coefficients + drawn.openings);
    let mark = rng.next() as u32;
    let lent_work = |work: &[Vec<u32>; 4]| work.each_ref().map(|w| Lent::holding(w, mark));
    let lent_coefficients = || Lent::new(drawn.coefficients, mark);
    let lent_openings = || Lent::new(drawn.openings, mark);
    let expected = (
        left.answer,
        lent_work(&left.work).map(|lent| lent.entries()),
        lent_coefficients().expected(left.coefficients.as_deref()),
        lent_openings().expected(left.openings.as_deref()),
    );
    let ours = side.library.map(|library| {
        let mut work = lent_work(&drawn.work);
        let mut coefficients = lent_coefficients();
        let mut openings = lent_openings();
        let lent = RunLent {
            input: &drawn.input,
            challenge: drawn.challenge,
            work: work.each_mut().map(|lent| lent.slice()),
            coefficients: coefficients.slice(),
            openings: openings.slice(),
        };
        let answer = library.run_call(drawn.turn, drawn.call, lent);
        let work = work.map(|lent| lent.entries());
        (answer, work, coefficients.entries(), openings.entries())
    });
    side.tally.compare("run_call", drawn, expected, ours);
}

impl Drawn {
    /// A turn of no accepted call, and any words in the work buffers.
    fn before_start(rng: &mut Rng, committed: &Committed) -> Self {
        let shape = &committed.shape;
        let lengths = shape.room(committed.width());
        let mut drawn = Self {
            turn: 0,
            call: Call::Start,
            input: RunInput {
                lists: shape.by_words(),
                matrices: committed.matrices(),
                ..Default::default()
            },
            challenge: [0; 4],
            work: lengths.map(|length| rng.edge_words(length)),
            coefficients: 4 * ((2 << shape.l_skip) - 1),
            openings: 4 * committed.width(),
        };
        drawn.draw(rng);
        drawn
    }

    /// Draws what the next call is given anew: point and lambda for a start, the challenge of a fold,
    /// and, in one half of the cases, any words where it takes none.
    fn draw(&mut self, rng: &mut Rng) {
        let input = &mut self.input;
        if self.call == Call::Start {
            let points = input.lists.n_stack as usize + 1;
            input.r = (0..points).flat_map(|_| drawn_element(rng)).collect();
            input.lambda = drawn_element(rng);
        }
        self.challenge = match self.call {
            Call::FoldAtU0 => drawn_u_0(rng, &Shape::of_words(&input.lists)),
            _ => drawn_element(rng),
        };
        // The words that the call does not take: as the last one left them, or any.
        if rng.once_in(2) {
            return;
        }
        let places = scope::words_not_taken(self.call, &self.given()).expect("accepted lists");
        for (buffer, ranges) in self.work.iter_mut().zip(places) {
            for word in ranges.into_iter().flatten() {
                buffer[word] = rng.edge_word();
            }
        }
    }

    pub fn number(&self) -> u32 {
        let turn = Turn::after_calls(self.turn, self.input.lists.n_stack);
        let answer = scope::run_call(turn, self.call, &self.given());
        answer.err().unwrap_or(0)
    }

    fn given(&self) -> RunGiven<'_> {
        RunGiven {
            input: &self.input,
            challenge: self.challenge,
            work: WorkBuffers::of(&self.work),
            coefficients: self.coefficients,
            openings: self.openings,
        }
    }
}

/// Mostly any element; now and then a constant, or words at the edges.
pub fn drawn_element(rng: &mut Rng) -> Words {
    match rng.below(8) {
        0 => [rng.edge_word() % P, 0, 0, 0],
        1 => rng.edge_element().map(|word| word % P),
        _ => words(rng.element()),
    }
}

/// The same, and one in eight a power of the skip subgroup's generator; outside the subgroup where the sums, which take every
/// weight of every column, would be too many.
pub fn drawn_u_0(rng: &mut Rng, shape: &Shape) -> Words {
    let few = shape.columns().count() * shape.height() <= 1 << 17;
    loop {
        let u_0 = match rng.below(8) {
            0 => drawn_power(rng, shape.l_skip),
            _ => drawn_element(rng),
        };
        if few || !scope::in_skip_subgroup(shape.l_skip, u_0) {
            break u_0;
        }
    }
}

/// Any power, and 1 in one of four.
pub fn drawn_power(rng: &mut Rng, l_skip: u32) -> Words {
    let power = match rng.below(4) {
        0 => 0,
        _ => rng.below(1 << l_skip),
    };
    let root = F::two_adic_generator(l_skip as usize).exp_u64(power as u64);
    [root.word(), 0, 0, 0]
}
