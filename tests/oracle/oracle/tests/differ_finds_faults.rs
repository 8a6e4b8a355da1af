//! The differential driver itself: it finds nothing in a library that answers as the original and
//! document 01 do, and finds each of a list of faults in one that does not.
use std::{cell::RefCell, cmp::Reverse};

use oracle::{
    differ::GROUPS,
    field::*,
    library::{
        GetAnswer, Library, PlanAnswer, RunLent, StackAnswer, StepAnswer, VerdictAnswer,
        ViewAnswer, Words,
    },
    original::{self, Committed, Outcome, Run},
    record::Record,
    scope::{self, Call, RunInput, Turn, VerdictGiven},
    shape::{matrices, triples, Matrix, Shape},
    sums::AnyRun,
};

#[derive(Clone, Copy, Debug, PartialEq, Eq)]
enum Fault {
    None,
    ResultNotReduced,
    WrongRootOfUnity,
    StoreOnePlaceOn,
    RotationOfTheWrongCube,
    InUniAtNonNegative,
    TableWrittenThoughRefused,
    TableBitsTurnedRound,
    TableEntriesUpwards,
    StartNotTaken,
    StartAtEveryCoordinate,
    StartAtTheFirstEntryAlone,
    WordsOfStartNotLookedAt,
    RecordsWrittenThoughRefused,
    HeightOfWidthZeroLookedAt,
    RefusedWithResults,
    NextMatrixColumn,
    LaterArrivalFirst,
    WidthNotLookedAt,
    NarrowerFirst,
    WidthBeforeHeight,
    FlagAfterWidth,
    WidthZeroLast,
    PlaceOfEachArrival,
    RecordsOfArrivals,
    PlannedAsGiven,
    ArrivalsWrittenThoughRefused,
    UnsortedRecordsWrittenThoughRefused,
    ArrivalsOfAnyLength,
    Over256MatricesRefused,
    LogHeightInTheLowBits,
    SecondWordFirst,
    MatrixInEightBits,
    OddLengthOfRecordsTaken,
    StrideOne,
    GapsNotZeroed,
    WordsOfCellsNotLookedAt,
    ViewOneTooLong,
    PairWithoutRotations,
    PairAtTwoAndOne,
    TablesNotFolded,
    WeightsFoldedInEveryRound,
    FirstOpeningOnly,
    TurnMovedThoughRefused,
    ValuesWrittenThoughRefused,
    PowersRefused,
    OneRefused,
    RowFromTheEnd,
    TablesLeftAtPowers,
    LastWeightNotLookedAt,
    SidesExchanged,
    ObservedOnThirteen,
    LastOpeningNotRead,
    PairNotReduced,
    OpeningsNotReduced,
    NumberThoughDone,
    FirstWithoutRotations,
    FirstOfTheCellsAlone,
    FirstFromTheTop,
    TopCoefficientLost,
    FirstNotReduced,
    FirstTimesLambda,
    FirstAtAnyTurn,
    FirstLeftOut,
    FirstWrittenThoughRefused,
    FirstOfAnyLength,
    WordsOfMatricesNotLookedAt,
    LambdaOfClaimsNotLookedAt,
    RotatedClaimForAll,
    RotatedClaimFirst,
    NextRowForThePrevious,
    ClaimsOfTheLastMatrixFirst,
    ClaimsNotReduced,
    ClaimsWrittenThoughRefused,
    BlocksPast256Lost,
}

const FAULTS: [(&str, Fault); 90] = [
    ("field", Fault::ResultNotReduced),
    ("field", Fault::WrongRootOfUnity),
    ("field", Fault::StoreOnePlaceOn),
    ("tables", Fault::RotationOfTheWrongCube),
    ("tables", Fault::InUniAtNonNegative),
    ("tables", Fault::TableWrittenThoughRefused),
    ("tables", Fault::TableBitsTurnedRound),
    ("tables", Fault::TableEntriesUpwards),
    ("tables", Fault::StartNotTaken),
    ("tables", Fault::StartAtEveryCoordinate),
    ("tables", Fault::StartAtTheFirstEntryAlone),
    ("tables", Fault::WordsOfStartNotLookedAt),
    ("layout", Fault::RecordsWrittenThoughRefused),
    ("layout", Fault::HeightOfWidthZeroLookedAt),
    ("layout", Fault::RefusedWithResults),
    ("layout", Fault::NextMatrixColumn),
    ("layout", Fault::LaterArrivalFirst),
    ("layout", Fault::WidthNotLookedAt),
    ("layout", Fault::NarrowerFirst),
    ("layout", Fault::WidthBeforeHeight),
    ("layout", Fault::FlagAfterWidth),
    ("layout", Fault::WidthZeroLast),
    ("layout", Fault::PlaceOfEachArrival),
    ("layout", Fault::RecordsOfArrivals),
    ("layout", Fault::PlannedAsGiven),
    ("layout", Fault::ArrivalsWrittenThoughRefused),
    ("layout", Fault::UnsortedRecordsWrittenThoughRefused),
    ("layout", Fault::ArrivalsOfAnyLength),
    ("layout", Fault::Over256MatricesRefused),
    ("layout", Fault::LogHeightInTheLowBits),
    ("layout", Fault::SecondWordFirst),
    ("layout", Fault::MatrixInEightBits),
    ("layout", Fault::OddLengthOfRecordsTaken),
    ("stacking", Fault::StrideOne),
    ("stacking", Fault::GapsNotZeroed),
    ("stacking", Fault::WordsOfCellsNotLookedAt),
    ("stacking", Fault::ViewOneTooLong),
    ("runs", Fault::PairWithoutRotations),
    ("runs", Fault::PairAtTwoAndOne),
    ("runs", Fault::TablesNotFolded),
    ("runs", Fault::WeightsFoldedInEveryRound),
    ("runs", Fault::FirstOpeningOnly),
    ("runs", Fault::TurnMovedThoughRefused),
    ("runs", Fault::ValuesWrittenThoughRefused),
    ("runs", Fault::PowersRefused),
    ("runs", Fault::OneRefused),
    ("runs", Fault::RowFromTheEnd),
    ("runs", Fault::TablesLeftAtPowers),
    ("runs", Fault::LastWeightNotLookedAt),
    ("runs", Fault::Over256MatricesRefused),
    ("verdicts", Fault::SidesExchanged),
    ("verdicts", Fault::ObservedOnThirteen),
    ("verdicts", Fault::LastOpeningNotRead),
    ("verdicts", Fault::Over256MatricesRefused),
    ("end_to_end", Fault::PairAtTwoAndOne),
    ("end_to_end", Fault::PairWithoutRotations),
    ("end_to_end", Fault::FirstOpeningOnly),
    ("end_to_end", Fault::LastOpeningNotRead),
    ("end_to_end", Fault::PairNotReduced),
    ("end_to_end", Fault::OpeningsNotReduced),
    ("end_to_end", Fault::NumberThoughDone),
    ("end_to_end", Fault::PowersRefused),
    ("end_to_end", Fault::RowFromTheEnd),
    ("end_to_end", Fault::Over256MatricesRefused),
    ("runs", Fault::FirstWithoutRotations),
    ("runs", Fault::FirstAtAnyTurn),
    ("runs", Fault::FirstLeftOut),
    ("first", Fault::Over256MatricesRefused),
    ("first", Fault::FirstWithoutRotations),
    ("first", Fault::FirstOfTheCellsAlone),
    ("first", Fault::FirstFromTheTop),
    ("first", Fault::TopCoefficientLost),
    ("first", Fault::FirstNotReduced),
    ("first", Fault::FirstTimesLambda),
    ("first", Fault::FirstAtAnyTurn),
    ("first", Fault::FirstWrittenThoughRefused),
    ("first", Fault::FirstOfAnyLength),
    ("first", Fault::WordsOfMatricesNotLookedAt),
    ("first", Fault::LambdaOfClaimsNotLookedAt),
    ("first", Fault::RotatedClaimForAll),
    ("first", Fault::RotatedClaimFirst),
    ("first", Fault::NextRowForThePrevious),
    ("first", Fault::ClaimsOfTheLastMatrixFirst),
    ("first", Fault::ClaimsNotReduced),
    ("first", Fault::ClaimsWrittenThoughRefused),
    ("first", Fault::BlocksPast256Lost),
    ("end_to_end", Fault::FirstOfTheCellsAlone),
    ("end_to_end", Fault::FirstNotReduced),
    ("end_to_end", Fault::RotatedClaimFirst),
    ("end_to_end", Fault::ClaimsNotReduced),
];

#[test]
fn every_fault_is_found_and_nothing_else() {
    for group in &GROUPS {
        let tally = group.run(Some(&Mirror::new(Fault::None)), 7, 0, 2_000);
        assert_eq!(tally.differences, 0, "{}: {tally}", group.name);
        assert_eq!(tally.compared, tally.answers);
        assert!(tally.compared >= 2_000);
    }
    for (name, fault) in FAULTS {
        let group = GROUPS.iter().find(|group| group.name == name).unwrap();
        // Up to the first fifty cases in which it is found.
        let found = (0..2_000).step_by(50).any(|case| {
            let tally = group.run(Some(&Mirror::new(fault)), 7, case, 50);
            tally.differences > 0
        });
        assert!(found, "{fault:?} is not found in {name}");
    }
}

/// The answers of the original and of document 01, with one fault.
struct Mirror {
    fault: Fault,
    played: RefCell<Played>,
}

/// What the original's prover is given again to come to a call of a run: it takes no work buffers.
#[derive(Default)]
struct Played {
    matrices: Vec<u32>,
    challenges: Vec<EF>,
}

impl Mirror {
    fn new(fault: Fault) -> Self {
        Self {
            fault,
            played: RefCell::default(),
        }
    }

    fn has(&self, fault: Fault) -> bool {
        self.fault == fault
    }

    /// Whether the fault refuses so many matrices.
    fn too_many(&self, matrices: usize) -> bool {
        self.has(Fault::Over256MatricesRefused) && matrices > 256
    }

    /// What the matrices fall by.
    fn order(&self, m: &Matrix) -> (u32, u32, u32) {
        match self.fault {
            Fault::WidthNotLookedAt => (m.log_height, 0, 0),
            Fault::NarrowerFirst => (m.log_height, u32::MAX - m.width, 0),
            Fault::WidthBeforeHeight => (m.width, m.log_height, 0),
            Fault::FlagAfterWidth => (m.log_height, m.width, m.flag),
            _ => (m.log_height, m.width, 0),
        }
    }

    /// The records, as the fault packs and writes them.
    fn write(&self, records: &[Record], out: &mut [u64]) {
        for ([first, second], out) in records.iter().zip(out.chunks_exact_mut(2)) {
            let written = match self.fault {
                Fault::LogHeightInTheLowBits => [*first, second >> 59],
                Fault::SecondWordFirst => [*second, *first],
                Fault::MatrixInEightBits => [first & u64::MAX >> 8, *second],
                _ => [*first, *second],
            };
            out.copy_from_slice(&written);
        }
    }

    /// The words of a slice for records that the fault looks at.
    fn looked_at(&self, records: &[u64]) -> usize {
        match self.has(Fault::OddLengthOfRecordsTaken) {
            true => records.len() / 2 * 2,
            false => records.len(),
        }
    }

    /// Document 01's number of a call of a run.
    fn run_number(&self, turn: u32, call: Call, lent: &RunLent) -> u32 {
        let mut given = lent.given();
        let all_but_last = given.work.eq_ub.len().saturating_sub(1);
        let mut weights = given.work.eq_ub.to_vec();
        if self.has(Fault::LastWeightNotLookedAt) {
            weights[all_but_last..].fill(0);
            given.work.eq_ub = &weights;
        }
        let mut turn = Turn::after_calls(turn, lent.input.lists.n_stack);
        match (self.fault, call) {
            (Fault::FirstAtAnyTurn, Call::First) => turn = Turn::First,
            (Fault::FirstLeftOut, Call::FoldAtU0) if turn == Turn::First => turn = Turn::FoldAtU0,
            (Fault::FirstOfAnyLength, _) => {
                let l_skip = lent.input.lists.l_skip.min(10);
                given.coefficients = 4 * ((2 << l_skip) - 1);
            }
            _ => {}
        }
        let looked_at = self.looked_at_words(given.input);
        if call == Call::First {
            given.input = &looked_at;
        }
        if let Err(number) = scope::run_call(turn, call, &given) {
            return number;
        }
        if self.too_many(lent.input.lists.words.len() / 3) {
            return 1;
        }
        let refused = match self.fault {
            Fault::PowersRefused => self.at_a_power(call, lent),
            Fault::OneRefused => call == Call::FoldAtU0 && lent.challenge == [1, 0, 0, 0],
            _ => false,
        };
        if refused {
            12
        } else {
            0
        }
    }

    /// What the first polynomial and the claims are given, with the words that the fault passes over reduced.
    fn looked_at_words(&self, input: &RunInput) -> RunInput {
        let mut input = input.clone();
        if self.has(Fault::WordsOfMatricesNotLookedAt) {
            input.matrices.iter_mut().for_each(|word| *word %= P);
        }
        input
    }

    /// The stacked matrices as the fault reads them.
    fn read(&self, shape: &Shape, matrices: &[u32]) -> Vec<u32> {
        let fault = self.fault;
        match fault {
            Fault::FirstOfTheCellsAlone => {
                let mut out = vec![0; matrices.len()];
                for cells in places(shape) {
                    cells.iter().for_each(|i| out[*i] = matrices[*i]);
                }
                out
            }
            Fault::BlocksPast256Lost => {
                let mut out = matrices.to_vec();
                for cells in places(shape) {
                    let past = cells.iter().skip(256 << shape.l_skip);
                    past.for_each(|i| out[*i] = 0);
                }
                out
            }
            _ => matrices.to_vec(),
        }
    }

    fn first_polynomial(&self, turn: u32, number: u32, lent: RunLent) -> StepAnswer {
        let answer = |turn| StepAnswer {
            number,
            turn,
            ..Default::default()
        };
        if number != 0 {
            if self.has(Fault::FirstWrittenThoughRefused) && number == 10 {
                lent.coefficients.fill(0);
            }
            return answer(turn);
        }
        let mut shape = Shape::of_words(&lent.input.lists);
        if self.has(Fault::FirstWithoutRotations) {
            let matrices = shape.lists.iter_mut().flatten();
            matrices.for_each(|matrix| matrix.flag = 0);
        }
        let matrices = self.read(&shape, &lent.input.matrices);
        let committed = Committed::new(&shape, &matrices);
        let (r, lambda) = (elements(&lent.input.r), element(lent.input.lambda));
        let mut first = Run::start(&committed, &r, lambda).first_polynomial();
        match self.fault {
            Fault::FirstFromTheTop => first.reverse(),
            Fault::TopCoefficientLost => *first.last_mut().unwrap() = EF::ZERO,
            Fault::FirstTimesLambda => first.iter_mut().for_each(|c| *c *= lambda),
            _ => {}
        }
        let mut first = flat(&first);
        if self.has(Fault::FirstNotReduced) {
            first[0] += P;
        }
        let out = lent.coefficients.iter_mut().zip(first);
        out.for_each(|(out, word)| *out = word);
        answer(turn + 1)
    }

    /// The claims as the fault has them.
    fn claims(&self, input: &RunInput) -> Vec<u32> {
        let mut shape = Shape::of_words(&input.lists);
        let (r, flags) = (elements(&input.r), shape.clone());
        if self.has(Fault::RotatedClaimForAll) {
            let matrices = shape.lists.iter_mut().flatten();
            matrices.for_each(|matrix| matrix.flag = 1);
        }
        let matrices = self.read(&shape, &input.matrices);
        let mut claims = Committed::new(&shape, &matrices).claims(&r);
        let mut turned = matrices.clone();
        for cells in places(&shape) {
            for (t, place) in cells.iter().enumerate() {
                turned[cells[(t + 1) % cells.len()]] = matrices[*place];
            }
        }
        let mut plain = shape.clone();
        let unflagged = plain.lists.iter_mut().flatten();
        unflagged.for_each(|matrix| matrix.flag = 0);
        let next = Committed::new(&plain, &turned).claims(&r);
        let mut at = 0;
        for (column, next) in flags.columns().zip(next) {
            if column.flag == 1 {
                match self.fault {
                    Fault::RotatedClaimFirst => claims.swap(at, at + 1),
                    Fault::NextRowForThePrevious => claims[at + 1] = next,
                    _ => {}
                }
            }
            at += 1 + column.flag as usize;
        }
        if self.has(Fault::ClaimsOfTheLastMatrixFirst) {
            claims.reverse();
        }
        let mut claims = flat(&claims);
        if self.has(Fault::ClaimsNotReduced) {
            claims[0] += P;
        }
        claims
    }

    /// Of a call that document 01's numbers accept.
    fn at_a_power(&self, call: Call, lent: &RunLent) -> bool {
        call == Call::FoldAtU0 && scope::in_skip_subgroup(lent.input.lists.l_skip, lent.challenge)
    }
}

/// A table from the last coordinate, in place and from the first entry up: entry 1 is written over before it is read.
fn upwards(x: &[EF]) -> Vec<EF> {
    let mut table = vec![element([1, 0, 0, 0]); 1 << x.len()];
    for (done, x) in x.iter().rev().enumerate() {
        for j in 0..1 << done {
            let entry = table[j];
            table[2 * j + 1] = entry * *x;
            table[2 * j] = entry - entry * *x;
        }
    }
    table
}

/// Where the cells of each column stand in the stacked matrices.
fn places(shape: &Shape) -> Vec<Vec<usize>> {
    let mut before = 0;
    let mut columns = vec![];
    for layout in original::layouts(shape) {
        for (_, _, slice) in &layout.sorted_cols {
            let start = (before + slice.col_idx) * shape.height() + slice.row_idx;
            let stride = slice.stride(layout.l_skip());
            let cells = 0..1 << slice.log_height();
            columns.push(cells.map(|t: usize| start + t * stride).collect());
        }
        before += layout.width();
    }
    columns
}

impl Library for Mirror {
    fn add(&self, a: Words, b: Words) -> Words {
        let mut sum = words(element(a) + element(b));
        if self.has(Fault::ResultNotReduced) && sum[3] == 0 {
            sum[3] = P;
        }
        sum
    }

    fn sub(&self, a: Words, b: Words) -> Words {
        words(element(a) - element(b))
    }

    fn neg(&self, a: Words) -> Words {
        words(-element(a))
    }

    fn double(&self, a: Words) -> Words {
        words(element(a).double())
    }

    fn halve(&self, a: Words) -> Words {
        words(element(a).halve())
    }

    fn mul(&self, a: Words, b: Words) -> Words {
        words(element(a) * element(b))
    }

    fn square(&self, a: Words) -> Words {
        words(element(a).square())
    }

    fn scale(&self, a: Words, word: u32) -> Words {
        words(element(a) * residue(word))
    }

    fn from_word(&self, word: u32) -> Words {
        words(constant(word))
    }

    fn exp_power_of_2(&self, a: Words, k: u32) -> Words {
        words(element(a).exp_power_of_2(k as usize))
    }

    fn skip_power(&self, l_skip: u32, i: u32) -> u32 {
        let order = l_skip + u32::from(self.has(Fault::WrongRootOfUnity));
        let generator = F::two_adic_generator(order as usize);
        generator.exp_u64(i as u64).word()
    }

    fn load(&self, s: &[u32], index: usize) -> Words {
        std::array::from_fn(|i| s.get(4 * index + i).map_or(0, |x| x % P))
    }

    fn store(&self, s: &mut [u32], index: usize, a: Words) {
        let start = 4 * index + usize::from(self.has(Fault::StoreOnePlaceOn));
        if start + 4 <= s.len() {
            s[start..start + 4].copy_from_slice(&a);
        }
    }

    fn eval_eq_mle(&self, x: &[u32], y: &[u32]) -> Words {
        words(original::eval_eq_mle(&elements(x), &elements(y)))
    }

    fn eval_eq_uni(&self, l_skip: u32, x: Words, y: Words) -> Words {
        words(original::eval_eq_uni(
            l_skip as usize,
            element(x),
            element(y),
        ))
    }

    fn eval_eq_uni_at_one(&self, l_skip: u32, x: Words) -> Words {
        words(original::eval_eq_uni_at_one(l_skip as usize, element(x)))
    }

    fn eval_in_uni(&self, l_skip: u32, n: i32, z: Words) -> Words {
        if self.has(Fault::InUniAtNonNegative) && n == 0 {
            return z;
        }
        words(original::eval_in_uni(
            l_skip as usize,
            n as isize,
            element(z),
        ))
    }

    fn eval_eq_prism(&self, l_skip: u32, x: &[u32], y: &[u32]) -> Words {
        words(original::eval_eq_prism(
            l_skip as usize,
            &elements(x),
            &elements(y),
        ))
    }

    fn eval_rot_kernel_prism(&self, l_skip: u32, x: &[u32], y: &[u32]) -> Words {
        let (x, y) = (elements(x), elements(y));
        words(original::eval_rot_kernel_prism(l_skip as usize, &x, &y))
    }

    fn eval_eq_rot_cube(&self, x: &[u32], y: &[u32]) -> [Words; 2] {
        let (eq, rot) = if self.has(Fault::RotationOfTheWrongCube) {
            original::eval_eq_rot_cube(&elements(y), &elements(x))
        } else {
            original::eval_eq_rot_cube(&elements(x), &elements(y))
        };
        [words(eq), words(rot)]
    }

    fn horner_eval(&self, coefficients: &[u32], x: Words) -> Words {
        let value: EF = original::horner_eval(&elements(coefficients), element(x));
        words(value)
    }

    fn interpolate_linear_at_01(&self, evals: [Words; 2], x: Words) -> Words {
        words(original::interpolate_linear_at_01(
            &evals.map(element),
            element(x),
        ))
    }

    fn interpolate_quadratic_at_012(&self, evals: [Words; 3], x: Words) -> Words {
        words(original::interpolate_quadratic_at_012(
            &evals.map(element),
            element(x),
        ))
    }

    fn evals_eq_hypercube(&self, start: Words, x: &[u32], out: &mut [u32]) -> u32 {
        if x.len() % 4 != 0 || out.len() != 4 << (x.len() / 4) {
            return 9;
        }
        let mut x_elements = elements(x);
        if self.has(Fault::TableBitsTurnedRound) {
            x_elements.reverse();
        }
        let mut table = original::evals_eq_hypercube(&x_elements);
        if self.has(Fault::TableEntriesUpwards) {
            table = upwards(&x_elements);
        }
        let scaled = match self.fault {
            Fault::StartNotTaken => 0,
            Fault::StartAtTheFirstEntryAlone => 1,
            _ => table.len(),
        };
        let times = match self.fault {
            Fault::StartAtEveryCoordinate => x_elements.len(),
            _ => 1,
        };
        for entry in &mut table[..scaled] {
            for _ in 0..times {
                *entry *= element(start);
            }
        }
        let table = flat(&table);
        let looked_at: &[u32] = match self.fault {
            Fault::WordsOfStartNotLookedAt => &[],
            _ => &start,
        };
        let refused = x.iter().chain(looked_at).any(|word| *word >= P);
        if !refused || self.has(Fault::TableWrittenThoughRefused) {
            out.copy_from_slice(&table);
        }
        if refused {
            10
        } else {
            0
        }
    }

    fn plan(&self, l_skip: u32, n_stack: u32, list: &[u32], records: &mut [u64]) -> PlanAnswer {
        let number = match scope::planning(l_skip, n_stack, list, self.looked_at(records)) {
            Ok(_) if self.too_many(list.len() / 3) => 1,
            Ok(_) if self.has(Fault::HeightOfWidthZeroLookedAt) => {
                let top = l_skip + n_stack;
                let tall = matrices(list).iter().any(|m| m.log_height > top);
                if tall {
                    4
                } else {
                    0
                }
            }
            answer => answer.err().unwrap_or(0),
        };
        if number != 0 {
            if self.has(Fault::RecordsWrittenThoughRefused) && number == 6 {
                records[0] = 0;
            }
            let width = u32::from(self.has(Fault::RefusedWithResults));
            return PlanAnswer {
                number,
                width,
                ..Default::default()
            };
        }
        let plan = original::plan(l_skip, n_stack, &matrices(list)).unwrap();
        self.write(&plan.records, records);
        PlanAnswer {
            number,
            width: plan.width,
            height: plan.height,
            columns: plan.records.len() as u32,
        }
    }

    fn plan_unsorted(
        &self,
        l_skip: u32,
        n_stack: u32,
        list: &[u32],
        arrivals: &mut [u32],
        records: &mut [u64],
    ) -> PlanAnswer {
        let given = matrices(list);
        let lent = match self.has(Fault::ArrivalsOfAnyLength) {
            true => given.len(),
            false => arrivals.len(),
        };
        let words = self.looked_at(records);
        let mut answer = scope::unsorted_planning(l_skip, n_stack, list, lent, words);
        if self.too_many(given.len()) {
            answer = answer.and(Err(1));
        }
        if self.has(Fault::PlannedAsGiven) {
            let as_given = scope::planning(l_skip, n_stack, list, records.len());
            answer = answer.and(as_given.map(|_| ()));
        }
        if let Err(number) = answer {
            if self.has(Fault::ArrivalsWrittenThoughRefused) && number == 4 {
                arrivals.fill(0);
            }
            if self.has(Fault::UnsortedRecordsWrittenThoughRefused) && number == 9 {
                records.fill(0);
            }
            return PlanAnswer {
                number,
                ..Default::default()
            };
        }
        let mut positions: Vec<u32> = (0..given.len() as u32).collect();
        if self.has(Fault::LaterArrivalFirst) {
            positions.reverse();
        }
        positions.sort_by_key(|i| Reverse(self.order(&given[*i as usize])));
        if self.has(Fault::WidthZeroLast) {
            positions.sort_by_key(|i| given[*i as usize].width == 0);
        }
        let sorted: Vec<_> = positions.iter().map(|i| given[*i as usize]).collect();
        if let Err(number) = scope::planning(l_skip, n_stack, &triples(&sorted), words) {
            // Its heights rise.
            assert!(self.has(Fault::WidthBeforeHeight));
            return PlanAnswer {
                number,
                ..Default::default()
            };
        }
        let mut plan = original::plan(l_skip, n_stack, &sorted).unwrap();
        if self.has(Fault::RecordsOfArrivals) {
            for [first, _] in &mut plan.records {
                let place = *first >> 48;
                *first ^= (place ^ u64::from(positions[place as usize])) << 48;
            }
        }
        if self.has(Fault::PlaceOfEachArrival) {
            for (place, arrival) in (0..).zip(positions.clone()) {
                positions[arrival as usize] = place;
            }
        }
        arrivals.iter_mut().zip(positions).for_each(|(a, p)| *a = p);
        self.write(&plan.records, records);
        PlanAnswer {
            number: 0,
            width: plan.width,
            height: plan.height,
            columns: plan.records.len() as u32,
        }
    }

    fn get(&self, l_skip: u32, n_stack: u32, list: &[u32], matrix: u32, column: u32) -> GetAnswer {
        match scope::get(l_skip, n_stack, list, matrix, column) {
            Ok(place) => GetAnswer {
                number: 0,
                record: place.record(),
            },
            Err(11) if self.has(Fault::NextMatrixColumn) => {
                let next = scope::get(l_skip, n_stack, list, matrix.wrapping_add(1), 0);
                let record = next.map_or([0; 2], |place| place.record());
                GetAnswer {
                    number: if record == [0; 2] { 11 } else { 0 },
                    record,
                }
            }
            Err(number) => GetAnswer {
                number,
                record: [0; 2],
            },
        }
    }

    fn stacked_matrix(
        &self,
        l_skip: u32,
        n_stack: u32,
        list: &[u32],
        cells: &[u32],
        out: &mut [u32],
    ) -> StackAnswer {
        let reduced: Vec<u32> = cells.iter().map(|x| x % P).collect();
        let looked_at = if self.has(Fault::WordsOfCellsNotLookedAt) {
            &reduced
        } else {
            cells
        };
        match scope::stacking(l_skip, n_stack, list, looked_at, out.len()) {
            Err(number) => StackAnswer {
                number,
                ..Default::default()
            },
            Ok(mut words) => {
                if self.has(Fault::StrideOne) {
                    // A short column's second cell, next to the first.
                    let short = list[1] < 1 << l_skip && list[0] > 0 && list[1] > 1;
                    if short {
                        words.swap(1, (1 << l_skip) / list[1] as usize);
                    }
                }
                for (to, from) in out.iter_mut().zip(&words) {
                    if !(self.has(Fault::GapsNotZeroed) && *from == 0) {
                        *to = *from;
                    }
                }
                let height = 1 << (l_skip + n_stack);
                StackAnswer {
                    number: 0,
                    width: words.len() as u32 / height,
                    height,
                }
            }
        }
    }

    fn mat_place(
        &self,
        l_skip: u32,
        n_stack: u32,
        list: &[u32],
        stacked: &[u32],
        matrix: u32,
    ) -> ViewAnswer {
        match scope::view(l_skip, n_stack, list, matrix, Some(stacked)) {
            Err(number) => ViewAnswer {
                number,
                ..Default::default()
            },
            Ok((start, length)) => {
                let more = u64::from(self.has(Fault::ViewOneTooLong));
                ViewAnswer {
                    number: 0,
                    start,
                    length: length + more,
                }
            }
        }
    }

    fn run_call(&self, turn: u32, call: Call, lent: RunLent) -> StepAnswer {
        let number = self.run_number(turn, call, &lent);
        if call == Call::First {
            return self.first_polynomial(turn, number, lent);
        }
        if number != 0 {
            if self.has(Fault::ValuesWrittenThoughRefused) && number == 10 {
                lent.work[0].fill(0);
            }
            // A fold at u_0 that only the fault refuses: the calls after it are compared all the same.
            if number == 12 {
                let mut played = self.played.borrow_mut();
                played.matrices = lent.input.matrices.clone();
                played.challenges = vec![element(lent.challenge)];
            }
            let moved = u32::from(self.has(Fault::TurnMovedThoughRefused) && number == 10);
            return StepAnswer {
                number,
                turn: turn + moved,
                ..Default::default()
            };
        }
        let mut shape = Shape::of_words(&lent.input.lists);
        if self.has(Fault::PairWithoutRotations) && matches!(call, Call::Pair(_)) {
            let matrices = shape.lists.iter_mut().flatten();
            matrices.for_each(|matrix| matrix.flag = 0);
        }
        let mut played = self.played.borrow_mut();
        played
            .challenges
            .truncate(turn.saturating_sub(1) as usize / 2);
        match call {
            Call::Start => {
                let rows = lent.openings.len() / 4 * shape.height();
                played.matrices = vec![0; rows];
                played.challenges.clear();
            }
            Call::FoldAtU0 => {
                played.matrices = lent.input.matrices.clone();
                let u_0 = element(lent.challenge);
                let turned = self.has(Fault::RowFromTheEnd) && self.at_a_power(call, &lent);
                played
                    .challenges
                    .push(if turned { u_0.inverse() } else { u_0 });
            }
            Call::Fold(_) => played.challenges.push(element(lent.challenge)),
            Call::First | Call::Pair(_) | Call::Openings => {}
        }
        let committed = Committed::new(&shape, &played.matrices);
        let (r, lambda) = (elements(&lent.input.r), element(lent.input.lambda));
        let at_a_power = self.at_a_power(call, &lent);
        let mut run = AnyRun::start(&committed, &r, lambda);
        for (round, u) in played.challenges.iter().enumerate() {
            match round {
                0 => run.fold_at_u_0(*u),
                _ => run.fold(round, *u),
            }
        }
        let [q_evals, eq_r, k_rot_r, eq_ub] = lent.work;
        let mut pair = [[0; 4]; 2];
        match call {
            Call::Pair(round) => {
                pair = run.pair(round as usize).map(words);
                if self.has(Fault::PairAtTwoAndOne) {
                    pair.reverse();
                }
                if self.has(Fault::PairNotReduced) {
                    pair[1][0] += P;
                }
            }
            Call::Openings => {
                let mut openings = flat(&run.openings());
                if self.has(Fault::FirstOpeningOnly) {
                    openings[4..].fill(0);
                }
                if self.has(Fault::OpeningsNotReduced) {
                    openings[0] += P;
                }
                lent.openings.copy_from_slice(&openings);
            }
            Call::First => unreachable!("it is made by itself"),
            Call::Start | Call::FoldAtU0 | Call::Fold(_) => {
                let [values, eq, rot, weights] = run.work_buffers();
                q_evals.copy_from_slice(&values);
                let later = matches!(call, Call::Fold(_));
                let not_folded = later && self.has(Fault::TablesNotFolded)
                    || at_a_power && self.has(Fault::TablesLeftAtPowers);
                if !not_folded {
                    eq_r.copy_from_slice(&eq);
                    k_rot_r.copy_from_slice(&rot);
                }
                let before = elements(eq_ub);
                eq_ub.copy_from_slice(&weights);
                if later && self.has(Fault::WeightsFoldedInEveryRound) && flat(&before) == weights {
                    let scaled: Vec<EF> = before
                        .iter()
                        .map(|weight| *weight * element(lent.challenge))
                        .collect();
                    eq_ub.copy_from_slice(&flat(&scaled));
                }
            }
        }
        let turn = match call {
            Call::Start => 1,
            _ => turn + 1,
        };
        let number = if self.has(Fault::NumberThoughDone) {
            9
        } else {
            0
        };
        StepAnswer { number, turn, pair }
    }

    fn column_openings(&self, input: &RunInput, out: &mut [u32]) -> u32 {
        let mut looked_at = self.looked_at_words(input);
        if self.has(Fault::LambdaOfClaimsNotLookedAt) {
            looked_at.lambda = [0; 4];
        }
        let mut number = scope::column_openings(&looked_at, out.len())
            .err()
            .unwrap_or(0);
        if number == 0 && self.too_many(input.lists.words.len() / 3) {
            number = 1;
        }
        if number == 0 {
            let claims = self.claims(input);
            out.iter_mut()
                .zip(claims)
                .for_each(|(out, word)| *out = word);
        } else if number == 10 && self.has(Fault::ClaimsWrittenThoughRefused) {
            out.fill(0);
        }
        number
    }

    fn verdict(&self, given: &VerdictGiven, observed: &mut [u32]) -> VerdictAnswer {
        if let Err(number) = scope::verdict(given) {
            return VerdictAnswer::refused(number);
        }
        if self.too_many(given.lists.words.len() / 3) {
            return VerdictAnswer::refused(1);
        }
        let mut openings = given.openings.to_vec();
        if self.has(Fault::LastOpeningNotRead) {
            let last = openings.len() - 4;
            openings[last..].fill(0);
        }
        let verdict = original::verdict_by_words(&VerdictGiven {
            openings: &openings,
            ..*given
        });
        let sent_words = [given.first, given.pairs, given.openings].concat();
        match verdict.outcome {
            Outcome::Accepted => {
                observed.copy_from_slice(&sent_words);
                VerdictAnswer::default()
            }
            Outcome::Refused(number, left, right) => {
                if number == 14 || self.has(Fault::ObservedOnThirteen) {
                    observed.copy_from_slice(&sent_words);
                }
                let (left, right) = if self.has(Fault::SidesExchanged) {
                    (right, left)
                } else {
                    (left, right)
                };
                VerdictAnswer {
                    number,
                    left: words(left),
                    right: words(right),
                }
            }
        }
    }
}
