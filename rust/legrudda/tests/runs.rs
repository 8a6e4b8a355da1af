//! Whole runs on the stored session: every call, the work buffers after it, and refused calls between.
use elements::element;
use legrudda::{layout, Element, Error, Run};
use session::{answer, replay};
use shape::Shape;

mod elements;
mod session;
mod shape;

const NOTHING: [u32; 0] = [];

#[derive(Default)]
struct Session {
    shape: Shape,
    matrices: Vec<u32>,
    r: Vec<u32>,
    lambda: Element,
    run: Option<Run>,
    /// The session gives a call of the run another r. A run keeps its own, so this is another run, not started.
    with_another_r: Option<Run>,
    calls_with_another_r: usize,
    /// How many openings were returned of one commitment, and of more.
    openings: [usize; 2],
}

impl Session {
    fn new_run(&self, r: &[u32]) -> Run {
        let Shape {
            l_skip,
            n_stack,
            counts,
            lists,
        } = &self.shape;
        Run::new(*l_skip, *n_stack, counts, lists, r, self.lambda)
    }

    fn reply(&mut self, name: &str, numbers: &[u32]) -> String {
        match name {
            "shape" => {
                self.shape = Shape::read(numbers);
                self.run = Some(self.new_run(&[]));
            }
            "matrix" => self.matrices = numbers.to_vec(),
            "lambda" => self.lambda = element(numbers),
            "point" => self.point(numbers),
            "room" => {
                let run = self.run.insert(self.new_run(&self.r));
                return answer(Ok(run.work_buffers().map(<[u32]>::len)));
            }
            _ => return self.call(name, numbers),
        }
        answer(Ok(NOTHING))
    }

    fn point(&mut self, r: &[u32]) {
        let started = self.run.as_ref().is_some_and(|run| run.turn() > 0);
        if started && r != self.r {
            self.with_another_r = Some(self.new_run(r));
        } else {
            self.r = r.to_vec();
            self.with_another_r = None;
        }
    }

    fn call(&mut self, name: &str, numbers: &[u32]) -> String {
        if let Some(other) = &mut self.with_another_r {
            self.calls_with_another_r += 1;
            return answer(other.start().map(|()| NOTHING));
        }
        let run = self.run.as_mut().expect("a shape");
        let (turn, before) = (run.turn(), run.work_buffers().concat());
        let asked_by_commitment = run.clone();
        let result = match name {
            "start" => run.start().map(|()| vec![]),
            "round0" => run.first_polynomial(&self.matrices),
            "fold0" => run
                .fold_ple_evals(&self.matrices, element(numbers))
                .map(|()| vec![]),
            "pair" => run
                .round_pair(numbers[0])
                .map(|pair| [pair.at_1.words, pair.at_2.words].concat()),
            "fold" => run
                .fold_mle_evals(numbers[0], element(&numbers[1..]))
                .map(|()| vec![]),
            "openings" => run.openings(),
            "work" => return answer(Ok(before)),
            _ => panic!("no such command"),
        };
        match &result {
            Ok(_) if name == "start" => assert_eq!(run.turn(), 1),
            Ok(_) => assert_eq!(run.turn(), turn + 1),
            Err(_) => assert_eq!((run.turn(), run.work_buffers().concat()), (turn, before)),
        }
        if name == "openings" {
            self.by_commitment(asked_by_commitment, &result);
        }
        answer(result)
    }

    /// The same openings are those of each commitment in turn, one a stack column.
    fn by_commitment(&mut self, mut run: Run, openings: &Result<Vec<u32>, Error>) {
        let by_commitment = run.openings_by_commitment();
        let Ok(openings) = openings else {
            assert_eq!(by_commitment.map(|_| ()), openings.clone().map(|_| ()));
            return;
        };
        let by_commitment = by_commitment.unwrap();
        let (mut lists, mut widths) = (&self.shape.lists[..], vec![]);
        for count in &self.shape.counts {
            let (list, later) = lists.split_at(3 * *count as usize);
            let (plan, records) =
                layout::plan(self.shape.l_skip, self.shape.n_stack, list).unwrap();
            let last = records.last().unwrap().decode().slice.col_idx;
            assert_eq!(plan.width, last + 1);
            widths.push(plan.width as usize);
            lists = later;
        }
        assert_eq!(run.stack_widths(), widths);
        assert_eq!(
            by_commitment.iter().map(Vec::len).collect::<Vec<_>>(),
            widths
        );
        let words = by_commitment.concat().into_iter();
        assert_eq!(&words.flat_map(|e| e.words).collect::<Vec<_>>(), openings);
        self.openings[usize::from(widths.len() > 1)] += 1;
    }
}

#[test]
fn stored_runs() {
    let mut session = Session::default();
    let replayed = replay("runs", |name, numbers| session.reply(name, numbers));
    assert_eq!(replayed, 1_257);
    assert_eq!(session.calls_with_another_r, 32);
    assert_eq!(session.openings, [53, 14]);
}

/// One column 4, 10 at l_skip 0.
fn small_run() -> Run {
    let r = [7, 0, 0, 0, 8, 0, 0, 0];
    Run::new(0, 1, &[1], &[1, 1, 0], &r, [5, 0, 0, 0].into())
}

#[test]
fn a_start_begins_again() {
    let (u_0, u_1) = ([3, 0, 0, 0].into(), [9, 0, 0, 0].into());
    let mut run = small_run();
    for _ in 0..2 {
        run.start().unwrap();
        assert_eq!(run.fold_ple_evals(&[4, 10], u_0), Err(Error::OutOfTurn));
        assert_eq!(run.first_polynomial(&[4, 10]), Ok(vec![52, 0, 0, 0]));
        run.fold_ple_evals(&[4, 10], u_0).unwrap();
        let pair = run.round_pair(1).unwrap();
        assert_eq!(
            (pair.at_1.words, pair.at_2.words),
            ([80, 0, 0, 0], [368, 0, 0, 0])
        );
        run.fold_mle_evals(1, u_1).unwrap();
        assert_eq!(run.openings().unwrap(), [58, 0, 0, 0]);
        assert_eq!(run.openings(), Err(Error::OutOfTurn));
    }
}

#[test]
fn refused_matrices_and_challenges() {
    let mut run = small_run();
    let (good, bad) = ([3, 0, 0, 0].into(), [0, legrudda::P, 0, 0].into());
    run.start().unwrap();
    for (matrices, error) in [
        (&[4][..], Error::WrongLength),
        (&[4, 10, 0], Error::WrongLength),
        (&[4, legrudda::P], Error::NotCanonical),
    ] {
        assert_eq!(run.first_polynomial(matrices), Err(error));
        assert_eq!(run.column_openings(matrices), Err(error));
    }
    run.first_polynomial(&[4, 10]).unwrap();
    assert_eq!(run.first_polynomial(&[4, 10]), Err(Error::OutOfTurn));
    assert_eq!(run.fold_ple_evals(&[4], good), Err(Error::WrongLength));
    assert_eq!(
        run.fold_ple_evals(&[4, legrudda::P], good),
        Err(Error::NotCanonical)
    );
    assert_eq!(run.fold_ple_evals(&[4, 10], bad), Err(Error::NotCanonical));
    run.fold_ple_evals(&[4, 10], good).unwrap();
    run.round_pair(1).unwrap();
    assert_eq!(run.fold_mle_evals(1, bad), Err(Error::NotCanonical));
    run.fold_mle_evals(1, good).unwrap();
}

/// A run is made of lists that no start takes, whatever sizes they name.
#[test]
fn refused_lists() {
    let r = [0; 4];
    let wide = [u32::MAX, 0, 0].repeat(4096);
    let one_more = [1, 0, 0].repeat(4097);
    for (l_skip, n_stack, counts, lists, error) in [
        (11, 0, &[1][..], &[1, 0, 0][..], Error::LimitExceeded),
        (0, u32::MAX, &[1], &[1, 0, 0], Error::LimitExceeded),
        (0, 0, &[], &[], Error::LimitExceeded),
        (0, 0, &[1; 17], &[1, 0, 0].repeat(17), Error::LimitExceeded),
        (0, 0, &[1, 2], &[1, 0, 0].repeat(3), Error::LimitExceeded),
        (0, 0, &[u32::MAX], &[1, 0, 0], Error::LimitExceeded),
        (0, 0, &[4097], &one_more, Error::LimitExceeded),
        (0, 0, &[4097, 1], &one_more, Error::LimitExceeded),
        (0, 0, &[4096], &wide, Error::TooManyColumns),
        (0, 0, &[1], &[1, 1, 0], Error::LayoutHeightExceeded),
        (0, 0, &[1], &[1, u32::MAX, 0], Error::LayoutHeightExceeded),
        (0, 3, &[2], &[1, 2, 0, 1, 3, 0], Error::LayoutRowOverflow),
        (0, 2, &[2], &[1, 0, 0, 1, 1, 0], Error::HeightsRise),
        (0, 0, &[1, 1], &[1, 0, 0, 0, 0, 0], Error::NoColumn),
        (0, 0, &[2], &[1, 0, 0], Error::WrongLength),
        (0, 0, &[1], &[1, 0, 0, 1, 0, 0], Error::WrongLength),
        (0, 0, &[1], &[1, 0, 0, 1], Error::WrongLength),
    ] {
        let mut run = Run::new(l_skip, n_stack, counts, lists, &r, Element::default());
        assert_eq!(run.start(), Err(error), "{l_skip} {n_stack} {counts:?}");
        assert_eq!(run.turn(), 0);
        let later = if error == Error::WrongLength {
            Error::OutOfTurn
        } else {
            error
        };
        assert_eq!(run.round_pair(1), Err(later));
        assert_eq!(run.first_polynomial(&[]), Err(later));
        assert_eq!(run.column_openings(&[]), Err(error));
    }
}
