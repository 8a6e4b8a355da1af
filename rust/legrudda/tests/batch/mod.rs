//! A session over every call that takes a list, answered by the client.
use std::collections::HashMap;

use legrudda::{layout, verdict, Asked, Error, Run};

use crate::{elements::element, session::answer, shape::Shape};

const NOTHING: [u32; 0] = [];

#[derive(Default)]
pub struct Session {
    shape: Shape,
    /// By the names of the session's lines.
    slices: HashMap<String, Vec<u32>>,
    run: Option<Run>,
    /// What the run was made of: its shape's, r's and lambda's lines.
    of: [Vec<u32>; 3],
    observed: Vec<u32>,
    /// How many lines were answered by each number, and how many verdicts accepted.
    pub refused: [usize; 15],
    pub accepted: usize,
}

impl Session {
    fn slice(&self, name: &str) -> &[u32] {
        self.slices.get(name).map_or(&[], Vec::as_slice)
    }

    /// The answer to a line.
    pub fn reply(&mut self, name: &str, numbers: &[u32]) -> String {
        let Shape {
            l_skip,
            n_stack,
            ref counts,
            ref lists,
        } = self.shape;
        let first = || &lists[..3 * counts[0] as usize];
        let line = match name {
            "shape" => {
                self.shape = Shape::read(numbers);
                self.slices.insert(name.to_string(), numbers.to_vec());
                answer(Ok(NOTHING))
            }
            "plan" => answer(plan(l_skip, n_stack, first())),
            "plan_unsorted" => answer(plan_unsorted(l_skip, n_stack, first())),
            "get" => answer(get(l_skip, n_stack, first(), numbers)),
            "stack" => answer(stack(l_skip, n_stack, first(), self.slice("cells"))),
            "view" => {
                let mat_idx = numbers[1] as usize;
                let stacked = self.slice("matrix");
                let place = layout::mat_place(l_skip, n_stack, first(), stacked, mat_idx);
                answer(place.map(|place| [place.start, place.len()]))
            }
            "room" => {
                let room = legrudda::room(l_skip, n_stack, counts, lists);
                self.run = Some(self.new_run());
                self.of = self.lines();
                answer(room.map(|room| [room.q_evals, room.eq_r, room.k_rot_r, room.eq_ub]))
            }
            "verdict" => self.verdict(),
            "observed" => answer(Ok(&self.observed)),
            "round0" => answer(self.first_polynomial()),
            "column_openings" => answer(self.column_openings()),
            "start" | "work" | "fold0" | "pair" | "fold" | "openings" => {
                answer(self.call(name, numbers))
            }
            _ => {
                self.slices.insert(name.to_string(), numbers.to_vec());
                answer(Ok(NOTHING))
            }
        };
        if let Some(refused) = line.strip_prefix("refused ") {
            let number = refused.split(' ').next().unwrap_or_default();
            self.refused[number.parse::<usize>().expect("a number")] += 1;
        }
        line
    }

    fn new_run(&self) -> Run {
        let Shape {
            l_skip,
            n_stack,
            ref counts,
            ref lists,
        } = self.shape;
        let (r, lambda) = (self.slice("point"), element(self.slice("lambda")));
        Run::new(l_skip, n_stack, counts, lists, r, lambda)
    }

    fn lines(&self) -> [Vec<u32>; 3] {
        ["shape", "point", "lambda"].map(|name| self.slice(name).to_vec())
    }

    /// Of the run, or of another where the session has changed what the run was made of.
    fn column_openings(&self) -> Result<Vec<u32>, Error> {
        let matrices = self.slice("matrix");
        match &self.run {
            Some(run) if self.of == self.lines() => run.column_openings(matrices),
            _ => self.new_run().column_openings(matrices),
        }
    }

    /// The same. Another run has not this one's turn: both calls refuse alike but for 8.
    fn first_polynomial(&mut self) -> Result<Vec<u32>, Error> {
        let changed = self.of != self.lines();
        let alike = self.column_openings();
        let matrices = self.slices.get("matrix").expect("stacked matrices");
        let run = self.run.as_mut().expect("a run");
        if !changed {
            return run.first_polynomial(matrices);
        }
        let error = alike.expect_err("a refusal");
        if run.turn() != 1 && error.number() > 8 {
            return Err(Error::OutOfTurn);
        }
        Err(error)
    }

    fn call(&mut self, name: &str, numbers: &[u32]) -> Result<Vec<u32>, Error> {
        let matrices = self.slices.get("matrix").expect("stacked matrices");
        let run = self.run.as_mut().expect("a run");
        match name {
            "start" => run.start()?,
            "fold0" => run.fold_ple_evals(matrices, element(numbers))?,
            "fold" => run.fold_mle_evals(numbers[0], element(&numbers[1..]))?,
            "pair" => {
                let pair = run.round_pair(numbers[0])?;
                return Ok([pair.at_1.words, pair.at_2.words].concat());
            }
            "work" => return Ok(run.work_buffers().concat()),
            _ => return run.openings(),
        }
        Ok(vec![])
    }

    fn verdict(&mut self) -> String {
        let asked = Asked {
            l_skip: self.shape.l_skip,
            n_stack: self.shape.n_stack,
            counts: &self.shape.counts,
            lists: &self.shape.lists,
            r: self.slice("point"),
            lambda: element(self.slice("lambda")),
            challenges: self.slice("challenges"),
            claims: self.slice("claims"),
            coefficients: self.slice("first"),
            pairs: self.slice("pairs"),
            openings: self.slice("opened"),
        };
        let mut observed = vec![0; asked.observed_len()];
        let judged = verdict(&asked, &mut observed);
        self.observed = observed;
        if judged.is_ok() {
            self.accepted += 1;
            return String::from("yes");
        }
        answer(judged.map(|()| NOTHING))
    }
}

/// Stack width, H and the number of columns; then the records.
fn plan(l_skip: u32, n_stack: u32, list: &[u32]) -> Result<Vec<String>, Error> {
    let (plan, records) = layout::plan(l_skip, n_stack, list)?;
    let sizes = [plan.width, plan.height, plan.columns].map(|number| number.to_string());
    let records = records.iter().map(|record| record.to_string());
    Ok(sizes.into_iter().chain(records).collect())
}

/// The same with the positions before the records.
fn plan_unsorted(l_skip: u32, n_stack: u32, list: &[u32]) -> Result<Vec<String>, Error> {
    let unsorted = layout::plan_unsorted(l_skip, n_stack, list)?;
    let ordered = layout::ordered(list, &unsorted.arrivals);
    let mut line = plan(l_skip, n_stack, &ordered)?;
    let positions = unsorted.arrivals.iter().map(u32::to_string);
    line.splice(3..3, positions);
    let records = unsorted.records.iter().map(|record| record.to_string());
    assert!(records.eq(line[3 + unsorted.arrivals.len()..].iter().cloned()));
    Ok(line)
}

/// The record of the plan that has the matrix, the column and the slice.
fn get(l_skip: u32, n_stack: u32, list: &[u32], at: &[u32]) -> Result<[String; 1], Error> {
    let (mat_idx, col_idx) = (at[1] as usize, at[2] as usize);
    let slice = layout::get(l_skip, n_stack, list, mat_idx, col_idx)?;
    let placed = layout::Placed {
        mat_idx,
        col_idx,
        slice,
    };
    let (_, records) = layout::plan(l_skip, n_stack, list)?;
    let mut records = records.iter().filter(|record| record.decode() == placed);
    Ok([records.next().expect("a record").to_string()])
}

/// The stacked matrix of a list with heights.
fn stack(l_skip: u32, n_stack: u32, traces: &[u32], cells: &[u32]) -> Result<Vec<u32>, Error> {
    let mut list = traces.to_vec();
    for matrix in list.chunks_mut(3) {
        matrix[1] = matrix[1].trailing_zeros();
    }
    let size = |plan: layout::Plan| plan.width as usize * plan.height as usize;
    let size = layout::plan(l_skip, n_stack, &list).map_or(0, |(plan, _)| size(plan));
    let mut q_mat = vec![0; size];
    layout::stacked_matrix(l_skip, n_stack, traces, cells, &mut q_mat)?;
    Ok(q_mat)
}
