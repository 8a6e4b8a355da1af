//! Runs by document 01's weighted sum, computed from the input alone by products over all points: no eq kernel, no table, no
//! folding of weights ahead of the columns. The only divisions are by differences of two powers of the subgroup, so it is a run
//! at every u_0, and what document 02 (C-13) asks of those of the skip subgroup.
use crate::{
    field::*,
    original::{Committed, PeekedRun},
    scope::in_skip_subgroup,
    shape::Shape,
};

/// The Lagrange basis of the skip subgroup of order 2^l at z.
fn lagrange(l: u32, z: EF) -> Vec<EF> {
    let generator = F::two_adic_generator(l as usize);
    let points: Vec<F> = generator.powers().take(1 << l).collect();
    let distance = |p: &F| z - EF::from(*p);
    // The products of z's distances from the points before each, and from those after it.
    let mut before = vec![EF::ONE];
    for p in &points {
        before.push(before[before.len() - 1] * distance(p));
    }
    let mut after = EF::ONE;
    let mut basis = vec![EF::ZERO; points.len()];
    for (i, at) in points.iter().enumerate().rev() {
        let others = points.iter().filter(|p| *p != at);
        let below: F = others.map(|p| *at - *p).product();
        basis[i] = before[i] * after / EF::from(below);
        after *= distance(at);
    }
    basis
}

/// e(t): the factor of row t in a column's value at r.
fn row_factors(l_skip: u32, log_height: u32, r: &[EF]) -> Vec<EF> {
    let l = l_skip.min(log_height);
    let basis = lagrange(l, r[0].exp_power_of_2((l_skip - l) as usize));
    (0..1usize << log_height)
        .map(|t| {
            let bits = (0..log_height - l).map(|j| {
                let x = r[1 + j as usize];
                if (t >> (l + j)) & 1 == 1 {
                    x
                } else {
                    EF::ONE - x
                }
            });
            basis[t % (1 << l)] * bits.product::<EF>()
        })
        .collect()
}

/// The polynomial through the values over z and x_1, x_2, .. at this z.
fn put_z(basis: &[EF], values: &[EF]) -> Vec<EF> {
    let value = |rows: &[EF]| rows.iter().zip(basis).map(|(a, b)| *a * *b).sum();
    values.chunks_exact(basis.len()).map(value).collect()
}

/// The polynomial through the values over x_j, x_(j+1), .. at this x_j.
fn put_x(values: &[EF], x: EF) -> Vec<EF> {
    let value = |pair: &[EF]| pair[0] * (EF::ONE - x) + pair[1] * x;
    values.chunks_exact(2).map(value).collect()
}

fn products(a: &[EF], b: &[EF]) -> EF {
    a.iter().zip(b).map(|(a, b)| *a * *b).sum()
}

/// A trace column: where its cells lie, and its weights over a whole stack column.
#[derive(Clone)]
struct Column {
    log_height: u32,
    stack_column: usize,
    first_row: usize,
    /// lambda^(2k), and lambda^(2k+1) or 0 where it is not flagged.
    powers: [EF; 2],
    /// e(t) and e(t - 1) where cell t lies, 0 elsewhere.
    weights: [Vec<EF>; 2],
    /// The same weights over the column's own points alone, once z is put; a single one stays.
    own: [Vec<EF>; 2],
    /// The bits of the column's place that are put so far.
    place: EF,
}

/// A run, a call at a time.
#[derive(Clone)]
pub struct SummedRun {
    shape: Shape,
    columns: Vec<Column>,
    stack_columns: Vec<Vec<EF>>,
    rounds: u32,
}

impl SummedRun {
    pub fn start(committed: &Committed, r: &[EF], lambda: EF) -> Self {
        let shape = committed.shape.clone();
        let (l_skip, rows) = (shape.l_skip, shape.height());
        let factors = |h: u32| (h, row_factors(l_skip, h, r));
        let factors: Vec<(u32, Vec<EF>)> = shape.log_heights().into_iter().map(factors).collect();
        let mut columns = vec![];
        let mut before = 0;
        for (list, layout) in shape.lists.iter().zip(committed.layouts()) {
            for (matrix, _, slice) in &layout.sorted_cols {
                let k = columns.len() as u64;
                let log_height = slice.log_height() as u32;
                let (_, e) = factors.iter().find(|(h, _)| *h == log_height).unwrap();
                let mut weights = [(); 2].map(|_| vec![EF::ZERO; rows]);
                for t in 0..e.len() {
                    let row = slice.row_idx + t * slice.stride(l_skip as usize);
                    weights[0][row] = e[t];
                    weights[1][row] = e[(t + e.len() - 1) % e.len()];
                }
                let rotated = match list[*matrix].flag {
                    1 => lambda.exp_u64(2 * k + 1),
                    _ => EF::ZERO,
                };
                columns.push(Column {
                    log_height,
                    stack_column: before + slice.col_idx,
                    first_row: slice.row_idx,
                    powers: [lambda.exp_u64(2 * k), rotated],
                    weights,
                    own: Default::default(),
                    place: EF::ONE,
                });
            }
            before += layout.width();
        }
        let words = committed.matrices();
        let values = |rows: &[u32]| rows.iter().map(|x| constant(*x)).collect();
        Self {
            stack_columns: words.chunks_exact(rows).map(values).collect(),
            shape,
            columns,
            rounds: 0,
        }
    }

    pub fn fold_at_u_0(&mut self, u_0: EF) {
        let l_skip = self.shape.l_skip;
        let basis = lagrange(l_skip, u_0);
        for column in &mut self.columns {
            let points = 1 << self.shape.n_lift(column.log_height);
            let first = column.first_row >> l_skip;
            column.weights = column.weights.each_ref().map(|w| put_z(&basis, w));
            let own = |w: &Vec<EF>| w[first..first + points].to_vec();
            column.own = column.weights.each_ref().map(own);
        }
        for values in &mut self.stack_columns {
            *values = put_z(&basis, values);
        }
    }

    /// The values at 1 and 2 of the next round's honest quadratic.
    pub fn pair(&self) -> [EF; 2] {
        [EF::ONE, EF::TWO].map(|x| {
            let mut at_x = self.clone();
            at_x.fold(x);
            at_x.sum()
        })
    }

    pub fn fold(&mut self, u: EF) {
        self.rounds += 1;
        for column in &mut self.columns {
            column.weights = column.weights.each_ref().map(|w| put_x(w, u));
            if column.own[0].len() > 1 {
                column.own = column.own.each_ref().map(|w| put_x(w, u));
            } else {
                let bit = column.first_row >> (self.shape.l_skip + self.rounds - 1) & 1;
                column.place *= if bit == 1 { u } else { EF::ONE - u };
            }
        }
        for values in &mut self.stack_columns {
            *values = put_x(values, u);
        }
    }

    /// The weighted sum folded so far.
    pub fn sum(&self) -> EF {
        let term = |c: &Column| {
            let values = &self.stack_columns[c.stack_column];
            let sums = c.weights.each_ref().map(|w| products(w, values));
            products(&c.powers, &sums)
        };
        self.columns.iter().map(term).sum()
    }

    /// The true column values, once every challenge is put.
    pub fn openings(&self) -> Vec<EF> {
        self.stack_columns.concat()
    }

    /// q_evals, eq_r, k_rot_r and eq_ub in document 01's places, from the fold at u_0 on.
    pub fn work_buffers(&self) -> [Vec<u32>; 4] {
        let [values, tables, ..] = self.shape.room(self.stack_columns.len());
        let mut q_evals = flat(&self.stack_columns.concat());
        q_evals.resize(values, 0);
        let table = |which: usize| {
            let mut out = Vec::with_capacity(tables);
            for log_height in self.shape.log_heights() {
                let end = out.len() + (4 << self.shape.n_lift(log_height));
                let column = self.columns.iter().find(|c| c.log_height == log_height);
                out.extend(flat(&column.unwrap().own[which]));
                out.resize(end, 0);
            }
            out
        };
        let places: Vec<EF> = self.columns.iter().map(|c| c.place).collect();
        [q_evals, table(0), table(1), flat(&places)]
    }
}

/// A run at every u_0: the original's, and one by sums where the original divides by zero.
pub struct AnyRun<'a> {
    committed: &'a Committed,
    r: Vec<EF>,
    lambda: EF,
    by: By<'a>,
}

enum By<'a> {
    Original(Box<PeekedRun<'a>>),
    Sums(SummedRun),
}

impl<'a> AnyRun<'a> {
    pub fn start(committed: &'a Committed, r: &[EF], lambda: EF) -> Self {
        let run = PeekedRun::start(committed, r, lambda);
        Self {
            committed,
            r: r.to_vec(),
            lambda,
            by: By::Original(Box::new(run)),
        }
    }

    /// Before any fold, so the original's.
    pub fn first_polynomial(&mut self) -> Vec<EF> {
        match &mut self.by {
            By::Original(run) => run.first_polynomial(),
            By::Sums(_) => unreachable!("the first polynomial comes before the fold at u_0"),
        }
    }

    pub fn fold_at_u_0(&mut self, u_0: EF) {
        if in_skip_subgroup(self.committed.shape.l_skip, words(u_0)) {
            let mut run = SummedRun::start(self.committed, &self.r, self.lambda);
            run.fold_at_u_0(u_0);
            self.by = By::Sums(run);
        } else if let By::Original(run) = &mut self.by {
            run.fold_at_u_0(u_0);
        }
    }

    pub fn pair(&mut self, round: usize) -> [EF; 2] {
        match &mut self.by {
            By::Original(run) => run.pair(round),
            By::Sums(run) => run.pair(),
        }
    }

    pub fn fold(&mut self, round: usize, u: EF) {
        match &mut self.by {
            By::Original(run) => run.fold(round, u),
            By::Sums(run) => run.fold(u),
        }
    }

    pub fn openings(self) -> Vec<EF> {
        match self.by {
            By::Original(run) => run.openings(),
            By::Sums(run) => run.openings(),
        }
    }

    pub fn work_buffers(&self) -> [Vec<u32>; 4] {
        match &self.by {
            By::Original(run) => run.work_buffers(),
            By::Sums(run) => run.work_buffers(),
        }
    }
}
