//! Planning, `get`, stacking and views on the stored sessions. Each has one commitment.
use legrudda::{
    layout::{self, Placed, Plan, Record, Unsorted},
    Error,
};
use session::{answer, replay};
use shape::Shape;

mod session;
mod shape;

const NOTHING: [u32; 0] = [];

#[test]
fn stored_plans() {
    let mut shape = Shape::default();
    let replayed = replay("plans", |name, numbers| match name {
        "shape" => {
            shape = Shape::read(numbers);
            assert_eq!(shape.counts.len(), 1);
            answer(Ok(NOTHING))
        }
        "plan" => answer(plan(&shape)),
        "plan_unsorted" => answer(plan_unsorted(&shape)),
        "get" => answer(get(&shape, numbers[1], numbers[2])),
        _ => panic!("no such command"),
    });
    assert_eq!(replayed, 493);
}

/// Stack width, H and the number of columns; then the records, of which each has its column and what `get` says of it.
fn plan(shape: &Shape) -> Result<Vec<String>, Error> {
    let (l_skip, n_stack, list) = (shape.l_skip, shape.n_stack, &shape.lists);
    let planned = layout::plan(l_skip, n_stack, list);
    lent_records(shape, &planned);
    let (plan, records) = planned?;
    let mut decoded = records.iter().map(|record| record.decode());
    for (mat_idx, matrix) in list.chunks(3).enumerate() {
        for col_idx in 0..matrix[0] as usize {
            let slice = layout::get(l_skip, n_stack, list, mat_idx, col_idx)?;
            let placed = Placed {
                mat_idx,
                col_idx,
                slice,
            };
            assert_eq!(decoded.next(), Some(placed));
        }
    }
    assert_eq!(decoded.next(), None);
    let sizes = [plan.width, plan.height, plan.columns].map(|number| number.to_string());
    let records = records.iter().map(Record::to_string);
    Ok(sizes.into_iter().chain(records).collect())
}

/// Stack width, H and the number of columns; the arrival positions; the records, which are the plan of the ordered list.
fn plan_unsorted(shape: &Shape) -> Result<Vec<String>, Error> {
    let (l_skip, n_stack, list) = (shape.l_skip, shape.n_stack, &shape.lists);
    let Unsorted {
        plan,
        arrivals,
        records,
    } = layout::plan_unsorted(l_skip, n_stack, list)?;
    let ordered = layout::ordered(list, &arrivals);
    let planned = layout::plan(l_skip, n_stack, &ordered)?;
    assert_eq!((&plan, &records), (&planned.0, &planned.1));
    let sizes = [plan.width, plan.height, plan.columns];
    let numbers = sizes.iter().chain(&arrivals).map(u32::to_string);
    Ok(numbers
        .chain(records.iter().map(Record::to_string))
        .collect())
}

/// Planning into lent records is the same, and where it is refused they stay; one more of them is 9.
fn lent_records(shape: &Shape, planned: &Result<(Plan, Vec<Record>), Error>) {
    let (l_skip, n_stack, list) = (shape.l_skip, shape.n_stack, &shape.lists);
    let widths = list.chunks(3).map(|m| m[0] as usize);
    // More columns are refused whatever is lent.
    let columns = widths.sum::<usize>().min(4097);
    // Of document 01's example, so that a record which is written shows.
    let other = layout::plan(1, 1, &[1, 2, 0, 2, 0, 1]).unwrap().1[2];
    let mut lent = vec![other; columns + 1];
    let one_more = layout::plan_into(l_skip, n_stack, list, &mut lent);
    let number = planned.as_ref().map_or_else(Error::number, |_| 9);
    assert_eq!(one_more.unwrap_err().number(), number);
    assert!(lent.iter().all(|record| *record == other));
    lent.pop();
    let plan = layout::plan_into(l_skip, n_stack, list, &mut lent);
    match planned {
        Ok((planned, records)) => assert_eq!((plan, &lent), (Ok(*planned), records)),
        Err(error) => {
            assert_eq!(plan, Err(*error));
            assert!(lent.iter().all(|record| *record == other));
        }
    }
}

/// The slice as the record that packs it.
fn get(shape: &Shape, matrix: u32, column: u32) -> Result<[String; 1], Error> {
    let (mat_idx, col_idx) = (matrix as usize, column as usize);
    let slice = layout::get(shape.l_skip, shape.n_stack, &shape.lists, mat_idx, col_idx)?;
    let first = u64::from(matrix) << 48
        | u64::from(column) << 36
        | u64::from(slice.col_idx) << 24
        | u64::from(slice.row_idx);
    let second = u64::from(slice.log_height) << 59;
    Ok([format!("{first:016x}{second:016x}")])
}

/// The last column's record of a list and its fields: matrix, column, stack column, starting row and log height.
fn last_record(l_skip: u32, n_stack: u32, list: &[u32], digits: &str, fields: [usize; 5]) {
    let (_, records) = layout::plan(l_skip, n_stack, list).unwrap();
    let last = records[records.len() - 1];
    assert_eq!(last.to_string(), digits);
    let Placed {
        mat_idx,
        col_idx,
        slice,
    } = last.decode();
    let placed = [slice.col_idx, slice.row_idx, slice.log_height].map(|field| field as usize);
    assert_eq!(
        (mat_idx, col_idx, placed),
        (fields[0], fields[1], fields[2..].try_into().unwrap())
    );
    assert_eq!(
        layout::get(l_skip, n_stack, list, mat_idx, col_idx),
        Ok(slice)
    );
}

/// Each field at its largest. In a stack column of 2^24 rows l_skip is at least 4, so the last start is 16 rows above the end.
#[test]
fn fields_at_the_edges() {
    let most = [1, 0, 0].repeat(4096);
    let digits = "0fff000fff0000000000000000000000";
    last_record(0, 0, &most, digits, [4095, 0, 4095, 0, 0]);
    let digits = "0fff000000000fff0000000000000000";
    last_record(0, 12, &most, digits, [4095, 0, 0, 4095, 0]);
    let digits = "0000ffffff0000000000000000000000";
    last_record(0, 0, &[4096, 0, 1], digits, [0, 4095, 4095, 0, 0]);
    let digits = "0000ffffff000000c000000000000000";
    last_record(10, 14, &[4096, 24, 0], digits, [0, 4095, 4095, 0, 24]);
    let halves: Vec<u32> = (4..24).rev().flat_map(|log| [1, log, 0]).collect();
    let digits = "0014000000fffff00000000000000000";
    let list = [&halves[..], &[1, 0, 1]].concat();
    last_record(4, 20, &list, digits, [20, 0, 0, (1 << 24) - 16, 0]);
}

/// 4,096 matrices are planned and one more is not, of a column or of none.
#[test]
fn most_matrices() {
    let most = [1, 0, 0].repeat(4096);
    assert_eq!(layout::plan(0, 12, &most).unwrap().0.columns, 4096);
    for width in [0, 1] {
        let list = [&most[..], &[width, 0, 0]].concat();
        let records = &mut vec![Record::default(); 4096 + width as usize];
        let planned = layout::plan_into(0, 12, &list, records);
        assert_eq!(planned, Err(Error::LimitExceeded));
        let got = layout::get(0, 12, &list, 0, 0);
        assert_eq!(got, Err(Error::LimitExceeded));
        let stacked = layout::stacked_matrix(0, 12, &list, &[], &mut []);
        assert_eq!(stacked, Err(Error::LimitExceeded));
        let place = layout::mat_place(0, 12, &list, &[0; 4096], 0);
        assert_eq!(place, Err(Error::LimitExceeded));
    }
    let wider = [&most[3..], &[2, 0, 0]].concat();
    assert_eq!(layout::plan(0, 12, &wider), Err(Error::TooManyColumns));
}

#[test]
fn stored_stackings() {
    let (mut shape, mut cells, mut stacked) = (Shape::default(), vec![], vec![]);
    let replayed = replay("stacking", |name, numbers| match name {
        "shape" => {
            shape = Shape::read(numbers);
            assert_eq!(shape.counts.len(), 1);
            answer(Ok(NOTHING))
        }
        "cells" => {
            cells = numbers.to_vec();
            answer(Ok(NOTHING))
        }
        "matrix" => {
            stacked = numbers.to_vec();
            answer(Ok(NOTHING))
        }
        "stack" => answer(stack(&shape, &cells)),
        "view" => answer(view(&shape, &stacked, numbers[1])),
        _ => panic!("no such command"),
    });
    assert_eq!(replayed, 365);
}

/// The stacked matrix, of the size that the plan of the same list with log heights says, where there is one.
fn stack(shape: &Shape, cells: &[u32]) -> Result<Vec<u32>, Error> {
    let mut list = shape.lists.clone();
    for matrix in list.chunks_mut(3) {
        matrix[1] = matrix[1].trailing_zeros();
    }
    let planned = layout::plan(shape.l_skip, shape.n_stack, &list).map(|(plan, _)| plan);
    let size = planned.map_or(1, |plan| plan.width as usize * plan.height as usize);
    let mut q_mat = vec![u32::MAX; size];
    let plan = layout::stacked_matrix(shape.l_skip, shape.n_stack, &shape.lists, cells, &mut q_mat);
    match plan {
        Ok(_) => assert_eq!(plan, planned),
        Err(_) => assert!(q_mat.iter().all(|word| *word == u32::MAX)),
    }
    plan.map(|_| q_mat)
}

/// Start and length of a view.
fn view(shape: &Shape, stacked: &[u32], matrix: u32) -> Result<[usize; 2], Error> {
    let mat_idx = matrix as usize;
    let bounds = layout::mat_place(shape.l_skip, shape.n_stack, &shape.lists, stacked, mat_idx)?;
    assert!(stacked.get(bounds.clone()).is_some());
    Ok([bounds.start, bounds.len()])
}
