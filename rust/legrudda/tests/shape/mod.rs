//! The lists of a session, from its line `shape L_SKIP N_STACK COMMITMENTS COUNTS.. LISTS..`.

#[derive(Default)]
pub struct Shape {
    pub l_skip: u32,
    pub n_stack: u32,
    pub counts: Vec<u32>,
    pub lists: Vec<u32>,
}

impl Shape {
    pub fn read(numbers: &[u32]) -> Self {
        let [l_skip, n_stack, commitments, rest @ ..] = numbers else {
            panic!("a shape begins with three numbers");
        };
        let (counts, lists) = rest.split_at(*commitments as usize);
        Self {
            l_skip: *l_skip,
            n_stack: *n_stack,
            counts: counts.to_vec(),
            lists: lists.to_vec(),
        }
    }
}
