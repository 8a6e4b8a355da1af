//! A lent slice with guards on both sides: shows what was written and what was not.

/// Entries before and after the slice that nobody may touch.
const GUARD: usize = 8;

pub struct Lent<T> {
    entries: Vec<T>,
}

impl<T: Copy + PartialEq> Lent<T> {
    /// `length` entries, all of them the mark.
    pub fn new(length: usize, mark: T) -> Self {
        Self {
            entries: vec![mark; length + 2 * GUARD],
        }
    }

    /// The given entries between guards of the mark.
    pub fn holding(values: &[T], mark: T) -> Self {
        let mut lent = Self::new(values.len(), mark);
        lent.slice().copy_from_slice(values);
        lent
    }

    pub fn slice(&mut self) -> &mut [T] {
        let end = self.entries.len() - GUARD;
        &mut self.entries[GUARD..end]
    }

    /// All entries, guards included.
    pub fn entries(&self) -> Vec<T> {
        self.entries.clone()
    }

    /// What the entries must be once the slice holds these values; None: as it was lent.
    pub fn expected(mut self, values: Option<&[T]>) -> Vec<T> {
        if let Some(values) = values {
            self.slice().copy_from_slice(values);
        }
        self.entries
    }
}
