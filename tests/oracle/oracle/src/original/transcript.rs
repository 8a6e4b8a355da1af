//! A transcript that hands out given challenges and records what is observed.
use std::collections::VecDeque;

use stark_backend::FiatShamirTranscript;

use super::config::{Config, Digest};
use crate::field::{canonical, EF, F};

#[derive(Clone, Default)]
pub struct Given {
    left: VecDeque<F>,
    observed: Vec<F>,
    /// How much had been observed when each word was handed out.
    observed_before: Vec<usize>,
}

impl Given {
    pub fn new(challenges: &[EF]) -> Self {
        Self {
            left: challenges.iter().flat_map(|c| c.0).collect(),
            ..Self::default()
        }
    }

    pub fn observed(&self) -> Vec<u32> {
        canonical(&self.observed)
    }

    pub fn observed_before(&self) -> &[usize] {
        &self.observed_before
    }
}

impl FiatShamirTranscript<Config> for Given {
    fn observe(&mut self, value: F) {
        self.observed.push(value);
    }

    fn sample(&mut self) -> F {
        self.observed_before.push(self.observed.len());
        self.left.pop_front().expect("a challenge is left")
    }

    fn observe_commit(&mut self, digest: Digest) {
        self.observed.extend(digest);
    }
}
