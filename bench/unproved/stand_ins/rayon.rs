//! A range, gone over on one thread.

use std::ops::Range;

pub mod prelude {
    pub use super::IntoParallelIterator;
}

pub struct InTurn(Range<u32>);

pub trait IntoParallelIterator {
    fn into_par_iter(self) -> InTurn;
}

impl IntoParallelIterator for Range<u32> {
    fn into_par_iter(self) -> InTurn {
        InTurn(self)
    }
}

impl InTurn {
    pub fn with_min_len(self, _: usize) -> InTurn {
        self
    }

    pub fn find_first<R>(mut self, _: &R, is_found: impl Fn(&u32) -> bool) -> Option<u32> {
        self.0.find(is_found)
    }
}
