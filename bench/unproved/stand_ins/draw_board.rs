//! A board, whose seats hold nothing: a count of what was drawn is all that the searches need.

use crate::rattle_std::alloc::{AllocError, Global};
use std::sync::atomic::{AtomicU32, Ordering};

pub struct Board {
    blocks: u32,
    next: AtomicU32,
}

pub struct Seat(());

impl Board {
    pub fn new(_: Global, blocks: u32, _seats: u32) -> Result<(Board, Seat), AllocError> {
        let next = AtomicU32::new(0);
        Ok((Board { blocks, next }, Seat(())))
    }

    pub fn draw(&self, _: &mut Seat) -> Option<u32> {
        let block = self.next.fetch_add(1, Ordering::SeqCst);
        (block < self.blocks).then_some(block)
    }

    pub fn split(&self, seat: Seat) -> (Seat, Seat) {
        (seat, Seat(()))
    }

    pub fn join(&self, seat: Seat, _: Seat) -> Seat {
        seat
    }

    pub fn close(self, _: Seat) {}
}
