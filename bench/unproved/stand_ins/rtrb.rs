//! A ring from one thread to another, with a lock that nobody waits for long.

use crate::rattle_std::alloc::{AllocError, Global};
use std::collections::VecDeque;
use std::marker::PhantomData;
use std::sync::atomic::{AtomicUsize, Ordering};
use std::sync::{Arc, Mutex};

pub trait Protocol<T> {}

struct Ring<T> {
    count: AtomicUsize,
    items: Mutex<VecDeque<T>>,
    room: usize,
}

pub struct Producer<T, A, P>(Arc<Ring<T>>, PhantomData<(A, fn() -> P)>);

pub struct Consumer<T, A, P>(Arc<Ring<T>>, PhantomData<(A, fn() -> P)>);

pub struct RingBuffer<T>(PhantomData<T>);

impl<T> RingBuffer<T> {
    pub fn with_protocol<A, P>(_: Global, room: usize) -> Result<(Producer<T, A, P>, Consumer<T, A, P>), AllocError> {
        let (count, items) = (AtomicUsize::new(0), Mutex::new(VecDeque::with_capacity(room)));
        let ring = Arc::new(Ring { count, items, room });
        Ok((Producer(ring.clone(), PhantomData), Consumer(ring, PhantomData)))
    }
}

impl<T, A, P> Producer<T, A, P> {
    pub fn push(&mut self, item: T) -> Result<(), T> {
        let mut items = self.0.items.lock().unwrap();
        if items.len() == self.0.room {
            return Err(item);
        }
        items.push_back(item);
        self.0.count.store(items.len(), Ordering::SeqCst);
        Ok(())
    }

    pub fn push_reserved(&mut self, item: T) {
        let _ = self.push(item);
    }
}

impl<T, A, P> Consumer<T, A, P> {
    pub fn slots_beside(&mut self, _: &mut Producer<T, A, P>) {}

    pub fn pop(&mut self) -> Result<T, ()> {
        if self.0.count.load(Ordering::SeqCst) == 0 {
            return Err(());
        }
        let mut items = self.0.items.lock().unwrap();
        let item = items.pop_front();
        self.0.count.store(items.len(), Ordering::SeqCst);
        item.ok_or(())
    }

    pub fn pop_known(&mut self) -> T {
        self.pop().ok().unwrap()
    }
}
