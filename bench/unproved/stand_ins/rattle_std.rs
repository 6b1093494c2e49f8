//! What the sources ask of the library of Rattle, over that of Rust. No request for memory is refused here.

use alloc::{AllocError, Global};
use std::ops::{Deref, DerefMut, Index, IndexMut};
use std::slice::SliceIndex;

pub mod alloc {
    #[derive(Clone, Copy, Debug, PartialEq, Eq)]
    pub struct AllocError;

    pub struct AllocFailed<T>(pub T);

    #[derive(Clone, Copy)]
    pub struct Global;
}

pub mod thread {
    pub use std::thread::yield_now;

    pub trait Threads {}

    pub struct Host;

    impl Threads for Host {}

    pub fn join<R: Threads, A: Send, B>(
        _: &R,
        one: impl FnOnce() -> A + Send,
        other: impl FnOnce() -> B,
    ) -> (A, B) {
        std::thread::scope(|scope| {
            let one = scope.spawn(one);
            let other = other();
            (one.join().unwrap(), other)
        })
    }
}

pub mod sync {
    use super::alloc::{AllocError, Global};
    use std::marker::PhantomData;
    use std::ops::Deref;

    pub struct Arc<T, A>(std::sync::Arc<T>, PhantomData<A>);

    impl<T> Arc<T, Global> {
        pub fn new(_: Global, value: T) -> Result<Self, AllocError> {
            Ok(Arc(std::sync::Arc::new(value), PhantomData))
        }

        pub fn try_clone(this: &Self) -> Result<Self, AllocError> {
            Ok(Arc(this.0.clone(), PhantomData))
        }

        pub fn try_unwrap(this: Self) -> Result<T, Self> {
            std::sync::Arc::try_unwrap(this.0).map_err(|shared| Arc(shared, PhantomData))
        }
    }

    impl<T, A> Deref for Arc<T, A> {
        type Target = T;

        fn deref(&self) -> &T {
            &self.0
        }
    }
}

pub mod prelude {
    pub use super::{CollectIn, ToVecIn, Vec};
}

#[derive(Clone, Debug, PartialEq, Eq)]
pub struct Vec<T>(pub std::vec::Vec<T>);

impl<T> Vec<T> {
    pub fn new(_: Global) -> Self {
        Vec(std::vec::Vec::new())
    }

    pub fn with_capacity(_: Global, count: usize) -> Result<Self, AllocError> {
        Ok(Vec(std::vec::Vec::with_capacity(count)))
    }

    pub fn allocator(&self) -> &'static Global {
        &Global
    }

    pub fn capacity(&self) -> usize {
        self.0.capacity()
    }

    pub fn reserve(&mut self, more: usize) -> Result<(), AllocError> {
        self.0.reserve(more);
        Ok(())
    }

    pub fn push(&mut self, item: T) -> Result<(), AllocError> {
        self.0.push(item);
        Ok(())
    }

    pub fn push_reserved(&mut self, item: T) {
        self.0.push(item);
    }

    pub fn insert(&mut self, at: usize, item: T) -> Result<(), AllocError> {
        self.0.insert(at, item);
        Ok(())
    }

    pub fn append(&mut self, other: &mut Self) -> Result<(), AllocError> {
        self.0.append(&mut other.0);
        Ok(())
    }

    pub fn split_off(&mut self, at: usize) -> Result<Self, AllocError> {
        Ok(Vec(self.0.split_off(at)))
    }

    pub fn pop(&mut self) -> Option<T> {
        self.0.pop()
    }

    pub fn remove(&mut self, at: usize) -> T {
        self.0.remove(at)
    }

    pub fn swap_remove(&mut self, at: usize) -> T {
        self.0.swap_remove(at)
    }

    pub fn clear(&mut self) {
        self.0.clear();
    }

    pub fn truncate(&mut self, count: usize) {
        self.0.truncate(count);
    }

    pub fn shrink_to_fit(&mut self) {
        self.0.shrink_to_fit();
    }

    pub fn as_slice(&self) -> &[T] {
        &self.0
    }

    pub fn as_mut_slice(&mut self) -> &mut [T] {
        &mut self.0
    }

    pub fn slice_mut<I: SliceIndex<[T], Output = [T]>>(&mut self, range: I) -> &mut [T] {
        &mut self.0[range]
    }
}

impl<T: Clone> Vec<T> {
    pub fn extend_from_slice(&mut self, items: &[T]) -> Result<(), AllocError> {
        self.0.extend_from_slice(items);
        Ok(())
    }

    pub fn resize(&mut self, count: usize, item: T) -> Result<(), AllocError> {
        self.0.resize(count, item);
        Ok(())
    }
}

impl<T> Deref for Vec<T> {
    type Target = [T];

    fn deref(&self) -> &[T] {
        &self.0
    }
}

impl<T> DerefMut for Vec<T> {
    fn deref_mut(&mut self) -> &mut [T] {
        &mut self.0
    }
}

impl<T, I: SliceIndex<[T]>> Index<I> for Vec<T> {
    type Output = I::Output;

    fn index(&self, at: I) -> &I::Output {
        &self.0[at]
    }
}

impl<T, I: SliceIndex<[T]>> IndexMut<I> for Vec<T> {
    fn index_mut(&mut self, at: I) -> &mut I::Output {
        &mut self.0[at]
    }
}

impl<T> IntoIterator for Vec<T> {
    type Item = T;
    type IntoIter = std::vec::IntoIter<T>;

    fn into_iter(self) -> Self::IntoIter {
        self.0.into_iter()
    }
}

impl<'a, T> IntoIterator for &'a Vec<T> {
    type Item = &'a T;
    type IntoIter = std::slice::Iter<'a, T>;

    fn into_iter(self) -> Self::IntoIter {
        self.0.iter()
    }
}

impl<'a, T> IntoIterator for &'a mut Vec<T> {
    type Item = &'a mut T;
    type IntoIter = std::slice::IterMut<'a, T>;

    fn into_iter(self) -> Self::IntoIter {
        self.0.iter_mut()
    }
}

pub trait ToVecIn<T> {
    fn to_vec_in(&self, alloc: Global) -> Result<Vec<T>, AllocError>;
}

impl<T: Clone> ToVecIn<T> for [T] {
    fn to_vec_in(&self, _: Global) -> Result<Vec<T>, AllocError> {
        Ok(Vec(self.to_vec()))
    }
}

pub trait CollectIn: Iterator + Sized {
    fn collect_in(self, _: Global) -> Result<Vec<Self::Item>, AllocError> {
        Ok(Vec(self.collect()))
    }
}

impl<I: Iterator> CollectIn for I {}

#[macro_export]
macro_rules! rattle_vec {
    ($alloc:expr; $item:expr; $count:expr) => {
        rattle_vec!(@ $alloc, std::vec![$item; $count])
    };
    ($alloc:expr; $($item:expr),+ $(,)?) => {
        rattle_vec!(@ $alloc, std::vec![$($item),+])
    };
    (@ $alloc:expr, $vec:expr) => {{
        let _ = $alloc;
        Ok::<_, crate::rattle_std::alloc::AllocError>(crate::rattle_std::Vec($vec))
    }};
}
