//! A `Vec` whose calls that take memory may refuse.

use crate::alloc::{AllocError, Global};
use std::cmp::Ordering;
use std::ops::{Deref, DerefMut, RangeBounds};

pub use std::vec::IntoIter;

/// A growing list. A call that takes memory answers `Err` where there is none, and then the list is as before.
#[derive(Debug, PartialEq, Eq, PartialOrd, Ord, Hash)]
pub struct Vec<T>(std::vec::Vec<T>);

impl<T> Vec<T> {
    /// An empty list; takes no memory.
    pub const fn new(_alloc: Global) -> Vec<T> {
        Vec(std::vec::Vec::new())
    }

    /// An empty list with room for at least so many items.
    pub fn with_capacity(_alloc: Global, room: usize) -> Result<Vec<T>, AllocError> {
        let mut items = std::vec::Vec::new();
        items.try_reserve_exact(room)?;
        Ok(Vec(items))
    }

    /// The items of an array.
    pub fn from_array<const N: usize>(alloc: Global, items: [T; N]) -> Result<Vec<T>, AllocError> {
        items.into_iter().collect_in(alloc)
    }

    /// Rust's list as one of these, with no copy.
    pub fn from_std(items: std::vec::Vec<T>) -> Vec<T> {
        Vec(items)
    }

    /// This list as one of Rust's, with no copy.
    pub fn into_std(self) -> std::vec::Vec<T> {
        self.0
    }

    pub fn allocator(&self) -> &Global {
        &Global
    }

    pub fn capacity(&self) -> usize {
        self.0.capacity()
    }

    /// Makes room for so many more items.
    pub fn reserve(&mut self, more: usize) -> Result<(), AllocError> {
        Ok(self.0.try_reserve(more)?)
    }

    /// Makes room for so many more items, and for no more where that can be had.
    pub fn reserve_exact(&mut self, more: usize) -> Result<(), AllocError> {
        Ok(self.0.try_reserve_exact(more)?)
    }

    #[inline]
    pub fn push(&mut self, item: T) -> Result<(), AllocError> {
        if self.0.len() == self.0.capacity() {
            self.0.try_reserve(1)?;
        }
        self.0.push(item);
        Ok(())
    }

    /// Adds an item for which there is room.
    #[inline]
    pub fn push_reserved(&mut self, item: T) {
        debug_assert!(self.0.len() < self.0.capacity());
        self.0.push(item);
    }

    pub fn pop(&mut self) -> Option<T> {
        self.0.pop()
    }

    pub fn insert(&mut self, at: usize, item: T) -> Result<(), AllocError> {
        self.0.try_reserve(1)?;
        self.0.insert(at, item);
        Ok(())
    }

    /// Moves all items of another list behind these.
    pub fn append(&mut self, other: &mut Vec<T>) -> Result<(), AllocError> {
        self.0.try_reserve(other.len())?;
        self.0.append(&mut other.0);
        Ok(())
    }

    pub fn split_off(&mut self, at: usize) -> Result<Vec<T>, AllocError> {
        let mut rest = std::vec::Vec::new();
        rest.try_reserve_exact(self.0.len() - at)?;
        rest.extend(self.0.drain(at..));
        Ok(Vec(rest))
    }

    pub fn remove(&mut self, at: usize) -> T {
        self.0.remove(at)
    }

    pub fn swap_remove(&mut self, at: usize) -> T {
        self.0.swap_remove(at)
    }

    /// Keeps the items of which `is_kept` says so, in order.
    pub fn retain(&mut self, is_kept: impl FnMut(&T) -> bool) {
        self.0.retain(is_kept);
    }

    /// Sorts the items; those that are alike stay in their order. It may take memory.
    pub fn sort(&mut self) -> Result<(), AllocError>
    where
        T: Ord,
    {
        self.0.sort();
        Ok(())
    }

    /// The same by a comparison.
    pub fn sort_by(&mut self, compare: impl FnMut(&T, &T) -> Ordering) -> Result<(), AllocError> {
        self.0.sort_by(compare);
        Ok(())
    }

    /// Makes it so long, with items that `make` gives.
    pub fn resize_with(&mut self, len: usize, make: impl FnMut() -> T) -> Result<(), AllocError> {
        self.0.try_reserve(len.saturating_sub(self.0.len()))?;
        self.0.resize_with(len, make);
        Ok(())
    }

    pub fn shrink_to_fit(&mut self) {
        self.0.shrink_to_fit();
    }

    pub fn truncate(&mut self, len: usize) {
        self.0.truncate(len);
    }

    pub fn clear(&mut self) {
        self.0.clear();
    }

    #[inline]
    pub fn as_slice(&self) -> &[T] {
        &self.0
    }

    #[inline]
    pub fn as_mut_slice(&mut self) -> &mut [T] {
        &mut self.0
    }
}

impl<T: Clone> Vec<T> {
    /// A copy of a slice.
    pub fn from_slice(alloc: Global, items: &[T]) -> Result<Vec<T>, AllocError> {
        let mut copy = Vec::with_capacity(alloc, items.len())?;
        copy.0.extend_from_slice(items);
        Ok(copy)
    }

    /// So many copies of a value.
    pub fn filled(alloc: Global, item: T, count: usize) -> Result<Vec<T>, AllocError> {
        let mut items = Vec::with_capacity(alloc, count)?;
        items.0.resize(count, item);
        Ok(items)
    }

    pub fn clone(&self) -> Result<Vec<T>, AllocError> {
        Vec::from_slice(Global, &self.0)
    }

    #[inline]
    pub fn extend_from_slice(&mut self, items: &[T]) -> Result<(), AllocError> {
        if self.0.capacity() - self.0.len() < items.len() {
            self.0.try_reserve(items.len())?;
        }
        self.0.extend_from_slice(items);
        Ok(())
    }

    /// Adds a copy of a range of its own items.
    pub fn extend_from_within(&mut self, range: impl RangeBounds<usize>) -> Result<(), AllocError> {
        let range = (range.start_bound().cloned(), range.end_bound().cloned());
        self.0.try_reserve(self.0[range].len())?;
        self.0.extend_from_within(range);
        Ok(())
    }

    pub fn resize(&mut self, len: usize, item: T) -> Result<(), AllocError> {
        self.0.try_reserve(len.saturating_sub(self.0.len()))?;
        self.0.resize(len, item);
        Ok(())
    }
}

impl<T> Deref for Vec<T> {
    type Target = [T];

    #[inline]
    fn deref(&self) -> &[T] {
        &self.0
    }
}

impl<T> DerefMut for Vec<T> {
    #[inline]
    fn deref_mut(&mut self) -> &mut [T] {
        &mut self.0
    }
}

impl<T> AsRef<[T]> for Vec<T> {
    fn as_ref(&self) -> &[T] {
        &self.0
    }
}

impl<T> std::borrow::Borrow<[T]> for Vec<T> {
    fn borrow(&self) -> &[T] {
        &self.0
    }
}

impl<T> IntoIterator for Vec<T> {
    type Item = T;
    type IntoIter = IntoIter<T>;

    fn into_iter(self) -> IntoIter<T> {
        self.0.into_iter()
    }
}

impl<'a, T> IntoIterator for &'a Vec<T> {
    type Item = &'a T;
    type IntoIter = std::slice::Iter<'a, T>;

    fn into_iter(self) -> std::slice::Iter<'a, T> {
        self.0.iter()
    }
}

impl<'a, T> IntoIterator for &'a mut Vec<T> {
    type Item = &'a mut T;
    type IntoIter = std::slice::IterMut<'a, T>;

    fn into_iter(self) -> std::slice::IterMut<'a, T> {
        self.0.iter_mut()
    }
}

/// `collect` with the allocator, which the eraser calls by this name.
pub trait CollectIn: Iterator + Sized {
    /// The items in order, or none of them where there is no memory.
    fn collect_in(self, alloc: Global) -> Result<Vec<Self::Item>, AllocError> {
        let mut items = Vec::with_capacity(alloc, self.size_hint().0)?;
        for item in self {
            items.push(item)?;
        }
        Ok(items)
    }
}

impl<I: Iterator> CollectIn for I {}

impl std::io::Write for Vec<u8> {
    fn write(&mut self, bytes: &[u8]) -> std::io::Result<usize> {
        self.extend_from_slice(bytes)?;
        Ok(bytes.len())
    }

    fn flush(&mut self) -> std::io::Result<()> {
        Ok(())
    }
}
