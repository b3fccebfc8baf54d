//! What Rattle's library has and Rust's has otherwise: allocations that answer whether there was memory, and the names for it.

use std::ops::{Deref, DerefMut};

#[derive(Clone, Copy, PartialEq, Eq, Debug)]
pub struct AllocError;

#[derive(Clone, Copy)]
pub struct Global;

pub trait Threads {}

/// Runs without threads.
pub struct Alone;

impl Threads for Alone {}

/// Does this for each item, one after another, however many threads there may be.
pub fn for_each_mut<R, T, F: Fn(usize, &mut T)>(_rt: &R, items: &mut [T], _threads: usize, work: &F) {
    for (place, item) in items.iter_mut().enumerate() {
        work(place, item);
    }
}

#[derive(Debug, PartialEq, Eq)]
pub struct Vec<T>(std::vec::Vec<T>);

impl<T> Vec<T> {
    pub fn new(_alloc: Global) -> Self {
        Vec(std::vec::Vec::new())
    }

    pub fn with_capacity(_alloc: Global, room: usize) -> Result<Self, AllocError> {
        Ok(Vec(std::vec::Vec::with_capacity(room)))
    }

    pub fn allocator(&self) -> &Global {
        &Global
    }

    pub fn reserve(&mut self, more: usize) -> Result<(), AllocError> {
        self.0.reserve(more);
        Ok(())
    }

    pub fn push(&mut self, item: T) -> Result<(), AllocError> {
        self.0.push(item);
        Ok(())
    }

    pub fn push_reserved(&mut self, item: T) {
        self.0.push(item);
    }

    pub fn leak(self) -> &'static mut [T] {
        self.0.leak()
    }
}

/// So many copies of an item.
pub fn filled<T: Clone>(item: T, count: usize) -> Result<Vec<T>, AllocError> {
    Ok(Vec(vec![item; count]))
}

impl<T> FromIterator<T> for Vec<T> {
    fn from_iter<I: IntoIterator<Item = T>>(items: I) -> Self {
        Vec(items.into_iter().collect())
    }
}

impl<T> Deref for Vec<T> {
    type Target = std::vec::Vec<T>;

    fn deref(&self) -> &Self::Target {
        &self.0
    }
}

impl<T> DerefMut for Vec<T> {
    fn deref_mut(&mut self) -> &mut Self::Target {
        &mut self.0
    }
}

impl<T> IntoIterator for Vec<T> {
    type Item = T;
    type IntoIter = std::vec::IntoIter<T>;

    fn into_iter(self) -> Self::IntoIter {
        self.0.into_iter()
    }
}

impl<'a, T> IntoIterator for &'a Vec<T> {
    type Item = &'a T;
    type IntoIter = std::slice::Iter<'a, T>;

    fn into_iter(self) -> Self::IntoIter {
        self.0.iter()
    }
}

impl<'a, T> IntoIterator for &'a mut Vec<T> {
    type Item = &'a mut T;
    type IntoIter = std::slice::IterMut<'a, T>;

    fn into_iter(self) -> Self::IntoIter {
        self.0.iter_mut()
    }
}
