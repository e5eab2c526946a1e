//! Stand-in for `smallvec`: a `Vec` under its names. Where the items lie makes no difference to any answer.

use std::fmt::Debug;
use std::fmt::Formatter;

pub trait Array {
    type Item;
}

impl<T, const N: usize> Array for [T; N] {
    type Item = T;
}

pub struct SmallVec<A: Array>(Vec<A::Item>);

impl<A: Array> SmallVec<A> {
    pub fn new() -> Self {
        Self(Vec::new())
    }

    pub fn from_vec(items: Vec<A::Item>) -> Self {
        Self(items)
    }

    pub fn push(&mut self, item: A::Item) {
        self.0.push(item);
    }

    pub fn retain<F: FnMut(&mut A::Item) -> bool>(&mut self, keep: F) {
        self.0.retain_mut(keep);
    }

    pub fn iter(&self) -> std::slice::Iter<'_, A::Item> {
        self.0.iter()
    }

    pub fn iter_mut(&mut self) -> std::slice::IterMut<'_, A::Item> {
        self.0.iter_mut()
    }

    pub fn len(&self) -> usize {
        self.0.len()
    }

    pub fn is_empty(&self) -> bool {
        self.0.is_empty()
    }
}

impl<A: Array> Default for SmallVec<A> {
    fn default() -> Self {
        Self::new()
    }
}

impl<A: Array<Item: Clone>> Clone for SmallVec<A> {
    fn clone(&self) -> Self {
        Self(self.0.clone())
    }
}

impl<A: Array<Item: Debug>> Debug for SmallVec<A> {
    fn fmt(&self, f: &mut Formatter<'_>) -> std::fmt::Result {
        self.0.fmt(f)
    }
}

pub struct IntoIter<A: Array>(std::vec::IntoIter<A::Item>);

impl<A: Array> Iterator for IntoIter<A> {
    type Item = A::Item;

    fn next(&mut self) -> Option<A::Item> {
        self.0.next()
    }
}

impl<A: Array> IntoIterator for SmallVec<A> {
    type Item = A::Item;
    type IntoIter = IntoIter<A>;

    fn into_iter(self) -> IntoIter<A> {
        IntoIter(self.0.into_iter())
    }
}

#[macro_export]
macro_rules! smallvec {
    ($($item:expr),* $(,)?) => {
        $crate::SmallVec::from_vec(vec![$($item),*])
    };
}
