//! `smallvec`: a growing list. Where its first elements lie is of no account here.

use std::ops::{Deref, DerefMut};

pub trait Array {
    type Item;
}

impl<T, const N: usize> Array for [T; N] {
    type Item = T;
}

pub struct SmallVec<A: Array>(Vec<A::Item>);

impl<A: Array> SmallVec<A> {
    pub fn with_capacity(n: usize) -> Self {
        SmallVec(Vec::with_capacity(n))
    }

    pub fn from_elem(item: A::Item, n: usize) -> Self
    where
        A::Item: Clone,
    {
        SmallVec(vec![item; n])
    }

    pub fn push(&mut self, item: A::Item) {
        self.0.push(item);
    }
}

impl<A: Array> Deref for SmallVec<A> {
    type Target = [A::Item];

    fn deref(&self) -> &[A::Item] {
        &self.0
    }
}

impl<A: Array> DerefMut for SmallVec<A> {
    fn deref_mut(&mut self) -> &mut [A::Item] {
        &mut self.0
    }
}

impl<A: Array> FromIterator<A::Item> for SmallVec<A> {
    fn from_iter<I: IntoIterator<Item = A::Item>>(items: I) -> Self {
        SmallVec(items.into_iter().collect())
    }
}

impl<'a, A: Array> IntoIterator for &'a SmallVec<A> {
    type Item = &'a A::Item;
    type IntoIter = std::slice::Iter<'a, A::Item>;

    fn into_iter(self) -> Self::IntoIter {
        self.0.iter()
    }
}

macro_rules! repeated {
    ($item:expr; $n:expr) => {
        $crate::stand_ins::smallvec::SmallVec::from_elem($item, $n)
    };
}
pub(crate) use repeated as smallvec;
