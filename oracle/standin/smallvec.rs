//! A stand-in for `smallvec`: a vector under its name, as far as decode.rs and ir.rs use it. It has no room inline.

use std::ops::Deref;

/// The array that a `SmallVec` names its elements by.
pub trait Array {
    type Item;
}

impl<T, const N: usize> Array for [T; N] {
    type Item = T;
}

pub struct SmallVec<A: Array>(Vec<A::Item>);

impl<A: Array> SmallVec<A> {
    pub fn new() -> Self {
        SmallVec(Vec::new())
    }

    pub fn push(&mut self, item: A::Item) {
        self.0.push(item);
    }

    pub fn extend_from_slice(&mut self, items: &[A::Item])
    where
        A::Item: Copy,
    {
        self.0.extend_from_slice(items);
    }
}

impl<A: Array> Default for SmallVec<A> {
    fn default() -> Self {
        SmallVec::new()
    }
}

impl<A: Array> Deref for SmallVec<A> {
    type Target = [A::Item];

    fn deref(&self) -> &[A::Item] {
        &self.0
    }
}

impl<A: Array> FromIterator<A::Item> for SmallVec<A> {
    fn from_iter<I: IntoIterator<Item = A::Item>>(items: I) -> Self {
        SmallVec(items.into_iter().collect())
    }
}

impl<A: Array> Clone for SmallVec<A>
where
    A::Item: Clone,
{
    fn clone(&self) -> Self {
        SmallVec(self.0.clone())
    }
}

impl<A: Array> PartialEq for SmallVec<A>
where
    A::Item: PartialEq,
{
    fn eq(&self, other: &Self) -> bool {
        self.0 == other.0
    }
}

impl<A: Array> std::fmt::Debug for SmallVec<A>
where
    A::Item: std::fmt::Debug,
{
    fn fmt(&self, f: &mut std::fmt::Formatter<'_>) -> std::fmt::Result {
        self.0.fmt(f)
    }
}

#[macro_export]
macro_rules! smallvec {
    ($($item:expr),* $(,)?) => {{
        #[allow(unused_mut)]
        let mut items = $crate::SmallVec::new();
        $(items.push($item);)*
        items
    }};
}
