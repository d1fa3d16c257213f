//! Lists of a fixed room, so that nothing here needs an allocator.

use core::fmt::{self, Debug, Formatter};
use core::ops::Deref;

/// Up to `MOST` values, in their order; it is read as a slice.
#[derive(Clone, Copy, PartialEq, Eq, Hash)]
pub struct List<T, const MOST: usize> {
    // Those from the count on are defaults, so that equal lists have equal arrays.
    items: [T; MOST],
    count: usize,
}

/// Up to `MOST` bytes.
pub type Bytes<const MOST: usize> = List<u8, MOST>;

impl<T: Copy + Default, const MOST: usize> List<T, MOST> {
    /// No value.
    pub fn new() -> Self {
        List { items: [T::default(); MOST], count: 0 }
    }

    /// One value more, or false where the list is full.
    pub fn push(&mut self, item: T) -> bool {
        let Some(place) = self.items.get_mut(self.count) else {
            return false;
        };
        *place = item;
        self.count += 1;
        true
    }

    /// The first of these values, as many as there is room for.
    pub(crate) fn of(values: &[T]) -> Self {
        let mut list = List::new();
        for &value in values.iter().take(MOST) {
            list.push(value);
        }
        list
    }

    /// What a call leaves at the start of the room, as a list of so many values.
    pub(crate) fn filled<E>(fill: impl FnOnce(&mut [T], &mut usize) -> Result<(), E>) -> Result<Self, E> {
        let mut list = List::new();
        let mut count = 0;
        fill(&mut list.items, &mut count)?;
        list.count = count;
        Ok(list)
    }
}

impl<T: Copy + Default, const MOST: usize> Default for List<T, MOST> {
    fn default() -> Self {
        List::new()
    }
}

impl<T, const MOST: usize> Deref for List<T, MOST> {
    type Target = [T];

    fn deref(&self) -> &[T] {
        &self.items[..self.count]
    }
}

impl<'a, T, const MOST: usize> IntoIterator for &'a List<T, MOST> {
    type Item = &'a T;
    type IntoIter = core::slice::Iter<'a, T>;

    fn into_iter(self) -> Self::IntoIter {
        self.iter()
    }
}

impl<T: Debug, const MOST: usize> Debug for List<T, MOST> {
    fn fmt(&self, to: &mut Formatter) -> fmt::Result {
        to.debug_list().entries(self.iter()).finish()
    }
}
