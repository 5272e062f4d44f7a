//! Buffers at a chosen place in a page of memory.

use std::ops::{Deref, DerefMut};

const PAGE: usize = 4096;

/// A buffer that starts so many bytes behind a page's start.
pub struct Buffer<T> {
    room: Vec<T>,
    start: usize,
    len: usize,
}

impl<T: Clone + Default> Buffer<T> {
    /// A source. It starts with a page.
    pub fn source(items: &[T]) -> Self {
        let mut buffer = Self::at(0, items.len());
        buffer.clone_from_slice(items);
        buffer
    }

    /// A destination, half a page off: where source and destination have equal addresses modulo the page, a processor
    /// takes loads for loads of what it has just stored, and everyone's loops wait.
    pub fn destination(len: usize) -> Self {
        Self::at(PAGE / 2, len)
    }

    fn at(offset: usize, len: usize) -> Self {
        let size = std::mem::size_of::<T>();
        let room = vec![T::default(); len + PAGE / size];
        let past = room.as_ptr() as usize % PAGE;
        Buffer {
            room,
            start: (PAGE + offset - past) % PAGE / size,
            len,
        }
    }
}

impl<T> Deref for Buffer<T> {
    type Target = [T];

    fn deref(&self) -> &[T] {
        &self.room[self.start..self.start + self.len]
    }
}

impl<T> DerefMut for Buffer<T> {
    fn deref_mut(&mut self) -> &mut [T] {
        &mut self.room[self.start..self.start + self.len]
    }
}
