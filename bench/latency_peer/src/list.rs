//! A list of at most N values in place, as the crate `arrayvec` has it.

use std::mem::MaybeUninit;
use std::ops::{Deref, DerefMut};

#[derive(Clone)]
pub struct List<T: Copy, const N: usize> {
    len: u32,
    items: [MaybeUninit<T>; N],
}

impl<T: Copy, const N: usize> List<T, N> {
    pub fn new() -> List<T, N> {
        List { len: 0, items: [const { MaybeUninit::uninit() }; N] }
    }

    pub fn push(&mut self, item: T) {
        self.items[self.len as usize].write(item);
        self.len += 1;
    }

    pub fn insert(&mut self, at: usize, item: T) {
        let len = self.len as usize;
        assert!(at <= len && len < N);
        self.items.copy_within(at..len, at + 1);
        self.items[at].write(item);
        self.len += 1;
    }

    pub fn remove(&mut self, at: usize) {
        let len = self.len as usize;
        assert!(at < len);
        self.items.copy_within(at + 1..len, at);
        self.len -= 1;
    }

    pub fn retain(&mut self, mut stays: impl FnMut(&mut T) -> bool) {
        let mut kept = 0;
        for at in 0..self.len as usize {
            let mut item = self[at];
            if stays(&mut item) {
                self.items[kept].write(item);
                kept += 1;
            }
        }
        self.len = kept as u32;
    }
}

impl<T: Copy, const N: usize> Default for List<T, N> {
    fn default() -> List<T, N> {
        List::new()
    }
}

impl<T: Copy, const N: usize> Deref for List<T, N> {
    type Target = [T];

    fn deref(&self) -> &[T] {
        // The first `len` items were written.
        unsafe { std::slice::from_raw_parts(self.items.as_ptr().cast(), self.len as usize) }
    }
}

impl<T: Copy, const N: usize> DerefMut for List<T, N> {
    fn deref_mut(&mut self) -> &mut [T] {
        unsafe { std::slice::from_raw_parts_mut(self.items.as_mut_ptr().cast(), self.len as usize) }
    }
}

impl<T: Copy, const N: usize> FromIterator<T> for List<T, N> {
    fn from_iter<I: IntoIterator<Item = T>>(items: I) -> List<T, N> {
        let mut list = List::new();
        for item in items {
            list.push(item);
        }
        list
    }
}
