//! A fixed array of which only what was pushed is filled.
use std::mem::MaybeUninit;
use std::ops::{Deref, DerefMut};

/// The length stands first, since some compilers clear all that lies between two lengths that are set to 0.
#[repr(C)]
pub struct Filled<T: Copy, const N: usize> {
    length: usize,
    items: MaybeUninit<[T; N]>,
}

impl<T: Copy, const N: usize> Filled<T, N> {
    pub fn new() -> Self {
        Filled { length: 0, items: MaybeUninit::uninit() }
    }

    pub fn push(&mut self, item: T) {
        assert!(self.length < N);
        // SAFETY: the place is one of the array's.
        unsafe { self.items.as_mut_ptr().cast::<T>().add(self.length).write(item) };
        self.length += 1;
    }

    pub fn clear(&mut self) {
        self.length = 0;
    }

    pub fn pop(&mut self) {
        assert!(self.length > 0);
        self.length -= 1;
    }
}

impl<T: Copy, const N: usize> Deref for Filled<T, N> {
    type Target = [T];

    fn deref(&self) -> &[T] {
        // SAFETY: the first `length` items were pushed.
        unsafe { std::slice::from_raw_parts(self.items.as_ptr().cast(), self.length) }
    }
}

impl<T: Copy, const N: usize> DerefMut for Filled<T, N> {
    fn deref_mut(&mut self) -> &mut [T] {
        // SAFETY: as above.
        unsafe { std::slice::from_raw_parts_mut(self.items.as_mut_ptr().cast(), self.length) }
    }
}
