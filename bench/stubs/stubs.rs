//! What the sources take from libraries, as far as the timed run needs it.
use std::marker::PhantomData;
use std::mem::MaybeUninit;
use std::ops::Deref;

pub trait Model {}

#[derive(Clone, Copy)]
pub struct Global;

pub trait FromSlice<T>: Sized {
    fn from_slice(alloc: Global, items: &[T]) -> Result<Self, ()>;
}

impl<T: Clone> FromSlice<T> for Vec<T> {
    fn from_slice(_: Global, items: &[T]) -> Result<Vec<T>, ()> {
        Ok(items.to_vec())
    }
}

#[derive(Debug, PartialEq, Eq)]
pub struct Snapshot<T>(PhantomData<T>);

impl<T> Snapshot<T> {
    pub fn of(_: &T) -> Snapshot<T> {
        Snapshot(PhantomData)
    }
}

impl<T> Clone for Snapshot<T> {
    fn clone(&self) -> Snapshot<T> {
        *self
    }
}

impl<T> Copy for Snapshot<T> {}

#[derive(Clone, Copy, Debug)]
pub struct ArrayString<const N: usize> {
    len: u32,
    bytes: [u8; N],
}

impl<const N: usize> ArrayString<N> {
    pub fn new() -> ArrayString<N> {
        ArrayString { len: 0, bytes: [0; N] }
    }
}

#[derive(Clone, Copy, Debug)]
pub struct ArrayVec<T: Copy, const N: usize> {
    len: u32,
    items: [MaybeUninit<T>; N],
}

impl<T: Copy, const N: usize> ArrayVec<T, N> {
    pub fn new() -> ArrayVec<T, N> {
        ArrayVec { len: 0, items: [MaybeUninit::uninit(); N] }
    }

    pub fn clear(&mut self) {
        self.len = 0;
    }

    pub fn push(&mut self, item: T) {
        self.items[self.len as usize] = MaybeUninit::new(item);
        self.len += 1;
    }

    pub fn pop(&mut self) -> Option<T> {
        if self.len == 0 {
            return None;
        }
        self.len -= 1;
        Some(unsafe { self.items[self.len as usize].assume_init() })
    }
}

impl<T: Copy, const N: usize> Deref for ArrayVec<T, N> {
    type Target = [T];

    fn deref(&self) -> &[T] {
        unsafe { std::slice::from_raw_parts(self.items.as_ptr() as *const T, self.len as usize) }
    }
}
