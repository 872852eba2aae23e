//! For the crate heapless: a list in place, of at most N plain values.
use std::mem::MaybeUninit;
use std::ops::Deref;

pub struct Vec<T, const N: usize> {
    length: usize,
    items: [MaybeUninit<T>; N],
}

impl<T: Copy, const N: usize> Vec<T, N> {
    pub fn new() -> Self {
        Vec {
            length: 0,
            items: [MaybeUninit::uninit(); N],
        }
    }

    pub fn from_slice(from: &[T]) -> Result<Self, ()> {
        let mut list = Self::new();
        for item in from {
            list.push(*item).map_err(drop)?;
        }
        Ok(list)
    }

    pub fn push(&mut self, item: T) -> Result<(), T> {
        if self.length == N {
            return Err(item);
        }
        self.items[self.length] = MaybeUninit::new(item);
        self.length += 1;
        Ok(())
    }

    pub fn into_array<const M: usize>(self) -> Result<[T; M], Self> {
        self[..].try_into().map_err(|_| self)
    }
}

impl<T: Copy, const N: usize> Deref for Vec<T, N> {
    type Target = [T];

    fn deref(&self) -> &[T] {
        // SAFETY: the first `length` items were pushed.
        unsafe { std::slice::from_raw_parts(self.items.as_ptr().cast(), self.length) }
    }
}
