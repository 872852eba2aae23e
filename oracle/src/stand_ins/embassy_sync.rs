//! For the crate embassy-sync: locks for a program of one thread, which never wait.

pub mod blocking_mutex {
    pub mod raw {
        pub trait RawMutex {}

        pub struct OneThread;

        impl RawMutex for OneThread {}
    }
}

pub mod mutex {
    use super::blocking_mutex::raw::RawMutex;
    use std::cell::{RefCell, RefMut};
    use std::marker::PhantomData;

    pub struct Mutex<M: RawMutex, T> {
        held: RefCell<T>,
        kind: PhantomData<M>,
    }

    impl<M: RawMutex, T> Mutex<M, T> {
        pub fn new(held: T) -> Self {
            Mutex {
                held: RefCell::new(held),
                kind: PhantomData,
            }
        }

        pub async fn lock(&self) -> RefMut<'_, T> {
            self.held.borrow_mut()
        }
    }
}
