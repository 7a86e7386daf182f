//! Stand-in for the lock: one thread only, so it is a cell that refuses to be locked twice at once.

use core::{
    cell::{RefCell, RefMut},
    ops::{Deref, DerefMut},
};

pub struct SpinMutex<T>(RefCell<T>);

pub struct Guard<'a, T>(RefMut<'a, T>);

impl<T> SpinMutex<T> {
    pub const fn new(value: T) -> Self {
        Self(RefCell::new(value))
    }

    /// Panics where the original would spin for ever: a lock taken again by the call that holds it.
    pub fn lock(&self) -> Guard<'_, T> {
        Guard(self.0.borrow_mut())
    }
}

impl<T> Deref for Guard<'_, T> {
    type Target = T;
    fn deref(&self) -> &T {
        &self.0
    }
}

impl<T> DerefMut for Guard<'_, T> {
    fn deref_mut(&mut self) -> &mut T {
        &mut self.0
    }
}
