//! Stand-in for the original's lock, which isn't among its files: the oracle's is one thread's alone, and machine.rs has
//! several.

extern crate std;

use std::sync::{Mutex, MutexGuard, PoisonError};

pub struct SpinMutex<T>(Mutex<T>);

impl<T> SpinMutex<T> {
    pub const fn new(value: T) -> Self {
        Self(Mutex::new(value))
    }

    /// A spin lock has no poison.
    pub fn lock(&self) -> MutexGuard<'_, T> {
        self.0.lock().unwrap_or_else(PoisonError::into_inner)
    }
}
