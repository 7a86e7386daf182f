//! A spin lock for callers that share a chip.

use core::{
    cell::UnsafeCell,
    fmt::{Debug, Formatter},
    hint::spin_loop,
    sync::atomic::{AtomicBool, Ordering::Acquire, Ordering::Relaxed, Ordering::Release},
};

/// A chip behind a spin lock, for callers that have it by `&self` as the original's callers do: `chip.assert_gsi(2)` becomes
/// `chip.with(|chip| chip.assert_gsi(2))`.
///
/// The lock is held for the closure alone, as the original holds its own for a call alone: there is no guard that an `if let` or a `match` would keep
/// until its end. It isn't reentrant: a closure that uses the same `Locked` waits for ever. It doesn't turn interrupts off: a caller that uses a chip in an
/// interrupt handler too turns them off around `with`, or the handler waits for ever. Inject an answer after `with`, not inside.
///
/// ```
/// # use sillwander::{EmulatedPic, Locked};
/// let pic = Locked::new(EmulatedPic::new());
/// let claim = pic.with(|pic| pic.claim_irq(4));
/// assert!(claim.is_none(), "every line of a new pair is masked");
/// ```
#[derive(Default)]
pub struct Locked<T> {
    is_locked: AtomicBool,
    value: UnsafeCell<T>,
}

// SAFETY: the value is reached in `with` alone, by one thread at a time; that thread has it as if it had been sent.
unsafe impl<T: Send> Sync for Locked<T> {}

/// Gives the lock back, also where the closure panics.
struct Held<'a>(&'a AtomicBool);

impl Drop for Held<'_> {
    #[inline]
    fn drop(&mut self) {
        self.0.store(false, Release);
    }
}

impl<T> Locked<T> {
    /// A value that nobody has locked.
    pub const fn new(value: T) -> Self {
        Self { is_locked: AtomicBool::new(false), value: UnsafeCell::new(value) }
    }

    /// Waits until nobody else has the value, and lends it to the closure.
    #[inline]
    pub fn with<R>(&self, call: impl FnOnce(&mut T) -> R) -> R {
        while self.is_locked.compare_exchange_weak(false, true, Acquire, Relaxed).is_err() {
            while self.is_locked.load(Relaxed) {
                spin_loop();
            }
        }
        let _held = Held(&self.is_locked);
        // SAFETY: whoever took the lock has the value alone until `_held` is dropped, and the reference ends with the closure.
        call(unsafe { &mut *self.value.get() })
    }

    /// The value, where nobody else can have it.
    pub fn get_mut(&mut self) -> &mut T {
        self.value.get_mut()
    }

    /// The value without its lock.
    pub fn into_inner(self) -> T {
        self.value.into_inner()
    }
}

impl<T> Debug for Locked<T> {
    fn fmt(&self, f: &mut Formatter<'_>) -> core::fmt::Result {
        f.debug_struct("Locked").field("is_locked", &self.is_locked).finish_non_exhaustive()
    }
}

#[cfg(test)]
mod tests {
    use super::*;
    use std::{panic::catch_unwind, sync::Arc, thread};

    #[test]
    fn no_addition_is_lost() {
        let sum = Arc::new(Locked::new(0));
        let adders = [1, 2, 3].map(|step| {
            let sum = Arc::clone(&sum);
            thread::spawn(move || (0..1000).for_each(|_| sum.with(|sum| *sum += step)))
        });
        adders.into_iter().for_each(|adder| adder.join().expect("it only adds"));
        assert_eq!(sum.with(|sum| *sum), 6000);
    }

    #[test]
    fn a_panic_gives_the_lock_back() {
        let value = std::panic::AssertUnwindSafe(Locked::new(1));
        assert!(catch_unwind(|| value.with(|_| panic!("in the closure"))).is_err());
        assert_eq!(value.with(|value| *value), 1);
    }
}
