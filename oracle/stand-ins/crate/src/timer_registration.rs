//! Stand-in for timers: no timer is ever armed, since document 01 leaves timers behind and no script reaches one.

use crate::{X86TimerCallback, X86VlapicError, X86VlapicResult};
use core::marker::PhantomData;

pub struct TimerRegistration<H>(PhantomData<fn() -> H>);

impl<H> TimerRegistration<H> {
    pub fn new() -> Self {
        Self(PhantomData)
    }

    pub fn is_armed(&self) -> bool {
        false
    }

    pub fn invalidate_and_cancel(&self) -> X86VlapicResult {
        Ok(())
    }

    pub fn register(&self, _deadline_ns: u64, _callback: X86TimerCallback) -> X86VlapicResult {
        Err(X86VlapicError::TimerUnavailable)
    }

    /// # Safety
    ///
    /// The callback is dropped and never called.
    pub unsafe fn register_hard(&self, _deadline_ns: u64, _callback: X86TimerCallback) -> X86VlapicResult {
        Err(X86VlapicError::TimerUnavailable)
    }
}

pub fn limit_periodic_timer_period_ns(period_ns: u64) -> u64 {
    period_ns
}

pub fn restart_periodic_deadline_ns(deadline_ns: u64, _period_ns: u64, _now_ns: u64) -> u64 {
    deadline_ns
}
