//! Stand-in for the crate `log`: every message, of whatever level, goes to the one listener. With no listener it is dropped.

use std::{fmt::Arguments, sync::OnceLock};

static LISTENER: OnceLock<fn(Arguments)> = OnceLock::new();

/// Sets the listener; the first one stays.
pub fn listen(listener: fn(Arguments)) {
    let _ = LISTENER.set(listener);
}

pub fn message(text: Arguments) {
    if let Some(listener) = LISTENER.get() {
        listener(text);
    }
}

#[macro_export]
macro_rules! debug { ($($text:tt)*) => { $crate::message(format_args!($($text)*)) }; }
#[macro_export]
macro_rules! warn { ($($text:tt)*) => { $crate::message(format_args!($($text)*)) }; }
#[macro_export]
macro_rules! error { ($($text:tt)*) => { $crate::message(format_args!($($text)*)) }; }
