//! The crate `log`, for the benchmark: no message is compiled in, as with its feature `release_max_level_off`. That is the original at its fastest.
#![no_std]

#[macro_export]
macro_rules! debug { ($($text:tt)*) => { if false { let _ = format_args!($($text)*); } }; }
#[macro_export]
macro_rules! warn { ($($text:tt)*) => { if false { let _ = format_args!($($text)*); } }; }
#[macro_export]
macro_rules! error { ($($text:tt)*) => { if false { let _ = format_args!($($text)*); } }; }
