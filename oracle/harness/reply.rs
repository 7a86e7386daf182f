//! What a call answers, who decided it, and how an outcome of the Rust becomes the paper's number.

use std::{
    cell::Cell,
    fmt::{Display, Formatter},
    panic::{AssertUnwindSafe, catch_unwind, set_hook},
};
use x86_vlapic::{X86VlapicError, X86VlapicResult};

#[derive(Clone, Copy, PartialEq)]
pub enum Judge {
    Rust,
    Harness,
}

pub enum Number {
    Paper(u8),
    /// With `--alone`: the Rust's error by its name, or `panic`.
    Alone(String),
}

/// A call's number and values; no values print as `-`.
pub struct Reply {
    pub number: Number,
    pub values: Vec<u64>,
    pub judge: Judge,
}

impl Reply {
    pub fn done(values: Vec<u64>) -> Self {
        Self { number: Number::Paper(0), values, judge: Judge::Rust }
    }

    /// An answer or, with `None`, "nothing".
    pub fn maybe(values: Option<Vec<u64>>) -> Self {
        Self::done(values.unwrap_or_default())
    }

    /// HARNESS: a refusal that isn't the Rust's own.
    pub fn refused_by_harness(number: u8) -> Self {
        Self { number: Number::Paper(number), values: Vec::new(), judge: Judge::Harness }
    }

    pub fn by_harness(self) -> Self {
        Self { judge: Judge::Harness, ..self }
    }
}

impl Display for Reply {
    fn fmt(&self, f: &mut Formatter<'_>) -> std::fmt::Result {
        match &self.number {
            Number::Paper(number) => write!(f, "{number} ")?,
            Number::Alone(name) => write!(f, "{name} ")?,
        }
        let Some((first, others)) = self.values.split_first() else {
            return f.write_str("-");
        };
        write!(f, "{first}")?;
        others.iter().try_for_each(|value| write!(f, ",{value}"))
    }
}

/// What the Rust did with a call.
pub enum Outcome<T> {
    Done(T),
    Error(X86VlapicError),
    Panic(String),
}

thread_local! {
    static ASKING: Cell<bool> = const { Cell::new(false) };
}

/// The Rust's panics are answers, and aren't reported; the harness's own are.
pub fn report_own_panics_only() {
    set_hook(Box::new(|panic| {
        if !ASKING.get() {
            eprintln!("oracle: {panic}");
        }
    }));
}

/// Makes a call of the Rust; its panics are outcomes. Every call of the Rust that panics does so before it holds a lock.
pub fn ask<T>(call: impl FnOnce() -> X86VlapicResult<T>) -> Outcome<T> {
    ASKING.set(true);
    let result = catch_unwind(AssertUnwindSafe(call));
    ASKING.set(false);
    match result {
        Ok(Ok(value)) => Outcome::Done(value),
        Ok(Err(error)) => Outcome::Error(error),
        Err(payload) => {
            let literal = payload.downcast_ref::<&str>().map(|text| text.to_string());
            let text = literal.or_else(|| payload.downcast_ref::<String>().cloned());
            Outcome::Panic(text.expect("a panic has a text"))
        }
    }
}

impl<T> Outcome<T> {
    /// The paper's number for each of the Rust's errors and panics. One that isn't in the list ends the oracle: it would be a
    /// behaviour that the paper has no number for.
    pub fn reply(self, alone: bool, values: impl FnOnce(T) -> Vec<u64>) -> Reply {
        let number = match self {
            Outcome::Done(value) => return Reply::done(values(value)),
            Outcome::Error(error) if alone => Number::Alone(format!("{error:?}")),
            Outcome::Panic(_) if alone => Number::Alone("panic".into()),
            Outcome::Error(X86VlapicError::Unsupported) => Number::Paper(1),
            Outcome::Error(X86VlapicError::InvalidInput) => Number::Paper(2),
            Outcome::Error(X86VlapicError::InvalidData) => Number::Paper(3),
            Outcome::Error(error) => fatal(&format!("no number for {error:?}")),
            Outcome::Panic(text) => Number::Paper(number_of_panic(&text)),
        };
        Reply { number, values: Vec::new(), judge: Judge::Rust }
    }
}

fn number_of_panic(text: &str) -> u8 {
    match text {
        "Invalid APIC register offset" => 2,
        "attempt to subtract with overflow" => 4,
        "attempt to shift left with overflow" => 5,
        _ => fatal(&format!("no number for the panic: {text}")),
    }
}

/// Ends the oracle with a text, also from inside a call of the Rust.
pub fn fatal(text: &str) -> ! {
    eprintln!("oracle: {text}");
    std::process::exit(3)
}
