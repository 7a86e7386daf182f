//! What a caller does with an answer, the same on every side.

use crate::sides::Refusal;
use std::arch::asm;

/// It looks whether there is an answer, and has each of its numbers.
pub trait Caller {
    fn value(&mut self, value: u64);
    fn nothing(&mut self);
    fn refused(&mut self, refusal: impl Refusal);
    /// A set of lines.
    fn lines(&mut self, set: u64);

    #[inline(always)]
    fn took<const N: usize>(&mut self, answer: Option<[u64; N]>) {
        match answer {
            Some(values) => values.into_iter().for_each(|value| self.value(value)),
            None => self.nothing(),
        }
    }

    #[inline(always)]
    fn done<const N: usize>(&mut self, answer: Result<[u64; N], impl Refusal>) {
        match answer {
            Ok(values) => values.into_iter().for_each(|value| self.value(value)),
            Err(refusal) => self.refused(refusal),
        }
    }
}

/// The counted one has each number in a register, as for a call of its own; that call isn't there. So the test of the
/// answer stays, and so does what takes it apart: the compiler can't work out "no answer" and an answer's numbers in
/// one. There is no instruction besides.
pub struct Counted;

impl Caller for Counted {
    #[inline(always)]
    fn value(&mut self, value: u64) {
        // SAFETY: there is no instruction.
        unsafe { asm!("# {}", in(reg) value, options(nomem, nostack, preserves_flags)) }
    }
    #[inline(always)]
    fn nothing(&mut self) {}
    #[inline(always)]
    fn refused(&mut self, _refusal: impl Refusal) {
        // SAFETY: there is no instruction.
        unsafe { asm!("# refused", options(nomem, nostack, preserves_flags)) }
    }
    #[inline(always)]
    fn lines(&mut self, set: u64) {
        self.value(set);
    }
}

#[derive(Debug, PartialEq)]
enum Told {
    Value(u64),
    Nothing,
    Refused(u8),
}

/// Keeps what it was told, to be compared with what another side tells. Of a set of lines it keeps the lowest, which is
/// the one that the original's EOI ends.
#[derive(Debug, Default, PartialEq)]
pub struct Recorded(Vec<Told>);

impl Caller for Recorded {
    fn value(&mut self, value: u64) {
        self.0.push(Told::Value(value));
    }
    fn nothing(&mut self) {
        self.0.push(Told::Nothing);
    }
    fn refused(&mut self, refusal: impl Refusal) {
        self.0.push(Told::Refused(refusal.number()));
    }
    fn lines(&mut self, set: u64) {
        self.value(set.trailing_zeros().into());
    }
}
