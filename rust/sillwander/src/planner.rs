//! Vectors that don't collide: the check of a proposal, the planner, and why there is no plan. The original has none of them.

use crate::{
    archives::*,
    code::{count, done, of_two, value},
    text::vectors,
    types::{X86InterruptVector, X86VlapicResult},
};
use core::fmt::{Debug, Formatter};

/// The vectors that a line may have, from a lowest to a highest, both in it.
#[derive(Clone, Copy, Eq, PartialEq)]
#[repr(transparent)]
pub struct VectorRange(u16);

impl VectorRange {
    /// From `lowest` to `highest`. Where `lowest` is the greater one, no vector is in it, and a plan is refused.
    #[inline]
    pub const fn new(lowest: X86InterruptVector, highest: X86InterruptVector) -> Self {
        Self(lowest as u16 | (highest as u16) << 8)
    }

    /// The lowest vector.
    #[inline]
    pub const fn lowest(self) -> X86InterruptVector {
        self.0 as u8
    }

    /// The highest vector.
    #[inline]
    pub const fn highest(self) -> X86InterruptVector {
        (self.0 >> 8) as u8
    }
}

impl Debug for VectorRange {
    fn fmt(&self, f: &mut Formatter<'_>) -> core::fmt::Result {
        write!(f, "VectorRange({:#x}..={:#x})", self.lowest(), self.highest())
    }
}

/// A set of vectors: those that are taken.
#[derive(Clone, Copy, Default, Eq, PartialEq)]
pub struct TakenVectors([u64; 4]);

impl TakenVectors {
    /// None.
    #[inline]
    pub const fn new() -> Self {
        Self([0; 4])
    }

    /// Takes a vector.
    #[inline]
    pub const fn insert(&mut self, vector: X86InterruptVector) {
        self.0[vector as usize / 64] |= 1 << (vector % 64);
    }

    /// Whether a vector is taken.
    #[inline]
    pub const fn contains(&self, vector: X86InterruptVector) -> bool {
        self.0[vector as usize / 64] >> (vector % 64) & 1 != 0
    }
}

impl Debug for TakenVectors {
    fn fmt(&self, f: &mut Formatter<'_>) -> core::fmt::Result {
        f.debug_tuple("TakenVectors").field(&vectors(|vector| self.contains(vector))).finish()
    }
}

/// More lines than free vectors: why there is no plan.
#[derive(Clone, Copy, Debug, Eq, PartialEq)]
pub struct VectorShortage {
    /// The first vector of the range.
    pub lowest: X86InterruptVector,
    /// The last vector of the range.
    pub highest: X86InterruptVector,
    /// The lines that may have none but vectors of the range, more than it has free ones: bit k is line k.
    pub lines: u32,
}

/// Whether a proposal has a vector for each line, in the line's range, 32 or more, not taken, and no two the same. What it has behind them doesn't count.
#[inline]
pub fn check_vectors(ranges: &[VectorRange], taken: &TakenVectors, plan: &[X86InterruptVector]) -> bool {
    // SAFETY: a VectorRange is a u16, and the pointers are those of slices with these lengths.
    value(unsafe { sillwander_plan_check(ranges.as_ptr().cast(), ranges.len(), &taken.0, plan.as_ptr(), plan.len()) }) != 0
}

/// Writes a vector for each line, such that the check passes, and nothing behind them.
///
/// Refused, with the plan untouched: [`OutOfRange`](crate::X86VlapicError::OutOfRange) for more than 24 lines, [`TooShort`](crate::X86VlapicError::TooShort) for a
/// plan shorter than the lines, [`InvalidInput`](crate::X86VlapicError::InvalidInput) for a lowest vector above a highest, and then
/// [`NoPlan`](crate::X86VlapicError::NoPlan), exactly where no plan would pass.
#[inline]
pub fn plan_vectors(ranges: &[VectorRange], taken: &TakenVectors, plan: &mut [X86InterruptVector]) -> X86VlapicResult {
    // SAFETY: as above; the plan is lent for writing.
    done(unsafe { sillwander_plan(ranges.as_ptr().cast(), ranges.len(), &taken.0, plan.as_mut_ptr(), plan.len()) }).map(|_| ())
}

/// Why [`plan_vectors`] refuses with `NoPlan`; `None` where there is a plan. Refused with `OutOfRange` and `InvalidInput`, as there.
#[inline]
pub fn vector_shortage(ranges: &[VectorRange], taken: &TakenVectors) -> X86VlapicResult<Option<VectorShortage>> {
    let mut lines = [0];
    // SAFETY: as above.
    let code = done(unsafe { sillwander_plan_shortage(ranges.as_ptr().cast(), ranges.len(), &taken.0, &mut lines) })?;
    Ok((count(code) == 2).then(|| VectorShortage { lowest: of_two(code, 0), highest: of_two(code, 1), lines: lines[0] as u32 }))
}

#[cfg(test)]
mod tests {
    use super::*;
    use std::format;

    #[test]
    fn ranges_and_sets_are_said_in_words() {
        let mut taken = TakenVectors::new();
        [0x30, 0xff, 0x3f].into_iter().for_each(|vector| taken.insert(vector));
        assert_eq!(
            format!("{:?} {taken:?}", VectorRange::new(0x30, 0x4f)),
            "VectorRange(0x30..=0x4f) TakenVectors([0x30, 0x3f, 0xff])"
        );
    }

    #[test]
    fn a_plan_avoids_what_is_taken() {
        let mut taken = TakenVectors::new();
        taken.insert(0x30);
        let ranges = [VectorRange::new(0x30, 0x31); 2];
        let mut plan = [0; 2];
        assert_eq!(plan_vectors(&ranges[..1], &taken, &mut plan), Ok(()));
        assert_eq!(plan, [0x31, 0]);
        assert_eq!(plan_vectors(&ranges, &taken, &mut plan), Err(crate::X86VlapicError::NoPlan));
        let shortage = VectorShortage { lowest: 0x30, highest: 0x31, lines: 0b11 };
        assert_eq!(vector_shortage(&ranges, &taken), Ok(Some(shortage)));
    }
}
