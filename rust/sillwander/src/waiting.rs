//! Interrupts that wait for a stopped vCPU: a list of 64 places for each, the oldest first out. The original drops what it can't publish.

use crate::{
    archives::*,
    code::{count, done, value},
    types::{X86InterruptVector, X86VcpuId, X86VlapicResult},
    vpic::EmulatedPic,
};
use core::fmt::{Debug, Formatter};

const LIST_BYTES: usize = 66;

/// The waiting lists of up to `VCPUS` vCPUs, of which there are 64 at most.
///
/// Every call refuses a vCPU that has no list with [`OutOfRange`](crate::X86VlapicError::OutOfRange), before it does anything else.
/// Lists are equal if their bytes are: what waits may be the same, and its places in the ring others.
///
/// ```
/// # use sillwander::{WaitingLists, X86VlapicError};
/// let mut lists = WaitingLists::<2>::new();
/// lists.take(1, 0x41)?;
/// lists.take(1, 0x42)?;
/// assert_eq!(lists.deliver(1)?, Some(0x41));
/// assert_eq!(lists.cancel(1, 0x41)?, None);
/// assert_eq!(lists.deliver(1)?, Some(0x42));
/// assert_eq!(lists.take(2, 0x41), Err(X86VlapicError::OutOfRange));
/// # Ok::<(), X86VlapicError>(())
/// ```
#[derive(Clone, Eq, PartialEq)]
pub struct WaitingLists<const VCPUS: usize> {
    lists: [[u8; LIST_BYTES]; VCPUS],
}

impl<const VCPUS: usize> WaitingLists<VCPUS> {
    /// Nothing waits. More than 64 vCPUs panic; in a constant they aren't compiled.
    pub const fn new() -> Self {
        assert!(VCPUS <= 64, "there are 64 vCPUs at most");
        Self { lists: [[0; LIST_BYTES]; VCPUS] }
    }

    /// The lists' bytes, in the layout that include/sillwander.h has, to move them with a board's image.
    pub const fn to_bytes(&self) -> [[u8; LIST_BYTES]; VCPUS] {
        self.lists
    }

    /// The lists with these bytes. Any are lists: a place counts modulo 64, and a count above 64 as 64. More than 64 vCPUs
    /// panic, as in [`new`](Self::new).
    pub const fn from_bytes(lists: [[u8; LIST_BYTES]; VCPUS]) -> Self {
        let mut new = Self::new();
        new.lists = lists;
        new
    }

    #[inline]
    fn bytes(&mut self) -> (*mut u8, usize) {
        (self.lists.as_mut_ptr().cast(), VCPUS * LIST_BYTES)
    }

    /// Empties a vCPU's list: what waited is gone.
    #[inline]
    pub fn clear(&mut self, vcpu_id: X86VcpuId) -> X86VlapicResult {
        let (lists, bytes) = self.bytes();
        // SAFETY: the pointer is that of the lists, which have so many bytes; so below.
        done(unsafe { sillwander_waiting_new(lists, bytes, vcpu_id) }).map(|_| ())
    }

    /// Takes an interrupt in. [`ListFull`](crate::X86VlapicError::ListFull) exactly if 64 wait.
    #[inline]
    pub fn take(&mut self, vcpu_id: X86VcpuId, vector: X86InterruptVector) -> X86VlapicResult {
        let (lists, bytes) = self.bytes();
        // SAFETY: as above.
        done(unsafe { sillwander_waiting_take(lists, bytes, vcpu_id, vector.into()) }).map(|_| ())
    }

    /// Delivers the oldest, if something waits.
    #[inline]
    pub fn deliver(&mut self, vcpu_id: X86VcpuId) -> X86VlapicResult<Option<X86InterruptVector>> {
        let (lists, bytes) = self.bytes();
        // SAFETY: as above.
        done(unsafe { sillwander_waiting_deliver(lists, bytes, vcpu_id) }).map(vector_of)
    }

    /// Cancels the oldest of a vector, if it waits.
    #[inline]
    pub fn cancel(&mut self, vcpu_id: X86VcpuId, vector: X86InterruptVector) -> X86VlapicResult<Option<X86InterruptVector>> {
        let (lists, bytes) = self.bytes();
        // SAFETY: as above.
        done(unsafe { sillwander_waiting_cancel(lists, bytes, vcpu_id, vector.into()) }).map(vector_of)
    }

    /// How many wait.
    #[inline]
    pub fn count(&self, vcpu_id: X86VcpuId) -> X86VlapicResult<usize> {
        // SAFETY: as above.
        done(unsafe { sillwander_waiting_count(self.lists.as_ptr().cast(), VCPUS * LIST_BYTES, vcpu_id) }).map(value)
    }

    /// The vector that waits behind `place` others.
    #[inline]
    pub fn peek(&self, vcpu_id: X86VcpuId, place: usize) -> X86VlapicResult<Option<X86InterruptVector>> {
        // SAFETY: as above.
        done(unsafe { sillwander_waiting_peek(self.lists.as_ptr().cast(), VCPUS * LIST_BYTES, vcpu_id, place) }).map(vector_of)
    }

    /// An edge on a line of the pair, and what can then be delivered is claimed and waits for the vCPU.
    ///
    /// `ListFull` where something was claimed and 64 wait: the claim is restored then, and the raised line stays latched. What is answered can't be restored: it waits.
    #[inline]
    pub fn claim_irq(
        &mut self,
        pic: &mut EmulatedPic,
        vcpu_id: X86VcpuId,
        irq: u8,
    ) -> X86VlapicResult<Option<X86InterruptVector>> {
        let (lists, bytes) = self.bytes();
        // SAFETY: as above.
        done(unsafe { sillwander_waiting_claim_irq(lists, bytes, pic.words(), vcpu_id, irq.into()) }).map(claimed)
    }

    /// The same of what can be delivered after a change of the pair.
    #[inline]
    pub fn claim_pending_interrupt(
        &mut self,
        pic: &mut EmulatedPic,
        vcpu_id: X86VcpuId,
    ) -> X86VlapicResult<Option<X86InterruptVector>> {
        let (lists, bytes) = self.bytes();
        // SAFETY: as above.
        done(unsafe { sillwander_waiting_claim_pending_interrupt(lists, bytes, pic.words(), vcpu_id) }).map(claimed)
    }
}

impl<const VCPUS: usize> Default for WaitingLists<VCPUS> {
    fn default() -> Self {
        Self::new()
    }
}

/// What waits for each vCPU, the oldest first.
impl<const VCPUS: usize> Debug for WaitingLists<VCPUS> {
    fn fmt(&self, f: &mut Formatter<'_>) -> core::fmt::Result {
        let waiting = |vcpu_id| Waiting { lists: self, vcpu_id };
        f.debug_map().entries((0..VCPUS).map(|vcpu_id| (vcpu_id, waiting(vcpu_id)))).finish()
    }
}

struct Waiting<'a, const VCPUS: usize> {
    lists: &'a WaitingLists<VCPUS>,
    vcpu_id: X86VcpuId,
}

impl<const VCPUS: usize> Debug for Waiting<'_, VCPUS> {
    fn fmt(&self, f: &mut Formatter<'_>) -> core::fmt::Result {
        let vectors = (0..).map_while(|place| self.lists.peek(self.vcpu_id, place).ok().flatten());
        f.debug_list().entries(vectors).finish()
    }
}

fn vector_of(code: u64) -> Option<X86InterruptVector> {
    (count(code) == 1).then_some(code as u8)
}

fn claimed(code: u64) -> Option<X86InterruptVector> {
    (count(code) == 3).then_some(code as u8)
}

#[cfg(test)]
mod tests {
    use super::*;
    use std::format;

    #[test]
    fn bytes_make_the_same_lists() {
        let mut lists = WaitingLists::<2>::new();
        for vector in [0x41, 0x42, 0x41] {
            assert_eq!(lists.take(1, vector), Ok(()));
        }
        let again = WaitingLists::from_bytes(lists.to_bytes());
        assert_eq!((&again, format!("{again:?}").as_str()), (&lists, "{0: [], 1: [65, 66, 65]}"));
    }

    #[test]
    fn any_bytes_are_lists() {
        let mut lists = WaitingLists::from_bytes([[0xff; LIST_BYTES]]);
        assert_eq!((lists.count(0), lists.deliver(0), lists.count(0)), (Ok(64), Ok(Some(0xff)), Ok(63)));
    }
}
