//! A VM's host: how many vCPUs there are, which are active, and what becomes of what is injected. Every side asks it,
//! and every side injects through it.
#![allow(dead_code, reason = "each program uses a part")]

use std::sync::atomic::{AtomicU8, AtomicU64, AtomicUsize, Ordering::Relaxed};
use x86_vlapic::{X86InterruptVector, X86VcpuId, X86VlapicHostOps, X86VlapicResult, X86VmId};

static VCPU_NUM: AtomicUsize = AtomicUsize::new(1);
static ACTIVE_VCPUS: AtomicUsize = AtomicUsize::new(1);
static INJECTED: AtomicU64 = AtomicU64::new(0);
static IPI_MASK: AtomicU64 = AtomicU64::new(0);
static IPI_VECTOR: AtomicU8 = AtomicU8::new(0);

/// A host of one of these kinds.
pub struct Host<const KIND: u8>;

/// It adds up what is injected.
pub const SUMS: u8 = 0;
/// The same, and its eight vCPUs are known when it is compiled.
pub const KNOWN: u8 = 1;
/// It keeps an IPI for its program.
pub const KEEPS: u8 = 2;

/// Another VM.
pub fn set_vcpus(count: usize, active: usize) {
    VCPU_NUM.store(count, Relaxed);
    ACTIVE_VCPUS.store(active, Relaxed);
}

/// The sum of what was injected since the last look.
pub fn injected() -> u64 {
    INJECTED.swap(0, Relaxed)
}

/// A fixed IPI for each vCPU of a mask.
#[inline(always)]
pub fn inject_all(mut vcpus: u64, vector: u64) {
    while vcpus != 0 {
        let _ = Host::<SUMS>::inject_interrupt(vcpus.trailing_zeros() as usize, vector as u8);
        vcpus &= vcpus - 1;
    }
}

impl<const KIND: u8> Host<KIND> {
    /// The fixed IPI that was kept since the last look: kind, vector and vCPUs.
    #[inline(always)]
    pub fn kept() -> Option<[u64; 3]> {
        let vcpus = if KIND == KEEPS { IPI_MASK.load(Relaxed) } else { 0 };
        (vcpus != 0).then(|| {
            IPI_MASK.store(0, Relaxed);
            [0, IPI_VECTOR.load(Relaxed).into(), vcpus]
        })
    }
}

impl<const KIND: u8> X86VlapicHostOps for Host<KIND> {
    #[inline(always)]
    fn current_vm_id() -> X86VmId {
        0
    }
    #[inline(always)]
    fn vcpu_num() -> usize {
        if KIND == KNOWN { 8 } else { VCPU_NUM.load(Relaxed) }
    }
    #[inline(always)]
    fn active_vcpus() -> usize {
        if KIND == KNOWN { 0xff } else { ACTIVE_VCPUS.load(Relaxed) }
    }
    #[inline(always)]
    fn inject_interrupt(vcpu_id: X86VcpuId, vector: X86InterruptVector) -> X86VlapicResult {
        if KIND == KEEPS {
            IPI_MASK.store(IPI_MASK.load(Relaxed) | 1 << vcpu_id, Relaxed);
            IPI_VECTOR.store(vector, Relaxed);
        } else {
            INJECTED.store(INJECTED.load(Relaxed).wrapping_add(u64::from(vector) << (vcpu_id & 7)), Relaxed);
        }
        Ok(())
    }
    fn inject_pit_irq(_vm_id: X86VmId, _vcpu_id: X86VcpuId) -> X86VlapicResult {
        unreachable!("nothing here reaches the PIT")
    }
    fn current_time_nanos() -> u64 {
        0
    }
}
