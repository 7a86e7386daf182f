//! Stand-in for the host: what the original's files ask of it, and a page of memory for the register page.
//!
//! Every question about vCPUs goes to the host's own type `H`, which the harness supplies: their number, the active ones, and
//! where an injected interrupt goes. The active ones of "the current VM" and of "the VM with the current id" are the same.

use crate::{X86HostPhysAddr, X86HostVirtAddr, X86InterruptVector, X86VcpuId, X86VlapicError, X86VlapicResult, X86VmId};
use alloc::alloc::{alloc_zeroed, dealloc};
use core::{alloc::Layout, marker::PhantomData, ptr::NonNull};

pub const X86_PAGE_SIZE_4K: usize = 0x1000;

const PAGE: Layout = match Layout::from_size_align(X86_PAGE_SIZE_4K, X86_PAGE_SIZE_4K) {
    Ok(layout) => layout,
    Err(_) => panic!("a page has a size and an alignment"),
};

pub trait X86VlapicHostOps: 'static {
    fn current_vm_id() -> X86VmId;
    fn vcpu_num() -> usize;
    fn active_vcpus() -> usize;
    fn inject_interrupt(vcpu_id: X86VcpuId, vector: X86InterruptVector) -> X86VlapicResult;
    fn inject_pit_irq(vm_id: X86VmId, vcpu_id: X86VcpuId) -> X86VlapicResult;
    fn current_time_nanos() -> u64;
}

pub fn current_vm_vcpu_num<H: X86VlapicHostOps>() -> usize {
    H::vcpu_num()
}

pub fn current_vm_active_vcpus<H: X86VlapicHostOps>() -> usize {
    H::active_vcpus()
}

pub fn active_vcpus<H: X86VlapicHostOps>(_vm_id: X86VmId) -> Option<usize> {
    Some(H::active_vcpus())
}

pub fn inject_interrupt<H: X86VlapicHostOps>(_vm_id: X86VmId, vcpu_id: X86VcpuId, vector: X86InterruptVector) -> X86VlapicResult {
    H::inject_interrupt(vcpu_id, vector)
}

pub fn current_time_nanos<H: X86VlapicHostOps>() -> u64 {
    H::current_time_nanos()
}

/// Host addresses stand for themselves.
pub fn virt_to_phys<H: X86VlapicHostOps>(address: X86HostVirtAddr) -> X86HostPhysAddr {
    X86HostPhysAddr::from_usize(address.as_usize())
}

/// A zeroed page, given back when it is dropped.
pub struct PhysFrame<H> {
    page: NonNull<u8>,
    _host: PhantomData<fn() -> H>,
}

impl<H: X86VlapicHostOps> PhysFrame<H> {
    pub fn alloc_zero() -> X86VlapicResult<Self> {
        // SAFETY: the layout's size isn't 0.
        let page = NonNull::new(unsafe { alloc_zeroed(PAGE) }).ok_or(X86VlapicError::NoMemory)?;
        Ok(Self { page, _host: PhantomData })
    }

    pub fn as_mut_ptr(&self) -> *mut u8 {
        self.page.as_ptr()
    }

    pub fn start_paddr(&self) -> X86HostPhysAddr {
        virt_to_phys::<H>(X86HostVirtAddr::from_usize(self.page.as_ptr() as usize))
    }
}

impl<H> Drop for PhysFrame<H> {
    fn drop(&mut self) {
        // SAFETY: allocated above with the same layout, and owned by this frame alone.
        unsafe { dealloc(self.page.as_ptr(), PAGE) }
    }
}
