//! The interrupt controllers of a small hypervisor, proved, behind the names of the crate that they were ported from, x86_vlapic 0.5.4.
//!
//! Every call goes to a function of the archives that `tools/archives` makes, but for what this crate's README names under "Not proved". What
//! the functions do is proved (docs/PROMISES.md); what this crate adds is types: numbers become addresses, widths and claims,
//! and coded answers become `Option` and `Result`.
//!
//! - **In the place of x86_vlapic**: the module [`x86_vlapic`] has that crate's own API, `&self` and locks inside.
//! - **States** are arrays of words inside the types. There is no allocation and no global.
//! - **Locking** is the caller's: a call that changes a chip takes `&mut self`, where the original takes `&self` and locks inside. [`Locked`] is such a lock.
//! - **The xmm registers** are used by the archives: save a guest's before a call.
//! - **The red zone** is too, whatever the target says: on a stack on which interrupts are taken, these have to be off during
//!   a call, and NMIs and other exceptions need a stack of their own. A function of the archives takes at most 4 KB of stack,
//!   that behind [`EmulatedBoard::restore`] 12 KB.
//! - **Panics**: where the original panics at a number, of a guest's or a host's, a call is refused here:
//!   [`InvalidAddress`](X86VlapicError::InvalidAddress), [`OutOfRange`](X86VlapicError::OutOfRange), and for a local register
//!   that there isn't [`InvalidInput`](X86VlapicError::InvalidInput). What panics, each where it says so, is
//!   [`X86GuestPhysAddrRange::new`], [`WaitingLists::new`], `default` and `from_bytes` of more than 64 vCPUs, and in
//!   [`x86_vlapic`] a local APIC's `new` and an I/O APIC's `address_range`.
//!
//! ```
//! use sillwander::{EmulatedIoApic, IoApicInterrupt, X86AccessWidth::Dword, X86GuestPhysAddr};
//!
//! let mut io = EmulatedIoApic::new_default();
//! io.handle_write(X86GuestPhysAddr::from_usize(0xfec0_0000), Dword, 0x14)?; // entry 2, low word
//! io.handle_write(X86GuestPhysAddr::from_usize(0xfec0_0010), Dword, 0x8030)?; // level, vector 0x30
//! assert_eq!(io.set_gsi_level(2, true), Some(IoApicInterrupt { vector: 0x30, level_triggered: true }));
//! # Ok::<(), sillwander::X86VlapicError>(())
//! ```
#![no_std]
#![deny(missing_docs, unsafe_op_in_unsafe_fn)]

// Documentation and lints don't link, and so do without.
#[cfg(not(any(all(target_arch = "x86_64", target_pointer_width = "64"), doc, clippy)))]
compile_error!("sillwander's archives are x86-64, and nothing else can be linked: build with --target x86_64-unknown-linux-gnu");

#[cfg(test)]
extern crate std;

mod archives;
mod board;
mod code;
mod locked;
mod planner;
mod text;
mod types;
mod vcpus;
mod vioapic;
mod vlapic;
mod vpic;
mod waiting;
pub mod x86_vlapic;

pub use self::{
    archives::{IOAPIC_WORDS, LAPIC_WORDS, PIC_WORDS},
    board::{EmulatedBoard, IMAGE_SIZE},
    locked::Locked,
    planner::{TakenVectors, VectorRange, VectorShortage, check_vectors, plan_vectors, vector_shortage},
    types::{
        X86AccessWidth, X86GuestPhysAddr, X86GuestPhysAddrRange, X86HostPhysAddr, X86HostVirtAddr, X86InterruptVector,
        X86MsrAddr, X86MsrAddrRange, X86Port, X86PortRange, X86VcpuId, X86VlapicError, X86VlapicResult,
    },
    vcpus::{LocalApicRegisters, SendingRegister, Vcpu, send_ipi},
    vioapic::{EmulatedIoApic, EmulatedIoApic11, EmulatedIoApic20, IoApicEoi, IoApicEois, IoApicInterrupt, IoApicWritten},
    vlapic::{EmulatedLocalApic, Ipi, IpiKind},
    vpic::{EmulatedPic, PicInterruptClaim, PicRule},
    waiting::WaitingLists,
};
