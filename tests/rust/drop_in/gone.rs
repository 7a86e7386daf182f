//! What x86_vlapic has and `sillwander::x86_vlapic` hasn't. tests/rust/run compiles this file with both, as it stands and
//! once for each `--cfg`: the original takes them all, and the module none of them, each refused with the error that
//! stands behind it.

#![allow(unused)]

use x86_vlapic::{EmulatedLocalApic, X86VlapicHostOps};

#[cfg(pit)] // E0432
use x86_vlapic::EmulatedPit;

#[cfg(timer_types)] // E0432
use x86_vlapic::{X86TimerAction, X86TimerCallback};

fn used<H: X86VlapicHostOps>(local: &EmulatedLocalApic<H>) {
    #[cfg(timer)] // E0599
    let _ = (local.has_pending_timer_interrupt(), local.take_pending_timer_interrupt());
    #[cfg(register_page)] // E0599
    let _ = local.virtual_apic_page_addr();
    #[cfg(access_page)] // E0599
    let _ = EmulatedLocalApic::<H>::virtual_apic_access_addr();
}

fn main() {}
