//! Where `sillwander::x86_vlapic` answers otherwise than x86_vlapic: a line for each call, with its answer or "panics".
//! tests/rust/run runs it with both, and holds the answers against the table in rust/sillwander/README.md, whose rows are
//! these lines.

use x86_vlapic::{
    EmulatedIoApic, EmulatedLocalApic, X86AccessWidth, X86GuestPhysAddr, X86InterruptVector, X86MsrAddr, X86VcpuId,
    X86VlapicHostOps, X86VlapicResult, X86VmId,
};

use std::{
    fmt::Debug,
    mem::take,
    panic::{AssertUnwindSafe, catch_unwind, set_hook},
    sync::Mutex,
};

/// The vCPUs that something was injected to, since somebody last looked.
static REACHED: Mutex<Vec<X86VcpuId>> = Mutex::new(Vec::new());

struct Host<const VCPUS: usize = 2>;

impl<const VCPUS: usize> X86VlapicHostOps for Host<VCPUS> {
    fn current_vm_id() -> X86VmId {
        0
    }
    fn vcpu_num() -> usize {
        VCPUS
    }
    fn active_vcpus() -> usize {
        3
    }
    fn inject_interrupt(vcpu_id: X86VcpuId, _vector: X86InterruptVector) -> X86VlapicResult {
        REACHED.lock().unwrap().push(vcpu_id);
        Ok(())
    }
    fn inject_pit_irq(_vm_id: X86VmId, _vcpu_id: X86VcpuId) -> X86VlapicResult {
        Ok(())
    }
    fn current_time_nanos() -> u64 {
        0
    }
}

fn said<T: Debug>(what: &str, call: impl FnOnce() -> T) {
    let answer = catch_unwind(AssertUnwindSafe(call)).map_or("panics".into(), |answer| format!("`{answer:x?}`"));
    println!("{what} | {answer}");
}

const DWORD: X86AccessWidth = X86AccessWidth::Dword;

fn read<H: X86VlapicHostOps>(local: &EmulatedLocalApic<H>, offset: usize) -> X86VlapicResult<usize> {
    local.handle_mmio_read(X86GuestPhysAddr::from_usize(0xfee0_0000 + offset), DWORD)
}

fn write<H: X86VlapicHostOps>(local: &EmulatedLocalApic<H>, offset: usize, value: usize) -> X86VlapicResult {
    local.handle_mmio_write(X86GuestPhysAddr::from_usize(0xfee0_0000 + offset), DWORD, value)
}

fn main() {
    set_hook(Box::new(|_| ()));
    let io = EmulatedIoApic::new_default();
    said("an I/O APIC's address below its base, with overflow checks", || {
        io.handle_read(X86GuestPhysAddr::from_usize(0xfebf_ffff), DWORD)
    });
    let local = EmulatedLocalApic::<Host>::new(0, 3);
    said("a new DFR", || read(&local, 0xe0));
    // Both answer Ok(()) to each write: whom the command reaches is what differs, by the model that a new DFR has.
    said("whom a logical ICR to 0x12 reaches, LDR 0x03, DFR new", || {
        for (offset, value) in [(0xd0, 0x0300_0000), (0x310, 0x1200_0000), (0x300, 0x840)] {
            write(&local, offset, value).unwrap();
        }
        take(&mut *REACHED.lock().unwrap())
    });
    said("a new SVR", || read(&local, 0xf0));
    said("read of a register that there isn't, 0x40", || read(&local, 0x40));
    said("write of a register that there isn't, 0x40", || write(&local, 0x40, 0));
    said("read of MSR 0x7ff", || local.handle_msr_read(X86MsrAddr::new(0x7ff), DWORD));
    said("write of MSR 0x7ff", || local.handle_msr_write(X86MsrAddr::new(0x7ff), DWORD, 0));
    said("read of the timer's initial count, 0x380", || read(&local, 0x380));
    // A count but 0 asks the host for a timer, and here the original's is a stand-in.
    said("write of 0 to the timer's initial count", || write(&local, 0x380, 0));
    said("read of the timer's current count, 0x390", || read(&local, 0x390));
    said("read of the timer's divider, 0x3e0", || read(&local, 0x3e0));
    said("write of the timer's divider", || write(&local, 0x3e0, 1));
    said("LINT0 after SVR bit 8 went up and down", || {
        for (offset, value) in [(0xe0, 0xffff_ffff), (0xf0, 0x1ff), (0x350, 0x30), (0xf0, 0xff)] {
            write(&local, offset, value).unwrap();
        }
        read(&local, 0x350)
    });
    said("ICR with delivery mode 3", || write(&local, 0x300, 0x350));
    said("ICR with delivery mode 7", || write(&local, 0x300, 0x750));
    said("ICR to processor 64, with overflow checks", || {
        write(&local, 0x310, 64 << 24).unwrap();
        write(&local, 0x300, 0x50)
    });
    said("ICR where there are 65 vCPUs, with overflow checks", || write(&EmulatedLocalApic::<Host<65>>::new(0, 3), 0x300, 0x50));
    local.set_apic_base(0xfee0_0c00).unwrap();
    said("x2APIC mode: ID of vCPU 3", || read(&local, 0x20));
    said("x2APIC mode: write of LDR", || write(&local, 0xd0, 0x0100_0000));
    said("x2APIC mode: write of DFR", || write(&local, 0xe0, 0xffff_ffff));
    said("a local APIC with id 64", || drop(EmulatedLocalApic::<Host>::new(0, 64)));
}
