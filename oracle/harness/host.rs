//! The host that the Rust runs in: it answers how many vCPUs there are and which are active, and keeps what is sent to them.
//!
//! Fixed interrupts come by the host's call. For NMI, INIT and startup the Rust only logs, one message for each vCPU: those
//! messages are the answer. The vector is in the message that the Rust logs for every IPI before it looks for the destination.

use crate::reply::fatal;
use std::{
    cell::{Cell, RefCell},
    fmt::Write,
};
use x86_vlapic::{X86InterruptVector, X86VcpuId, X86VlapicHostOps, X86VlapicResult, X86VmId};

const FIXED: u8 = 0;
const NMI: u8 = 4;
const INIT: u8 = 5;
const STARTUP: u8 = 6;

/// An IPI: its kind is the ICR's delivery mode.
#[derive(Clone, Copy, PartialEq)]
pub struct Sent {
    pub kind: u8,
    pub vector: u8,
    pub mask: u64,
}

thread_local! {
    static VCPUS: Cell<(usize, usize)> = const { Cell::new((1, 1)) };
    static SENT: Cell<Option<Sent>> = const { Cell::new(None) };
    static IPI_VECTOR: Cell<Option<u8>> = const { Cell::new(None) };
    static MESSAGE: RefCell<String> = const { RefCell::new(String::new()) };
}

pub fn set_vcpus(count: usize, active: usize) {
    VCPUS.set((count, active));
}

/// What was sent since the last look.
pub fn take_sent() -> Option<Sent> {
    IPI_VECTOR.take();
    SENT.take()
}

/// One vCPU more that the current IPI goes to.
fn send(kind: u8, vector: u8, vcpu: usize) {
    let mask = 1_u64.checked_shl(vcpu as u32).unwrap_or_else(|| fatal("an IPI to a vCPU above 63"));
    let one = Sent { kind, vector, mask };
    let sent = SENT.get().unwrap_or(Sent { mask: 0, ..one });
    if (sent.kind, sent.vector) != (kind, vector) || sent.mask & one.mask != 0 {
        fatal("one write sent two different IPIs, or one twice");
    }
    SENT.set(Some(Sent { mask: sent.mask | one.mask, ..one }));
}

pub struct Host;

impl X86VlapicHostOps for Host {
    fn current_vm_id() -> X86VmId {
        0
    }
    fn vcpu_num() -> usize {
        VCPUS.get().0
    }
    fn active_vcpus() -> usize {
        VCPUS.get().1
    }
    fn inject_interrupt(vcpu_id: X86VcpuId, vector: X86InterruptVector) -> X86VlapicResult {
        send(FIXED, vector, vcpu_id);
        Ok(())
    }
    fn inject_pit_irq(_vm_id: X86VmId, _vcpu_id: X86VcpuId) -> X86VlapicResult {
        fatal("no script reaches the PIT")
    }
    fn current_time_nanos() -> u64 {
        0
    }
}

/// Listens to the Rust's log.
pub fn listen() {
    log::listen(|message| {
        MESSAGE.with_borrow_mut(|text| {
            text.clear();
            if Wanted(text).write_fmt(message).is_ok() {
                understand(text);
            }
        });
    });
}

const TRIGGERED: &str = "icrlow ";
const IGNORING: &str = "[VLAPIC] ignoring ";

/// Takes a message's text while it may be one of the wanted ones, and gives it up as soon as it can't be: most messages are
/// never formatted.
struct Wanted<'a>(&'a mut String);

impl Write for Wanted<'_> {
    fn write_str(&mut self, part: &str) -> std::fmt::Result {
        self.0.push_str(part);
        let fits = |start: &str| self.0.starts_with(start) || start.starts_with(self.0.as_str());
        if fits(TRIGGERED) || fits(IGNORING) { Ok(()) } else { Err(std::fmt::Error) }
    }
}

fn understand(text: &str) {
    if let Some(vector) = text.strip_prefix(TRIGGERED).and_then(|rest| rest.split_once(" triggered ipi 0x")) {
        let vector = u8::from_str_radix(vector.1.trim_start_matches('0'), 16).unwrap_or(0);
        IPI_VECTOR.set(Some(vector));
        return;
    }
    let Some((kind, rest)) = text.strip_prefix(IGNORING).and_then(|rest| rest.split_once(" IPI to vcpu ")) else {
        return;
    };
    let kind = match kind {
        "NMI" => NMI,
        "INIT" => INIT,
        "StartUp" => STARTUP,
        _ => fatal("an IPI of an unknown kind"),
    };
    let digits = rest.find(|letter: char| !letter.is_ascii_digit()).unwrap_or(rest.len());
    let vcpu = rest[..digits].parse().unwrap_or_else(|_| fatal("an IPI to no vCPU"));
    let vector = IPI_VECTOR.get().unwrap_or_else(|| fatal("an IPI without a vector"));
    send(kind, vector, vcpu);
}
