//! The I/O APIC's calls.

use crate::reply::{Reply, ask};
use x86_vlapic::{EmulatedIoApic, IoApicInterrupt, X86AccessWidth, X86GuestPhysAddr};

pub struct IoApic {
    chip: EmulatedIoApic,
    alone: bool,
}

impl IoApic {
    /// At 0xfec00000, size 0x1000: the Rust's own default.
    pub fn new(alone: bool) -> Self {
        Self { chip: EmulatedIoApic::new_default(), alone }
    }

    pub fn read(&self, width: X86AccessWidth, address: usize) -> Reply {
        let address = X86GuestPhysAddr::from_usize(address);
        ask(|| self.chip.handle_read(address, width)).reply(self.alone, |value| vec![value as u64])
    }

    pub fn write(&self, width: X86AccessWidth, address: usize, value: usize) -> Reply {
        let address = X86GuestPhysAddr::from_usize(address);
        ask(|| self.chip.handle_write(address, width, value)).reply(self.alone, |()| Vec::new())
    }

    pub fn line(&self, gsi: u8, up: bool) -> Reply {
        Reply::maybe(self.chip.set_gsi_level(gsi.into(), up).map(values))
    }

    pub fn assert(&self, gsi: u8) -> Reply {
        Reply::maybe(self.chip.assert_gsi(gsi.into()).map(values))
    }

    pub fn eoi(&self, vector: u8) -> Reply {
        Reply::maybe(self.chip.end_of_interrupt(vector).map(|eoi| {
            let sent_again = eoi.pending.map(values).unwrap_or_default();
            [vec![eoi.gsi as u64], sent_again].concat()
        }))
    }
}

fn values(interrupt: IoApicInterrupt) -> Vec<u64> {
    vec![interrupt.vector.into(), interrupt.level_triggered.into()]
}
