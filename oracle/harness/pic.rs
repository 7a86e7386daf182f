//! The 8259 pair's calls. A claim's fields are private: they are read from its `Debug` text, and a claim to restore is won
//! from a scratch pair that is brought into the state in which claiming gives exactly that claim.

use crate::reply::{Reply, ask, fatal};
use x86_vlapic::{EmulatedPic, PicInterruptClaim, X86AccessWidth, X86Port};

const MASTER: u16 = 0x20;
const SLAVE: u16 = 0xa0;

pub struct Pic {
    pair: EmulatedPic,
    alone: bool,
}

impl Pic {
    pub fn new(alone: bool) -> Self {
        Self { pair: EmulatedPic::new(), alone }
    }

    pub fn read(&self, width: X86AccessWidth, port: u16) -> Reply {
        ask(|| self.pair.handle_read(X86Port::new(port), width)).reply(self.alone, |value| vec![value as u64])
    }

    pub fn write(&self, width: X86AccessWidth, port: u16, value: usize) -> Reply {
        ask(|| self.pair.handle_write(X86Port::new(port), width, value)).reply(self.alone, |()| Vec::new())
    }

    pub fn claim(&self, line: u8) -> Reply {
        Reply::maybe(self.pair.claim_irq(line).map(values))
    }

    pub fn claim_pending(&self) -> Reply {
        Reply::maybe(self.pair.claim_pending_interrupt().map(values))
    }

    pub fn restore(&self, vector: u8, line: u8, flags: u8) -> Reply {
        if line > 15 {
            // HARNESS: the Rust gives no claim of such a line, so none can be restored (number 5 is added).
            return Reply::refused_by_harness(5);
        }
        // HARNESS: the Rust's claims below line 8 never have the slave's flag, and a claim's vector ends in its line's three
        // low bits, since a base is a multiple of 8. A script's claim that has it otherwise can't be won: the nearest one is
        // restored, without that flag and with those bits.
        let nearest = ((vector & 0xf8) | (line & 7), if line < 8 { flags & 1 } else { flags & 3 });
        self.pair.restore_interrupt(win(nearest.0, line, nearest.1));
        let restored = Reply::done(Vec::new());
        if nearest == (vector, flags & 3) { restored } else { restored.by_harness() }
    }
}

/// A claim with these fields, from a new pair: both bases at the vector's, auto-EOI where the flag is off, all unmasked.
fn win(vector: u8, line: u8, flags: u8) -> PicInterruptClaim {
    let scratch = EmulatedPic::new();
    for (port, in_service) in [(MASTER, flags & 1 != 0), (SLAVE, flags & 2 != 0)] {
        let write = |port: u16, value: usize| {
            scratch.handle_write(X86Port::new(port), X86AccessWidth::Byte, value).expect("a PIC port takes a byte");
        };
        write(port, 0x11);
        write(port + 1, (vector & 0xf8).into());
        write(port + 1, 0);
        write(port + 1, if in_service { 1 } else { 3 });
        write(port + 1, 0);
    }
    let claim = scratch.claim_irq(line).unwrap_or_else(|| fatal("a new pair gave no claim"));
    if numbers(&claim) != (vector, line, flags) {
        fatal(&format!("the claim {vector},{line},{flags} can't be won: {claim:?}"));
    }
    claim
}

fn values(claim: PicInterruptClaim) -> Vec<u64> {
    let (vector, line, flags) = numbers(&claim);
    vec![vector.into(), line.into(), flags.into()]
}

/// Vector, line and flags, from the claim's `Debug` text.
fn numbers(claim: &PicInterruptClaim) -> (u8, u8, u8) {
    let text = format!("{claim:?}");
    let fields = text.strip_prefix("PicInterruptClaim { ").and_then(|rest| rest.strip_suffix(" }"));
    let mut fields = fields.unwrap_or_else(|| fatal("a claim's text has another form")).split(", ");
    let mut value = |name: &str| {
        let (found, value) = fields.next().and_then(|field| field.split_once(": ")).unwrap_or_default();
        if found == name { value } else { fatal("a claim's text has other fields") }
    };
    let vector = value("vector").parse().expect("a vector is a number");
    let line = value("irq").parse().expect("a line is a number");
    let master = u8::from(value("master_in_service") == "true");
    let slave = u8::from(value("slave_in_service") == "true");
    if vector != claim.vector() {
        fatal("a claim's text isn't its vector");
    }
    (vector, line, master | slave << 1)
}
