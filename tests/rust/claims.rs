//! What a claim doesn't let a caller do. tests/rust/run compiles this file as it stands, and then once for each `--cfg`, which rustc must refuse with the error that
//! stands behind it.

#![allow(dead_code)]

use sillwander::{EmulatedPic, PicInterruptClaim};

pub fn restored_once(pic: &mut EmulatedPic, claim: PicInterruptClaim) {
    #[cfg(copied)] // E0382: used after it was moved
    pic.restore_interrupt(claim);
    #[cfg(cloned)] // E0599: no method `clone`
    pic.restore_interrupt(claim.clone());
    #[cfg(made)] // E0451: its field is private
    pic.restore_interrupt(PicInterruptClaim { code: std::num::NonZeroU64::MIN });
    #[cfg(shared)] // E0596: `&EmulatedPic` isn't enough
    (&*pic as &EmulatedPic).claim_irq(4);
    pic.restore_interrupt(claim);
}

fn main() {}
