//! A disk on GSI 10, from the guest's programming to the end of its interrupt; and a PIC claim whose vector can't be published.

use sillwander::{
    EmulatedIoApic, EmulatedLocalApic, EmulatedPic, Locked, X86AccessWidth, X86GuestPhysAddr, X86Port, X86VlapicResult,
};

fn main() -> X86VlapicResult {
    let mut io = EmulatedIoApic::new_default();
    let mut local = EmulatedLocalApic::new(false, 0, 2)?;
    let [select, window] = [0xfec0_0000, 0xfec0_0010].map(X86GuestPhysAddr::from_usize);

    // The guest selects entry 10's low word, and makes it level-triggered with vector 0x41.
    io.handle_write(select, X86AccessWidth::Dword, 0x10 + 2 * 10)?;
    io.handle_write(window, X86AccessWidth::Dword, 0x8041)?;

    // The device raises its line. The local APIC accepts the vector.
    if let Some(sent) = io.set_gsi_level(10, true) {
        println!("inject vector {:#x}, level {}", sent.vector, sent.level_triggered);
        local.accept_interrupt(sent.vector, sent.level_triggered);
    }

    // The guest's EOI, while the line is still up: the local APIC broadcasts it, and the I/O APIC sends again.
    if let Some(vector) = local.handle_eoi() {
        println!("EOI of {vector:#x}: {:x?}", io.end_of_interrupt(vector));
    }

    // The guest sends vector 0x50 to the other vCPU of two.
    println!("{:x?}", local.handle_write(0x300, 0xc_0050, X86AccessWidth::Dword, 2, 0b11)?);

    // A pair that several threads share. Its claim can't be published, and is restored.
    let pic = Locked::new(EmulatedPic::new());
    pic.with(|pic| pic.handle_write(X86Port::new(0x21), X86AccessWidth::Byte, 0))?;
    if let Some(claim) = pic.with(|pic| pic.claim_irq(4)) {
        println!("vector {:#x} can't be published", claim.vector());
        pic.with(|pic| pic.restore_interrupt(claim));
    }
    println!("next: {:x?}", pic.with(|pic| pic.next_interrupt()));

    // A width that there isn't.
    println!("refused: {:?}", io.handle_read(select, X86AccessWidth::Word));
    Ok(())
}
