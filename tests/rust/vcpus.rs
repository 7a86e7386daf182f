//! IPIs among several vCPUs from Rust. tests/rust/run runs this file as it stands, and then has rustc compile it once for each `--cfg`, which must be refused with the
//! error that stands behind it. (tests/c/vcpus.c has the rules, against a model.)

use sillwander::{Ipi, IpiKind, SendingRegister::*, Vcpu, X86AccessWidth::*, X86VlapicError, send_ipi};

fn main() {
    // three vCPUs in xAPIC mode, with logical ids 1, 2 and 4; vCPU 0 sends to 6
    let mut vcpus = [Vcpu::new(false); 3];
    for (k, vcpu) in vcpus.iter_mut().enumerate() {
        vcpu.regs.ldr = 1 << (24 + k);
    }
    vcpus[0].regs.icr_hi = 6 << 24;
    let before = vcpus;
    #[cfg(shared)] // E0308: the records are lent for writing
    let _ = send_ipi(&vcpus, 0, Icr, 0x841, Dword, 7);
    #[cfg(offset)] // E0308: a register isn't a number
    let _ = send_ipi(&mut vcpus, 0, 0x300, 0x841, Dword, 7);
    #[cfg(width)] // E0308: nor is a width
    let _ = send_ipi(&mut vcpus, 0, Icr, 0x841, 4, 7);
    assert_eq!(send_ipi(&mut vcpus, 0, Icr, 0x841, Dword, 7), Ok(Some(Ipi { kind: IpiKind::Fixed, vector: 0x41, vcpus: 6 })));
    assert_eq!((vcpus[0].regs.icr_lo, vcpus[0].regs.irr), (0x841, [0; 8]));
    assert_eq!((vcpus[1].regs.irr[2], vcpus[2].regs.irr[2]), (2, 2));

    // an NMI, an INIT and a start-up to vCPU 2, physically
    vcpus[0].regs.icr_hi = 2 << 24;
    for low in [0x400, 0x500, 0x69a] {
        assert!(matches!(send_ipi(&mut vcpus, 0, Icr, low, Dword, 0), Ok(Some(Ipi { vcpus: 4, .. }))));
    }
    assert_eq!((vcpus[2].nmi, vcpus[2].init, vcpus[2].startup, vcpus[2].startup_vector), (true, true, true, 0x9a));
    assert_eq!(vcpus[1].regs.ldr, before[1].regs.ldr);

    // refusals: a sender that isn't there, a register of the other mode, a reserved model
    assert_eq!(send_ipi(&mut vcpus, 3, Icr, 0x841, Qword, 7), Err(X86VlapicError::OutOfRange));
    assert_eq!(send_ipi(&mut [Vcpu::new(false); 65], 0, Icr, 0x841, Dword, 7), Err(X86VlapicError::OutOfRange));
    assert_eq!(send_ipi(&mut vcpus, 0, SelfIpi, 0x41, Dword, 7), Err(X86VlapicError::InvalidInput));
    vcpus[1].regs.dfr = 0x1fff_ffff;
    let kept = vcpus[2];
    assert_eq!(send_ipi(&mut vcpus, 0, Icr, 0x842, Dword, 7), Err(X86VlapicError::InvalidData));
    assert_eq!((vcpus[2], vcpus[0].regs.icr_lo), (kept, 0x842));
    println!("IPIs among several vCPUs are answered as they should be");
}
