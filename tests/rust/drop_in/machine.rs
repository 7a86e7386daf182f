//! A small machine as a user of x86_vlapic 0.5.4 writes it: its chips are shared by `&` and `Arc`, a pair is a constant, a
//! bus looks for devices by their ranges, devices raise lines from threads of their own, and the guest's side is a list of
//! accesses. tests/rust/run compiles it as it stands with the original, and with `sillwander::x86_vlapic` for `x86_vlapic`
//! in the one line below; both must print the same bytes.

use x86_vlapic::{
    EmulatedIoApic, EmulatedLocalApic, EmulatedPic, IoApicEoi, IoApicInterrupt, PicInterruptClaim, X86AccessWidth,
    X86GuestPhysAddr, X86GuestPhysAddrRange, X86HostPhysAddr, X86HostVirtAddr, X86InterruptVector, X86MsrAddr, X86MsrAddrRange,
    X86Port, X86PortRange, X86VcpuId, X86VlapicError, X86VlapicResult, X86VmId, host::X86VlapicHostOps,
};

use std::{
    fmt::Debug,
    sync::{Arc, Mutex},
    thread,
};

// ---- the host

static INJECTED: Mutex<Vec<(X86VcpuId, X86InterruptVector)>> = Mutex::new(Vec::new());
static VCPUS: Mutex<(usize, usize)> = Mutex::new((4, 0b1011));

struct Host;

impl X86VlapicHostOps for Host {
    fn current_vm_id() -> X86VmId {
        7
    }
    fn vcpu_num() -> usize {
        VCPUS.lock().unwrap().0
    }
    fn active_vcpus() -> usize {
        VCPUS.lock().unwrap().1
    }
    fn inject_interrupt(vcpu_id: X86VcpuId, vector: X86InterruptVector) -> X86VlapicResult {
        INJECTED.lock().unwrap().push((vcpu_id, vector));
        if vcpu_id == 2 { Err(X86VlapicError::BadState) } else { Ok(()) }
    }
    fn inject_pit_irq(_vm_id: X86VmId, _vcpu_id: X86VcpuId) -> X86VlapicResult {
        Err(X86VlapicError::TimerUnavailable)
    }
    fn current_time_nanos() -> u64 {
        0
    }
}

fn injected() -> Vec<(X86VcpuId, X86InterruptVector)> {
    std::mem::take(&mut *INJECTED.lock().unwrap())
}

/// A user's own errors: the match is whole, with the original's variants and no others.
fn errno(error: X86VlapicError) -> i32 {
    match error {
        X86VlapicError::InvalidInput => 22,
        X86VlapicError::InvalidData => 74,
        X86VlapicError::Unsupported => 95,
        X86VlapicError::NoMemory => 12,
        X86VlapicError::BadState => 5,
        X86VlapicError::TimerUnavailable => 62,
    }
}

// ---- the bus

static PIC: EmulatedPic = EmulatedPic::new();
const PIC_PORTS: [X86PortRange; 2] = EmulatedPic::port_ranges();

/// Devices as a bus has them: by `&self`, and in any thread.
trait MmioDevice: Send + Sync {
    fn range(&self) -> X86GuestPhysAddrRange;
    fn read(&self, addr: X86GuestPhysAddr, width: X86AccessWidth) -> X86VlapicResult<usize>;
    fn write(&self, addr: X86GuestPhysAddr, width: X86AccessWidth, val: usize) -> X86VlapicResult;
}

impl MmioDevice for EmulatedIoApic {
    fn range(&self) -> X86GuestPhysAddrRange {
        self.address_range()
    }
    fn read(&self, addr: X86GuestPhysAddr, width: X86AccessWidth) -> X86VlapicResult<usize> {
        self.handle_read(addr, width)
    }
    fn write(&self, addr: X86GuestPhysAddr, width: X86AccessWidth, val: usize) -> X86VlapicResult {
        self.handle_write(addr, width, val)
    }
}

struct Machine {
    devices: Vec<Arc<dyn MmioDevice>>,
    io_apic: Arc<EmulatedIoApic>,
    local: EmulatedLocalApic<Host>,
}

impl Machine {
    fn new() -> Self {
        let io_apic = Arc::new(EmulatedIoApic::default());
        let second = Arc::new(EmulatedIoApic::new(X86GuestPhysAddr::from(0xfec0_2000), None));
        Self { devices: vec![io_apic.clone(), second], io_apic, local: EmulatedLocalApic::new(7, 1) }
    }

    fn device(&self, addr: X86GuestPhysAddr) -> Option<&dyn MmioDevice> {
        self.devices.iter().map(|device| &**device).find(|device| device.range().contains(addr))
    }

    fn write(&self, addr: usize, val: usize) -> X86VlapicResult {
        let addr = X86GuestPhysAddr::from_usize(addr);
        if self.local.mmio_address_range().contains(addr) {
            return self.local.handle_mmio_write(addr, X86AccessWidth::Dword, val);
        }
        self.device(addr).ok_or(X86VlapicError::Unsupported)?.write(addr, X86AccessWidth::Dword, val)
    }

    fn read(&self, addr: usize) -> X86VlapicResult<usize> {
        let addr = X86GuestPhysAddr::from_usize(addr);
        if self.local.mmio_address_range().contains(addr) {
            return self.local.handle_mmio_read(addr, X86AccessWidth::Dword);
        }
        self.device(addr).ok_or(X86VlapicError::Unsupported)?.read(addr, X86AccessWidth::Dword)
    }

    /// What the I/O APIC sends goes to the processor at once.
    fn deliver(&self, sent: Option<IoApicInterrupt>) -> Option<u8> {
        let IoApicInterrupt { vector, level_triggered } = sent?;
        self.local.accept_interrupt(vector, level_triggered);
        Some(vector)
    }

    /// The guest's EOI, and what it lets through.
    fn end(&self) -> Option<(u8, Option<IoApicEoi>)> {
        let vector = self.local.handle_eoi()?;
        let ended = self.io_apic.end_of_interrupt(vector);
        self.deliver(ended.and_then(|ended| ended.pending));
        Some((vector, ended))
    }
}

fn port_write(port: u16, value: usize) -> X86VlapicResult {
    let port = X86Port::from(port);
    if !PIC_PORTS.iter().any(|range| range.contains(port)) {
        return Err(X86VlapicError::Unsupported);
    }
    PIC.handle_write(port, X86AccessWidth::Byte, value)
}

// ---- the stories

/// A disk on GSI 10 and a network card on GSI 11, both level-triggered; the guest ends one while its line is up.
fn boots(machine: &Machine) -> X86VlapicResult {
    for (gsi, low, high) in [(10, 0x8041, 0), (11, 0x8052, 0x0100_0000)] {
        machine.write(0xfec0_0000, 0x11 + 2 * gsi)?;
        machine.write(0xfec0_0010, high)?;
        machine.write(0xfec0_0000, 0x10 + 2 * gsi)?;
        machine.write(0xfec0_0010, low)?;
        println!("entry {gsi}: {:#x}, vector {:x?}", machine.read(0xfec0_0010)?, machine.io_apic.vector_for_gsi(gsi));
    }
    println!("raised: {:x?}", machine.deliver(machine.io_apic.set_gsi_level(10, true)));
    println!("raised: {:x?}", machine.deliver(machine.io_apic.set_gsi_level(11, true)));
    println!("raised again: {:x?}", machine.deliver(machine.io_apic.assert_gsi(11)));
    for turn in 0..4 {
        println!("in service {:#x}, PPR {:#x}", machine.read(0xfee0_0120)?, machine.read(0xfee0_00a0)?);
        if turn == 1 {
            machine.io_apic.set_gsi_level(11, false);
        }
        println!("EOI {turn}: {:x?}", machine.end());
    }
    println!(
        "version {:#x} {:#x}, requests {:#x}",
        machine.read(0xfee0_0030)?,
        machine.read(0xfee0_0031)?,
        machine.read(0xfee0_0200)?
    );
    println!("the second I/O APIC: {:?}, {:?}", machine.read(0xfec0_2000), machine.read(0xfec0_2010));
    println!("nobody: {:?} {}", machine.read(0xfed0_0000), errno(machine.read(0xfed0_0000).unwrap_err()));
    Ok(())
}

/// The 8259s: a claim that can't be published is restored, once.
fn legacy() -> X86VlapicResult {
    for (port, value) in [(0x20, 0x11), (0x21, 0x30), (0x21, 4), (0x21, 1), (0xa0, 0x11), (0xa1, 0x38), (0xa1, 2), (0xa1, 1)] {
        port_write(port, value)?;
    }
    for port in [0x21, 0xa1] {
        port_write(port, 0)?;
    }
    let claim: PicInterruptClaim = PIC.claim_irq(12).expect("line 12 isn't masked");
    println!("{claim:?}, vector {:#x}; next {:?}", claim.vector(), PIC.claim_pending_interrupt());
    PIC.restore_interrupt(claim);
    println!("{:x?} {:x?} {:x?}", PIC.next_interrupt(), PIC.pulse_irq(1), PIC.pulse_irq(16));
    port_write(0xa0, 0x0b)?;
    println!("in service {:?}", PIC.handle_read(X86Port::new(0xa0), X86AccessWidth::Byte));
    println!("{:?} {:?}", PIC.handle_read(X86Port::new(0xa0), X86AccessWidth::Word), port_write(0x4d0, 0));
    Ok(())
}

/// The guest goes to x2APIC mode, and sends.
fn x2apic(machine: &Machine) -> X86VlapicResult {
    let local = &machine.local;
    println!("base {:#x}, refused {:?}", local.apic_base(), local.set_apic_base(1 << 10));
    machine.write(0xfee0_0310, 0x0300_0000)?;
    println!("{:?} {:x?}", machine.write(0xfee0_0300, 0x4050), injected());
    println!("{:?} {:x?}", machine.write(0xfee0_0300, 0xc_0061), injected());
    local.set_apic_base(local.apic_base() | 1 << 10)?;
    let icr = X86MsrAddr::new(0x830);
    println!("base {:#x}, ICR {:x?}", local.apic_base(), local.handle_msr_read(icr, X86AccessWidth::Qword));
    println!(
        "{:?} {:?}",
        local.handle_msr_read(icr, X86AccessWidth::Dword),
        local.handle_msr_write(icr, X86AccessWidth::Dword, 0x50)
    );
    println!("{:?} {:x?}", local.handle_msr_write(icr, X86AccessWidth::Qword, 0xffff_ffff_0000_0071), injected());
    println!("{:?} {:x?}", local.handle_msr_write(X86MsrAddr::from(0x83f), X86AccessWidth::Dword, 0x99), injected());
    println!("{:?} {:x?}", local.handle_msr_write(icr, X86AccessWidth::Qword, 0x4_0033), injected());
    println!("{:?}", local.handle_msr_read(X86MsrAddr::new(0x80d), X86AccessWidth::Dword));
    Ok(())
}

/// Devices in threads of their own: each edge is sent, and each line's waiting edge is claimed once.
fn threads(machine: &Machine) -> X86VlapicResult {
    machine.write(0xfec0_0000, 0x14)?;
    machine.write(0xfec0_0010, 0x30)?;
    let sent: usize = thread::scope(|scope| {
        let devices: Vec<_> = (0..4)
            .map(|_| {
                let line = Arc::clone(&machine.io_apic);
                scope.spawn(move || (0..500).filter(|_| line.set_gsi_level(2, true).is_some()).count())
            })
            .collect();
        devices.into_iter().map(|device| device.join().unwrap()).sum()
    });
    println!("edges sent: {sent}");
    static SHARED: EmulatedPic = EmulatedPic::new();
    SHARED.handle_write(X86Port::new(0x21), X86AccessWidth::Byte, 0)?;
    SHARED.handle_write(X86Port::new(0x20), X86AccessWidth::Byte, 0x13)?;
    for icw in [0x40, 2] {
        SHARED.handle_write(X86Port::new(0x21), X86AccessWidth::Byte, icw)?;
    }
    let claimed: usize = thread::scope(|scope| {
        let devices: Vec<_> =
            (3..7).map(|irq| scope.spawn(move || (0..500).filter(|_| SHARED.pulse_irq(irq).is_some()).count())).collect();
        devices.into_iter().map(|device| device.join().unwrap()).sum()
    });
    println!("claims in automatic EOI mode: {claimed}, waiting: {:?}", SHARED.next_interrupt());
    Ok(())
}

/// What the types say of themselves.
fn types() {
    let addr = X86GuestPhysAddr::from(0xfec0_abcd);
    println!(
        "{addr:?} {addr:x} {addr:X} {addr:#x} {:?} {:?}",
        usize::from(addr),
        addr.as_ptr::<u8>() as usize == addr.as_usize()
    );
    println!("{:?} {:?}", X86HostPhysAddr::from_usize(0x1000), X86HostVirtAddr::from_usize(0xffff_8000_0000_0000));
    println!("{:x} {:X}", X86HostPhysAddr::from(0xbeef), X86HostVirtAddr::from(0xbeef).as_mut_ptr::<u16>() as usize);
    let (msr, port) = (X86MsrAddr::new(0x8ab), X86Port::new(0xa1));
    println!("{msr:?} {msr:x} {msr:X} {} {port:?} {port:x} {port:X} {}", msr.addr(), port.number());
    for width in [X86AccessWidth::Byte, X86AccessWidth::Word, X86AccessWidth::Dword, X86AccessWidth::Qword] {
        println!("{width:?} {} {:?} {} {}", width.size(), width.bits_range(), usize::from(width), width as u8);
    }
    println!("{:?} {:?}", X86AccessWidth::try_from(4), X86AccessWidth::try_from(3).map_err(errno));
    println!("{:?}", X86GuestPhysAddrRange::new(addr, X86GuestPhysAddr::from_usize(usize::MAX)));
    let msrs = X86MsrAddrRange::new(X86MsrAddr::new(1), X86MsrAddr::new(3));
    println!("{msrs:?} {} {} {PIC_PORTS:?}", msrs.contains(X86MsrAddr::new(3)), msrs.contains(X86MsrAddr::new(4)));
    println!(
        "{}",
        std::panic::catch_unwind(|| X86GuestPhysAddrRange::new(X86GuestPhysAddr::from(2), X86GuestPhysAddr::from(1))).is_err()
    );
    println!("{:?}", X86GuestPhysAddr::from(1) < X86GuestPhysAddr::from(2) && X86AccessWidth::Byte < X86AccessWidth::Qword);
    let far = EmulatedIoApic::new(X86GuestPhysAddr::from(usize::MAX - 0xfff), Some(0x2000));
    println!(
        "{:?} {}",
        far.handle_read(X86GuestPhysAddr::from(usize::MAX - 0xfff), X86AccessWidth::Dword),
        far.vector_for_gsi(3).is_none()
    );
    let range = std::panic::catch_unwind(std::panic::AssertUnwindSafe(|| far.address_range()));
    println!("its range panics: {}", range.is_err());
    let local = EmulatedLocalApic::<Host>::new(7, 3);
    println!("{:?} {:?} {:#x}", local.mmio_address_range(), local.msr_address_range(), local.apic_base());
    println!("{:?}", IoApicEoi { gsi: 3, pending: Some(IoApicInterrupt { vector: 1, level_triggered: false }) });
}

// ---- calls at random, the same on both sides

/// Numbers that look random.
struct Dice(u64);

impl Dice {
    fn word(&mut self) -> u64 {
        self.0 = self.0.wrapping_mul(6_364_136_223_846_793_005).wrapping_add(1_442_695_040_888_963_407);
        self.0 >> 20
    }
    fn below(&mut self, n: u64) -> u64 {
        self.word() % n
    }
    fn pick<T: Copy>(&mut self, options: &[T]) -> T {
        options[self.below(options.len() as u64) as usize]
    }
    fn width(&mut self, usual: X86AccessWidth) -> X86AccessWidth {
        let any = 1_usize << self.below(4);
        if self.below(10) > 0 { usual } else { X86AccessWidth::try_from(any).unwrap() }
    }
}

fn said(what: &str, numbers: &[u64], answer: impl Debug) {
    println!("{what} {numbers:x?}: {answer:x?}");
}

fn random_io_apic(dice: &mut Dice) {
    let io = EmulatedIoApic::new_default();
    for _ in 0..4000 {
        let gsi = if dice.below(8) > 0 { dice.pick(&[2, 3, 20]) } else { dice.below(30) as usize };
        let vector = dice.pick(&[0x30, 0x30, 0x41, 0xff, 0xf]);
        let elsewhere = 4 * dice.below(0x18) as usize;
        let addr = 0xfec0_0000 + dice.pick(&[0, 0, 0x10, 0x10, 0x10, 0x40, elsewhere, elsewhere, 0x410]);
        let width = dice.width(X86AccessWidth::Dword);
        let word = match (addr, dice.below(8)) {
            (_, 0) => dice.below(0x48),
            (0xfec0_0000, 1) => 0x11 + 2 * gsi as u64,
            (0xfec0_0000, _) => 0x10 + 2 * gsi as u64,
            (_, 1) => u64::from(vector) | dice.pick(&[0, 0x1_8000, 0xc000, 0x8100, 0x2_9000]),
            // few words, so that the same one is written again
            _ => dice.pick(&[0x8030, 0x8030, 0x8041]),
        };
        match dice.below(7) {
            0 | 1 => said("io write", &[addr as u64, width as u64, word], io.handle_write(addr.into(), width, word as usize)),
            2 => said("io read", &[addr as u64, width as u64], io.handle_read(addr.into(), width)),
            3 => said("io level", &[gsi as u64, word & 1], io.set_gsi_level(gsi, word & 1 == 0)),
            4 => said("io assert", &[gsi as u64], io.assert_gsi(gsi)),
            5 => said("io end", &[vector.into()], io.end_of_interrupt(vector)),
            _ => said("io vector", &[gsi as u64], io.vector_for_gsi(gsi)),
        }
    }
}

fn random_pic(dice: &mut Dice) {
    let pic = EmulatedPic::default();
    let mut held = Vec::new();
    for _ in 0..4000 {
        let port = dice.pick(&[0x20, 0x20, 0x21, 0xa0, 0xa0, 0xa1, 0x22]);
        let width = dice.width(X86AccessWidth::Byte);
        let value = dice.pick(&[0x20, 0x20, 0x11, 0x13, 0x0a, 0x0b, 0x63, 0, 0, 1, 3, dice.0 >> 40 & 0xff]);
        let irq = dice.below(18) as u8;
        match dice.below(8) {
            0 | 1 => said("pic write", &[port.into(), width as u64, value], pic.handle_write(port.into(), width, value as usize)),
            2 => said("pic read", &[port.into(), width as u64], pic.handle_read(port.into(), width)),
            3 => said("pic pulse", &[irq.into()], pic.pulse_irq(irq)),
            4 => said("pic next", &[], pic.next_interrupt()),
            5 | 6 => {
                let claim = if irq % 2 == 0 { pic.claim_irq(irq) } else { pic.claim_pending_interrupt() };
                said("pic claim", &[irq.into()], &claim);
                held.extend(claim);
            }
            _ => held.pop().into_iter().for_each(|claim| pic.restore_interrupt(claim)),
        }
    }
}

/// The registers that both have, used so that both answer alike (drop_in/otherwise.rs has the rest): DFR and SVR are
/// written first, since new ones differ; SVR's bit 8 stays 0, delivery modes 3 and 7 aren't sent, no destination is above
/// 63 but a broadcast, and there are at most 64 vCPUs; in x2APIC mode ID isn't read, and LDR and DFR aren't written; timer
/// registers and those that there aren't are left alone.
fn random_local(dice: &mut Dice) -> X86VlapicResult {
    let local = EmulatedLocalApic::<Host>::new(7, 1);
    for (addr, word) in [(0xfee0_00e0, 0xffff_ffff), (0xfee0_00f0, 0xff)] {
        local.handle_mmio_write(addr.into(), X86AccessWidth::Dword, word)?;
    }
    let mut is_x2apic = false;
    for _ in 0..6000 {
        let (any, vector) = (dice.word(), dice.pick(&[0x10, 0x1f, 0x20, 0x31, 0x5f, 0x80, 0xff, 5]));
        match dice.below(12) {
            0..3 => said("local accept", &[vector, any & 1], local.accept_interrupt(vector as u8, any & 1 == 1)),
            3..5 => said("local end", &[], local.handle_eoi()),
            5 if dice.below(60) == 0 => {
                is_x2apic = !is_x2apic;
                let base = 0xfee0_0800 | u64::from(is_x2apic) << 10;
                said("local base", &[base], local.set_apic_base(base));
            }
            5 => {
                *VCPUS.lock().unwrap() = (dice.pick(&[0, 1, 4, 8, 64]), dice.pick(&[0, 0b1011, 0xff, usize::MAX]));
            }
            6..9 => {
                let command = vector | dice.pick(&[0, 0, 0, 1, 2, 4, 5, 6]) << 8 | dice.below(2) << 11 | dice.below(4) << 18;
                let destination = dice.pick(&[0, 1, 2, 3, 63, if is_x2apic { 0xffff_ffff } else { 0xff }]);
                let (width, value) = if is_x2apic {
                    (dice.width(X86AccessWidth::Qword), command | destination << 32)
                } else {
                    let high = local.handle_mmio_write(0xfee0_0310.into(), X86AccessWidth::Dword, (destination << 24) as usize);
                    said("local ICR high", &[destination], high);
                    (dice.width(X86AccessWidth::Dword), command)
                };
                let answer = local.handle_mmio_write(0xfee0_0300.into(), width, value as usize);
                said("local ICR", &[value, width as u64], (answer, injected()));
            }
            9 | 10 => {
                let offset = dice.pick(&[
                    0x20, 0x80, 0xb0, 0xd0, 0xe0, 0xf0, 0x280, 0x2f0, 0x320, 0x330, 0x340, 0x350, 0x360, 0x370, 0x3f0, 0xa0,
                ]);
                if is_x2apic && matches!(offset, 0xd0 | 0xe0) {
                    continue;
                }
                let value = match offset {
                    0xe0 => dice.pick(&[0xffff_ffff, 0x0fff_ffff]),
                    0xf0 => any & !0x100,
                    _ => any,
                };
                let answer = if is_x2apic {
                    local.handle_msr_write((0x800 + offset / 0x10).into(), X86AccessWidth::Dword, value as usize)
                } else {
                    local.handle_mmio_write((0xfee0_0000 + offset).into(), X86AccessWidth::Dword, value as usize)
                };
                said("local write", &[offset as u64, value], (answer, injected()));
                said("local PPR", &[], local.handle_mmio_read(0xfee0_00a0.into(), X86AccessWidth::Dword));
            }
            _ => {
                let register = dice.pick(&[
                    2, 3, 8, 9, 0xa, 0xb, 0xc, 0xd, 0xe, 0xf, 0x28, 0x2f, 0x30, 0x31, 0x32, 0x33, 0x34, 0x35, 0x36, 0x37, 0x3f,
                ]);
                let register = if any % 2 == 0 { 0x10 + (any / 2 % 24) as usize } else { register };
                if is_x2apic && register == 2 {
                    continue;
                }
                let width = dice.width(if is_x2apic { X86AccessWidth::Qword } else { X86AccessWidth::Dword });
                let (msr, addr) = (
                    X86MsrAddr::new(0x800 + register),
                    X86GuestPhysAddr::from_usize(0xfee0_0000 + 0x10 * register + (any >> 8 & 3) as usize),
                );
                let answer = if is_x2apic { local.handle_msr_read(msr, width) } else { local.handle_mmio_read(addr, width) };
                said("local read", &[register as u64, width as u64], answer);
            }
        }
    }
    Ok(())
}

fn main() -> X86VlapicResult {
    std::panic::set_hook(Box::new(|_| ()));
    let machine = Machine::new();
    types();
    boots(&machine)?;
    legacy()?;
    x2apic(&machine)?;
    threads(&machine)?;
    let mut dice = Dice(2026);
    random_io_apic(&mut dice);
    random_pic(&mut dice);
    random_local(&mut dice)
}
