//! The local APIC on both sides. The original's is behind the oracle's harness, whose host is told the vCPU count and the active mask before each write, and
//! says what was sent.

use crate::{Dice, Pair, Said, host, io_apic, original_local};
use sillwander::{Ipi, X86GuestPhysAddr, X86MsrAddr};

pub struct Locals {
    original: original_local::Local,
    ours: sillwander::EmulatedLocalApic,
    x2apic: bool,
}

#[derive(Clone, Debug)]
pub enum Call {
    New { x2apic: bool, id: u8, count: u8 },
    Accept(u8, bool),
    Eoi,
    Read { offset: usize, by_address: bool },
    Write { offset: usize, value: usize, width: usize, count: u8, active: u64, by_address: bool },
}

const REGISTERS: [usize; 31] = [
    0x20, 0x30, 0x80, 0x80, 0xa0, 0xb0, 0xb0, 0xd0, 0xd0, 0xe0, 0xe0, 0xf0, 0x100, 0x110, 0x170, 0x180, 0x1f0, 0x200, 0x280,
    0x280, 0x2f0, 0x300, 0x310, 0x320, 0x330, 0x340, 0x350, 0x360, 0x370, 0x3f0, 0x3f0,
];

fn offset(dice: &mut Dice) -> usize {
    match dice.below(20) {
        0 => dice.below(0x410) as usize,
        1 => dice.below(0x41) as usize * 16,
        2 => dice.pick(&[0x1080, 0x10300, 1 << 32, usize::MAX, 0xffff_fff0]),
        _ => dice.pick(&REGISTERS),
    }
}

/// A command: every mode and shorthand, bit 12 at times, vectors on both sides of 16.
fn command(dice: &mut Dice) -> u64 {
    let vector = if dice.chance(20) { dice.below(32) } else { dice.below(256) };
    let mode = if dice.chance(50) { 0 } else { dice.below(8) };
    let junk = if dice.chance(10) { dice.word() & 0xfff3_f000 } else { 0 };
    vector | mode << 8 | dice.below(2) << 11 | dice.below(4) << 18 | junk
}

fn vcpus(dice: &mut Dice) -> (u8, u64) {
    let count = dice.pick(&[0, 1, 2, 4, 8, 63, 64]);
    let active = match dice.below(4) {
        0 => dice.word(),
        1 => 0,
        2 => u64::MAX,
        _ => dice.below(256),
    };
    (count, active)
}

impl Locals {
    /// The register's address or number, where it has one.
    fn mmio(offset: usize) -> Option<X86GuestPhysAddr> {
        0xfee0_0000_usize.checked_add(offset).map(X86GuestPhysAddr::from_usize)
    }

    fn msr(offset: usize) -> Option<X86MsrAddr> {
        (offset % 16 == 0).then(|| X86MsrAddr::new(0x800 + offset / 16))
    }

    fn our_read(&self, offset: usize, by_address: bool) -> sillwander::X86VlapicResult<usize> {
        let width = if offset == 0x300 && self.x2apic { 8 } else { 4 };
        match (by_address, self.x2apic, Self::mmio(offset), Self::msr(offset)) {
            (true, false, Some(addr), _) => self.ours.handle_mmio_read(addr, io_apic::own_width(width)),
            // the ICR is read whole by its number
            (true, true, _, Some(addr)) => {
                let read = self.ours.handle_msr_read(addr, io_apic::own_width(width));
                read.map(|value| if offset == 0x300 { value & 0xffff_ffff } else { value })
            }
            _ => self.ours.handle_read(offset),
        }
    }

    fn our_write(
        &mut self,
        offset: usize,
        value: usize,
        width: usize,
        vcpus: (u8, u64),
        by_address: bool,
    ) -> sillwander::X86VlapicResult<Option<Ipi>> {
        let (width, count, active) = (io_apic::own_width(width), vcpus.0.into(), vcpus.1);
        match (by_address, self.x2apic, Self::mmio(offset), Self::msr(offset)) {
            (true, false, Some(addr), _) => self.ours.handle_mmio_write(addr, width, value, count, active),
            (true, true, _, Some(addr)) => self.ours.handle_msr_write(addr, width, value, count, active),
            _ => self.ours.handle_write(offset, value, width, count, active),
        }
    }
}

impl Pair for Locals {
    const NAME: &'static str = "local APIC";
    const WANTED: &'static [&'static str] = &[
        "IPI, fixed",
        "IPI, NMI",
        "IPI, INIT",
        "IPI, startup",
        "broadcast",
        "no broadcast",
        "refused 2",
        "refused 3",
        "refused 5",
    ];
    type Call = Call;

    fn new() -> Self {
        let mut both =
            Self { original: original_local::Local::new(false), ours: sillwander::EmulatedLocalApic::default(), x2apic: false };
        both.original.setup(false, 0, 1, 1);
        both
    }

    fn next(dice: &mut Dice, calls: &mut Vec<Call>) {
        let (count, active) = vcpus(dice);
        let by_address = dice.chance(50);
        let any = dice.word();
        let mut write = |offset: usize, value: u64, width: usize| {
            calls.push(Call::Write { offset, value: value as usize, width, count, active, by_address });
        };
        match dice.below(100) {
            0..22 => {
                let vector = dice.pick(&[0x10, 0x1f, 0x20, 0x31, 0x32, 0x41, 0x5f, 0x80, 0xff]);
                let vector = if dice.chance(70) { vector } else { dice.word() as u8 };
                calls.push(Call::Accept(vector, dice.chance(60)));
            }
            22..42 => calls.push(Call::Eoi),
            42..47 => write(0x80, dice.word() & if dice.chance(80) { 0xff } else { u64::MAX }, 4),
            47..50 => {
                write(0xf0, dice.pick(&[0xff, 0x1ff, 0x10ff, 0x11ff]) | if dice.chance(20) { dice.word() << 13 } else { 0 }, 4)
            }
            50..54 => write(0xd0, dice.pick(&[0x0100_0000, 0x2100_0000, any]), 4),
            54..57 => write(0xe0, if dice.chance(80) { dice.pick(&[0xffff_ffff, 0x0fff_ffff]) } else { dice.word() }, 4),
            57..62 => {
                let destination = dice.pick(&[0, 1, 2, 0x21, 63, 64, 0xff, any & 0xff]);
                write(0x310, destination << 24 | dice.below(4), dice.width(4));
            }
            // in both modes: the width that the other one wants is refused
            62..78 => write(0x300, command(dice), dice.width(4)),
            78..86 => {
                let destination = dice.pick(&[0, 1, 2, 0x21, 63, 64, 0xff, 0xffff_ffff, any & 0xff]);
                write(0x300, command(dice) | destination << 32, dice.width(8));
            }
            86..89 => write(0x3f0, dice.word(), dice.width(4)),
            89..93 => write(offset(dice), dice.word(), dice.width(4)),
            93..98 => calls.push(Call::Read { offset: offset(dice), by_address }),
            98 => write(0x280, dice.word(), 4),
            _ => {
                let id = dice.pick(&[0, 1, 5, 63, 63, 64, 255]);
                calls.push(Call::New { x2apic: dice.chance(50), id, count: dice.pick(&[0, 1, 8, 64, 65]) });
            }
        }
    }

    fn look(calls: &mut Vec<Call>) {
        calls.extend((0..0x41).map(|register| Call::Read { offset: register * 16, by_address: register % 2 == 0 }));
    }

    fn call(&mut self, call: &Call) -> (Said, Said) {
        match *call {
            Call::New { x2apic, id, count } => {
                let ours = sillwander::EmulatedLocalApic::new(x2apic, id.into(), count.into());
                let original = self.original.setup(x2apic, id, count, 1);
                let ours = ours.map(|ours| (self.ours, self.x2apic) = (ours, x2apic));
                (Said::of_harness(original), Said::ours(ours, |()| Vec::new()))
            }
            Call::Accept(vector, level) => {
                self.ours.accept_interrupt(vector, level);
                (Said::of_harness(self.original.accept(vector, level)), Said::done(Vec::new()))
            }
            Call::Eoi => {
                (Said::of_harness(self.original.eoi()), Said::maybe(self.ours.handle_eoi(), |vector| vec![vector.into()]))
            }
            Call::Read { offset, by_address } => (
                Said::of_harness(self.original.read(offset)),
                Said::ours(self.our_read(offset, by_address), |value| vec![value as u64]),
            ),
            Call::Write { offset, value, width, count, active, by_address } => {
                host::set_vcpus(count.into(), active as usize);
                let ours = self.our_write(offset, value, width, (count, active), by_address);
                let values =
                    |ipi: Option<Ipi>| ipi.map(|ipi| vec![ipi.kind as u64, ipi.vector.into(), ipi.vcpus]).unwrap_or_default();
                (Said::of_harness(self.original.write(io_apic::width_of(width), offset, value)), Said::ours(ours, values))
            }
        }
    }

    fn kind(call: &Call, said: &Said) -> &'static str {
        match (call, said.number, said.values.as_slice()) {
            (_, 2, _) => "refused 2",
            (_, 3, _) => "refused 3",
            (_, 5, _) => "refused 5",
            (Call::Write { .. }, _, [0, _, _]) => "IPI, fixed",
            (Call::Write { .. }, _, [4, _, _]) => "IPI, NMI",
            (Call::Write { .. }, _, [5, _, _]) => "IPI, INIT",
            (Call::Write { .. }, _, [6, _, _]) => "IPI, startup",
            (Call::Eoi, _, [_]) => "broadcast",
            (Call::Eoi, _, []) => "no broadcast",
            _ => "",
        }
    }
}

/// Whether both sides name the same addresses.
pub fn same_ranges() -> bool {
    let theirs = x86_vlapic::EmulatedLocalApic::<host::Host>::new(0, 0);
    let own = sillwander::EmulatedLocalApic::default();
    let (mmio, msr) = (theirs.mmio_address_range(), theirs.msr_address_range());
    let (own_mmio, own_msr) = (own.mmio_address_range(), own.msr_address_range());
    let theirs = [mmio.start.as_usize(), mmio.end.as_usize(), msr.start.addr(), msr.end.addr()];
    let own = [own_mmio.start.as_usize(), own_mmio.end.as_usize(), own_msr.start.addr(), own_msr.end.addr()];
    if theirs != own {
        println!("the local APIC's addresses: {theirs:x?}, ours {own:x?}");
    }
    theirs == own
}
