//! The I/O APIC on both sides.

use crate::{Dice, Pair, Said};
use x86_vlapic::X86AccessWidth;

const BASE: usize = 0xfec0_0000;

pub struct IoApics {
    original: x86_vlapic::EmulatedIoApic,
    ours: sillwander::EmulatedIoApic11,
}

#[derive(Clone, Debug)]
pub enum Call {
    New { base: usize, size: Option<usize> },
    Read { addr: usize, width: usize },
    Write { addr: usize, width: usize, value: usize },
    SetGsiLevel(usize, bool),
    AssertGsi(usize),
    EndOfInterrupt(u8),
    VectorForGsi(usize),
    AddressRange,
}

const VECTORS: [u8; 8] = [0x30, 0x30, 0x31, 0x41, 15, 16, 0xff, 0];

fn select(register: u64) -> Call {
    Call::Write { addr: BASE, width: 4, value: register as usize }
}

fn window(word: u64) -> Call {
    Call::Write { addr: BASE + 0x10, width: 4, value: word as usize }
}

const READ_WINDOW: Call = Call::Read { addr: BASE + 0x10, width: 4 };

/// Few lines, so that they meet again; each of the others at times.
fn gsi(dice: &mut Dice) -> usize {
    match dice.below(20) {
        0 => dice.pick(&[24, 25, 255, 256, 1 << 32, usize::MAX]),
        1..=6 => dice.below(24) as usize,
        _ => dice.pick(&[2, 3, 20]),
    }
}

fn vector(dice: &mut Dice) -> u8 {
    if dice.chance(90) { dice.pick(&VECTORS) } else { dice.word() as u8 }
}

/// A low word: mostly level-triggered and fit to be sent.
fn low_word(dice: &mut Dice) -> u64 {
    let mut word = u64::from(vector(dice));
    for (bits, in_hundred) in [(0x8000, 75), (0x10000, 12), (0x4000, 15), (0x1000, 5), (0x2000, 5), (0x800, 5)] {
        word |= if dice.chance(in_hundred) { bits } else { 0 };
    }
    word |= if dice.chance(10) { dice.below(8) << 8 } else { 0 };
    word | if dice.chance(5) { dice.word() << 17 } else { 0 }
}

impl Pair for IoApics {
    const NAME: &'static str = "I/O APIC";
    const WANTED: &'static [&'static str] =
        &["sent, level", "sent, edge", "EOI of nothing", "EOI", "EOI, sent again", "refused 1", "refused 4", "a vector"];
    type Call = Call;

    fn new() -> Self {
        Self { original: x86_vlapic::EmulatedIoApic::new_default(), ours: sillwander::EmulatedIoApic11::new_default() }
    }

    fn next(dice: &mut Dice, calls: &mut Vec<Call>) {
        let line = gsi(dice);
        let register = 0x10 + line as u64 % 32 * 2;
        match dice.below(100) {
            0..15 => calls.extend([select(register), window(low_word(dice))]),
            15..18 => calls.extend([select(register + 1), window(dice.word())]),
            18..22 => calls.extend([select(register), READ_WINDOW]),
            22..26 => calls.extend([window(low_word(dice)), READ_WINDOW]),
            26..28 => calls.push(select(if dice.chance(70) { dice.below(0x48) } else { dice.word() })),
            28..30 => calls.push(READ_WINDOW),
            30..32 => {
                // Every offset to 0x48: version 0x20's EOI register, 0x40, is one of the others here. The vectors written are
                // those that lines have.
                let near = BASE.wrapping_add(dice.below(0x51) as usize).wrapping_sub(8);
                let anywhere = dice.word() as usize;
                let far = dice.pick(&[BASE + 0x40, BASE + 0x410, BASE + 0x1010, anywhere]);
                let addr = if dice.chance(70) { near } else { far };
                let width = dice.width(4);
                let value = if dice.chance(50) { vector(dice).into() } else { dice.word() as usize };
                calls.push(Call::Read { addr, width });
                calls.push(Call::Write { addr, width, value });
            }
            32..34 => calls.push(Call::Write { addr: BASE + 0x10, width: dice.width(8), value: dice.word() as usize }),
            34..36 => calls.push(Call::VectorForGsi(line)),
            36 => calls.push(Call::AddressRange),
            37..58 => calls.push(Call::SetGsiLevel(line, true)),
            58..68 => calls.push(Call::SetGsiLevel(line, false)),
            68..80 => calls.push(Call::AssertGsi(line)),
            80..99 => calls.push(Call::EndOfInterrupt(vector(dice))),
            _ if dice.chance(3) => {
                let size = dice.pick(&[None, Some(0), Some(0x1000), Some(0x20)]);
                calls.push(Call::New { base: dice.pick(&[0, BASE, BASE, 0xfec0_1000, 1 << 40]), size });
                calls.push(Call::AddressRange);
            }
            _ => calls.push(Call::Read { addr: BASE, width: 4 }),
        }
    }

    fn look(calls: &mut Vec<Call>) {
        calls.extend([Call::AddressRange, Call::Read { addr: BASE, width: 4 }]);
        calls.extend((0..0x41).flat_map(|register| [select(register), READ_WINDOW]));
        calls.extend((0..25).map(Call::VectorForGsi));
    }

    fn call(&mut self, call: &Call) -> (Said, Said) {
        let theirs = |addr: &usize| x86_vlapic::X86GuestPhysAddr::from_usize(*addr);
        let own = |addr: &usize| sillwander::X86GuestPhysAddr::from_usize(*addr);
        let nothing = |()| Vec::new();
        match call {
            Call::New { base, size } => {
                self.original = x86_vlapic::EmulatedIoApic::new(theirs(base), *size);
                let ours = sillwander::EmulatedIoApic11::new(own(base), *size);
                (Said::done(Vec::new()), Said::ours(ours.map(|ours| self.ours = ours), nothing))
            }
            Call::Read { addr, width } => (
                Said::original(|| self.original.handle_read(theirs(addr), width_of(*width)), |value| vec![value as u64]),
                Said::ours(self.ours.handle_read(own(addr), own_width(*width)), |value| vec![value as u64]),
            ),
            Call::Write { addr, width, value } => (
                Said::original(|| self.original.handle_write(theirs(addr), width_of(*width), *value), nothing),
                Said::ours(self.ours.handle_write(own(addr), own_width(*width), *value), nothing),
            ),
            Call::SetGsiLevel(gsi, up) => (
                Said::maybe(self.original.set_gsi_level(*gsi, *up), |sent| vec![sent.vector.into(), sent.level_triggered.into()]),
                Said::maybe(self.ours.set_gsi_level(*gsi, *up), |sent| vec![sent.vector.into(), sent.level_triggered.into()]),
            ),
            Call::AssertGsi(gsi) => (
                Said::maybe(self.original.assert_gsi(*gsi), |sent| vec![sent.vector.into(), sent.level_triggered.into()]),
                Said::maybe(self.ours.assert_gsi(*gsi), |sent| vec![sent.vector.into(), sent.level_triggered.into()]),
            ),
            Call::EndOfInterrupt(vector) => (
                Said::maybe(self.original.end_of_interrupt(*vector), |eoi| {
                    let again = eoi.pending.map(|sent| vec![sent.vector.into(), sent.level_triggered.into()]).unwrap_or_default();
                    [vec![eoi.gsi as u64], again].concat()
                }),
                Said::maybe(self.ours.end_of_interrupt(*vector), |eoi| {
                    let again = eoi.pending.map(|sent| vec![sent.vector.into(), sent.level_triggered.into()]).unwrap_or_default();
                    [vec![eoi.gsi as u64], again].concat()
                }),
            ),
            Call::VectorForGsi(gsi) => (
                Said::maybe(self.original.vector_for_gsi(*gsi), |vector| vec![vector.into()]),
                Said::maybe(self.ours.vector_for_gsi(*gsi), |vector| vec![vector.into()]),
            ),
            Call::AddressRange => {
                let (theirs, own) = (self.original.address_range(), self.ours.address_range());
                (
                    Said::done(vec![theirs.start.as_usize() as u64, theirs.end.as_usize() as u64]),
                    Said::done(vec![own.start.as_usize() as u64, own.end.as_usize() as u64]),
                )
            }
        }
    }

    fn kind(call: &Call, said: &Said) -> &'static str {
        match (call, said.number, said.values.as_slice()) {
            (_, 1, _) => "refused 1",
            (_, 4, _) => "refused 4",
            (Call::SetGsiLevel(..) | Call::AssertGsi(_), _, [_, 1]) => "sent, level",
            (Call::SetGsiLevel(..) | Call::AssertGsi(_), _, [_, 0]) => "sent, edge",
            (Call::EndOfInterrupt(_), _, []) => "EOI of nothing",
            (Call::EndOfInterrupt(_), _, [_]) => "EOI",
            (Call::EndOfInterrupt(_), _, [_, _, _]) => "EOI, sent again",
            (Call::VectorForGsi(_), _, [_]) => "a vector",
            _ => "",
        }
    }
}

/// Every width that is drawn is one.
pub fn width_of(size: usize) -> X86AccessWidth {
    X86AccessWidth::try_from(size).expect("a width is 1, 2, 4 or 8")
}

pub fn own_width(size: usize) -> sillwander::X86AccessWidth {
    sillwander::X86AccessWidth::try_from(size).expect("a width is 1, 2, 4 or 8")
}
