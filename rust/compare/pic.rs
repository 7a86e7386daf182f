//! The pair of 8259s on both sides. Both sides' claims have the same `Debug` text, so a claim is compared by its own text; a restored claim is one that the
//! side gave, some calls ago.

use crate::{
    Dice, Pair, Said,
    io_apic::{own_width, width_of},
};

pub struct Pics {
    original: x86_vlapic::EmulatedPic,
    ours: sillwander::EmulatedPic,
    held: Vec<(x86_vlapic::PicInterruptClaim, sillwander::PicInterruptClaim)>,
}

#[derive(Clone, Debug)]
pub enum Call {
    New,
    Read {
        port: u16,
        width: usize,
    },
    Write {
        port: u16,
        width: usize,
        value: usize,
    },
    ClaimIrq(u8),
    ClaimPending,
    PulseIrq(u8),
    NextInterrupt,
    /// One of the claims held, counted from the last one.
    Restore(usize),
}

const MASTER: u16 = 0x20;
const SLAVE: u16 = 0xa0;
const HELD: usize = 8;

fn out(port: u16, value: u64) -> Call {
    Call::Write { port, width: 1, value: value as usize }
}

fn read(port: u16) -> Call {
    Call::Read { port, width: 1 }
}

/// ICW1 to ICW4, as ICW1 wants them, and mostly a mask.
fn initialise(dice: &mut Dice, port: u16, calls: &mut Vec<Call>) {
    let icw1 = 0x10 | if dice.chance(80) { 1 } else { dice.below(16) };
    calls.extend([out(port, icw1), out(port + 1, dice.word() & 0xff)]);
    if icw1 & 2 == 0 {
        calls.push(out(port + 1, dice.below(256)));
    }
    if icw1 & 1 == 1 {
        calls.push(out(port + 1, if dice.chance(60) { 1 } else { dice.below(256) }));
    }
    if dice.chance(90) {
        calls.push(out(port + 1, if dice.chance(70) { 0 } else { dice.below(256) }));
    }
}

fn line(dice: &mut Dice) -> u8 {
    if dice.chance(95) { dice.below(16) as u8 } else { dice.pick(&[16, 17, 64, 255]) }
}

impl Pair for Pics {
    const NAME: &'static str = "8259 pair";
    const WANTED: &'static [&'static str] = &[
        "claim, flags 0",
        "claim, flags 1",
        "claim, flags 2",
        "claim, flags 3",
        "no claim",
        "a vector",
        "restored",
        "refused 1",
    ];
    type Call = Call;

    fn new() -> Self {
        Self {
            original: x86_vlapic::EmulatedPic::new(),
            ours: sillwander::EmulatedPic::new_rule(sillwander::PicRule::Latch),
            held: Vec::new(),
        }
    }

    fn next(dice: &mut Dice, calls: &mut Vec<Call>) {
        let chip = dice.pick(&[MASTER, SLAVE]);
        match dice.below(100) {
            0..2 => initialise(dice, chip, calls),
            2..5 => calls.push(out(chip + 1, if dice.chance(60) { 0 } else { dice.below(256) })),
            5..20 => calls.push(out(chip, 0x20)),
            20..26 => calls.push(out(chip, 0x60 | dice.below(8))),
            26..29 => calls.extend([out(chip, 0x08 | dice.below(4)), read(chip)]),
            29..31 => calls.push(out(chip + dice.below(2) as u16, dice.below(256))),
            31..41 => calls.push(read(chip + dice.below(2) as u16)),
            41..43 => {
                let port = if dice.chance(50) { dice.pick(&[0, 0x1f, 0x22, 0x9f, 0xa2, 0x4d0]) } else { chip };
                let width = dice.pick(&[1, 2, 4, 8]);
                calls.push(Call::Read { port, width });
                calls.push(Call::Write { port, width, value: dice.word() as usize });
            }
            43..44 => calls.push(Call::Write { port: chip + 1, width: 1, value: dice.word() as usize }),
            44..66 => calls.push(Call::ClaimIrq(line(dice))),
            66..76 => calls.push(Call::ClaimPending),
            76..82 => calls.push(Call::PulseIrq(line(dice))),
            82..88 => calls.push(Call::NextInterrupt),
            88..99 => calls.push(Call::Restore(if dice.chance(70) { 0 } else { dice.below(HELD as u64) as usize })),
            _ if dice.chance(5) => calls.push(Call::New),
            _ => {
                initialise(dice, MASTER, calls);
                initialise(dice, SLAVE, calls);
            }
        }
    }

    fn look(calls: &mut Vec<Call>) {
        for chip in [MASTER, SLAVE] {
            calls.extend([read(chip), read(chip + 1), out(chip, 0x0b), read(chip), out(chip, 0x0a), read(chip)]);
        }
    }

    fn call(&mut self, call: &Call) -> (Said, Said) {
        let nothing = |()| Vec::new();
        let vector = |vector: u8| vec![vector.into()];
        match call {
            Call::New => {
                *self = Self::new();
                (Said::done(Vec::new()), Said::done(Vec::new()))
            }
            Call::Read { port, width } => (
                Said::original(
                    || self.original.handle_read(x86_vlapic::X86Port::new(*port), width_of(*width)),
                    |value| vec![value as u64],
                ),
                Said::ours(self.ours.handle_read(sillwander::X86Port::new(*port), own_width(*width)), |value| vec![value as u64]),
            ),
            Call::Write { port, width, value } => (
                Said::original(|| self.original.handle_write(x86_vlapic::X86Port::new(*port), width_of(*width), *value), nothing),
                Said::ours(self.ours.handle_write(sillwander::X86Port::new(*port), own_width(*width), *value), nothing),
            ),
            Call::ClaimIrq(irq) => {
                let claims = (self.original.claim_irq(*irq), self.ours.claim_irq(*irq));
                self.hold(claims)
            }
            Call::ClaimPending => {
                let claims = (self.original.claim_pending_interrupt(), self.ours.claim_pending_interrupt());
                self.hold(claims)
            }
            Call::PulseIrq(irq) => {
                (Said::maybe(self.original.pulse_irq(*irq), vector), Said::maybe(self.ours.pulse_irq(*irq), vector))
            }
            Call::NextInterrupt => {
                (Said::maybe(self.original.next_interrupt(), vector), Said::maybe(self.ours.next_interrupt(), vector))
            }
            Call::Restore(back) => {
                let Some(at) = self.held.len().checked_sub(back + 1) else {
                    return (Said::done(Vec::new()), Said::done(Vec::new()));
                };
                let (theirs, own) = self.held.remove(at);
                self.original.restore_interrupt(theirs);
                self.ours.restore_interrupt(own);
                (Said::done(vec![1]), Said::done(vec![1]))
            }
        }
    }

    fn kind(call: &Call, said: &Said) -> &'static str {
        match (call, said.number, said.values.as_slice()) {
            (_, 1, _) => "refused 1",
            (Call::ClaimIrq(_) | Call::ClaimPending, _, []) => "no claim",
            (Call::ClaimIrq(_) | Call::ClaimPending, _, [_, _, 0]) => "claim, flags 0",
            (Call::ClaimIrq(_) | Call::ClaimPending, _, [_, _, 1]) => "claim, flags 1",
            (Call::ClaimIrq(_) | Call::ClaimPending, _, [_, _, 2]) => "claim, flags 2",
            (Call::ClaimIrq(_) | Call::ClaimPending, _, [_, _, 3]) => "claim, flags 3",
            (Call::PulseIrq(_) | Call::NextInterrupt, _, [_]) => "a vector",
            (Call::Restore(_), _, [_]) => "restored",
            _ => "",
        }
    }
}

impl Pics {
    /// Both sides' claims, compared; a pair of them is held, and the oldest is let go where there are many.
    fn hold(&mut self, claims: (Option<x86_vlapic::PicInterruptClaim>, Option<sillwander::PicInterruptClaim>)) -> (Said, Said) {
        let said = (
            Said::maybe(claims.0.as_ref(), |claim| numbers(&format!("{claim:?}"), claim.vector())),
            Said::maybe(claims.1.as_ref(), |claim| numbers(&format!("{claim:?}"), claim.vector())),
        );
        if let (Some(theirs), Some(own)) = claims {
            self.held.push((theirs, own));
            if self.held.len() > HELD {
                drop(self.held.remove(0));
            }
        }
        said
    }
}

/// Vector, line and flags, from a claim's `Debug` text.
fn numbers(text: &str, vector: u8) -> Vec<u64> {
    let after = |name: &str| text.split_once(name).map(|(_, rest)| rest.split([',', ' ']).next().unwrap_or_default());
    let number = |name: &str| after(name).and_then(|text| text.parse::<u64>().ok()).expect("a claim has this number");
    let flag = |name: &str| u64::from(after(name).expect("a claim has this flag") == "true");
    assert_eq!(number("vector: "), vector.into());
    vec![vector.into(), number("irq: "), flag("master_in_service: ") | flag("slave_in_service: ") << 1]
}

/// Whether both sides name the same ports.
pub fn same_ports() -> bool {
    let theirs = x86_vlapic::EmulatedPic::port_ranges().map(|range| (range.start.number(), range.end.number()));
    let own = sillwander::EmulatedPic::port_ranges().map(|range| (range.start.number(), range.end.number()));
    if theirs != own {
        println!("the ports: {theirs:x?}, ours {own:x?}");
    }
    theirs == own
}
