//! A reader of scripts (document 01, "Scripts") as one would write it in Rust, over the original or over the Rust
//! crate: what both cost behind the same reader.
//!
//!     reader original|krate        reads a script, prints its lines
//!
//! It knows what the benchmark's script has (bench/workload.py), and no more: the original answers the same lines as
//! `script` there.
mod host;
mod sides;

use host::{Host, KEEPS, set_vcpus};
use sides::*;
use std::io::{Read, Write, stdin, stdout};

/// A refusal number, and values.
struct Reply {
    number: u8,
    values: [u64; 3],
    count: usize,
}

impl Reply {
    fn values<const N: usize>(given: [u64; N]) -> Self {
        let mut values = [0; 3];
        values[..N].copy_from_slice(&given);
        Self { number: 0, values, count: N }
    }

    fn nothing() -> Self {
        Self::values([])
    }

    fn refused(refusal: impl Refusal) -> Self {
        Self { number: refusal.number(), ..Self::nothing() }
    }

    fn print(&self, tag: u8, lines: &mut Vec<u8>) {
        const DIGITS: &[u8; 16] = b"0123456789abcdef";
        lines.extend([DIGITS[usize::from(tag >> 4)], DIGITS[usize::from(tag & 15)], b' ', b'0' + self.number, b' ']);
        if self.count == 0 {
            lines.push(b'-');
        }
        for (at, &value) in self.values[..self.count].iter().enumerate() {
            if at > 0 {
                lines.push(b',');
            }
            print_decimal(value, lines);
        }
        lines.push(b'\n');
    }
}

fn print_decimal(mut value: u64, lines: &mut Vec<u8>) {
    let mut digits = [0; 20];
    let mut at = digits.len();
    loop {
        at -= 1;
        digits[at] = b'0' + (value % 10) as u8;
        value /= 10;
        if value == 0 {
            break;
        }
    }
    lines.extend_from_slice(&digits[at..]);
}

/// The chips of a side. The reader's calls are the same on each.
struct Machine<I, P, L> {
    io: I,
    pic: P,
    local: L,
}

/// None, or an answer's values.
fn told<const N: usize>(answer: Option<[u64; N]>) -> Reply {
    answer.map_or(Reply::nothing(), Reply::values)
}

fn done<const N: usize>(answer: Result<[u64; N], impl Refusal>) -> Reply {
    answer.map_or_else(Reply::refused, Reply::values)
}

/// Vector, line and flags. The original's claim shows no more than its vector; the rest is as the script has it, no
/// auto-EOI.
fn claimed<P: Pic>(claim: Option<P::Claim>) -> Reply {
    let Some(claim) = claim else { return Reply::nothing() };
    let vector = P::vector(&claim);
    let line = vector - 0x20;
    Reply::values([vector, line, if line < 8 { 1 } else { 3 }])
}

impl<I: Io<Ended = Line>, P: Pic, L: Local<KEEPS>> Machine<I, P, L> {
    fn io_eoi(&mut self, vector: u8) -> Reply {
        self.io.eoi(vector.into()).map_or(Reply::nothing(), |ended| match ended.sent {
            Some([vector, level]) => Reply::values([ended.line, vector, level]),
            None => Reply::values([ended.line]),
        })
    }

    fn accept(&mut self, vector: u8, level: bool) -> Reply {
        self.local.accept(vector.into(), level);
        Reply::nothing()
    }

    fn setup(&mut self, id: u8, count: u8, active: u64) -> Reply {
        set_vcpus(count.into(), active as usize);
        done(self.local.setup(id.into(), count.into()))
    }
}

fn number(bytes: &[u8]) -> u64 {
    bytes.iter().rev().fold(0, |above, &byte| above << 8 | u64::from(byte))
}

fn body_length(tag: u8) -> Option<usize> {
    Some(match tag {
        0x01 => 9,
        0x02 => 17,
        0x03 | 0x20 | 0x23 => 2,
        0x04 | 0x05 | 0x06 | 0x12 | 0x16 => 1,
        0x10 | 0x14 => 3,
        0x11 | 0x21 | 0x24 => 11,
        0x13 | 0x22 => 0,
        _ => return None,
    })
}

fn width(code: u8) -> Option<Width> {
    Some(match code {
        1 => Width::Byte,
        2 => Width::Word,
        4 => Width::Dword,
        8 => Width::Qword,
        _ => return None,
    })
}

/// Performs the field at the front; its length, or nothing where it is bad.
fn perform<P: Pic>(
    machine: &mut Machine<impl Io<Ended = Line>, P, impl Local<KEEPS>>,
    script: &[u8],
    lines: &mut Vec<u8>,
) -> Option<usize> {
    let (&[tag, low, high], rest) = script.split_first_chunk::<3>()?;
    let length = usize::from(u16::from_le_bytes([low, high]));
    if body_length(tag)? != length {
        return None;
    }
    let body = rest.get(..length)?;
    let Machine { io, pic, local } = machine;
    let reply = match (tag, body) {
        (0x01, [code, address @ ..]) => done(io.read(number(address), width(*code)?)),
        (0x02, [code, rest @ ..]) => done(io.write(number(&rest[..8]), width(*code)?, number(&rest[8..]))),
        (0x03, [gsi, up]) => told(io.set_level((*gsi).into(), *up != 0)),
        (0x04, [gsi]) => told(io.assert((*gsi).into())),
        (0x05, [vector]) => machine.io_eoi(*vector),
        // What both sides are here, by name.
        (0x06, [0x11]) | (0x16, [0]) => Reply::nothing(),
        (0x10, [code, port @ ..]) => done(pic.read(number(port), width(*code)?)),
        (0x11, [code, rest @ ..]) => done(pic.write(number(&rest[..2]), width(*code)?, number(&rest[2..]))),
        (0x12, [line]) => claimed::<P>(pic.claim((*line).into())),
        (0x13, []) => claimed::<P>(pic.claim_pending()),
        (0x20, [vector, level]) => machine.accept(*vector, *level != 0),
        (0x21, [code, rest @ ..]) => {
            local.write(number(&rest[..2]), width(*code)?, number(&rest[2..])).map_or_else(Reply::refused, told)
        }
        (0x22, []) => told(local.eoi()),
        (0x23, offset) => done(local.read(number(offset))),
        (0x24, [_x2apic, id, count, active @ ..]) => machine.setup(*id, *count, number(active)),
        _ => return None,
    };
    reply.print(tag, lines);
    Some(3 + length)
}

fn run<P: Pic>(mut machine: Machine<impl Io<Ended = Line>, P, impl Local<KEEPS>>, script: &[u8]) -> Vec<u8> {
    let mut lines = Vec::new();
    let mut at = 0;
    while at < script.len() {
        match perform(&mut machine, &script[at..], &mut lines) {
            Some(length) => at += length,
            None => {
                lines.extend_from_slice(b"bad ");
                print_decimal(at as u64, &mut lines);
                lines.push(b'\n');
                break;
            }
        }
    }
    lines
}

fn main() -> std::io::Result<()> {
    let mut script = Vec::new();
    stdin().read_to_end(&mut script)?;
    let lines = match std::env::args().nth(1).as_deref() {
        Some("original") => {
            let (io, pic) = (x86_vlapic::EmulatedIoApic::new_default(), x86_vlapic::EmulatedPic::new());
            let local = x86_vlapic::EmulatedLocalApic::<Host<KEEPS>>::new(0, 0);
            run(Machine { io: Plain(io), pic: Plain(pic), local: Plain(local) }, &script)
        }
        Some("krate") => {
            let (io, pic) = (sillwander::EmulatedIoApic11::new_default(), sillwander::EmulatedPic::new_rule(sillwander::PicRule::Latch));
            let local = sillwander::EmulatedLocalApic::default();
            run(Machine { io: Plain(io), pic: Plain(pic), local: Plain(local) }, &script)
        }
        _ => return Err(std::io::Error::other("usage: reader original|krate")),
    };
    stdout().write_all(&lines)
}
