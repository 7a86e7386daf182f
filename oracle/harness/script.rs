//! HARNESS: the whole script reader. Scripts are added by document 01; the Rust has none.

use crate::{
    io_apic::IoApic,
    local::Local,
    pic::Pic,
    reply::{Judge, Reply},
};
use std::io::Write;
use x86_vlapic::X86AccessWidth;

const LONGEST: usize = 65_536;

/// The one length that each tag's body has.
fn body_length(tag: u8) -> Option<usize> {
    Some(match tag {
        0x01 => 9,
        0x02 => 17,
        0x03 | 0x20 | 0x23 => 2,
        0x04 | 0x05 | 0x06 | 0x12 | 0x16 => 1,
        0x10 | 0x14 => 3,
        0x11 | 0x21 => 11,
        0x13 | 0x22 => 0,
        0x24 => 11,
        _ => return None,
    })
}

/// The field that starts at `at`, as its tag and body; nothing if it is bad.
fn field(script: &[u8], at: usize) -> Option<(u8, &[u8])> {
    let (&[tag, low, high], rest) = script[at..].split_first_chunk::<3>()?;
    let length = usize::from(u16::from_le_bytes([low, high]));
    if body_length(tag)? != length {
        return None;
    }
    Some((tag, rest.get(..length)?))
}

/// A number of a body, low byte first.
fn number(bytes: &[u8]) -> usize {
    bytes.iter().rev().fold(0, |above, &byte| above << 8 | usize::from(byte))
}

/// A width code, by the Rust's own conversion. HARNESS: a code that it refuses makes the field bad.
fn width(code: u8) -> Option<X86AccessWidth> {
    X86AccessWidth::try_from(usize::from(code)).ok()
}

/// The three chips of one run, and which of them were used, by the high digit of their tags.
struct Machine {
    io_apic: IoApic,
    pic: Pic,
    local: Local,
    used: [bool; 3],
}

impl Machine {
    fn new(alone: bool) -> Self {
        Self { io_apic: IoApic::new(alone), pic: Pic::new(alone), local: Local::new(alone), used: [false; 3] }
    }

    /// Performs a field; nothing if its width code is bad, or a choice is.
    fn call(&mut self, tag: u8, body: &[u8]) -> Option<Reply> {
        let used = std::mem::replace(&mut self.used[usize::from(tag >> 4)], true);
        Some(match (tag, body) {
            // HARNESS: document 02's choices. The Rust is version 0x11 and rule 0, so these change nothing; to the others it has no answer.
            (0x06, [0x11]) | (0x16, [0]) if !used => Reply::done(Vec::new()).by_harness(),
            (0x06 | 0x16, _) => return None,
            (0x01, [w, address @ ..]) => self.io_apic.read(width(*w)?, number(address)),
            (0x02, [w, rest @ ..]) => self.io_apic.write(width(*w)?, number(&rest[..8]), number(&rest[8..])),
            (0x03, [gsi, up]) => self.io_apic.line(*gsi, *up != 0),
            (0x04, [gsi]) => self.io_apic.assert(*gsi),
            (0x05, [vector]) => self.io_apic.eoi(*vector),
            (0x10, [w, port @ ..]) => self.pic.read(width(*w)?, number(port) as u16),
            (0x11, [w, rest @ ..]) => self.pic.write(width(*w)?, number(&rest[..2]) as u16, number(&rest[2..])),
            (0x12, [line]) => self.pic.claim(*line),
            (0x13, []) => self.pic.claim_pending(),
            (0x14, [vector, line, flags]) => self.pic.restore(*vector, *line, *flags),
            (0x20, [vector, level]) => self.local.accept(*vector, *level != 0),
            (0x21, [w, rest @ ..]) => self.local.write(width(*w)?, number(&rest[..2]), number(&rest[2..])),
            (0x22, []) => self.local.eoi(),
            (0x23, offset) => self.local.read(number(offset)),
            (0x24, [x2, id, count, active @ ..]) => self.local.setup(*x2 != 0, *id, *count, number(active)),
            _ => unreachable!("the lengths were checked"),
        })
    }
}

/// Runs scripts, each on new chips, and counts who decided their fields.
pub struct Runner {
    alone: bool,
    mark: bool,
    pub by_rust: u64,
    pub by_harness: u64,
}

impl Runner {
    pub fn new(alone: bool, mark: bool) -> Self {
        Self { alone, mark, by_rust: 0, by_harness: 0 }
    }

    /// The lines that a script prints.
    pub fn run(&mut self, script: &[u8]) -> Vec<u8> {
        let mut lines = Vec::new();
        if script.len() > LONGEST {
            self.line(&mut lines, format_args!("7"), Judge::Harness);
            return lines;
        }
        let mut machine = Machine::new(self.alone);
        let mut at = 0;
        while at < script.len() {
            let performed = field(script, at).and_then(|(tag, body)| Some((tag, body.len(), machine.call(tag, body)?)));
            let Some((tag, length, reply)) = performed else {
                self.line(&mut lines, format_args!("bad {at}"), Judge::Harness);
                break;
            };
            self.line(&mut lines, format_args!("{tag:02x} {reply}"), reply.judge);
            at += 3 + length;
        }
        lines
    }

    fn line(&mut self, lines: &mut Vec<u8>, text: std::fmt::Arguments, judge: Judge) {
        let (counter, letter) = match judge {
            Judge::Rust => (&mut self.by_rust, 'R'),
            Judge::Harness => (&mut self.by_harness, 'H'),
        };
        *counter += 1;
        let mark = self.mark.then(|| format!(" {letter}")).unwrap_or_default();
        writeln!(lines, "{text}{mark}").expect("memory takes every byte");
    }
}
