//! What the chips' words say, for people: the parts of `Debug`. The layouts are include/sillwander.h's.

use crate::archives::IOAPIC_WORDS;
use core::fmt::{Debug, Formatter, Result};

/// A number that is read as bits.
pub struct Hex<T>(pub T);

impl<T: core::fmt::LowerHex> Debug for Hex<T> {
    fn fmt(&self, f: &mut Formatter<'_>) -> Result {
        write!(f, "{:#x}", self.0)
    }
}

/// What a function writes: `core::fmt::from_fn`, which is younger than the compilers that the crate is for.
pub struct Said<F>(pub F);

impl<F: Fn(&mut Formatter<'_>) -> Result> Debug for Said<F> {
    fn fmt(&self, f: &mut Formatter<'_>) -> Result {
        self.0(f)
    }
}

fn is_set(word: u64, bit: usize) -> bool {
    word >> bit & 1 != 0
}

/// The vectors that a test picks.
pub fn vectors(is_in: impl Fn(u8) -> bool) -> impl Debug {
    Said(move |f: &mut Formatter<'_>| f.debug_list().entries((0..=255).filter(|vector| is_in(*vector)).map(Hex)).finish())
}

/// The redirection entries of an I/O APIC's words, but for those that are as new.
pub struct Entries<'a>(pub &'a [u64; IOAPIC_WORDS]);

impl Debug for Entries<'_> {
    fn fmt(&self, f: &mut Formatter<'_>) -> Result {
        let [deferred, up, in_flight] = [24, 25, 30].map(|place| self.0[place]);
        let entry = |gsi: usize| Entry {
            register: self.0[gsi],
            is_deferred: is_set(deferred, gsi),
            is_up: is_set(up, gsi),
            is_in_flight: is_set(in_flight, gsi),
        };
        let changed = (0..24).map(|gsi| (gsi, entry(gsi))).filter(|(_, entry)| !entry.is_new());
        f.debug_map().entries(changed).finish()
    }
}

struct Entry {
    register: u64,
    is_deferred: bool,
    is_up: bool,
    is_in_flight: bool,
}

impl Entry {
    fn is_new(&self) -> bool {
        self.register == 0x10000 && !self.is_deferred && !self.is_up && !self.is_in_flight
    }
}

impl Debug for Entry {
    fn fmt(&self, f: &mut Formatter<'_>) -> Result {
        const MODES: [&str; 8] = ["fixed", "lowest priority", "SMI", "mode 3", "NMI", "INIT", "mode 6", "ExtINT"];
        let bit = |bit| is_set(self.register, bit);
        write!(f, "vector {:#x}, {}", self.register & 0xff, MODES[(self.register >> 8 & 7) as usize])?;
        f.write_str(if bit(15) { ", level" } else { ", edge" })?;
        f.write_str(if bit(11) { ", logical " } else { ", physical " })?;
        write!(f, "{:#x}", self.register >> 56)?;
        let reserved = self.register >> 17 & 0x7f_ffff_ffff;
        if reserved != 0 {
            write!(f, ", bits 55..17 {reserved:#x}")?;
        }
        for (is_said, word) in [
            (bit(12), ", delivery status 1"),
            (bit(13), ", active low"),
            (bit(16), ", masked"),
            (self.is_in_flight, ", in flight"),
            (self.is_in_flight != bit(14), ", bit 14 otherwise"),
            (self.is_deferred, ", deferred"),
            (self.is_up, ", line up"),
        ] {
            f.write_str(if is_said { word } else { "" })?;
        }
        Ok(())
    }
}

/// One 8259 of a pair: its word, whether the pair is of the full profile, and its first line's number.
pub struct Pic {
    pub word: u64,
    pub is_full: bool,
    pub first: usize,
}

impl Pic {
    /// The lines of the set in the eight bits from this one on.
    fn lines(&self, from: usize) -> impl Debug + '_ {
        let line = move |k| is_set(self.word, from + k).then_some(self.first + k);
        Said(move |f: &mut Formatter<'_>| f.debug_list().entries((0..8).filter_map(line)).finish())
    }

    fn modes(&self) -> impl Debug + '_ {
        Said(|f: &mut Formatter<'_>| {
            let step = self.word >> 32 & 0xff;
            let bit = |bit| is_set(self.word, bit);
            let modes = [
                (step == 1, "waits for ICW2"),
                (step == 2, "waits for ICW3"),
                (step == 3, "waits for ICW4"),
                (bit(40) && step != 0, "ICW4 expected"),
                (bit(41), "single"),
                (bit(42), "automatic EOI"),
                (bit(43), "reads in service"),
                (self.is_full && bit(47), "rotates in automatic EOI"),
                (self.is_full && bit(48), "special mask"),
                (self.is_full && bit(49), "poll waits"),
                (self.is_full && bit(50), "special fully nested"),
            ];
            // without quotation marks
            let said =
                |(is_said, word): (bool, &'static str)| is_said.then_some(Said(move |f: &mut Formatter<'_>| f.write_str(word)));
            f.debug_list().entries(modes.into_iter().filter_map(said)).finish()
        })
    }
}

impl Debug for Pic {
    fn fmt(&self, f: &mut Formatter<'_>) -> Result {
        let mut said = f.debug_struct("Pic");
        said.field("base", &Hex(self.word & 0xff))
            .field("masked", &self.lines(8))
            .field("requested", &self.lines(16))
            .field("in_service", &self.lines(24))
            .field("modes", &self.modes());
        if self.is_full {
            said.field("highest", &(self.first + (self.word >> 44 & 7) as usize));
        }
        said.finish()
    }
}
