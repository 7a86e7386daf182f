//! The crate `sillwander` against the original: the same random calls on both, every answer compared, for all three chips.
//!
//!     compare                        the gate's run: fixed seeds
//!     compare --seed S --calls N     another: N calls a chip, at least
//!
//! A difference is made small and printed as a list of calls. The exit status is 1 where there is one, or where the calls didn't reach the
//! answers that they should.
//!
//! The original is compiled unmodified behind the oracle's stand-ins, with overflow checks on: what it panics at is a refusal, as in the oracle's harness, parts
//! of which are used here. For the local APIC the harness also speaks where document 01 adds something or leaves it behind; each place says `HARNESS:`.
#[allow(dead_code)]
#[path = "../../oracle/harness/host.rs"]
mod host;
mod io_apic;
mod local;
#[allow(dead_code)]
#[path = "../../oracle/harness/local.rs"]
mod original_local;
mod pic;
#[allow(dead_code)]
#[path = "../../oracle/harness/reply.rs"]
mod reply;

use std::{
    collections::BTreeMap,
    fmt::{Debug, Display, Formatter},
    process::ExitCode,
};

/// What a call said: a refusal number and values.
#[derive(Clone, Debug, Eq, PartialEq, Ord, PartialOrd)]
pub struct Said {
    number: u8,
    values: Vec<u64>,
}

impl Said {
    fn done(values: Vec<u64>) -> Self {
        Self { number: 0, values }
    }

    fn maybe<T>(answer: Option<T>, values: impl FnOnce(T) -> Vec<u64>) -> Self {
        Self::done(answer.map(values).unwrap_or_default())
    }

    /// What `sillwander` gives.
    fn ours<T>(answer: sillwander::X86VlapicResult<T>, values: impl FnOnce(T) -> Vec<u64>) -> Self {
        match answer {
            Ok(answer) => Self::done(values(answer)),
            Err(error) => Self { number: error.number(), values: Vec::new() },
        }
    }

    /// What the original gives, by the harness's table of errors and panics.
    fn original<T>(call: impl FnOnce() -> x86_vlapic::X86VlapicResult<T>, values: impl FnOnce(T) -> Vec<u64>) -> Self {
        Self::of_harness(reply::ask(call).reply(false, values))
    }

    fn of_harness(reply: reply::Reply) -> Self {
        match reply.number {
            reply::Number::Paper(number) => Self { number, values: reply.values },
            reply::Number::Alone(name) => panic!("{name} has no number"),
        }
    }
}

impl Display for Said {
    fn fmt(&self, f: &mut Formatter<'_>) -> std::fmt::Result {
        write!(f, "{} {:x?}", self.number, self.values)
    }
}

/// A generator of its own (splitmix64), so that a seed gives the same calls with every compiler.
pub struct Dice(u64);

impl Dice {
    fn word(&mut self) -> u64 {
        self.0 = self.0.wrapping_add(0x9e37_79b9_7f4a_7c15);
        let z = (self.0 ^ self.0 >> 30).wrapping_mul(0xbf58_476d_1ce4_e5b9);
        let z = (z ^ z >> 27).wrapping_mul(0x94d0_49bb_1331_11eb);
        z ^ z >> 31
    }

    fn below(&mut self, n: u64) -> u64 {
        self.word() % n
    }

    fn pick<T: Copy>(&mut self, options: &[T]) -> T {
        options[self.below(options.len() as u64) as usize]
    }

    fn chance(&mut self, in_hundred: u64) -> bool {
        self.below(100) < in_hundred
    }

    /// Mostly a double word; every width at times.
    fn width(&mut self, usual: usize) -> usize {
        if self.chance(92) { usual } else { self.pick(&[1, 2, 4, 8]) }
    }
}

/// A chip of each side.
pub trait Pair: Sized {
    const NAME: &'static str;
    /// The kinds of answer that a run must have seen, by `kind`.
    const WANTED: &'static [&'static str];
    type Call: Clone + Debug;

    /// Both sides new.
    fn new() -> Self;
    /// Some calls that belong together.
    fn next(dice: &mut Dice, calls: &mut Vec<Self::Call>);
    /// The calls that look at everything that can be looked at.
    fn look(calls: &mut Vec<Self::Call>);
    /// Makes a call on both sides: what the original said, and what ours did.
    fn call(&mut self, call: &Self::Call) -> (Said, Said);
    /// What kind of answer that was, where one of those is wanted.
    fn kind(call: &Self::Call, said: &Said) -> &'static str;
}

/// Where two lists of answers part: the place, and both answers.
fn difference<P: Pair>(calls: &[P::Call]) -> Option<(usize, Said, Said)> {
    let mut pair = P::new();
    calls.iter().enumerate().find_map(|(at, call)| {
        let (original, ours) = pair.call(call);
        (original != ours).then_some((at, original, ours))
    })
}

/// Fewer calls that still part: those behind the place dropped, then any that isn't needed.
fn smallest<P: Pair>(mut calls: Vec<P::Call>) -> Vec<P::Call> {
    let mut size = calls.len();
    while size > 0 {
        let mut at = 0;
        while at < calls.len() {
            let mut fewer = calls.clone();
            fewer.drain(at..(at + size).min(calls.len()));
            match difference::<P>(&fewer) {
                Some((place, ..)) => {
                    fewer.truncate(place + 1);
                    calls = fewer;
                }
                None => at += size,
            }
        }
        size /= 2;
    }
    calls
}

fn report<P: Pair>(calls: Vec<P::Call>) {
    let calls = smallest::<P>(calls);
    println!("{}: a difference; the smallest calls that show it:", P::NAME);
    let mut pair = P::new();
    for call in &calls {
        let (original, ours) = pair.call(call);
        let verdict = if original == ours { String::new() } else { format!("   DIFFERS: ours {ours}") };
        println!("    {:60} {original}{verdict}", format!("{call:x?}"));
    }
}

/// Runs a chip; whether there was no difference, and all that was wanted was seen.
fn run<P: Pair>(seed: u64, least: u64) -> bool {
    let mut dice = Dice(seed);
    let mut seen: BTreeMap<&'static str, u64> = BTreeMap::new();
    let mut made = 0;
    while made < least {
        let mut pair = P::new();
        let mut calls = Vec::new();
        let length = dice.pick(&[20, 200, 1000]);
        while calls.len() < length {
            P::next(&mut dice, &mut calls);
        }
        P::look(&mut calls);
        for (at, call) in calls.iter().enumerate() {
            let (original, ours) = pair.call(call);
            if original != ours {
                report::<P>(calls[..=at].to_vec());
                println!("    (seed {seed}; after {} calls)", made + at as u64);
                return false;
            }
            *seen.entry(P::kind(call, &original)).or_default() += 1;
        }
        made += calls.len() as u64;
    }
    let missing: Vec<_> = P::WANTED.iter().filter(|kind| !seen.contains_key(*kind)).collect();
    println!(
        "{}: {made} calls, the same answers; {}",
        P::NAME,
        seen.iter()
            .filter(|(kind, _)| !kind.is_empty())
            .map(|(kind, times)| format!("{kind} {times}"))
            .collect::<Vec<_>>()
            .join(", ")
    );
    if !missing.is_empty() {
        println!("{}: never seen: {missing:?}", P::NAME);
    }
    missing.is_empty()
}

/// Four threads at once behind the crate's lock: an edge each time, and each is sent.
fn lock_keeps_order() -> bool {
    const TIMES: usize = 20_000;
    let chip = sillwander::Locked::new((sillwander::EmulatedIoApic::new_default(), 0));
    let [select, window] = [0xfec0_0000, 0xfec0_0010].map(sillwander::X86GuestPhysAddr::from_usize);
    let write = |addr, value| chip.with(|(io, _)| io.handle_write(addr, sillwander::X86AccessWidth::Dword, value).is_ok());
    let is_programmed = write(select, 0x14) && write(window, 0x30);
    std::thread::scope(|threads| {
        for _ in 0..4 {
            threads.spawn(|| {
                (0..TIMES).for_each(|_| chip.with(|(io, sent)| *sent += usize::from(io.set_gsi_level(2, true).is_some())));
            });
        }
    });
    let (_, sent) = chip.into_inner();
    if sent != 4 * TIMES {
        println!("the lock: {sent} of {} edges were sent", 4 * TIMES);
    }
    is_programmed && sent == 4 * TIMES
}

fn main() -> ExitCode {
    reply::report_own_panics_only();
    host::listen();
    let mut seeds = vec![1, 2026];
    let mut least = 500_000;
    let mut arguments = std::env::args().skip(1);
    while let Some(name) = arguments.next() {
        let number = arguments.next().and_then(|text| text.parse().ok());
        match (name.as_str(), number) {
            ("--seed", Some(seed)) => seeds = vec![seed],
            ("--calls", Some(calls)) => least = calls,
            _ => {
                eprintln!("usage: compare [--seed S] [--calls N]");
                return ExitCode::from(2);
            }
        }
    }
    let mut same = lock_keeps_order() & pic::same_ports() & local::same_ranges();
    for seed in seeds {
        same &= run::<io_apic::IoApics>(seed, least);
        same &= run::<pic::Pics>(seed, least);
        same &= run::<local::Locals>(seed, least);
    }
    if same { ExitCode::SUCCESS } else { ExitCode::FAILURE }
}
