//! The oracle: takes the same scripts as the program `script` and prints the same lines, with the original Rust as the judge.
//!
//! Only public calls of the crate are used. Where this harness decides, and not the Rust, a comment says so, marked `HARNESS:`;
//! document 01's domain of demand 2 leaves these places out, or says that they are added.
//!
//!     oracle            one script from standard input
//!     oracle --batch    many: each is four bytes of length, low byte first, and the script; answered in the same form
//!     oracle --mark     each line ends in who decided it: ` R` the Rust, ` H` the harness
//!     oracle --alone    the harness decides nothing that the Rust has an answer for: what the Rust does by itself, its errors
//!                       by name and its panics as `panic`
//!     oracle --count    writes to standard error how many fields the Rust decided, and how many the harness
mod host;
mod io_apic;
mod local;
mod pic;
mod reply;
mod script;

use std::io::{Read, Result, Write, stdin, stdout};

fn main() -> Result<()> {
    let arguments: Vec<String> = std::env::args().skip(1).collect();
    let given = |name: &str| arguments.iter().any(|argument| argument == name);
    if let Some(unknown) = arguments.iter().find(|a| !["--batch", "--mark", "--alone", "--count"].contains(&a.as_str())) {
        panic!("unknown argument {unknown}");
    }
    reply::report_own_panics_only();
    host::listen();

    let mut input = Vec::new();
    stdin().read_to_end(&mut input)?;
    let mut runner = script::Runner::new(given("--alone"), given("--mark"));
    let output = if given("--batch") { batch(&input, &mut runner) } else { runner.run(&input) };
    stdout().write_all(&output)?;
    if given("--count") {
        eprintln!("{} {}", runner.by_rust, runner.by_harness);
    }
    Ok(())
}

fn batch(mut input: &[u8], runner: &mut script::Runner) -> Vec<u8> {
    let mut output = Vec::new();
    while let Some((length, rest)) = input.split_first_chunk::<4>() {
        let (script, rest) = rest.split_at(u32::from_le_bytes(*length) as usize);
        let lines = runner.run(script);
        output.extend((lines.len() as u32).to_le_bytes());
        output.extend(lines);
        input = rest;
    }
    assert!(input.is_empty(), "the batch is cut off");
    output
}
