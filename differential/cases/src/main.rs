//! `cases SEED COUNT` writes COUNT step lines, the same for the same seed.
//!
//! The last line has no line feed, which makes it malformed, as the step lines say.

use std::io;
use std::process::ExitCode;

use cases::{Generator, Sink};

fn arguments() -> Option<(u64, usize)> {
    let mut given = std::env::args().skip(1);
    let parsed = (given.next()?.parse().ok()?, given.next()?.parse().ok()?);
    given.next().is_none().then_some(parsed)
}

fn main() -> ExitCode {
    let Some((seed, count)) = arguments() else {
        eprintln!("usage: cases SEED COUNT");
        return ExitCode::FAILURE;
    };
    reference::step::silence_panics();
    let out = io::BufWriter::with_capacity(1 << 18, io::stdout());
    let mut sink = Sink::new(Box::new(out), count);
    let mut generator = Generator::new(seed);
    while !sink.is_full() {
        generator.scenario(&mut sink);
    }
    match sink.finish() {
        Ok(()) => ExitCode::SUCCESS,
        Err(error) => {
            eprintln!("cases: {error}");
            ExitCode::FAILURE
        }
    }
}
