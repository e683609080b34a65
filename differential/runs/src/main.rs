//! `runs SEED COUNT PROGRAM` plays fair runs on the Rust and on PROGRAM, with the same moves, and holds each
//! against every claim of demand 3.
//!
//! Exit code 1 with the run's step lines where an answer differs or a claim is violated.

use std::io;
use std::process::ExitCode;

use cases::random::Random;
use runs::claims::{self, Violations};
use runs::play::Run;
use runs::port;
use runs::tally::Tally;

fn arguments() -> Option<(u64, usize, String)> {
    let mut given = std::env::args().skip(1);
    let parsed = (given.next()?.parse().ok()?, given.next()?.parse().ok()?, given.next()?);
    given.next().is_none().then_some(parsed)
}

fn report(number: usize, run: &Run, found: &Violations) {
    println!("run {number}, its seed {}", run.seed);
    print!("{}", String::from_utf8_lossy(&run.lines()));
    for (claim, what) in &found.0 {
        println!("violated: {claim:?}: {what}");
    }
}

/// True where every run is equal and keeps every claim; the first that does not ends it.
fn hold(seed: u64, count: usize, program: &str) -> io::Result<bool> {
    let mut random = Random::new(seed);
    let seeds: Vec<u64> = (0..count).map(|_| random.word()).collect();
    let (mut port, input) = port::start(program)?;
    let runs = port::feed(seeds.into_iter(), input);
    let mut tally = Tally::default();
    for (i, run) in runs.iter().enumerate() {
        let mut found = port::compare(&run, &port.answers(&run)?);
        match claims::check(&run) {
            Ok(facts) if found.0.is_empty() => {
                tally.add(&run, &facts);
                continue;
            }
            Ok(_) => {}
            Err(more) => found.0.extend(more.0),
        }
        report(i + 1, &run, &found);
        return Ok(false);
    }
    if !port.finish()? {
        println!("'{program}' said more than it was asked, or ended with an error");
        return Ok(false);
    }
    tally.print();
    Ok(true)
}

fn main() -> ExitCode {
    let Some((seed, count, program)) = arguments() else {
        eprintln!("usage: runs SEED COUNT PROGRAM");
        return ExitCode::FAILURE;
    };
    reference::step::silence_panics();
    match hold(seed, count, &program) {
        Ok(true) => ExitCode::SUCCESS,
        Ok(false) => ExitCode::FAILURE,
        Err(error) => {
            eprintln!("runs: {error}");
            ExitCode::FAILURE
        }
    }
}
