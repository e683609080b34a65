//! Answers step lines from standard input as the unchanged Rust does.

use std::io;
use std::process::ExitCode;

fn main() -> ExitCode {
    reference::step::silence_panics();
    let reader = io::BufReader::with_capacity(1 << 16, io::stdin().lock());
    match reference::lines::answer_all(reader, io::stdout().lock()) {
        Ok(()) => ExitCode::SUCCESS,
        Err(error) => {
            eprintln!("reference: {error}");
            ExitCode::FAILURE
        }
    }
}
