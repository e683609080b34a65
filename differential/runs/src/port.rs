//! The program that is held against the Rust: it is given the step lines of the runs, and its answers
//! are taken in their order. Whatever it keeps back, lines go in while answers come out.

use std::io::{self, BufRead, BufReader, Write};
use std::process::{Child, ChildStdin, ChildStdout, Command, Stdio};
use std::sync::mpsc::{channel, Receiver};
use std::thread;

use crate::claims::{Claim, Violations};
use crate::play::Run;

pub struct Port {
    child: Child,
    answers: BufReader<ChildStdout>,
}

/// Starts the program, any command of the shell.
pub fn start(program: &str) -> io::Result<(Port, ChildStdin)> {
    let piped = Stdio::piped;
    let mut child = Command::new("bash").args(["-c", program]).stdin(piped()).stdout(piped()).spawn()?;
    let (Some(input), Some(output)) = (child.stdin.take(), child.stdout.take()) else {
        return Err(io::Error::other("no pipes"));
    };
    Ok((Port { child, answers: BufReader::with_capacity(1 << 16, output) }, input))
}

/// Plays the runs of these seeds and gives the program their lines; the runs come out of the channel
/// in the same order. A program that reads no more is noticed by the answers that are missing.
pub fn feed(seeds: impl Iterator<Item = u64> + Send + 'static, mut input: ChildStdin) -> Receiver<Run> {
    let (sender, receiver) = channel();
    thread::spawn(move || {
        reference::step::silence_panics();
        let mut open = true;
        for seed in seeds {
            let run = crate::play::play(seed);
            open = open && input.write_all(&run.lines()).is_ok();
            if sender.send(run).is_err() {
                return;
            }
        }
    });
    receiver
}

impl Port {
    /// As many answers as the run has lines, fewer where the program has ended.
    pub fn answers(&mut self, run: &Run) -> io::Result<Vec<Vec<u8>>> {
        let mut found = Vec::new();
        for _ in run.steps() {
            let mut line = Vec::new();
            self.answers.read_until(b'\n', &mut line)?;
            if line.pop() != Some(b'\n') {
                break;
            }
            found.push(line);
        }
        Ok(found)
    }

    /// Whether the program says nothing more and ends well.
    pub fn finish(mut self) -> io::Result<bool> {
        let mut rest = Vec::new();
        self.answers.read_until(b'\n', &mut rest)?;
        Ok(self.child.wait()?.success() && rest.is_empty())
    }
}

/// Notes the first answer that is not the Rust's.
pub fn compare(run: &Run, answers: &[Vec<u8>]) -> Violations {
    let mut found = Violations::default();
    let expected = run.answers();
    for (i, expected) in expected.iter().enumerate() {
        let answer = answers.get(i);
        if answer != Some(expected) {
            let text = |line: &[u8]| String::from_utf8_lossy(line).into_owned();
            let answer = answer.map_or("no answer".into(), |a| text(a));
            found.note(Claim::Equal, format!("line {}\n  expected {}\n  found    {answer}", i + 1, text(expected)));
            break;
        }
    }
    found
}
