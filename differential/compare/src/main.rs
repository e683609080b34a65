//! `compare [--coverage] [--tables] CASES REFERENCE_OUT PORT_OUT` compares two programs' answers
//! line by line, and says what the cases reached.
//!
//! Exit code 1 where a line differs, where the reference panicked for no known reason, or, with
//! `--coverage`, where a cell that can be reached is empty.

mod differences;

use std::fs::File;
use std::io::{self, BufRead, BufReader};
use std::process::ExitCode;

use compare::coverage::Coverage;

/// How many differences are shown in full.
const SHOWN: usize = 20;

struct Arguments {
    coverage: bool,
    tables: bool,
    files: [String; 3],
}

fn arguments() -> Option<Arguments> {
    let (flags, files): (Vec<_>, Vec<_>) = std::env::args().skip(1).partition(|a| a.starts_with("--"));
    let known = ["--coverage", "--tables"];
    if !flags.iter().all(|f| known.contains(&f.as_str())) {
        return None;
    }
    let has = |name: &str| flags.iter().any(|f| f == name);
    Some(Arguments { coverage: has(known[0]), tables: has(known[1]), files: files.try_into().ok()? })
}

/// One line of a file, and whether its line feed was there.
struct Line {
    text: Vec<u8>,
    whole: bool,
}

struct Lines(BufReader<File>);

impl Lines {
    fn open(path: &str) -> Result<Self, String> {
        let file = File::open(path).map_err(|e| format!("{path}: {e}"))?;
        Ok(Self(BufReader::with_capacity(1 << 18, file)))
    }

    fn next(&mut self) -> io::Result<Option<Line>> {
        let mut text = Vec::new();
        if self.0.read_until(b'\n', &mut text)? == 0 {
            return Ok(None);
        }
        let whole = text.last() == Some(&b'\n');
        if whole {
            text.pop();
        }
        Ok(Some(Line { text, whole }))
    }
}

#[derive(Default)]
struct Tally {
    lines: usize,
    different: usize,
    malformed: usize,
    panics: std::collections::BTreeMap<String, usize>,
}

/// Splits `panicked:NAME ` off a line of the reference.
fn split_panic(line: &[u8]) -> (Option<&str>, &[u8]) {
    let name_and_rest = || {
        let rest = line.strip_prefix(b"panicked:")?;
        let end = rest.iter().position(|&o| o == b' ')?;
        Some((std::str::from_utf8(&rest[..end]).ok()?, &rest[end + 1..]))
    };
    match name_and_rest() {
        Some((name, rest)) => (Some(name), rest),
        None => (None, line),
    }
}

impl Tally {
    fn line(&mut self, case: &Line, reference: &Line, port: Option<&Line>, coverage: &mut Coverage) {
        self.lines += 1;
        let (panic, expected) = split_panic(&reference.text);
        if let Some(name) = panic {
            *self.panics.entry(name.into()).or_default() += 1;
        }
        if expected == b"malformed" {
            self.malformed += 1;
        }
        if case.whole {
            coverage.line(&case.text, panic, expected);
        }
        if port.is_some_and(|p| p.whole && p.text == expected) {
            return;
        }
        self.different += 1;
        if self.different <= SHOWN {
            differences::show(self.lines, &case.text, panic, expected, port.map(|p| &p.text[..]));
        }
    }

    fn print(&self) {
        println!(
            "lines {}, equal {}, different {}, malformed {}",
            self.lines,
            self.lines - self.different,
            self.different,
            self.malformed
        );
        for (name, count) in &self.panics {
            println!("panicked:{name} {count}");
        }
    }
}

/// Compares the files and prints; true where all is well.
fn compare(given: &Arguments) -> Result<bool, String> {
    let open = |i: usize| Lines::open(&given.files[i]);
    let (mut cases, mut reference, mut port) = (open(0)?, open(1)?, open(2)?);
    let (mut tally, mut coverage) = (Tally::default(), Coverage::default());
    let text = |e: io::Error| e.to_string();
    while let Some(case) = cases.next().map_err(text)? {
        let expected = reference.next().map_err(text)?;
        let expected = expected.ok_or(format!("{} has only {} lines", given.files[1], tally.lines))?;
        tally.line(&case, &expected, port.next().map_err(text)?.as_ref(), &mut coverage);
    }
    let too_long = reference.next().map_err(text)?.is_some() || port.next().map_err(text)?.is_some();
    if too_long {
        println!("more answers than cases");
    }
    if given.tables {
        coverage.tables();
    }
    let covered = !given.coverage || coverage.check();
    tally.print();
    Ok(tally.different == 0 && !too_long && !tally.panics.contains_key("unknown") && covered)
}

fn main() -> ExitCode {
    let Some(given) = arguments() else {
        eprintln!("usage: compare [--coverage] [--tables] CASES REFERENCE_OUT PORT_OUT");
        return ExitCode::FAILURE;
    };
    reference::step::silence_panics();
    match compare(&given) {
        Ok(true) => ExitCode::SUCCESS,
        Ok(false) => ExitCode::FAILURE,
        Err(message) => {
            eprintln!("compare: {message}");
            ExitCode::FAILURE
        }
    }
}
