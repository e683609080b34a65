//! The recorded list: the hand-written example and the named lines are the Rust's, and every cell is reached.

use std::path::Path;

use compare::coverage::Coverage;
use record_list::{answer, corners, example, list, rust_alone};
use reference::lines;

/// The Rust answers document 01's whole example with the answers written by hand.
#[test]
fn the_example_is_the_rusts() {
    let pairs = example::pairs();
    assert_eq!(pairs.len(), 2);
    for pair in pairs {
        assert!(lines::parse(pair.line.as_bytes()).is_some(), "{}", pair.line);
        assert_eq!(String::from_utf8_lossy(&answer(pair.line.as_bytes())), pair.answer);
    }
}

/// What document 01's text says of the example, in the hand-written answers.
#[test]
fn the_example_is_document_01s() {
    let pairs = example::pairs();
    assert!(pairs[0].line.ends_with(" x - -") && pairs[0].answer.starts_with("wants 0 3 01"));
    assert!(pairs[1].line.ends_with(" x - 2000") && pairs[1].answer.starts_with("ended 2 3 0a0101"));
    for pair in pairs {
        assert_eq!(pair.answer.split(' ').next_back(), Some(&("200101".to_string() + &"ee".repeat(161))[..]));
    }
}

#[test]
fn named_lines_show_what_they_are_for() {
    reference::step::silence_panics();
    for named in corners::all().iter().chain(&rust_alone::all()) {
        assert!(lines::parse(&named.line()).is_some(), "{} is malformed", named.name);
        assert_eq!(named.holds(), Ok(()));
    }
}

#[test]
fn every_cell_is_reached() {
    reference::step::silence_panics();
    let list = list(1);
    let mut coverage = Coverage::default();
    for line in &list.lines[..list.lines.len() - 1] {
        let mut reply = Vec::new();
        lines::push_reply(&mut reply, line);
        let text = String::from_utf8_lossy(&reply);
        let panic = text.strip_prefix("panicked:").and_then(|rest| rest.split(' ').next());
        coverage.line(line, panic, &answer(line));
    }
    let (cells, empty) = coverage.empty();
    assert!(cells > 1000 && empty == 0, "{empty} of {cells} cells are empty");
    let (stdin, stdout) = (list.stdin(), list.stdout());
    assert!(stdin.len() + stdout.len() < 3_000_000);
    let mut answers = Vec::new();
    lines::answer_all(&stdin[..], &mut answers).expect("memory takes everything");
    let answers = String::from_utf8(answers).expect("text");
    let without =
        |line: &str| line.strip_prefix("panicked:").map_or(line, |l| l.split_once(' ').unwrap().1).to_string();
    let answers: Vec<String> = answers.lines().map(without).collect();
    assert_eq!(answers.join("\n") + "\n", String::from_utf8(stdout.clone()).expect("text"));
    assert_current("recorded.txt", list.index_text().as_bytes());
    assert_current("../crates/step_lines/stdin", &stdin);
    assert_current("../crates/step_lines/stdout", &stdout);
}

/// That a file of the repository, where it is there, is what `differential/record` writes.
fn assert_current(name: &str, expected: &[u8]) {
    let path = Path::new(env!("CARGO_MANIFEST_DIR")).join("..").join(name);
    if let Ok(found) = std::fs::read(path) {
        assert!(found == expected, "{name} is not what differential/record writes");
    }
}
