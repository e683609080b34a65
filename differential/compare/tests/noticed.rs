//! The program notices what it is for: equal answers pass, and any change of one fails.

use std::path::PathBuf;
use std::process::{Command, Output};

use reference::lines;

/// Three cases: the whole example, a step where the Rust panics, and a malformed line.
fn cases() -> Vec<u8> {
    let machine = |phase: &str| format!("{phase}{}", "00".repeat(160));
    let text = format!("p 164 {} x - 2000\nc 200 {} c05 - 2000\nx\n", machine("01"), machine("05"));
    text.into_bytes()
}

fn reference_out() -> Vec<u8> {
    reference::step::silence_panics();
    let mut out = Vec::new();
    lines::answer_all(&cases()[..], &mut out).expect("memory takes everything");
    out
}

/// What an equal port answers: the reference's lines without the word about the panic.
fn port_out() -> Vec<u8> {
    let text = String::from_utf8(reference_out()).expect("text");
    text.replace("panicked:empty-pairing-failed ", "").into_bytes()
}

fn compare(name: &str, reference: &[u8], port: &[u8]) -> Output {
    let folder = PathBuf::from(env!("CARGO_TARGET_TMPDIR"));
    let write = |kind: &str, content: &[u8]| {
        let path = folder.join(format!("{name}.{kind}"));
        std::fs::write(&path, content).expect("the folder can be written");
        path
    };
    let files = [write("cases", &cases()), write("reference", reference), write("port", port)];
    Command::new(env!("CARGO_BIN_EXE_compare")).args(files).output().expect("compare runs")
}

#[test]
fn equal_answers_pass() {
    let output = compare("equal", &reference_out(), &port_out());
    let text = String::from_utf8_lossy(&output.stdout).into_owned();
    assert!(output.status.success(), "{text}");
    assert!(text.contains("lines 3, equal 3, different 0, malformed 1"), "{text}");
    assert!(text.contains("panicked:empty-pairing-failed 1"), "{text}");
}

#[test]
fn every_changed_octet_is_noticed() {
    let right = port_out();
    for at in (0..right.len()).step_by(37) {
        let mut wrong = right.clone();
        wrong[at] = if wrong[at] == b'0' { b'1' } else { b'0' };
        assert!(!compare("changed", &reference_out(), &wrong).status.success(), "octet {at}");
    }
}

#[test]
fn missing_and_additional_answers_are_noticed() {
    let right = port_out();
    let without_last = &right[..right.len() - "malformed\n".len()];
    assert!(!compare("missing", &reference_out(), without_last).status.success());
    assert!(!compare("unfinished", &reference_out(), &right[..right.len() - 1]).status.success());
    let more = [&right[..], b"malformed\n"].concat();
    assert!(!compare("more", &reference_out(), &more).status.success());
}

#[test]
fn the_difference_is_named() {
    let wrong = String::from_utf8(port_out()).expect("text").replacen(" 200101", " 200102", 1);
    let output = compare("named", &reference_out(), wrong.as_bytes());
    let text = String::from_utf8_lossy(&output.stdout).into_owned();
    assert!(text.contains("list, record 1: expected 20 PairingFailed 0101, found 20 PairingFailed 0102"), "{text}");
}

#[test]
fn an_unknown_panic_fails() {
    let unknown = String::from_utf8(reference_out()).expect("text").replace("empty-pairing-failed", "unknown");
    assert!(!compare("unknown", unknown.as_bytes(), &port_out()).status.success());
}
