//! The form of step lines: what is answered, and every way to be malformed.

mod common;

use common::{machine, with};
use reference::machine as at;
use reference::machine::{is_canonical, Record};
use reference::{lines, Role};

fn hexadecimal(octets: &[u8]) -> String {
    octets.iter().map(|o| format!("{o:02x}")).collect()
}

fn answers(input: &[u8]) -> Vec<String> {
    reference::step::silence_panics();
    let mut out = Vec::new();
    lines::answer_all(input, &mut out).expect("memory takes everything");
    String::from_utf8(out).expect("text").lines().map(String::from).collect()
}

/// The whole example as a line.
fn example() -> String {
    format!("p 164 {} x - 2000", hexadecimal(&machine(1)))
}

#[test]
fn whole_example() {
    let ended = hexadecimal(&with(machine(10), at::DETAIL, &[1, 1]));
    let list = "200101".to_string() + &"ee".repeat(161);
    assert_eq!(answers(format!("{}\n", example()).as_bytes()), [format!("ended 2 3 {ended} {list}")]);
}

#[test]
fn list_lengths() {
    let same = |length: &str| answers(format!("{}\n", example().replace("164", length)).as_bytes())[0].clone();
    assert!(same("0").starts_with("refused1 0 0 ") && same("0").ends_with(" -"));
    assert!(same("0000").starts_with("refused1 "));
    assert!(same("0164").starts_with("ended "));
    assert!(same("4096").starts_with("ended "));
    for length in ["4097", "9999", "00164", "", "-1", "+1", "a", "1.0"] {
        assert_eq!(same(length), "malformed", "{length}");
    }
}

#[test]
fn malformed_fields() {
    let m = hexadecimal(&machine(1));
    let bad = [
        format!("P 164 {m} x - 2000"),
        format!(" p 164 {m} x - 2000"),
        format!("p 164 {m} x - 2000 "),
        format!("p 164 {m} x - 2000 -"),
        format!("p 164  {m} x - 2000"),
        format!("p\t164 {m} x - 2000"),
        format!("p 164 {m} x -"),
        format!("p 164 {m} x - 200"),
        format!("p 164 {m} x - 20FF"),
        format!("p 164 {m} x - 20gg"),
        format!("p 164 {m} x -  "),
        format!("p 164 {m} x 00 2000"),
        format!("p 164 {m} X - 2000"),
        format!("p 164 {m} l2 - 2000"),
        format!("p 164 {m} c1 - 2000"),
        format!("p 164 {m} c0A - 2000"),
        format!("p 164 {m} i000000 - 2000"),
        format!("p 164 {m} o00 - 2000"),
        format!("p 164 {m}00 x - 2000"),
        format!("p 164 {} x - 2000", &m[2..]),
        format!("p 164 {m} c03 {} -", "00".repeat(4097)),
        format!("p 164 {m} c03 - {}", "00".repeat(4097)),
        format!("p 164 {m} x - 2000\r"),
        String::new(),
    ];
    for line in bad {
        assert_eq!(answers(format!("{line}\n").as_bytes()), ["malformed"], "{line}");
    }
    assert_ne!(answers(format!("p 164 {m} c03 {0} {0}\n", "00".repeat(4096)).as_bytes()), ["malformed"]);
}

#[test]
fn long_last_and_missing_lines() {
    assert!(answers(b"").is_empty());
    assert_eq!(answers(example().as_bytes()), ["malformed"]);
    let long = "0".repeat(100_000);
    let mixed = answers(format!("{long}\n{}\n{long}", example()).as_bytes());
    assert_eq!((mixed.len(), &mixed[0][..], &mixed[2][..]), (3, "malformed", "malformed"));
    assert!(mixed[1].starts_with("ended"));
}

fn canonical(m: Record) -> [bool; 2] {
    [is_canonical(Role::Central, &m), is_canonical(Role::Peripheral, &m)]
}

#[test]
fn records_that_no_machine_writes() {
    for phase in 0..=10 {
        assert_eq!(canonical(machine(phase)), [true; 2]);
        for (place, octet) in
            [(at::METHOD, 7), (at::STORED, 2), (at::BOND_PRESENT, 2), (at::BOND, 1), (at::REASON, 0x11)]
        {
            assert_eq!(canonical(with(machine(phase), place, &[octet])), [false; 2], "{phase} {place}");
        }
        for features in [at::LOCAL_FEATURES, at::PEER_FEATURES] {
            assert_eq!(canonical(with(machine(phase), features, &[5])), [false; 2]);
            assert_eq!(canonical(with(machine(phase), features + 1, &[2])), [false; 2]);
            assert_eq!(canonical(with(machine(phase), features + 3, &[0xff])), [true; 2]);
        }
        let two = with(with(machine(phase), at::BOND_PRESENT, &[1]), at::BOND + 26, &[2]);
        assert_eq!(canonical(two), [false; 2]);
    }
    assert_eq!(canonical(machine(11)), [false; 2]);
}

#[test]
fn errors_that_the_rust_can_hold() {
    let error = |kind, detail| canonical(with(machine(10), at::DETAIL, &[kind, detail]))[0];
    for detail in 0..=255 {
        assert_eq!(error(1, detail), detail <= 0x10);
        assert!(error(5, detail));
        for kind in 2..=4 {
            assert_eq!(error(kind, detail), detail == 0);
        }
        assert!(!error(0, detail) && !error(6, detail));
    }
}

/// A field may hold something only in the phases that the step lines name.
#[test]
fn fields_by_phase() {
    let held = |place: usize, octet3: u8| -> Vec<(u8, [bool; 2])> {
        let filled = |phase| with(with(machine(phase), place, &[1]), at::STORED, &[octet3 * u8::from(phase == 1)]);
        (0..=10).map(|phase| (phase, canonical(filled(phase)))).filter(|(_, c)| *c != [false; 2]).collect()
    };
    let both = [true; 2];
    assert_eq!(held(at::PREQ, 0), [(0, [true, false]), (1, both), (2, both), (3, both), (4, both)]);
    assert_eq!(held(at::PRES, 0), [(1, both), (2, both), (3, both), (4, both)]);
    assert_eq!(held(at::TK, 0), [(3, both), (4, both)]);
    assert_eq!(held(at::LOCAL_NONCE, 0), [(3, both), (4, both)]);
    assert_eq!(held(at::PEER_CONFIRM, 0), [(4, both)]);
    assert_eq!(held(at::PEER_CONFIRM, 1), [(1, both), (4, both)]);
    assert_eq!(held(at::RECEIVED_LTK, 0), [(8, both)]);
    assert_eq!(held(at::DETAIL, 0), [(8, both), (10, both)]);
}
