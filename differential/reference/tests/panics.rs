//! Where the Rust indexes beyond the payload: the panic is named and document 01's answer follows.

mod common;

use common::*;
use reference::machine::{self, Record};
use reference::{Answer, Input, Outcome, Role};

/// That a panic of this name is answered by Error of this kind and detail, with the data kept:
/// wanting without an answer to 0x20, ended with one, refused with another.
fn assert_panics(name: &str, role: Role, m: Record, code: u8, payload: &[u8], before: &[u8], body: [u8; 2]) {
    let with_more = |more: &[u8]| -> Answer {
        let answers = [before, more].concat();
        run(role, m, Input::Command(code), payload, &answers)
    };
    let wanting = with_more(&[]);
    assert_eq!((wanting.panicked, wanting.outcome, wanting.machine), (Some(name), Outcome::Wants, m));
    assert_eq!((wanting.read, kinds(&wanting).last()), (before.len(), Some(&0x20)));
    let ended = with_more(&[0x20, 9]);
    assert_eq!((ended.panicked, ended.read), (Some(name), before.len() + 2));
    assert_fails(&ended, body[0], body[1]);
    assert_eq!(ended.machine[machine::LOCAL_ADDRESS..], m[machine::LOCAL_ADDRESS..]);
    assert!(ended.machine[machine::STORED..machine::LOCAL_ADDRESS].iter().all(|&o| o == 0));
    let refused = with_more(&[0x21, 0]);
    assert_eq!((refused.panicked, refused.outcome, refused.read), (Some(name), Outcome::Refused(3), 0));
}

#[test]
fn empty_pairing_failed() {
    for role in ROLES {
        for phase in 0..=10 {
            let m = bonded(machine(phase), true);
            assert_panics("empty-pairing-failed", role, m, 0x05, &[], &[], [1, 0x08]);
            let told = run(role, m, Input::Command(0x05), &[0x10, 0x01], &[0x20, 0]);
            assert_eq!(told.panicked, None);
            assert_fails(&told, 1, 0x10);
        }
    }
}

#[test]
fn long_features() {
    let long = [0, 0, 0, 16, 3, 3, 0];
    let m = bonded(machine(0), true);
    assert_panics("long-features", Role::Central, m, 0x02, &long, &[], [1, 0x0a]);
    assert_panics("long-features", Role::Peripheral, m, 0x01, &long, &[0x30, 0], [1, 0x0a]);
    assert_panics("long-features", Role::Peripheral, m, 0x01, &long, &[0x30, 1, 0x24, 5], [1, 0x0a]);
}

/// Long features that the reader refuses fail in the same way without a panic.
#[test]
fn long_features_out_of_range() {
    let long = [5, 0, 0, 16, 3, 3, 0];
    let answer = run(Role::Central, machine(0), Input::Command(0x02), &long, &[0x20, 0]);
    assert_eq!(answer.panicked, None);
    assert_fails(&answer, 1, 0x0a);
}

#[test]
fn short_identity_address() {
    for role in ROLES {
        for length in 0..7 {
            let m = bonded(machine(7), true);
            assert_panics("short-identity-address", role, m, 0x09, &vec![1; length], &[], [3, 0]);
        }
        let other_kind = run(role, machine(7), Input::Command(0x09), &[2, 1], &[0x20, 0]);
        assert_eq!(other_kind.panicked, None);
        assert_fails(&other_kind, 3, 0);
    }
}
