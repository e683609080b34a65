//! Document 01, "Corners of the machines" and "Misreadings to shut out": a line for each.

use cases::machines::right_confirm;
use reference::machine::{self, PHASES};
use reference::{Input, Role};

use crate::build::*;

pub fn all() -> Vec<Named> {
    let mut found = Vec::new();
    for (role, name) in ROLES {
        found.extend(wrong_length_confirm(role, name));
        found.extend(link_not_encrypted(role, name));
        found.extend(left_as_it_is(role, name));
        found.extend(central_identification(role, name));
        found.extend(failures(role, name));
        found.extend(beyond_the_payload(role, name));
        found.extend(misreadings(role, name));
    }
    found.extend(head_failures());
    found
}

fn wrong_length_confirm(role: Role, name: &str) -> Vec<Named> {
    let mut found = Vec::new();
    for (phase, state) in [(1, [10, 3, 0]), (3, [10, 1, 0x0a])] {
        for length in [0, 15, 17] {
            let step = given(role, machine(role, phase), Input::Command(0x03), &vec![7; length]);
            let name = format!("corner: {name}, Confirm of {length} octets in {}", PHASES[usize::from(phase)]);
            found.push(named(name, answered(step, &[]), &[Shows::State(state)]));
        }
    }
    found
}

fn link_not_encrypted(role: Role, name: &str) -> Vec<Named> {
    let one = |phase: u8| {
        let state = match (role, phase) {
            (Role::Peripheral, 0 | 5) => [10, 1, 0x0f],
            (Role::Central, 5) => [10, 1, 0x04],
            _ => [10, 2, 0],
        };
        let step = given(role, machine(role, phase), Input::LinkEncryptedResult(false), &[]);
        let name = format!("corner: {name}, LinkEncryptedResult(false) in {}", PHASES[usize::from(phase)]);
        named(name, answered(step, &[]), &[Shows::State(state)])
    };
    (0..=10).map(one).collect()
}

/// KeypressNotification, and passkey events outside WaitingPassKeyInput; in Success and Error the entry calls again.
fn left_as_it_is(role: Role, name: &str) -> Vec<Named> {
    let inputs = [
        ("KeypressNotification", Input::Command(0x0e)),
        ("PassKeyConfirm", Input::PassKeyConfirm),
        ("PassKeyCancel", Input::PassKeyCancel),
        ("PassKeyInput", Input::PassKeyInput(7)),
    ];
    let mut found = Vec::new();
    for phase in 0..=10 {
        for (input_name, input) in inputs {
            if phase == 1 && matches!(input, Input::PassKeyCancel | Input::PassKeyInput(_)) {
                continue;
            }
            let before = machine(role, phase);
            let calls = match phase {
                9 => vec![0x3c, 0x21],
                10 => vec![0x20],
                _ => vec![],
            };
            let shows = [Shows::Machine(0, before.to_vec()), Shows::Calls(calls)];
            let name = format!("corner: {name}, {input_name} in {}", PHASES[usize::from(phase)]);
            found.push(named(name, answered(given(role, before, input, &[]), &[]), &shows));
        }
    }
    found
}

fn central_identification(role: Role, name: &str) -> Vec<Named> {
    let payload: [u8; 12] = count_up(0xc0);
    let step = |length: usize| answered(given(role, machine(role, 8), Input::Command(0x07), &payload[..length]), &[]);
    let kept = match role {
        Role::Central => payload[..10].to_vec(),
        Role::Peripheral => bond()[16..26].to_vec(),
    };
    vec![
        named(format!("corner: {name}, CentralIdentification of 9 octets"), step(9), &[Shows::State([10, 1, 0x0a])]),
        named(
            format!("corner: {name}, CentralIdentification of 12 octets, read by its first 10"),
            step(12),
            &[Shows::State([6, 0, 0]), Shows::Machine(machine::BOND + 16, kept)],
        ),
    ]
}

/// Failures to send that do not matter; the head's BondLost is in `head_failures`.
fn failures(role: Role, name: &str) -> Vec<Named> {
    let mut found = Vec::new();
    for verdict in [1, 9] {
        let again = given(role, machine(role, 9), Input::PassKeyConfirm, &[]);
        let update = answered(again.clone(), &[&[0x3c, verdict]]);
        let shows = [Shows::State([9, 0, 0]), Shows::Calls(vec![0x3c, 0x21])];
        found.push(named(format!("corner: {name}, bond update answered {verdict}"), update, &shows));
        let complete = answered(again, &[&[0x21, verdict]]);
        found.push(named(format!("corner: {name}, PairingComplete answered {verdict}"), complete, &shows));
        let cancel = answered(given(role, machine(role, 1), Input::PassKeyCancel, &[]), &[&[0x20, verdict]]);
        let shows = [Shows::State([10, 1, 1]), Shows::Calls(vec![0x20])];
        found.push(named(format!("corner: {name}, PairingFailed answered {verdict}"), cancel, &shows));
    }
    found
}

fn head_failures() -> Vec<Named> {
    let head = Role::Peripheral;
    let request = |payload: &[u8], answers: &[&[u8]]| {
        answered(given(head, machine(head, 0), Input::Command(0x01), payload), answers)
    };
    let usual = [4, 0, 5, 16, 3, 3];
    let after = [0x30, 0x24, 0x31, 0x33, 0x34, 0x02, 0x23];
    let lost = request(&usual, &[&[0x30, 1], &[0x24, 9]]);
    let long = request(&[&usual[..], &[0]].concat(), &[&[0x30, 1], &[0x24, 9]]);
    let shows = [
        Shows::State([10, 1, 0x0a]),
        Shows::Calls(vec![0x30, 0x24, 0x20]),
        Shows::Machine(machine::LOCAL_ADDRESS, machine(head, 0)[machine::LOCAL_ADDRESS..].to_vec()),
    ];
    vec![
        named("corner: head, BondLost answered 9", lost, &[Shows::State([1, 0, 0]), Shows::Calls(after.to_vec())]),
        named("corner: head, request of 7 octets, after BondLost", long, &shows),
    ]
}

/// Where the Rust indexes beyond the payload.
fn beyond_the_payload(role: Role, name: &str) -> Vec<Named> {
    let mut found = Vec::new();
    for phase in 0..=10 {
        let step = answered(given(role, machine(role, phase), Input::Command(0x05), &[]), &[]);
        let name = format!("corner: {name}, empty PairingFailed in {}", PHASES[usize::from(phase)]);
        found.push(named(name, step, &[Shows::State([10, 1, 8])]));
    }
    let (code, what) = if role == Role::Central { (0x02, "response") } else { (0x01, "request") };
    for length in [7, 20] {
        let payload = [&[4, 0, 5, 16, 3, 3][..], &vec![0; length - 6]].concat();
        let step = answered(given(role, machine(role, 0), Input::Command(code), &payload), &[]);
        let kept = machine(role, 0)[machine::LOCAL_ADDRESS..].to_vec();
        let shows = [Shows::State([10, 1, 0x0a]), Shows::Machine(machine::LOCAL_ADDRESS, kept)];
        found.push(named(format!("corner: {name}, {what} of {length} octets"), step, &shows));
    }
    for length in [0, 6] {
        let step = answered(given(role, machine(role, 7), Input::Command(0x09), &vec![1; length]), &[]);
        let name = format!("corner: {name}, identity address of {length} octets");
        found.push(named(name, step, &[Shows::State([10, 3, 0])]));
    }
    found
}

fn misreadings(role: Role, name: &str) -> Vec<Named> {
    let nonce: [u8; 16] = count_up(0xe0);
    let wrong = given(role, with(machine(role, 4), machine::PEER_CONFIRM, &[5; 16]), Input::Command(0x04), &nonce);
    let confirm = right_confirm(role, &machine(role, 4), nonce);
    let right = given(role, with(machine(role, 4), machine::PEER_CONFIRM, &confirm), Input::Command(0x04), &nonce);
    let early = given(role, machine(role, 1), Input::Command(0x03), &nonce);
    let kept = [&[1][..], &[0, 0, 1]].concat();
    let stored = with(with(machine(role, 1), machine::STORED, &[1]), machine::PEER_CONFIRM, &nonce);
    let typed = answered(given(role, stored, Input::PassKeyInput(999_999), &[]), &[]);
    let failed = answered(given(role, stored, Input::PassKeyInput(999_999), &[]), &[&[0x03, 1]]);
    vec![
        named(
            format!("misreading: {name}, a value that does not fit: nothing but PairingFailed"),
            answered(wrong, &[]),
            &[Shows::State([10, 1, 4]), Shows::Calls(vec![0x20])],
        ),
        named(
            format!("misreading: {name}, ia is the initiator's address: the right value"),
            answered(right, &[]),
            &[Shows::State([5, 0, 0])],
        ),
        named(
            format!("misreading: {name}, an early Confirm is kept"),
            answered(early, &[]),
            &[Shows::Machine(0, kept), Shows::Machine(machine::PEER_CONFIRM, nonce.to_vec())],
        ),
        named(
            format!("misreading: {name}, the passkey typed after an early Confirm"),
            typed,
            &[Shows::State([4, 0, 0]), Shows::Machine(machine::PEER_CONFIRM, nonce.to_vec())],
        ),
        named(
            format!("misreading: {name}, after a failed packet only PairingFailed"),
            failed,
            &[Shows::State([10, 4, 0]), Shows::Calls(vec![0x35, 0x03, 0x20])],
        ),
    ]
}
