//! What document 01 says of single steps, held against the reference: the whole example, the
//! refusals, every corner, and the misreadings to shut out.

mod common;

use common::*;
use reference::machine::{self, Record};
use reference::{step, Input, Outcome, Role, Step};

const OK20: [u8; 2] = [0x20, 0];

#[test]
fn whole_example() {
    for role in ROLES {
        let wanting = run(role, machine(1), Input::PassKeyCancel, &[], &[]);
        assert_eq!((wanting.outcome, wanting.read, wanting.written), (Outcome::Wants, 0, 3));
        assert_eq!(wanting.list[..3], [0x20, 1, 1]);
        assert!(wanting.list[3..].iter().all(|&o| o == 0xee));
        assert_eq!(wanting.machine, machine(1));
        let ended = run(role, machine(1), Input::PassKeyCancel, &[], &OK20);
        assert_eq!((ended.outcome, ended.read, state(&ended)), (Outcome::Ended, 2, [10, 1, 1]));
    }
}

#[test]
fn refusals_in_their_order() {
    let step_with = |list_len, code, answers: &[u8]| {
        let given = Step {
            role: Role::Central,
            list_len,
            machine: machine(3),
            input: Input::Command(code),
            payload: vec![],
            answers: answers.into(),
        };
        let answer = step(&given);
        assert!(answer.list.len() == list_len);
        if let Outcome::Refused(_) = answer.outcome {
            assert!(answer.list.iter().all(|&o| o == 0xee));
            assert_eq!((answer.read, answer.written, answer.machine), (0, 0, given.machine));
        }
        answer.outcome
    };
    assert_eq!(step_with(163, 0x00, &[0xff]), Outcome::Refused(1));
    assert_eq!(step_with(0, 0x03, &OK20), Outcome::Refused(1));
    assert_eq!(step_with(164, 0x00, &[0xff]), Outcome::Refused(2));
    assert_eq!(step_with(164, 0x0f, &OK20), Outcome::Refused(2));
    assert_eq!(step_with(164, 0x0d, &[0xff]), Outcome::Refused(3));
    assert_eq!(step_with(164, 0x0d, &[0x20]), Outcome::Refused(3));
    assert_eq!(step_with(4096, 0x0d, &OK20), Outcome::Ended);
}

/// Forbidden values: yes and no are 0 and 1, a drawn passkey at most 999,999.
#[test]
fn forbidden_values() {
    let request = |answers: &[u8]| {
        let m = with(machine(0), machine::LOCAL_FEATURES, &[1]);
        run(Role::Peripheral, m, Input::Command(0x01), &[2, 0, 4, 16, 0, 0], answers).outcome
    };
    let upto = [0x30, 0, 0x33, 0, 0x34, 0, 0x02, 0];
    let passkey = |n: u32| [&upto[..], &[0x36], &n.to_le_bytes()].concat();
    assert_eq!(request(&[0x30, 2]), Outcome::Refused(3));
    assert_eq!(request(&[0x30, 1, 0x24, 0, 0x33, 2]), Outcome::Refused(3));
    assert_eq!(request(&[0x30, 0, 0x33, 1, 0x34, 0xff]), Outcome::Refused(3));
    assert_eq!(request(&passkey(1_000_000)), Outcome::Refused(3));
    assert_eq!(request(&passkey(999_999)), Outcome::Wants);
}

/// After a non-zero verdict, or absence, the rest of a body is ignored, but has to be there.
#[test]
fn ignored_octets() {
    let link = |answers: &[u8]| run(Role::Peripheral, machine(0), Input::LinkEncryptedResult(true), &[], answers);
    let body = |verdict, present, is_bonded| {
        let mut record = vec![0x3b, verdict, present];
        record.extend(bond());
        record[29] = is_bonded;
        record
    };
    assert_eq!(link(&body(0, 2, 0)).outcome, Outcome::Refused(3));
    assert_eq!(link(&body(0, 1, 2)).outcome, Outcome::Refused(3));
    assert_eq!(link(&body(0, 0, 2)).outcome, Outcome::Ended);
    assert_eq!(link(&body(7, 9, 9)[..53]).outcome, Outcome::Refused(3));
    assert_fails(&link(&[&body(7, 9, 9)[..], &OK20].concat()), 5, 7);
    assert_fails(&link(&[&body(1, 0, 0)[..], &OK20].concat()), 4, 0);
}

#[test]
fn wrong_length_confirm() {
    for role in ROLES {
        for length in [0, 15, 17] {
            let payload = vec![1; length];
            assert_fails(&run(role, machine(1), Input::Command(0x03), &payload, &OK20), 3, 0);
            assert_fails(&run(role, machine(3), Input::Command(0x03), &payload, &OK20), 1, 0x0a);
        }
    }
}

#[test]
fn link_not_encrypted() {
    for role in ROLES {
        for phase in 0..=10 {
            let answer = run(role, machine(phase), Input::LinkEncryptedResult(false), &[], &OK20);
            match (role, phase) {
                (Role::Peripheral, 0 | 5) => assert_fails(&answer, 1, 0x0f),
                (Role::Central, 5) => assert_fails(&answer, 1, 0x04),
                _ => assert_fails(&answer, 2, 0),
            }
        }
    }
}

#[test]
fn inputs_that_leave_the_state() {
    let inputs = [Input::Command(0x0e), Input::PassKeyConfirm, Input::PassKeyCancel, Input::PassKeyInput(7)];
    for role in ROLES {
        for phase in 0..=8 {
            for input in inputs {
                if phase == 1 && matches!(input, Input::PassKeyCancel | Input::PassKeyInput(_)) {
                    continue;
                }
                assert_stays(&run(role, machine(phase), input, &[], &[]), &machine(phase), &[]);
            }
        }
        for input in inputs {
            assert_stays(&run(role, machine(10), input, &[], &OK20), &machine(10), &[0x20]);
            assert_stays(&run(role, machine(9), input, &[], &[]), &machine(9), &[]);
            let plain = bonded(machine(9), false);
            assert_stays(&run(role, plain, input, &[], &[0x21, 0]), &plain, &[0x21]);
            let stored = bonded(machine(9), true);
            assert_stays(&run(role, stored, input, &[], &[0x3c, 0, 0x21, 0]), &stored, &[0x3c, 0x21]);
        }
    }
}

#[test]
fn central_identification_lengths() {
    let waiting = with(bonded(machine(8), true), machine::DETAIL, &[1]);
    let long: Vec<u8> = (1..=12).collect();
    for role in ROLES {
        for length in 0..10 {
            assert_fails(&run(role, waiting, Input::Command(0x07), &long[..length], &OK20), 1, 0x0a);
        }
    }
    let ended = run(Role::Central, waiting, Input::Command(0x07), &long, &[0x3c, 0, 0x21, 0]);
    assert_eq!(state(&ended), [9, 0, 0]);
    assert_eq!(ended.machine[machine::BOND + 16..][..10], long[..10]);
}

/// Failures to send BondLost, PairingFailed, PairingComplete or a bond update do not matter.
#[test]
fn failures_that_do_not_matter() {
    for verdict in [1, 9] {
        let stored = bonded(machine(9), true);
        let answers = [0x3c, verdict, 0x21, verdict];
        assert_stays(&run(Role::Central, stored, Input::PassKeyConfirm, &[], &answers), &stored, &[0x3c, 0x21]);
        assert_fails(&run(Role::Central, machine(1), Input::PassKeyCancel, &[], &[0x20, verdict]), 1, 1);
        let lost =
            run(Role::Peripheral, machine(0), Input::Command(0x01), &[3, 0, 0, 16, 0, 0], &[0x30, 1, 0x24, verdict]);
        assert_eq!((lost.outcome, kinds(&lost)), (Outcome::Wants, vec![0x30, 0x24, 0x33]));
    }
}

/// The confirm value is checked before the head sends its own random.
#[test]
fn no_random_before_the_check() {
    let answer = run(Role::Peripheral, machine(4), Input::Command(0x04), &[5; 16], &[]);
    assert_eq!((answer.outcome, kinds(&answer)), (Outcome::Wants, vec![0x20]));
}

/// After a failed packet the only call is 0x20.
#[test]
fn nothing_after_a_failed_packet() {
    let m = with(bonded(machine(5), true), machine::LOCAL_FEATURES + 5, &[3]);
    let draws = [&[0x37][..], &[1; 16], &[0x38, 1, 2], &[0x39], &[3; 8], &[0x06, 1]].concat();
    let answer = run(Role::Peripheral, m, Input::LinkEncryptedResult(true), &[], &[&draws[..], &OK20].concat());
    assert_eq!(kinds(&answer), [0x37, 0x38, 0x39, 0x06, 0x20]);
    assert_fails(&answer, 4, 0);
}

/// An early Confirm is kept while a passkey is typed.
#[test]
fn early_confirm_is_kept() {
    for role in ROLES {
        let confirm: [u8; 16] = core::array::from_fn(|i| i as u8);
        let kept = run(role, machine(1), Input::Command(0x03), &confirm, &[]);
        assert_eq!((state(&kept), kept.machine[machine::STORED]), ([1, 0, 0], 1));
        assert_eq!(kept.machine[machine::PEER_CONFIRM..][..16], confirm);
    }
}

#[test]
fn nonce_draw_of_zeros_is_one() {
    let answers = [&[0x35][..], &[0; 16], &[0x03, 0]].concat();
    let answer = run(Role::Peripheral, machine(3), Input::Command(0x03), &[9; 16], &answers);
    assert_eq!(state(&answer), [4, 0, 0]);
    assert_eq!(answer.machine[machine::LOCAL_NONCE..][..16], 1u128.to_le_bytes());
}

/// A nonce answer is taken most significant octet first.
#[test]
fn nonce_order() {
    let nonce: [u8; 16] = core::array::from_fn(|i| i as u8);
    let answers = [&[0x35][..], &nonce, &[0x03, 0]].concat();
    let answer = run(Role::Peripheral, machine(3), Input::Command(0x03), &[9; 16], &answers);
    assert_eq!(answer.machine[machine::LOCAL_NONCE..][..16], u128::from_be_bytes(nonce).to_le_bytes());
}

fn sending(role: Role) -> Record {
    let m = bonded(machine(5), true);
    let m = with(m, machine::LOCAL_FEATURES + 3, &[7]);
    match role {
        Role::Central => with(m, machine::PEER_FEATURES + 4, &[1]),
        Role::Peripheral => with(m, machine::LOCAL_FEATURES + 5, &[1]),
    }
}

/// The responder sends its LTK whole and stores it cut; the initiator stores none.
#[test]
fn who_stores_which_key() {
    let draws =
        [&[0x37][..], &[0xff; 16], &[0x38, 1, 2], &[0x39], &[3; 8], &[0x06, 0, 0x07, 0, 0x3c, 0, 0x21, 0]].concat();
    for role in ROLES {
        let answer = run(role, sending(role), Input::LinkEncryptedResult(true), &[], &draws);
        assert_eq!((answer.outcome, state(&answer)), (Outcome::Ended, [9, 0, 0]));
        assert_eq!(body(&answer, 3), [0xff; 16]);
        assert_eq!(body(&answer, 4), [1, 2, 3, 3, 3, 3, 3, 3, 3, 3]);
        let stored = &answer.machine[machine::BOND..][..26];
        if role == Role::Peripheral {
            assert_eq!(*stored, [&[0xff; 7][..], &[0; 9], &[1, 2], &[3; 8]].concat());
        } else {
            assert_eq!(*stored, bond()[..26]);
        }
    }
}

/// Address kind 0 is public; any other octet is kept and counts as 1 in packet 0x09.
#[test]
fn address_kinds_in_packets() {
    let m = with(bonded(machine(5), true), machine::LOCAL_FEATURES + 5, &[2]);
    for (kind, sent) in [(0, 0), (1, 1), (2, 1), (0xff, 1)] {
        let answers = [&[0x31][..], &[8; 16], &[0x08, 0, 0x32, 0, kind, 1, 2, 3, 4, 5, 6]].concat();
        let answer = run(Role::Peripheral, m, Input::LinkEncryptedResult(true), &[], &answers);
        assert_eq!((answer.outcome, body(&answer, 3)), (Outcome::Wants, vec![sent, 1, 2, 3, 4, 5, 6]));
    }
}

/// The draws give the unchanged code the answered value.
#[test]
fn drawn_passkeys() {
    let m = with(machine(0), machine::LOCAL_FEATURES, &[0]);
    for passkey in (0..1_000_000u32).step_by(997).chain([1, 999_999]) {
        let answers = [&[0x36][..], &passkey.to_le_bytes()].concat();
        let answer = run(Role::Central, m, Input::Command(0x02), &[2, 0, 4, 16, 0, 0], &answers);
        assert_eq!((answer.outcome, body(&answer, 1)), (Outcome::Wants, passkey.to_le_bytes().to_vec()));
    }
}
