//! Short ways to write a step and to look at its answer.

#![allow(dead_code)]

use reference::machine::{self, Record};
use reference::{calls, step, Answer, Input, Outcome, Role, Step};

pub const ROLES: [Role; 2] = [Role::Central, Role::Peripheral];

/// A canonical machine of a phase with nothing in it but zeros; Error is InvalidState.
pub fn machine(phase: u8) -> Record {
    let mut m = [0; machine::LENGTH];
    m[machine::PHASE] = phase;
    m[machine::LOCAL_FEATURES + 3] = 16;
    m[machine::PEER_FEATURES + 3] = 16;
    if phase == 10 {
        m[machine::DETAIL] = 2;
    }
    m
}

/// Sets octets of a record.
pub fn with(mut m: Record, at: usize, octets: &[u8]) -> Record {
    m[at..at + octets.len()].copy_from_slice(octets);
    m
}

/// A bond whose octets are all different enough, not bonded, of level 1.
pub fn bond() -> [u8; 51] {
    let mut b = core::array::from_fn(|i| 0x40 + i as u8);
    b[26] = 0;
    b[27] = 1;
    b
}

/// The machine with that bond; both ends want to bond where asked.
pub fn bonded(m: Record, both_bond: bool) -> Record {
    let m = with(with(m, machine::BOND_PRESENT, &[1]), machine::BOND, &bond());
    let flag = [u8::from(both_bond)];
    with(with(m, machine::LOCAL_FEATURES + 2, &flag), machine::PEER_FEATURES + 2, &flag)
}

pub fn run(role: Role, machine: Record, input: Input, payload: &[u8], answers: &[u8]) -> Answer {
    reference::step::silence_panics();
    step(&Step { role, list_len: 164, machine, input, payload: payload.into(), answers: answers.into() })
}

/// The kinds of the calls listed.
pub fn kinds(answer: &Answer) -> Vec<u8> {
    let records = calls::records(&answer.list[..answer.written]).expect("a call list");
    records.iter().map(|(kind, _)| kind.code).collect()
}

/// The body of the call at a place of the list.
pub fn body(answer: &Answer, at: usize) -> Vec<u8> {
    calls::records(&answer.list[..answer.written]).expect("a call list")[at].1.to_vec()
}

/// Phase, and kind and detail of an error.
pub fn state(answer: &Answer) -> [u8; 3] {
    core::array::from_fn(|i| answer.machine[i])
}

/// That the step ended in Error with this kind and detail, and told the host so.
pub fn assert_fails(answer: &Answer, kind: u8, detail: u8) {
    assert_eq!((answer.outcome, state(answer)), (Outcome::Ended, [10, kind, detail]));
    let failed = body(answer, kinds(answer).len() - 1);
    assert_eq!((kinds(answer).last(), failed), (Some(&0x20), vec![kind, detail]));
}

/// That the step ended in the phase it began in, with these calls.
pub fn assert_stays(answer: &Answer, given: &Record, calls: &[u8]) {
    assert_eq!((answer.outcome, &answer.machine), (Outcome::Ended, given));
    assert_eq!(kinds(answer), calls);
}
