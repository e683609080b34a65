//! Random canonical machines, and payloads that fit a command.

use reference::machine::{self, Record};
use reference::{Input, Role};

use crate::random::Random;

/// A feature record: legal I/O and OOB; mostly a legal key size; often the flags that matter.
pub fn features(r: &mut Random) -> [u8; 6] {
    let auth = match r.below(10) {
        0..=6 => r.pick(&[0x00, 0x01, 0x01, 0x04, 0x05, 0x05, 0x09, 0x0d]),
        7 => r.pick(&[0x02, 0x03, 0x06, 0x07]),
        _ => r.octet(),
    };
    let oob = u8::from(r.chance(35));
    [r.below(5) as u8, oob, auth, key_size(r), key_flags(r), key_flags(r)]
}

fn key_size(r: &mut Random) -> u8 {
    match r.below(10) {
        0..=6 => 7 + r.below(10) as u8,
        7 => 15 + r.below(3) as u8,
        8 => r.pick(&[0, 1, 6, 15, 16, 17, 0x80, 0xff]),
        _ => r.octet(),
    }
}

fn key_flags(r: &mut Random) -> u8 {
    match r.below(10) {
        0..=7 => r.below(4) as u8,
        8 => r.below(16) as u8,
        _ => r.octet(),
    }
}

/// Features as a peer may send them: now and then outside their ranges.
pub fn sent_features(r: &mut Random) -> [u8; 6] {
    let mut f = features(r);
    f[3] = 7 + r.below(10) as u8;
    match r.below(40) {
        0 => f[0] = 5 + r.below(251) as u8,
        1 => f[0] = 5,
        2 => f[1] = r.above_one(),
        3 => f[3] = 6,
        4 => f[3] = 17,
        5 => f[3] = r.octet(),
        _ => {}
    }
    f
}

/// An address kind: public, random, or any octet.
pub fn address(r: &mut Random) -> [u8; 7] {
    let mut a: [u8; 7] = r.octets();
    a[0] = match r.below(10) {
        0..=3 => 0,
        4..=7 => 1,
        8 => r.pick(&[2, 3, 0xff, 0x80]),
        _ => r.octet(),
    };
    a
}

/// A bond of 51 octets, legal.
pub fn bond(r: &mut Random) -> [u8; 51] {
    let mut b: [u8; 51] = r.octets();
    b[26] = r.below(2) as u8;
    b[27] = if r.chance(80) { r.below(3) as u8 } else { r.octet() };
    if r.chance(30) {
        b[28..44].fill(0);
    }
    b[44..51].copy_from_slice(&address(r));
    b
}

fn put(m: &mut Record, at: usize, octets: &[u8]) {
    m[at..at + octets.len()].copy_from_slice(octets);
}

/// A random machine of a phase: its fields agree with each other more often than not.
pub fn machine(r: &mut Random, role: Role, phase: u8) -> Record {
    let mut m = [0; machine::LENGTH];
    m[machine::PHASE] = phase;
    pairing_data(r, &mut m);
    held_fields(r, role, &mut m);
    machine::clear_unheld(role, &mut m);
    m
}

fn pairing_data(r: &mut Random, m: &mut Record) {
    put(m, machine::LOCAL_ADDRESS, &address(r));
    put(m, machine::PEER_ADDRESS, &address(r));
    let (mut local, mut peer) = (features(r), features(r));
    if r.chance(50) {
        local[2] = local[2] & !3 | 1;
        peer[2] = peer[2] & !3 | 1;
    }
    put(m, machine::LOCAL_FEATURES, &local);
    put(m, machine::PEER_FEATURES, &peer);
    m[machine::METHOD] = r.below(7) as u8;
    if r.chance(75) {
        m[machine::BOND_PRESENT] = 1;
        put(m, machine::BOND, &bond(r));
    }
}

/// Fills every field that some phase holds; what the phase does not hold is cleared afterwards.
fn held_fields(r: &mut Random, role: Role, m: &mut Record) {
    match m[machine::PHASE] {
        1 => m[machine::STORED] = r.below(2) as u8,
        8 => m[machine::DETAIL] = if r.chance(85) { r.below(2) as u8 } else { r.octet() },
        10 => put(m, machine::DETAIL, &error(r)),
        _ => {}
    }
    requests(r, role, m);
    let tk = match r.below(3) {
        0 => 0,
        1 => u128::from(r.passkey()),
        _ => u128::from_le_bytes(r.octets()),
    };
    put(m, machine::TK, &tk.to_le_bytes());
    put(m, machine::LOCAL_NONCE, &r.octets::<16>());
    put(m, machine::PEER_CONFIRM, &r.octets::<16>());
    put(m, machine::RECEIVED_LTK, &r.octets::<16>());
}

/// preq and pres: mostly those of the feature records, else any octets.
fn requests(r: &mut Random, role: Role, m: &mut Record) {
    if r.chance(25) {
        return put(m, machine::PREQ, &r.octets::<14>());
    }
    let (request, response) = match role {
        Role::Central => (machine::LOCAL_FEATURES, machine::PEER_FEATURES),
        Role::Peripheral => (machine::PEER_FEATURES, machine::LOCAL_FEATURES),
    };
    m[machine::PREQ] = 0x01;
    m.copy_within(request..request + 6, machine::PREQ + 1);
    m[machine::PRES] = 0x02;
    m.copy_within(response..response + 6, machine::PRES + 1);
}

/// Kind and detail of an error that the Rust can hold.
fn error(r: &mut Random) -> [u8; 2] {
    match r.below(8) {
        0 => [2, 0],
        1 => [3, 0],
        2 => [4, 0],
        3 => [5, r.octet()],
        4 => [5, r.below(3) as u8],
        _ => [1, r.below(0x11) as u8],
    }
}

/// A payload for a command: its usual content, cut or lengthened to the length asked for.
pub fn payload(r: &mut Random, code: u8, length: Option<usize>) -> Vec<u8> {
    let mut p = match code {
        0x01 | 0x02 => sent_features(r).to_vec(),
        0x05 => vec![if r.chance(80) { r.below(0x13) as u8 } else { r.octet() }],
        0x07 => r.some(10),
        0x09 => identity_address(r),
        0x0b | 0x0e => r.some(1),
        0x0c => r.some(64),
        _ => r.some(16),
    };
    if let Some(length) = length {
        p.truncate(length);
        let more = r.some(length - p.len());
        p.extend(more);
    }
    p
}

fn identity_address(r: &mut Random) -> Vec<u8> {
    let mut p = r.some(7);
    p[0] = match r.below(10) {
        0..=3 => 0,
        4..=7 => 1,
        8 => 2,
        _ => r.octet(),
    };
    p
}

/// The confirm value that makes a nonce of the peer pass at this machine.
pub fn right_confirm(role: Role, m: &Record, nonce: [u8; 16]) -> [u8; 16] {
    let field = |at: usize| core::array::from_fn(|i| m[at + i]);
    let number = |at: usize| u128::from_le_bytes(core::array::from_fn(|i| m[at + i]));
    let side = |at: usize| (u8::from(m[at] != 0), core::array::from_fn(|i| m[at + 6 - i]));
    let (initiator, responder) = match role {
        Role::Central => (side(machine::LOCAL_ADDRESS), side(machine::PEER_ADDRESS)),
        Role::Peripheral => (side(machine::PEER_ADDRESS), side(machine::LOCAL_ADDRESS)),
    };
    let (iat, ia) = initiator;
    let (rat, ra) = responder;
    let preq: [u8; 7] = field(machine::PREQ);
    let pres: [u8; 7] = field(machine::PRES);
    reference::c1(number(machine::TK), u128::from_le_bytes(nonce), &preq, &pres, iat, &ia, rat, &ra).to_le_bytes()
}

/// In WaitingPairingRandom: stores the right confirm value for a nonce of 16 octets, or one that
/// is wrong in a single bit, or leaves the random one.
pub fn correlate(r: &mut Random, role: Role, m: &mut Record, input: Input, payload: &[u8]) {
    let (Input::Command(0x04), 4, Ok(nonce)) = (input, m[machine::PHASE], payload.try_into()) else {
        return;
    };
    let mut confirm = right_confirm(role, m, nonce);
    match r.below(10) {
        0..=7 => {}
        8 => confirm[r.below(16)] ^= 1 << r.below(8),
        _ => return,
    }
    put(m, machine::PEER_CONFIRM, &confirm);
}
