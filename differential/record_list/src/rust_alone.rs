//! Places where only the Rust's text says what is right: neither document 01's claims nor a published sample does.

use cases::machines::right_confirm;
use reference::machine::{self, Record};
use reference::{Input, Role, Step};

use crate::build::*;

pub fn all() -> Vec<Named> {
    let mut found = answer_flags();
    found.extend(identity_key_offered());
    found.extend(bonded_reconnect());
    for (role, name) in ROLES {
        found.extend(identity_addresses(role, name));
        found.extend(is_bonded(role, name));
        found.extend(encryption(role, name));
        found.extend(completion(role, name));
        found.extend(passkeys(role, name));
        found.extend(receiving_keys(role, name));
        found.extend(identity_address_forms(role, name));
    }
    found
}

/// A head that gets this request, with these special answers.
fn request(local: [u8; 6], request: [u8; 6], special: &[&[u8]]) -> Step {
    let m = unbonded(with(machine(Role::Peripheral, 0), machine::LOCAL_FEATURES, &local));
    answered(given(Role::Peripheral, m, Input::Command(0x01), &request), special)
}

/// Packet 0x02: the bonding flag from 0x33, MITM where there is any input or output, OOB from record and 0x34.
fn answer_flags() -> Vec<Named> {
    let mut found = Vec::new();
    for io in 0..=4 {
        for bonds in [0, 1] {
            let step = request([io, 0, 0xff, 16, 0, 0], [0, 0, 0, 16, 0, 0], &[&[0x33, bonds]]);
            let auth = bonds | if io == 3 { 0 } else { 4 };
            let name = format!("Rust alone: the answer's bonding and MITM flags, 0x33 answered {bonds}, I/O {io}");
            found.push(named(name, step, &[Shows::Body(0x02, 0, vec![io, 0, auth])]));
        }
    }
    for (record, available) in [(0, 0), (0, 1), (1, 0), (1, 1)] {
        let step = request([4, record, 0, 16, 0, 0], [4, 1, 0, 16, 0, 0], &[&[0x34, available]]);
        let name = format!("Rust alone: the answer's OOB flag, record {record}, 0x34 answered {available}");
        found.push(named(name, step, &[Shows::Body(0x02, 1, vec![record | available])]));
    }
    found
}

/// Without a local IRK the identity key is not offered.
fn identity_key_offered() -> Vec<Named> {
    let irk = |octet: u8| [&[0x31][..], &[0; 15], &[octet]].concat();
    let mut found = Vec::new();
    for (octet, what) in [(0, "zero"), (1, "not zero")] {
        for (local, asked) in [(0, 2), (0, 3), (2, 2), (0, 1), (0, 0)] {
            let step = request([4, 0, 0, 16, 0, local], [4, 0, 0, 16, 0, asked], &[&irk(octet)]);
            let offered = if octet == 0 { asked & !2 } else { asked };
            let name = format!("Rust alone: IRK {what}, responder keys {asked} asked, {local} in the head's record");
            found.push(named(name, step, &[Shows::Body(0x02, 5, vec![local | offered])]));
        }
    }
    found
}

/// A link that an old bond encrypts: the head waits for the identity key where the peer's record names it.
fn bonded_reconnect() -> Vec<Named> {
    let head = Role::Peripheral;
    let present = [&[0x3b, 0, 1][..], &bond()].concat();
    let absent = [&[0x3b, 0, 0][..], &[0xff; 51]].concat();
    let mut found = Vec::new();
    for (flags, phase) in [(0, 9), (1, 9), (2, 6), (3, 6)] {
        for (what, special) in [("a bond", &present), ("no bond", &absent)] {
            let m = with(unbonded(machine(head, 0)), machine::PEER_FEATURES + 4, &[flags]);
            let step = answered(given(head, m, Input::LinkEncryptedResult(true), &[]), &[special]);
            let name = format!("Rust alone: bonded reconnect with {what}, the peer's initiator keys {flags}");
            found.push(named(name, step, &[Shows::State([phase, 0, 0])]));
        }
    }
    found
}

/// A machine behind encryption that sends its identity key and no other, and awaits none.
fn sends_identity(role: Role) -> Record {
    let m = machine(role, 5);
    match role {
        Role::Central => with(m, machine::PEER_FEATURES + 4, &[2, 0]),
        Role::Peripheral => with(with(m, machine::LOCAL_FEATURES + 4, &[0, 2]), machine::PEER_FEATURES + 4, &[0, 2]),
    }
}

fn identity_addresses(role: Role, name: &str) -> Vec<Named> {
    let mut found = Vec::new();
    for kind in [0, 1] {
        let address = [kind, 0xe1, 0xe2, 0xe3, 0xe4, 0xe5, 0xe6];
        let step = answered(given(role, machine(role, 7), Input::Command(0x09), &address), &[]);
        let shows = [
            Shows::State([9, 0, 0]),
            Shows::Machine(machine::BOND + 44, address.to_vec()),
            Shows::Machine(machine::PEER_ADDRESS, address.to_vec()),
        ];
        found.push(named(format!("Rust alone: {name}, identity address of kind {kind} received"), step, &shows));
    }
    for (kind, sent) in [(0, 0), (1, 1), (0x80, 1)] {
        let special = [&[0x32, 0, kind][..], &count_up::<6>(0xf1)].concat();
        let report = given(role, sends_identity(role), Input::LinkEncryptedResult(true), &[]);
        let body = [&[sent][..], &count_up::<6>(0xf1)].concat();
        let name = format!("Rust alone: {name}, identity address of kind {kind} sent");
        found.push(named(name, answered(report, &[&special]), &[Shows::Body(0x09, 0, body)]));
    }
    found
}

/// `is_bonded` is set with the encryption keys, to whether both bond; the identity key leaves it.
fn is_bonded(role: Role, name: &str) -> Vec<Named> {
    let mut found = Vec::new();
    let flags = |m: Record, auth: [u8; 2]| {
        with(with(m, machine::LOCAL_FEATURES + 2, &auth[..1]), machine::PEER_FEATURES + 2, &auth[1..])
    };
    for auth in [[1, 1], [1, 0], [0, 1], [1, 2], [3, 1], [5, 0xfd]] {
        let both = u8::from(auth[0] & 3 == 1 && auth[1] & 3 == 1);
        // A head that does not bond passes no key and leaves the bond.
        let (phase, input, payload, after) = match role {
            Role::Central => (8, Input::Command(0x07), count_up::<10>(0xc0).to_vec(), both),
            Role::Peripheral => (5, Input::LinkEncryptedResult(true), vec![], 1),
        };
        let m = with(flags(machine(role, phase), auth), machine::BOND + 26, &[1 - both]);
        let step = answered(given(role, m, input, &payload), &[]);
        let name = format!("Rust alone: {name}, is_bonded with the keys, AuthReq {:02x} and {:02x}", auth[0], auth[1]);
        found.push(named(name, step, &[Shows::Machine(machine::BOND + 26, vec![after])]));
    }
    for before in [0, 1] {
        let m = with(machine(role, 6), machine::BOND + 26, &[before]);
        let step = answered(given(role, m, Input::Command(0x08), &count_up::<16>(0x50)), &[]);
        let shows = [
            Shows::Machine(machine::BOND + 26, vec![before]),
            Shows::Machine(machine::BOND + 28, count_up::<16>(0x50).to_vec()),
        ];
        let name = format!("Rust alone: {name}, is_bonded {before} with the identity key");
        found.push(named(name, step, &shows));
    }
    found
}

/// Call 0x3a: the smaller key size, the method's level, a key that is cut.
fn encryption(role: Role, name: &str) -> Vec<Named> {
    let nonce: [u8; 16] = count_up(0xe0);
    let one = |local: u8, peer: u8, method: u8| {
        let m = with(machine(role, 4), machine::LOCAL_FEATURES + 3, &[local]);
        let m = with(with(m, machine::PEER_FEATURES + 3, &[peer]), machine::METHOD, &[method]);
        let m = with(m, machine::PEER_CONFIRM, &right_confirm(role, &m, nonce));
        let step = answered(given(role, m, Input::Command(0x04), &nonce), &[]);
        let (level, size) = (if method == 0 { 1 } else { 2 }, local.min(peer));
        let zeros = vec![0; 16usize.saturating_sub(size.into())];
        let name = format!("Rust alone: {name}, 0x3a with key sizes {local} and {peer}, method {method}");
        let shows = [Shows::Body(0x3a, 16, vec![level, size]), Shows::Body(0x3a, 16 - zeros.len(), zeros)];
        named(name, step, &shows)
    };
    let sizes = [(7, 16), (16, 8), (9, 16), (12, 12), (16, 15), (16, 16), (0, 16), (17, 255)]
        .into_iter()
        .map(|(a, b)| one(a, b, 4));
    sizes.chain((0..=6).map(|method| one(16, 10, method))).collect()
}

/// Event 0x21: the bond's level; the bond where both bond, else none.
fn completion(role: Role, name: &str) -> Vec<Named> {
    let mut found = Vec::new();
    for (level, both) in [(1, 1), (2, 1), (2, 0), (0, 0), (7, 1), (7, 0)] {
        let m = with(machine(role, 9), machine::BOND + 27, &[level]);
        let m = with(m, machine::LOCAL_FEATURES + 2, &[both]);
        let bond = if both == 1 { m[machine::BOND..].to_vec() } else { vec![0; 51] };
        let calls = if both == 1 { vec![0x3c, 0x21] } else { vec![0x21] };
        let step = answered(given(role, m, Input::PassKeyConfirm, &[]), &[]);
        let name = format!("Rust alone: {name}, 0x21 at level {level}, both bond {both}");
        let body = [&[level, both][..], &bond].concat();
        found.push(named(name, step, &[Shows::Body(0x21, 0, body), Shows::Calls(calls)]));
    }
    let step = answered(given(role, unbonded(machine(role, 9)), Input::PassKeyConfirm, &[]), &[]);
    found.push(named(format!("Rust alone: {name}, no 0x21 without a bond"), step, &[Shows::Calls(vec![])]));
    found
}

/// The passkey is the low part of TK.
fn passkeys(role: Role, name: &str) -> Vec<Named> {
    let tk = |passkey: u32| Shows::Machine(machine::TK, u128::from(passkey).to_le_bytes().to_vec());
    let mut found = Vec::new();
    for passkey in [65_535, 65_536, 999_999, 0xfedc_ba98] {
        let step = answered(given(role, machine(role, 1), Input::PassKeyInput(passkey), &[]), &[]);
        found.push(named(format!("Rust alone: {name}, passkey {passkey} typed"), step, &[tk(passkey)]));
    }
    let (code, local, peer) = match role {
        Role::Central => (0x02, 0, [2, 0, 4, 16, 0, 0]),
        Role::Peripheral => (0x01, 0, [2, 0, 4, 16, 0, 0]),
    };
    for passkey in [65_536u32, 999_999] {
        let m = unbonded(with(machine(role, 0), machine::LOCAL_FEATURES, &[local]));
        let special = [&[0x36][..], &passkey.to_le_bytes()].concat();
        let step = answered(given(role, m, Input::Command(code), &peer), &[&special]);
        let shown = Shows::Body(0x22, 0, passkey.to_le_bytes().to_vec());
        found.push(named(
            format!("Rust alone: {name}, passkey {passkey} drawn and shown"),
            step,
            &[tk(passkey), shown],
        ));
    }
    let m = unbonded(with(machine(role, 0), machine::LOCAL_FEATURES, &[local]));
    let special = [&[0x36][..], &1_000_000u32.to_le_bytes()].concat();
    let step = answered(given(role, m, Input::Command(code), &peer), &[&special]);
    found.push(named(format!("refused: {name}, passkey 1000000 drawn"), step, &[Shows::Refused(3)]));
    found
}

/// Which of the two packets each `phase` of ReceivingKeys takes; any other is InvalidState.
fn receiving_keys(role: Role, name: &str) -> Vec<Named> {
    let mut found = Vec::new();
    for phase in [0, 1, 2, 255] {
        for (code, length) in [(0x06, 16), (0x07, 10)] {
            let m = with(machine(role, 8), machine::DETAIL, &[phase]);
            let state = match (code, phase) {
                (0x06, 0) => [8, 1, 0],
                (0x07, 1) => [6, 0, 0],
                _ => [10, 2, 0],
            };
            let step = answered(given(role, m, Input::Command(code), &vec![9; length]), &[]);
            let name = format!("Rust alone: {name}, packet {code:02x} in ReceivingKeys of phase {phase}");
            found.push(named(name, step, &[Shows::State(state)]));
        }
    }
    found
}

/// An identity address is read by its first 7 octets, of kind 0 or 1; without bonding no key is sent behind it.
fn identity_address_forms(role: Role, name: &str) -> Vec<Named> {
    let mut found = Vec::new();
    for (kind, length, state) in [(0, 8, [9, 0, 0]), (1, 20, [9, 0, 0]), (2, 7, [10, 3, 0]), (255, 8, [10, 3, 0])] {
        let payload = [vec![kind], vec![0xe1; length - 1]].concat();
        let step = answered(given(role, machine(role, 7), Input::Command(0x09), &payload), &[]);
        let name = format!("Rust alone: {name}, identity address of kind {kind} and {length} octets");
        found.push(named(name, step, &[Shows::State(state)]));
    }
    let m = with(machine(role, 7), machine::LOCAL_FEATURES + 2, &[4]);
    let step = answered(given(role, m, Input::Command(0x09), &[0; 7]), &[]);
    let name = format!("Rust alone: {name}, identity address without bonding");
    found.push(named(name, step, &[Shows::State([9, 0, 0]), Shows::Calls(vec![0x21])]));
    found
}
