//! Values without a machine: c1 and s1 by the sample data of Part H, features, call lists, and what is
//! printed.

use legacy_pairing::{address, auth, call, io, keys, refusal, size, NO, YES};
use legacy_pairing::{c1, call_at, count_calls, read_features, s1, version, write_features};
use legacy_pairing::{Call, Features, Input, Refusal, VERSION};

#[test]
fn the_library_is_of_this_version() {
    assert_eq!(version(), VERSION);
    let [_, major, minor, patch] = VERSION.to_be_bytes();
    assert_eq!(env!("CARGO_PKG_VERSION"), format!("{major}.{minor}.{patch}"));
}

/// Part H writes numbers most significant octet first.
fn octets<const N: usize>(number: u128) -> [u8; N] {
    let octets = number.to_le_bytes();
    assert!(octets[N..].iter().all(|&o| o == 0));
    std::array::from_fn(|i| octets[i])
}

fn of_kind(kind: u8, number: u128) -> [u8; size::ADDRESS] {
    let octets: [u8; 6] = octets(number);
    let mut address = [kind; size::ADDRESS];
    address[address::OCTETS_OFFSET..].copy_from_slice(&octets);
    address
}

/// Vol 3 Part H, 2.2.3.
#[test]
fn c1_of_the_sample() {
    let confirm = c1(
        &octets(0),
        &octets(0x5783D52156AD6F0E6388274EC6702EE0),
        &octets(0x07071000000101),
        &octets(0x05000800000302),
        &of_kind(address::RANDOM, 0xA1A2A3A4A5A6),
        &of_kind(address::PUBLIC, 0xB1B2B3B4B5B6),
    );
    assert_eq!(confirm, octets(0x1E1E3FEF878988EAD2A74DC5BEF13B86));
}

/// Vol 3 Part H, 2.2.4.
#[test]
fn s1_of_the_sample() {
    let r1 = octets(0x000F0E0D0C0B0A091122334455667788);
    let r2 = octets(0x010203040506070899AABBCCDDEEFF00);
    assert_eq!(s1(&octets(0), &r1, &r2), octets(0x9A1FE1F0E8B0F49B5B4216AE796DA062));
}

const FEATURES: Features = Features {
    io: io::KEYBOARD_DISPLAY,
    oob: YES,
    auth_req: auth::BONDING | auth::MITM,
    key_size: 16,
    initiator_keys: keys::ENCRYPTION,
    responder_keys: keys::ENCRYPTION | keys::IDENTITY,
};

/// Part H 3.5.1: a field for each octet, in this order.
#[test]
fn features_by_their_octets() {
    assert_eq!(write_features(FEATURES), Ok([4, 1, 5, 16, 1, 3]));
    assert_eq!(read_features(&[4, 1, 5, 16, 1, 3, 0xff]), Ok(FEATURES), "more octets are not read");
}

/// Document 01: 4 under 6 octets; 5 for I/O above 4, OOB above 1 or a key size outside 7 to 16. Writing takes
/// any key size.
#[test]
fn features_that_are_none() {
    let bad = Err(Refusal(5));
    for count in 0..6 {
        assert_eq!(read_features(&[9; 6][..count]), Err(Refusal(4)));
    }
    for octet in 0..=255 {
        let io = Features { io: octet, ..FEATURES };
        let oob = Features { oob: octet, ..FEATURES };
        let key_size = Features { key_size: octet, ..FEATURES };
        assert_eq!(write_features(io).is_ok(), octet <= 4);
        assert_eq!(write_features(oob).is_ok(), octet <= 1);
        assert_eq!(read_features(&[octet, 0, 0, 16, 0, 0]), if octet <= 4 { Ok(plain(octet, 0, 16)) } else { bad });
        assert_eq!(read_features(&[3, octet, 0, 16, 0, 0]), if octet <= 1 { Ok(plain(3, octet, 16)) } else { bad });
        let payload = write_features(key_size).expect("any key size is written");
        assert_eq!(read_features(&payload), if (7..=16).contains(&octet) { Ok(key_size) } else { bad });
    }
    assert_eq!(write_features(Features { io: 5, ..FEATURES }), Err(Refusal(5)));
    assert_eq!(write_features(Features { oob: 2, ..FEATURES }), Err(Refusal(5)));
}

fn plain(io: u8, oob: u8, key_size: u8) -> Features {
    Features { io, oob, auth_req: 0, key_size, initiator_keys: 0, responder_keys: 0 }
}

/// Document 01's kinds and bodies, typed from its text.
#[test]
fn a_call_list_is_read() {
    let list = [0x20, 1, 2, 0x23, 0x22, 1, 2, 3, 4, 0x31];
    assert_eq!(count_calls(&list), Ok(4));
    let calls = [(0x20, &[1, 2][..]), (0x23, &[]), (0x22, &[1, 2, 3, 4]), (0x31, &[])];
    for (index, (kind, body)) in calls.into_iter().enumerate() {
        assert_eq!(call_at(&list, index).map(|call| (call.kind, call.body)), Ok((kind, body)));
    }
    assert_eq!(call_at(&list, 4).err(), Some(Refusal(refusal::NO_CALL)));
    assert_eq!(count_calls(&list[..7]), Err(Refusal(refusal::BAD_CALL_LIST)), "a body is cut");
    assert_eq!(call_at(&list[..7], 0).err(), Some(Refusal(refusal::BAD_CALL_LIST)));
    for kind in 0..=255 {
        let known = matches!(kind, 0x02..=0x04 | 0x06..=0x09 | 0x20..=0x25 | 0x30..=0x3c);
        let list: Vec<u8> = std::iter::once(kind).chain([0; 53]).collect();
        let sizes = (0..=53).filter(|&size| count_calls(&list[..1 + size]) == Ok(1)).collect::<Vec<_>>();
        assert_eq!(sizes.len(), usize::from(known), "kind {kind:#04x}");
    }
    assert_eq!(count_calls(&[]), Ok(0));
    let bond = [&[0x3c][..], &[0; 51]].concat();
    assert_eq!(call_at(&bond, 0).map(|c| c.body.len()), Ok(call::UPDATE_BOND_BODY_SIZE));
}

#[test]
fn what_is_printed_of_keys() {
    let payload = [0x5a; 16];
    assert_eq!(format!("{:?}", Input::Command(0x06, &payload)), "Command(0x06, 16 octets)");
    assert_eq!(format!("{:?}", Input::OobDataReceived(payload)), "OobDataReceived(..)");
    assert_eq!(format!("{:?}", Input::PassKeyInput(204_518)), "PassKeyInput(..)");
    assert_eq!(format!("{:?}", Input::LinkEncryptedResult(true)), "LinkEncryptedResult(true)");
    assert_eq!(format!("{:?}", Call { kind: 0x06, body: &payload }), "Call(0x06, 16 octets)");
    assert_eq!(
        Refusal(25).to_string(),
        "refused by 25: the machine's record is not zero where its machine holds nothing"
    );
    assert_eq!((NO, YES), (0, 1));
}
