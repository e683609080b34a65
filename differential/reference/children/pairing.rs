//! Child of pairing/mod.rs: builds a machine from its record, runs the role's `handle_input` on
//! it, and writes the record of the machine that comes out.

#[cfg(feature = "bench")]
pub mod native;

use embassy_time::Instant;

use super::util::record::{method, number};
use super::{legacy_central, legacy_peripheral, Event, Input, OobData, PairingData};
use crate::codec::Encode;
use crate::host::{failed_body, Draws, Host, Ops};
use crate::machine::{self, Record};
use crate::pool::Pool;
use crate::security_manager::types::{Command, PairingFeatures, Reason, UseOutOfBand};
use crate::security_manager::{address, address_octets};
use crate::step::{self, Role};
use crate::{BondInformation, Error, IoCapabilities};

/// Runs one step of the unchanged code. The record is canonical and the code a known one.
pub(crate) fn handle_input(role: Role, m: &Record, input: step::Input, payload: &[u8], host: &Host) -> Record {
    let mut data = read_data(m);
    let input = read_input(input, payload);
    let (ops, draws) = (&mut Ops(host), &mut Draws(host));
    let mut out = [0; machine::LENGTH];
    match role {
        Role::Central => {
            let mut state = legacy_central::record::read(m);
            let _ = state.handle_input::<Pool, _, _>(input, &mut data, ops, draws);
            legacy_central::record::write(&state, &mut out);
        }
        Role::Peripheral => {
            let mut state = legacy_peripheral::record::read(m);
            let _ = state.handle_input::<Pool, _, _>(input, &mut data, ops, draws);
            legacy_peripheral::record::write(&state, &mut out);
        }
    }
    write_data(&data, &mut out);
    out
}

/// The method that util.rs chooses for the features of a request and of a response, by the machine record's number.
pub(crate) fn chosen_method(central: &[u8; 6], peripheral: &[u8; 6]) -> u8 {
    number(super::util::choose_legacy_pairing_method(features(central), features(peripheral)))
}

fn read_input(input: step::Input, payload: &[u8]) -> Input<'_> {
    match input {
        step::Input::Command(code) => match Command::try_from(code) {
            Ok(command) => Input::Command(command, payload),
            Err(_) => unreachable!("command codes are checked before the step"),
        },
        step::Input::LinkEncryptedResult(on) => Input::Event(Event::LinkEncryptedResult(on)),
        step::Input::PassKeyConfirm => Input::Event(Event::PassKeyConfirm),
        step::Input::PassKeyCancel => Input::Event(Event::PassKeyCancel),
        step::Input::PassKeyInput(passkey) => Input::Event(Event::PassKeyInput(passkey)),
        step::Input::OobDataReceived(random) => {
            let local = OobData { random, confirm: [0; 16] };
            let peer = OobData { random: [0; 16], confirm: [0; 16] };
            Input::Event(Event::OobDataReceived { local, peer })
        }
    }
}

fn read_data(m: &Record) -> PairingData {
    PairingData {
        local_address: address(&m[machine::LOCAL_ADDRESS..][..7]),
        peer_address: address(&m[machine::PEER_ADDRESS..][..7]),
        local_features: features(&m[machine::LOCAL_FEATURES..][..6]),
        peer_features: features(&m[machine::PEER_FEATURES..][..6]),
        pairing_method: method(m[machine::METHOD]),
        timeout_at: Instant::now(),
        bond_information: (m[machine::BOND_PRESENT] == 1).then(|| BondInformation::from_octets(&m[machine::BOND..])),
    }
}

fn write_data(data: &PairingData, m: &mut Record) {
    m[machine::LOCAL_ADDRESS..][..7].copy_from_slice(&address_octets(&data.local_address));
    m[machine::PEER_ADDRESS..][..7].copy_from_slice(&address_octets(&data.peer_address));
    write_features(&data.local_features, &mut m[machine::LOCAL_FEATURES..][..6]);
    write_features(&data.peer_features, &mut m[machine::PEER_FEATURES..][..6]);
    m[machine::METHOD] = number(data.pairing_method);
    if let Some(bond) = &data.bond_information {
        m[machine::BOND_PRESENT] = 1;
        m[machine::BOND..].copy_from_slice(&bond.to_octets());
    }
}

/// A feature record with any key size: the texts' own reader takes 7 to 16 only.
fn features(o: &[u8]) -> PairingFeatures {
    let (Ok(io_capabilities), Ok(use_oob)) = (IoCapabilities::try_from(o[0]), UseOutOfBand::try_from(o[1])) else {
        unreachable!("records are checked before the step")
    };
    PairingFeatures {
        io_capabilities,
        use_oob,
        security_properties: o[2].into(),
        maximum_encryption_key_size: o[3],
        initiator_key_distribution: o[4].into(),
        responder_key_distribution: o[5].into(),
    }
}

fn write_features(features: &PairingFeatures, o: &mut [u8]) {
    if features.encode(o).is_err() {
        unreachable!("six octets are enough")
    }
}

/// The error of a record in phase 10.
pub(super) fn read_error(m: &Record) -> Error {
    match (m[machine::DETAIL], m[machine::REASON]) {
        (1, 0) => Error::Security(Reason::Success),
        (1, code) => match Reason::try_from(code) {
            Ok(reason) => Error::Security(reason),
            Err(_) => unreachable!("records are checked before the step"),
        },
        (2, _) => Error::InvalidState,
        (3, _) => Error::InvalidValue,
        (4, _) => Error::OutOfMemory,
        (_, octet) => Error::Hci(bt_hci::param::Error(octet)),
    }
}

pub(super) fn write_error(error: &Error, m: &mut Record) {
    match failed_body(error) {
        Some(body) => m[machine::DETAIL..=machine::REASON].copy_from_slice(&body),
        None => unimplemented!("document 01 has no number for {error:?}"),
    }
}
