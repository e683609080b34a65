//! Child of legacy_central.rs and of legacy_peripheral.rs: the machine's state from its record and
//! back. The two differ in their first state alone, which the child `first` knows.

mod first;

use super::{ConfirmPhaseData, Pairing};
use crate::machine::{self, Record};
use crate::security_manager::pairing::record::{read_error, write_error};
use crate::security_manager::part;
use crate::LongTermKey;

fn read_confirm_data(m: &Record) -> ConfirmPhaseData {
    ConfirmPhaseData {
        tk: u128::from_le_bytes(part(m, machine::TK)),
        preq: part(m, machine::PREQ),
        pres: part(m, machine::PRES),
        local_nonce: u128::from_le_bytes(part(m, machine::LOCAL_NONCE)),
    }
}

fn write_confirm_data(data: &ConfirmPhaseData, m: &mut Record) {
    put(m, machine::TK, &data.tk.to_le_bytes());
    put(m, machine::PREQ, &data.preq);
    put(m, machine::PRES, &data.pres);
    put(m, machine::LOCAL_NONCE, &data.local_nonce.to_le_bytes());
}

fn put(m: &mut Record, at: usize, octets: &[u8]) {
    m[at..at + octets.len()].copy_from_slice(octets);
}

/// Reads the state of a canonical record.
pub fn read(m: &Record) -> Pairing {
    let (preq, pres) = (part(m, machine::PREQ), part(m, machine::PRES));
    match m[machine::PHASE] {
        0 => first::read(m),
        1 => Pairing::WaitingPassKeyInput {
            confirm_bytes: (m[machine::STORED] == 1).then(|| part(m, machine::PEER_CONFIRM)),
            preq,
            pres,
        },
        2 => Pairing::WaitingOobData { preq, pres },
        3 => Pairing::WaitingPairingConfirm(read_confirm_data(m)),
        4 => Pairing::WaitingPairingRandom {
            confirm_data: read_confirm_data(m),
            peer_confirm: u128::from_le_bytes(part(m, machine::PEER_CONFIRM)),
        },
        5 => Pairing::WaitingLinkEncrypted,
        6 => Pairing::WaitingIdentitityInformation,
        7 => Pairing::WaitingIdentitityAddressInformation,
        8 => Pairing::ReceivingKeys {
            phase: m[machine::DETAIL],
            received_ltk: LongTermKey::from_le_bytes(part(m, machine::RECEIVED_LTK)),
        },
        9 => Pairing::Success,
        _ => Pairing::Error(read_error(m)),
    }
}

/// Writes the phase and what the state holds into a record of zeros.
pub fn write(state: &Pairing, m: &mut Record) {
    m[machine::PHASE] = write_fields(state, m);
}

fn write_fields(state: &Pairing, m: &mut Record) -> u8 {
    match state {
        Pairing::WaitingPassKeyInput { confirm_bytes, preq, pres } => {
            put(m, machine::PREQ, preq);
            put(m, machine::PRES, pres);
            if let Some(stored) = confirm_bytes {
                m[machine::STORED] = 1;
                put(m, machine::PEER_CONFIRM, stored);
            }
            1
        }
        Pairing::WaitingOobData { preq, pres } => {
            put(m, machine::PREQ, preq);
            put(m, machine::PRES, pres);
            2
        }
        Pairing::WaitingPairingConfirm(data) => {
            write_confirm_data(data, m);
            3
        }
        Pairing::WaitingPairingRandom { confirm_data, peer_confirm } => {
            write_confirm_data(confirm_data, m);
            put(m, machine::PEER_CONFIRM, &peer_confirm.to_le_bytes());
            4
        }
        Pairing::WaitingLinkEncrypted => 5,
        Pairing::WaitingIdentitityInformation => 6,
        Pairing::WaitingIdentitityAddressInformation => 7,
        Pairing::ReceivingKeys { phase, received_ltk } => {
            m[machine::DETAIL] = *phase;
            put(m, machine::RECEIVED_LTK, &received_ltk.to_le_bytes());
            8
        }
        Pairing::Success => 9,
        Pairing::Error(error) => {
            write_error(error, m);
            10
        }
        first => first::write(first, m),
    }
}
