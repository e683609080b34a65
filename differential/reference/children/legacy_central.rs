//! The terminal's first state, WaitingPairingResponse, from its record and back.

use super::super::Pairing;
use crate::machine::{Record, PREQ};
use crate::security_manager::part;

pub fn read(m: &Record) -> Pairing {
    Pairing::WaitingPairingResponse { preq: part(m, PREQ) }
}

/// Writes what the state holds and gives its phase.
pub fn write(state: &Pairing, m: &mut Record) -> u8 {
    let Pairing::WaitingPairingResponse { preq } = state else {
        unreachable!("the other states are written before")
    };
    m[PREQ..PREQ + 7].copy_from_slice(preq);
    0
}
