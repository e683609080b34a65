//! The head's first state, WaitingPairingRequest, from its record and back.

use super::super::Pairing;
use crate::machine::Record;

pub fn read(_: &Record) -> Pairing {
    Pairing::WaitingPairingRequest
}

/// Gives the phase of a state that holds nothing.
pub fn write(state: &Pairing, _: &mut Record) -> u8 {
    let Pairing::WaitingPairingRequest = state else {
        unreachable!("the other states are written before")
    };
    0
}
