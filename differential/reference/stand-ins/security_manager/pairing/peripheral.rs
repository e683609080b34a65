//! Stands for pairing/peripheral.rs and, through it, pairing/central.rs, the Secure Connections machines: a machine
//! without states, so that the dispatch in pairing/mod.rs compiles. None is ever made.

use rand_core::{CryptoRng, RngCore};

use super::{Input, PairingData, PairingOps};
use crate::{Error, PacketPool};

#[derive(Debug)]
pub enum Pairing {}

impl Pairing {
    pub fn new() -> Self {
        unimplemented!()
    }

    pub fn new_idle() -> Self {
        unimplemented!()
    }

    pub(super) fn initiate<P: PacketPool, OPS: PairingOps<P>>(
        _: &PairingData,
        _: &mut OPS,
        _: bool,
    ) -> Result<Self, Error> {
        unimplemented!()
    }

    pub fn result(&self) -> Option<Result<(), Error>> {
        match *self {}
    }

    pub fn is_encrypted(&self) -> bool {
        match *self {}
    }

    pub fn is_waiting_bonded_encryption(&self) -> bool {
        match *self {}
    }

    pub fn mark_timeout(&mut self) {
        match *self {}
    }

    pub(super) fn handle_input<P: PacketPool, OPS: PairingOps<P>, RNG: CryptoRng + RngCore>(
        &mut self,
        _: Input<'_>,
        _: &mut PairingData,
        _: &mut OPS,
        _: &mut RNG,
    ) -> Result<(), Error> {
        match *self {}
    }
}
