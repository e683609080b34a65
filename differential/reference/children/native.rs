//! Behind the feature `bench`: the texts' own `Pairing`, kept between steps, over a host that answers at once. For
//! measuring: nothing is unwound, and no record is read or written but by `record`.

use bt_hci::param::ConnHandle;
use core::hint::black_box;
use rand_core::{CryptoRng, RngCore};

use super::super::{legacy_central, legacy_peripheral, Pairing, PairingData, PairingOps, State};
use super::{features, read_input, write_data};
use crate::connection::{ConnectionEvent, SecurityLevel};
use crate::machine::{self, Record};
use crate::pool::Pool;
use crate::security_manager::crypto::{PublicKey, SecretKey};
use crate::security_manager::types::{BondingFlag, Command};
use crate::security_manager::{address, constants, TxPacket};
use crate::step::{Input, Role};
use crate::{Address, BondInformation, Error, Identity, LongTermKey};

/// What takes the packets, the events that ask for an entry (0x23, 0x25), and the call for encryption.
pub trait Desk {
    fn packet(&mut self, code: u8, payload: &[u8]);
    fn event(&mut self, kind: u8);
    fn encryption(&mut self, key: &[u8; 16], level: u8, key_size: u8);
}

/// A host's fixed answers: no bond is found, and every call is done.
#[derive(Clone)]
pub struct Answers {
    irk: [u8; 16],
    address: Address,
    peer: Address,
    bonding: bool,
    oob: bool,
}

impl Answers {
    pub fn new(irk: [u8; 16], own: &[u8; 7], peer: &[u8; 7], bonding: bool, oob: bool) -> Self {
        Self { irk, address: address(own), peer: address(peer), bonding, oob }
    }
}

/// A generator that draws the same every time: these octets from the first on, and this word.
#[derive(Clone, Copy)]
pub struct Draws {
    pub octets: [u8; 16],
    pub word: u32,
}

impl RngCore for Draws {
    fn next_u32(&mut self) -> u32 {
        self.word
    }

    fn next_u64(&mut self) -> u64 {
        unimplemented!("no draw of 64 bits")
    }

    fn fill_bytes(&mut self, dest: &mut [u8]) {
        dest.copy_from_slice(&self.octets[..dest.len()]);
    }

    fn try_fill_bytes(&mut self, dest: &mut [u8]) -> Result<(), rand_core::Error> {
        self.fill_bytes(dest);
        Ok(())
    }
}

impl CryptoRng for Draws {}

struct Ops<'a, D> {
    answers: &'a Answers,
    desk: &'a mut D,
}

impl<D: Desk> PairingOps<Pool> for Ops<'_, D> {
    fn try_send_packet(&mut self, packet: TxPacket<Pool>) -> Result<(), Error> {
        self.desk.packet(packet.code(), packet.payload());
        Ok(())
    }

    fn find_bond(&self) -> Option<BondInformation> {
        None
    }

    fn try_enable_bonded_encryption(&mut self) -> Result<Option<BondInformation>, Error> {
        Ok(None)
    }

    fn try_enable_encryption(
        &mut self,
        ltk: &LongTermKey,
        security_level: SecurityLevel,
        is_bonded: bool,
        ediv: u16,
        rand: [u8; 8],
        encryption_key_len: u8,
    ) -> Result<BondInformation, Error> {
        self.desk.encryption(&ltk.to_le_bytes(), security_level.0, encryption_key_len);
        let identity = Identity { irk: None, addr: self.answers.peer };
        Ok(BondInformation { ltk: *ltk, ediv, rand, is_bonded, security_level, identity })
    }

    fn try_update_bond_information(&mut self, bond: &BondInformation) -> Result<(), Error> {
        black_box(bond);
        Ok(())
    }

    fn connection_handle(&mut self) -> ConnHandle {
        ConnHandle
    }

    fn try_send_connection_event(&mut self, event: ConnectionEvent) -> Result<(), Error> {
        match event {
            ConnectionEvent::PassKeyInput => self.desk.event(0x23),
            ConnectionEvent::OobRequest => self.desk.event(0x25),
            other => {
                black_box(&other);
            }
        }
        Ok(())
    }

    fn bonding_flag(&self) -> BondingFlag {
        if self.answers.bonding {
            BondingFlag::Bonding
        } else {
            BondingFlag::NoBonding
        }
    }

    fn oob_available(&self) -> bool {
        self.answers.oob
    }

    fn passkey(&self) -> Option<u32> {
        None
    }

    fn secret_key(&self) -> &SecretKey {
        unimplemented!("legacy pairing has no such call")
    }

    fn public_key(&self) -> &PublicKey {
        unimplemented!("legacy pairing has no such call")
    }

    fn local_irk(&self) -> [u8; 16] {
        self.answers.irk
    }

    fn local_identity_address(&self) -> Result<Address, Error> {
        Ok(self.answers.address)
    }
}

/// A machine of either role: the texts' `Pairing`, which picks the role's machine.
pub struct Machine(Pairing);

impl Machine {
    /// A machine that begins a pairing. Features have six octets that the texts' reader takes.
    pub fn new(role: Role, local: &[u8; 7], peer: &[u8; 7], own_features: &[u8; 6]) -> Self {
        let local_features = features(own_features);
        let io = local_features.io_capabilities;
        let data = PairingData::new(address(local), address(peer), io, constants::TIMEOUT);
        let pairing_data = PairingData { local_features, ..data };
        let state = match role {
            Role::Central => {
                let mut preq = [u8::from(Command::PairingRequest); 7];
                preq[1..].copy_from_slice(own_features);
                State::LegacyCentral(legacy_central::Pairing::from_lesc_switch(preq))
            }
            Role::Peripheral => State::LegacyPeripheral(legacy_peripheral::Pairing::new()),
        };
        Self(Pairing { pairing_data, state })
    }

    /// One step on an input: `Pairing::handle_input` of the texts.
    pub fn step<D: Desk>(&mut self, input: Input, payload: &[u8], answers: &Answers, draws: &mut Draws, desk: &mut D) {
        let _ = self.0.handle_input::<Pool, _, _>(read_input(input, payload), &mut Ops { answers, desk }, draws);
    }

    /// The machine record, for comparing.
    pub fn record(&self) -> Record {
        let mut out = [0; machine::LENGTH];
        match &self.0.state {
            State::LegacyCentral(state) => legacy_central::record::write(state, &mut out),
            State::LegacyPeripheral(state) => legacy_peripheral::record::write(state, &mut out),
            _ => unreachable!("no other machine is made here"),
        }
        write_data(&self.0.pairing_data, &mut out);
        out
    }
}

impl Clone for Machine {
    fn clone(&self) -> Self {
        let data = &self.0.pairing_data;
        let pairing_data = PairingData { bond_information: data.bond_information.clone(), ..*data };
        let state = match &self.0.state {
            State::LegacyCentral(state) => State::LegacyCentral(state.clone()),
            State::LegacyPeripheral(state) => State::LegacyPeripheral(state.clone()),
            _ => unreachable!("no other machine is made here"),
        };
        Self(Pairing { pairing_data, state })
    }
}
