//! Stands for security_manager/mod.rs, which is not among the texts: the bond record, the packet
//! to send, and the names that the texts take from here.

use bt_hci::param::{AddrKind, BdAddr};

use crate::connection::SecurityLevel;
use crate::{Address, Error, Identity, PacketPool};

pub(crate) mod constants;
#[allow(missing_docs)]
pub(crate) mod crypto;
pub(crate) mod pairing;
pub(crate) mod types;

pub(crate) use crypto::{IdentityResolvingKey, LongTermKey};
pub(crate) use types::{PassKey, Reason};

/// What both ends remember of a pairing, with the fields that the texts name.
#[derive(Debug, Clone, PartialEq)]
pub struct BondInformation {
    pub ltk: LongTermKey,
    pub ediv: u16,
    pub rand: [u8; 8],
    pub is_bonded: bool,
    pub security_level: SecurityLevel,
    pub identity: Identity,
}

impl BondInformation {
    /// Reads document 01's 51 octets; `is_bonded` is 0 or 1 by then.
    pub(crate) fn from_octets(o: &[u8]) -> Self {
        Self {
            ltk: LongTermKey::from_le_bytes(part(o, 0)),
            ediv: u16::from_le_bytes(part(o, 16)),
            rand: part(o, 18),
            is_bonded: o[26] == 1,
            security_level: SecurityLevel(o[27]),
            identity: Identity {
                irk: IdentityResolvingKey::from_le_bytes(part(o, 28)),
                addr: address(&o[44..51]),
            },
        }
    }

    /// Writes document 01's 51 octets; no IRK is all zero.
    pub(crate) fn to_octets(&self) -> [u8; 51] {
        let mut o = [0; 51];
        o[0..16].copy_from_slice(&self.ltk.to_le_bytes());
        o[16..18].copy_from_slice(&self.ediv.to_le_bytes());
        o[18..26].copy_from_slice(&self.rand);
        o[26] = self.is_bonded.into();
        o[27] = self.security_level.0;
        o[28..44].copy_from_slice(&self.identity.irk.map_or([0; 16], |k| k.to_le_bytes()));
        o[44..51].copy_from_slice(&address_octets(&self.identity.addr));
        o
    }
}

/// The octets from `at` on, as many as the array holds.
pub(crate) fn part<const N: usize>(o: &[u8], at: usize) -> [u8; N] {
    core::array::from_fn(|i| o[at + i])
}

/// An address of seven octets: kind, then six.
pub(crate) fn address(o: &[u8]) -> Address {
    Address::new(AddrKind::new(o[0]), BdAddr::new(part(o, 1)))
}

pub(crate) fn address_octets(a: &Address) -> [u8; 7] {
    let mut o = [a.kind.as_raw(); 7];
    o[1..].copy_from_slice(a.addr.raw());
    o
}

/// A packet to send: its code and a payload of the code's length.
pub struct TxPacket<P: PacketPool> {
    packet: P::Packet,
    command: types::Command,
}

impl<P: PacketPool> TxPacket<P> {
    pub(crate) fn new(packet: P::Packet, command: types::Command) -> Result<Self, Error> {
        Ok(Self { packet, command })
    }

    pub(crate) fn code(&self) -> u8 {
        self.command.into()
    }

    fn length(&self) -> usize {
        self.command.payload_size().into()
    }

    pub(crate) fn payload(&self) -> &[u8] {
        &self.packet.as_ref()[..self.length()]
    }

    pub(crate) fn payload_mut(&mut self) -> &mut [u8] {
        let length = self.length();
        &mut self.packet.as_mut()[..length]
    }
}

/// The confirm value, which crypto.rs opens to this module alone.
#[allow(clippy::too_many_arguments)]
pub(crate) fn c1(k: u128, r: u128, preq: &[u8; 7], pres: &[u8; 7], iat: u8, ia: &[u8; 6], rat: u8, ra: &[u8; 6]) -> u128 {
    crypto::c1(k, r, preq, pres, iat, ia, rat, ra)
}

/// The short-term key, which crypto.rs opens to this module alone.
pub(crate) fn s1(k: u128, r1: u128, r2: u128) -> u128 {
    crypto::s1(k, r1, r2)
}
