//! Stands for connection.rs. The event enum is cut out of it as text; the types of events that
//! pairing never sends are names only.

use bt_hci::param::{FrameSpaceInitiator, PhyKind, PhyMask, SpacingTypes, Status};
use embassy_time::Duration;

use crate::security_manager::{BondInformation, PassKey};
use crate::Error;

/// Stands for the enum of three levels: any octet, as document 01 has it, with the enum's three
/// names as constants.
#[derive(Debug, Clone, Copy, PartialEq, Eq)]
pub struct SecurityLevel(pub u8);

#[allow(non_upper_case_globals)]
impl SecurityLevel {
    pub const NoEncryption: Self = Self(0);
    pub const Encrypted: Self = Self(1);
    pub const EncryptedAuthenticated: Self = Self(2);
}

/// Name only.
#[derive(Debug)]
pub struct ConnectionParamsRequest;

/// The events of connection.rs; pairing sends six of them.
#[allow(dead_code)]
mod events {
    use super::*;

    include!(concat!(env!("OUT_DIR"), "/connection_items.rs"));
}

pub use events::ConnectionEvent;
