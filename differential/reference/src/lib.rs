//! The reference: the unchanged Rust texts of legacy pairing behind thin stand-ins, run one step
//! at a time as document 01 says, and spoken to in step lines.
//!
//! The texts see this file as the root of their crate: the names they expect here come first.

#[macro_use]
#[path = "../stand-ins/fmt.rs"]
mod fmt;
#[path = "../stand-ins/codec.rs"]
mod codec;
#[path = "../stand-ins/connection.rs"]
mod connection;
#[path = "../stand-ins/outside.rs"]
mod outside;
#[path = "../stand-ins/pool.rs"]
mod pool;

/// Stands for the crate's prelude: the one name that util.rs takes from it.
mod prelude {
    pub use crate::connection::SecurityLevel;
}

use bt_hci::param::{AddrKind, BdAddr};
use bt_hci::FromHciBytesError;
use outside::{AdvertisementDataError, AttErrorCode};
use pool::PacketPool;
use security_manager::Reason as PairingFailedReason;
use security_manager::{BondInformation, IdentityResolvingKey, LongTermKey};
use types::capabilities::IoCapabilities;

// The module tree of the texts, and Address, Identity and Error cut out of lib.rs.
include!(concat!(env!("OUT_DIR"), "/modules.rs"));
include!(concat!(env!("OUT_DIR"), "/lib_items.rs"));

pub mod calls;
mod host;
pub mod lines;
pub mod machine;
pub mod step;

#[cfg(feature = "bench")]
pub use security_manager::pairing::record::native;
pub use step::{step, Answer, Input, Outcome, Role, Step};

/// The confirm value of the texts' crypto.rs, on numbers; addresses most significant octet first.
#[allow(clippy::too_many_arguments)]
pub fn c1(k: u128, r: u128, preq: &[u8; 7], pres: &[u8; 7], iat: u8, ia: &[u8; 6], rat: u8, ra: &[u8; 6]) -> u128 {
    security_manager::c1(k, r, preq, pres, iat, ia, rat, ra)
}

/// The short-term key of the texts' crypto.rs, on numbers.
pub fn s1(k: u128, r1: u128, r2: u128) -> u128 {
    security_manager::s1(k, r1, r2)
}

/// The method that the texts' util.rs chooses for the features of a request and of a response, by the machine record's
/// number.
pub fn chosen_method(central: &[u8; 6], peripheral: &[u8; 6]) -> u8 {
    security_manager::pairing::record::chosen_method(central, peripheral)
}
