//! Stands for pairing/central.rs, the Secure Connections machine: the same machine without states as that of the
//! other role.

pub use super::peripheral::Pairing;
