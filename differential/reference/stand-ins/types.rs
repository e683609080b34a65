//! Stands for types/mod.rs: the text on capabilities, and a name that lib.rs's `Error` holds.

pub mod capabilities;

pub mod l2cap {
    pub use crate::outside::LeCreditConnResultCode;
}
