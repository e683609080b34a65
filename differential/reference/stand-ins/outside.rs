//! Stands for the error types of other modules that lib.rs's `Error` can hold: names only.

#[derive(Debug, Clone, PartialEq)]
pub struct AttErrorCode;

#[derive(Debug, Clone, PartialEq)]
pub struct AdvertisementDataError;

#[derive(Debug, Clone, PartialEq)]
pub struct LeCreditConnResultCode;
