//! Stands for security_manager/constants.rs: the longest key in octets, and times that no step reads.

use embassy_time::Duration;

pub(crate) const ENCRYPTION_KEY_SIZE_128_BITS: u8 = 16;
pub(crate) const TIMEOUT: Duration = Duration;
pub(crate) const TIMEOUT_DISABLE: Duration = Duration;
