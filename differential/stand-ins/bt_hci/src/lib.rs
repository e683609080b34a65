//! Stands for the crate `bt-hci`: the few names that the texts use. Only [`param::AddrKind`],
//! [`param::BdAddr`] and [`param::Error`] hold anything; the rest are names without content.

/// Stands for the decoding error of HCI packets; never made here.
#[derive(Debug, Clone, Copy, PartialEq)]
pub struct FromHciBytesError;

pub mod param {
    /// An address kind, an open octet as on the air: 0 is public, 1 random, others are kept.
    #[derive(Debug, Clone, Copy, Default, PartialEq, Eq)]
    pub struct AddrKind(u8);

    impl AddrKind {
        pub const PUBLIC: Self = Self(0);
        pub const RANDOM: Self = Self(1);

        pub const fn new(octet: u8) -> Self {
            Self(octet)
        }

        pub const fn as_raw(&self) -> u8 {
            self.0
        }

        pub const fn into_inner(self) -> u8 {
            self.0
        }
    }

    /// A device address, six octets, least significant first.
    #[derive(Debug, Clone, Copy, Default, PartialEq, Eq)]
    pub struct BdAddr([u8; 6]);

    impl BdAddr {
        pub const fn new(octets: [u8; 6]) -> Self {
            Self(octets)
        }

        pub const fn into_inner(self) -> [u8; 6] {
            self.0
        }

        pub fn raw(&self) -> &[u8] {
            &self.0
        }
    }

    /// A host error with its octet: carries document 01's verdicts above 1.
    #[derive(Debug, Clone, Copy, PartialEq)]
    pub struct Error(pub u8);

    /// Names only, for the connection events that pairing never sends.
    #[derive(Debug, Clone, Copy, PartialEq)]
    pub struct ConnHandle;
    #[derive(Debug, Clone, Copy, PartialEq)]
    pub struct Status;
    #[derive(Debug, Clone, Copy, PartialEq)]
    pub struct PhyKind;
    #[derive(Debug, Clone, Copy, PartialEq)]
    pub struct PhyMask;
    #[derive(Debug, Clone, Copy, PartialEq)]
    pub struct FrameSpaceInitiator;
    #[derive(Debug, Clone, Copy, PartialEq)]
    pub struct SpacingTypes;
}
