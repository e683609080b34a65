//! Stands for the crate `aes` in the version that trouble-host has: Debian's version 0.6 (software, fixsliced), with the
//! names by which crypto.rs calls it.

use debian::{BlockCipher, NewBlockCipher};

#[derive(Clone, Debug)]
pub struct Aes128(debian::Aes128);

/// The names under `aes::cipher`.
pub mod cipher {
    use super::{Aes128, BlockCipher, NewBlockCipher};

    #[derive(Debug)]
    pub struct InvalidLength;

    pub trait KeySizeUser {
        type Key;
    }

    impl KeySizeUser for Aes128 {
        type Key = [u8; 16];
    }

    pub type Key<A> = <A as KeySizeUser>::Key;

    pub trait KeyInit: Sized {
        fn new_from_slice(key: &[u8]) -> Result<Self, InvalidLength>;
    }

    impl KeyInit for Aes128 {
        fn new_from_slice(key: &[u8]) -> Result<Self, InvalidLength> {
            debian::Aes128::new_varkey(key).map(Aes128).map_err(|_| InvalidLength)
        }
    }

    pub trait BlockEncrypt {
        fn encrypt_block(&self, block: &mut [u8; 16]);
    }

    impl BlockEncrypt for Aes128 {
        fn encrypt_block(&self, block: &mut [u8; 16]) {
            self.0.encrypt_block(block.into());
        }
    }
}
