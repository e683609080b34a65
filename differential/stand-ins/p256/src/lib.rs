//! Stands for the crate `p256`: names only. The curve serves Secure Connections, which legacy
//! pairing never calls; a call here would panic and be reported.

use rand_core::RngCore;

pub struct FieldBytes([u8; 32]);

impl From<[u8; 32]> for FieldBytes {
    fn from(octets: [u8; 32]) -> Self {
        Self(octets)
    }
}

impl AsRef<[u8; 32]> for FieldBytes {
    fn as_ref(&self) -> &[u8; 32] {
        &self.0
    }
}

#[derive(Clone)]
pub struct NonZeroScalar;

impl NonZeroScalar {
    pub fn random<T: RngCore>(_: &mut T) -> Self {
        unimplemented!()
    }
}

pub struct AffinePoint;

#[derive(PartialEq)]
pub struct PublicKey;

impl PublicKey {
    pub fn from_secret_scalar(_: &NonZeroScalar) -> Self {
        unimplemented!()
    }

    pub fn as_affine(&self) -> &AffinePoint {
        unimplemented!()
    }
}

pub struct EncodedPoint;

impl EncodedPoint {
    pub fn from_affine_coordinates(_: &FieldBytes, _: &FieldBytes, _: bool) -> Self {
        unimplemented!()
    }

    pub fn coordinates(&self) -> elliptic_curve::sec1::Coordinates<'_> {
        unimplemented!()
    }
}

pub mod elliptic_curve {
    pub mod sec1 {
        use crate::{EncodedPoint, FieldBytes, PublicKey};

        pub enum Coordinates<'a> {
            Identity,
            Uncompressed { x: &'a FieldBytes, y: &'a FieldBytes },
        }

        pub trait ToEncodedPoint {
            fn to_encoded_point(&self, compress: bool) -> EncodedPoint;
        }

        impl ToEncodedPoint for PublicKey {
            fn to_encoded_point(&self, _: bool) -> EncodedPoint {
                unimplemented!()
            }
        }

        pub trait FromEncodedPoint: Sized {
            fn from_encoded_point(point: &EncodedPoint) -> Option<Self>;
        }

        impl FromEncodedPoint for PublicKey {
            fn from_encoded_point(_: &EncodedPoint) -> Option<Self> {
                unimplemented!()
            }
        }
    }
}

pub mod ecdh {
    use crate::{AffinePoint, NonZeroScalar};

    #[derive(Clone, Copy)]
    pub struct Secret([u8; 32]);

    impl From<Secret> for [u8; 32] {
        fn from(secret: Secret) -> Self {
            secret.0
        }
    }

    pub struct SharedSecret(Secret);

    impl From<Secret> for SharedSecret {
        fn from(secret: Secret) -> Self {
            Self(secret)
        }
    }

    impl SharedSecret {
        pub fn raw_secret_bytes(&self) -> &Secret {
            &self.0
        }
    }

    pub fn diffie_hellman(_: &NonZeroScalar, _: &AffinePoint) -> SharedSecret {
        unimplemented!()
    }
}
