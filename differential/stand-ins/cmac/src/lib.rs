//! Stands for the crate `cmac`: names only. AES-CMAC serves Secure Connections, which legacy
//! pairing never calls; a call here would panic and be reported.

/// Stands for `cmac::Cmac`.
#[derive(Debug)]
pub struct Cmac<C>(core::marker::PhantomData<C>);

pub mod digest {
    use super::Cmac;

    pub struct Output([u8; 16]);

    impl AsRef<[u8; 16]> for Output {
        fn as_ref(&self) -> &[u8; 16] {
            &self.0
        }
    }

    pub trait KeyInit {
        fn new(key: &[u8; 16]) -> Self;
    }

    pub trait Update {
        fn update(&mut self, octets: &[u8]);
    }

    pub trait FixedOutput {
        fn finalize_fixed(self) -> Output;
    }

    pub trait FixedOutputReset {
        fn finalize_into_reset(&mut self, out: &mut [u8; 16]);
    }

    impl<C> KeyInit for Cmac<C> {
        fn new(_: &[u8; 16]) -> Self {
            unimplemented!()
        }
    }

    impl<C> Update for Cmac<C> {
        fn update(&mut self, _: &[u8]) {
            unimplemented!()
        }
    }

    impl<C> FixedOutput for Cmac<C> {
        fn finalize_fixed(self) -> Output {
            unimplemented!()
        }
    }

    impl<C> FixedOutputReset for Cmac<C> {
        fn finalize_into_reset(&mut self, _: &mut [u8; 16]) {
            unimplemented!()
        }
    }
}
