//! Stands for codec.rs: the traits by which types.rs reads and writes feature records.

#[derive(Debug, Clone, Copy, PartialEq)]
pub enum Error {
    InsufficientSpace,
    InvalidValue,
}

pub trait Type {
    fn size(&self) -> usize;
}

pub trait Encode: Type {
    fn encode(&self, dest: &mut [u8]) -> Result<(), Error>;
}

pub trait Decode<'a>: Sized {
    fn decode(source: &'a [u8]) -> Result<Self, Error>;
}
