//! Stands for the crate `embassy-time`: a clock that stands still. The machines keep a time at
//! which pairing runs out; no step reads it.

#[derive(Debug, Clone, Copy, PartialEq, Eq)]
pub struct Duration;

#[derive(Debug, Clone, Copy, PartialEq, Eq)]
pub struct Instant;

impl Instant {
    pub const fn now() -> Self {
        Self
    }
}

impl core::ops::Add<Duration> for Instant {
    type Output = Self;
    fn add(self, _: Duration) -> Self {
        self
    }
}
