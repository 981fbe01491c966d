//! The time that something took.

use crate::error::BenchError;
use std::rt::Clock;
use std::time::Instant;

pub(crate) fn now<R: Clock>(rt: &R) -> Result<Instant, BenchError> {
    Ok(Instant::now(rt)?)
}

pub(crate) fn micros<R: Clock>(rt: &R, start: Instant) -> Result<u128, BenchError> {
    Ok(start.elapsed(rt)?.as_micros())
}
