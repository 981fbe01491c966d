//! Calls about deltas.

use crate::error::CallError;
use crate::texts::{batch, truth};
use itip_desk::{read_delta, write_delta};
use std::alloc::Global;

pub(crate) fn answer(
    alloc: Global,
    word: &str,
    arguments: &[Vec<u8>],
) -> Result<Vec<u8>, CallError> {
    match (word, arguments) {
        ("read_delta", [octets]) => items(alloc, octets),
        ("read_back", [text]) => read_back(alloc, text),
        _ => Err(CallError::NoSuchCall),
    }
}

/// How many items a delta has.
fn items(alloc: Global, octets: &[u8]) -> Result<Vec<u8>, CallError> {
    let count = read_delta(alloc, octets)?.as_slice().len();
    Ok(format!(in alloc; "{count}")?.into_bytes())
}

/// Whether the batch of a message is read from the delta that it is written as.
fn read_back(alloc: Global, text: &[u8]) -> Result<Vec<u8>, CallError> {
    let batch = batch(alloc, text)?;
    let again = read_delta(alloc, &write_delta(alloc, &batch)?)?;
    truth(alloc, again.as_slice() == batch.as_slice())
}
