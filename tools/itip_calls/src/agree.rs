//! `agree SEED TRIALS`: compares what states and desks keep with the plain definition, on batches that are made from a seed.
//!
//! Each trial merges three batches in several orders, with repeats, and has desks take them so.

use crate::batches::{Numbers, three_batches};
use crate::error::CallError;
use crate::orders::agree;
use crate::texts::number;
use std::alloc::Global;

pub(crate) fn answer(alloc: Global, arguments: &[Vec<u8>]) -> Result<Vec<u8>, CallError> {
    let [seed, trials] = arguments else {
        return Err(CallError::NoSuchCall);
    };
    all_agree(alloc, number(seed)?, number(trials)?)
}

/// How many trials agree, and which differ.
fn all_agree(alloc: Global, seed: u64, trials: u64) -> Result<Vec<u8>, CallError> {
    let mut numbers = Numbers::of_seed(seed);
    let mut agreed: u64 = 0;
    let mut told = String::new(alloc);
    for trial in 0..trials {
        if agree(alloc, &three_batches(alloc, &mut numbers)?)? {
            agreed = agreed.saturating_add(1);
        } else {
            told.push_str(format!(in alloc; ", trial {trial} differs")?.as_str())?;
        }
    }
    Ok(format!(in alloc; "{agreed} agree{told}")?.into_bytes())
}
