//! Revisions of to-dos, in batches of 100.

use crate::error::BenchError;
use crate::load::stating;
use itip_desk::Batch;
use itip_message::read_message;
use std::alloc::Global;

/// How many items a batch has.
pub(crate) const ITEMS: u64 = 100;

/// So many revisions of each of 100 times so many to-dos, the first at this SEQUENCE.
pub(crate) fn revisions(
    alloc: Global,
    hundreds: u64,
    first: u64,
    rounds: u64,
) -> Result<Vec<Batch>, BenchError> {
    let mut batches = Vec::new(alloc);
    for round in 0..rounds {
        add_round(alloc, &mut batches, hundreds, first.saturating_add(round))?;
    }
    Ok(batches)
}

fn add_round(
    alloc: Global,
    batches: &mut Vec<Batch>,
    hundreds: u64,
    sequence: u64,
) -> Result<(), BenchError> {
    for hundred in 0..hundreds {
        batches.push(batch(alloc, hundred.saturating_mul(ITEMS), sequence)?)?;
    }
    Ok(())
}

/// Revisions of the 100 to-dos from this on.
fn batch(alloc: Global, first: u64, sequence: u64) -> Result<Batch, BenchError> {
    let mut items = Vec::new(alloc);
    for number in 0..ITEMS {
        let text = revision(alloc, first.saturating_add(number), sequence)?;
        items.append(&mut read_message(alloc, text.as_bytes())?)?;
    }
    Ok(Batch::of_items(items)?)
}

fn revision(alloc: Global, number: u64, sequence: u64) -> Result<String, BenchError> {
    let uid = format!(in alloc;
        "UID:to-do-{number}@example.com\r\nSEQUENCE:{sequence}\r\nDTSTAMP:20260102T090000Z\r\n"
    )?;
    Ok(stating(alloc, "REQUEST", uid.as_str(), "SUMMARY:Sweep\r\n")?)
}
