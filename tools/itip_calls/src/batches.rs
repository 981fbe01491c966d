//! Batches of items about a few to-dos, made from a seed: few names, so that items meet, die and tie.

use crate::error::CallError;
use itip_items::Item;
use itip_message::read_message;
use std::alloc::Global;

/// Numbers that look random, and are the same for the same seed (the generator of Knuth's MMIX).
#[derive(Drop)]
pub(crate) struct Numbers {
    state: u64,
}

impl Numbers {
    pub(crate) fn of_seed(seed: u64) -> Numbers {
        Numbers { state: seed }
    }

    /// The next number, below `limit`; 0 where the limit is 0.
    pub(crate) fn below(&mut self, limit: u64) -> u64 {
        self.state = self
            .state
            .wrapping_mul(6_364_136_223_846_793_005)
            .wrapping_add(1_442_695_040_888_963_407);
        (self.state >> 33).checked_rem(limit).unwrap_or(0)
    }
}

/// Three batches of no items to seven.
pub(crate) fn three_batches(
    alloc: Global,
    numbers: &mut Numbers,
) -> Result<[Vec<Item>; 3], CallError> {
    Ok([
        batch(alloc, numbers)?,
        batch(alloc, numbers)?,
        batch(alloc, numbers)?,
    ])
}

fn batch(alloc: Global, numbers: &mut Numbers) -> Result<Vec<Item>, CallError> {
    let mut items = Vec::new(alloc);
    for _ in 0..numbers.below(8) {
        let text = message(alloc, numbers)?;
        let mut more = read_message(alloc, text.as_bytes())?;
        items.append(&mut more)?;
    }
    Ok(items)
}

/// A message about one of two to-dos, of one of the five methods.
fn message(alloc: Global, numbers: &mut Numbers) -> Result<String, CallError> {
    let about = about(alloc, numbers)?;
    let day = numbers.below(2).saturating_add(5);
    let name = numbers.below(2);
    let kind = numbers.below(10);
    let method = method_of(kind);
    let lines = lines_of(alloc, kind, day, name)?;
    Ok(format!(in alloc;
        "BEGIN:VCALENDAR\nVERSION:2.0\nMETHOD:{method}\nBEGIN:VTODO\n{about}{lines}END:VTODO\nEND:VCALENDAR\n"
    )?)
}

/// The lines that name a to-do and its revision.
fn about(alloc: Global, numbers: &mut Numbers) -> Result<String, CallError> {
    let uid = numbers.below(2);
    let sequence = numbers.below(4);
    let minute = numbers.below(3);
    Ok(format!(in alloc; "UID:u{uid}\nSEQUENCE:{sequence}\nDTSTAMP:20260101T090{minute}00Z\n")?)
}

fn method_of(kind: u64) -> &'static str {
    match kind {
        2 | 3 | 7 => "CANCEL",
        4 => "ADD",
        5 | 6 => "REPLY",
        8 => "REFRESH",
        _ => "REQUEST",
    }
}

/// The other lines of a to-do.
fn lines_of(alloc: Global, kind: u64, day: u64, name: u64) -> Result<String, CallError> {
    if let 0 | 2 | 5 | 7 | 8 = kind {
        return lines_of_series(alloc, kind, name);
    }
    Ok(match kind {
        1 => format!(in alloc; "RECURRENCE-ID:2026010{day}\nSUMMARY:{name}\n")?,
        3 => format!(in alloc; "RECURRENCE-ID:2026010{day}\n")?,
        4 => format!(in alloc; "DTSTART:2026010{day}\n")?,
        6 => format!(in alloc; "RECURRENCE-ID:2026010{day}\nATTENDEE;PARTSTAT=DECLINED:{name}\n")?,
        _ => format!(in alloc; "RECURRENCE-ID:2026010{day}\nX-DESK-BASE:{name}\n")?,
    })
}

fn lines_of_series(alloc: Global, kind: u64, name: u64) -> Result<String, CallError> {
    match kind {
        0 | 2 => Ok(format!(in alloc; "SUMMARY:{name}\n")?),
        _ => Ok(format!(in alloc; "ATTENDEE:{name}\n")?),
    }
}
