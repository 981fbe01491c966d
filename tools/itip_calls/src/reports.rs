//! `report NAME ..`: the reports of what is kept of messages.

use crate::error::CallError;
use crate::texts::{shown, state, text};
use crate::views::{rows_of, window};
use itip_report::{
    cancelled, load_by_attendee, next_seq, orphans, progress, refresh_wanted, resend,
};
use itip_todo::Uid;
use std::alloc::Global;

pub(crate) fn answer(alloc: Global, arguments: &[Vec<u8>]) -> Result<Vec<u8>, CallError> {
    let [name, rest @ ..] = arguments else {
        return Err(CallError::NoSuchCall);
    };
    match (text(name)?, rest) {
        ("cancelled", texts) => lines(alloc, &cancelled(alloc, &state(alloc, texts)?)?),
        ("orphans", texts) => lines(alloc, &orphans(alloc, &state(alloc, texts)?)?),
        ("refresh", texts) => lines(alloc, &refresh_wanted(alloc, &state(alloc, texts)?)?),
        ("load", [from, to, texts @ ..]) => {
            let rows = rows_of(alloc, window(from, to)?, texts)?;
            lines(alloc, &load_by_attendee(alloc, &rows)?)
        }
        ("progress", [from, to, texts @ ..]) => {
            let rows = rows_of(alloc, window(from, to)?, texts)?;
            lines(alloc, &progress(alloc, &rows)?)
        }
        ("resend", [uid, texts @ ..]) => sent(alloc, uid, texts),
        ("next", [uid, texts @ ..]) => next(alloc, uid, texts),
        _ => Err(CallError::NoSuchCall),
    }
}

/// These lines, each with the line feed that ends it.
fn lines(alloc: Global, lines: &[String]) -> Result<Vec<u8>, CallError> {
    let mut told = String::new(alloc);
    for line in lines {
        told.push_str(line.as_str())?;
        told.push_str("\n")?;
    }
    Ok(told.into_bytes())
}

/// What is sent again of a UID, or `none`.
fn sent(alloc: Global, uid: &[u8], texts: &[Vec<u8>]) -> Result<Vec<u8>, CallError> {
    let uid = Uid::copy(alloc, text(uid)?)?;
    match resend(alloc, &state(alloc, texts)?, &uid)? {
        Some(octets) => Ok(octets),
        None => Ok(shown(alloc, None)?.into_bytes()),
    }
}

/// The next sequence of a UID, or `none`.
fn next(alloc: Global, uid: &[u8], texts: &[Vec<u8>]) -> Result<Vec<u8>, CallError> {
    let uid = Uid::copy(alloc, text(uid)?)?;
    let found = next_seq(&state(alloc, texts)?, &uid);
    Ok(shown(alloc, found)?.into_bytes())
}
