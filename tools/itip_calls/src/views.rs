//! Calls about windows and lists.

use crate::error::CallError;
use crate::texts::{day, items, state, text};
use itip_todo::Uid;
use itip_view::{Row, Window, write_list};
use std::alloc::Global;

pub(crate) fn answer(
    alloc: Global,
    word: &str,
    arguments: &[Vec<u8>],
) -> Result<Vec<u8>, CallError> {
    match (word, arguments) {
        ("count_items", texts) => Ok(count(alloc, items(alloc, texts)?.len())?),
        ("window", [from, to, days @ ..]) => has(alloc, window(from, to)?, days),
        ("rows", [from, to, texts @ ..]) => {
            count(alloc, rows_of(alloc, window(from, to)?, texts)?.len())
        }
        ("rows_of", [uid, address, from, to, texts @ ..]) => {
            list_of(alloc, text(uid)?, address, window(from, to)?, texts)
        }
        ("list", [front, from, to, texts @ ..]) => list(alloc, front, window(from, to)?, texts),
        _ => Err(CallError::NoSuchCall),
    }
}

pub(crate) fn window(from: &[u8], to: &[u8]) -> Result<Window, CallError> {
    Ok(Window::new(day(from)?, day(to)?)?)
}

pub(crate) fn rows_of(
    alloc: Global,
    window: Window,
    texts: &[Vec<u8>],
) -> Result<Vec<Row>, CallError> {
    let state = state(alloc, texts)?;
    Ok(itip_view::rows(alloc, &state, window)?)
}

fn count(alloc: Global, count: usize) -> Result<Vec<u8>, CallError> {
    Ok(format!(in alloc; "{count}")?.into_bytes())
}

/// The window, and whether it has each of these days; `-` stands for no day.
fn has(alloc: Global, window: Window, days: &[Vec<u8>]) -> Result<Vec<u8>, CallError> {
    let from = window.from;
    let to = window.to;
    let mut told = format!(in alloc; "{from} {to}")?;
    for number in days {
        let has = window.has(maybe_day(number)?);
        told.push_str(format!(in alloc; " {has}")?.as_str())?;
    }
    Ok(told.into_bytes())
}

fn maybe_day(argument: &[u8]) -> Result<Option<i32>, CallError> {
    if text(argument)? == "-" {
        return Ok(None);
    }
    Ok(Some(day(argument)?))
}

/// The list of one UID, all of it or the rows that show an attendee; an empty address is none.
fn list_of(
    alloc: Global,
    uid: &str,
    address: &[u8],
    window: Window,
    texts: &[Vec<u8>],
) -> Result<Vec<u8>, CallError> {
    let uid = Uid::copy(alloc, uid)?;
    let shown = match text(address)? {
        "" => None,
        address => Some(address),
    };
    let state = state(alloc, texts)?;
    let rows = itip_view::rows_of(alloc, &state, &uid, window, shown)?;
    let mut out = Vec::new(alloc);
    write_list(&rows, &mut out)?;
    Ok(out)
}

/// A list after what was there before.
fn list(
    alloc: Global,
    front: &[u8],
    window: Window,
    texts: &[Vec<u8>],
) -> Result<Vec<u8>, CallError> {
    let mut out = Vec::from_slice(alloc, front)?;
    let rows = rows_of(alloc, window, texts)?;
    write_list(&rows, &mut out)?;
    Ok(out)
}
