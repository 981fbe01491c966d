//! Calls of `itip_message`.
//!
//! - `read_message TEXT`: the canonical octets of the items, one after the other
//! - `items TEXT`: of each item the kind, the own and the effective sequence, X-DESK-BASE, and how many canonical octets
//!   it has, with a semicolon after it
//! - `read_all TEXT ..`: of each text how many items it has, or its fault, with blanks between, from many threads
//! - `parted PLACE TEXT`: how many octets the first part has, where the text is parted between messages behind a place, or `None`

use crate::error::{CallError, ShownMessage};
use crate::texts::count;
use itip_items::{Item, write_item};
use itip_message::{ReadError, part_messages, read_message};
use itip_reading::read_all;
use std::alloc::{AllocError, Global};
use std::thread::Threads;

pub(crate) fn answer<R: AllocGlobal + Threads + Sync>(
    rt: &R,
    word: &str,
    arguments: &[Vec<u8>],
) -> Result<Vec<u8>, CallError> {
    match (word, arguments) {
        ("read_message", [text]) => canonical(rt.alloc(), text),
        ("items", [text]) => listed(rt.alloc(), text),
        ("read_all", texts) => all_read(rt, texts),
        ("parted", [place, text]) => parted(rt.alloc(), count(place)?, text),
        _ => Err(CallError::NoSuchCall),
    }
}

fn canonical(alloc: Global, text: &[u8]) -> Result<Vec<u8>, CallError> {
    let mut out = Vec::new(alloc);
    for item in &read_message(alloc, text)? {
        out.extend_from_slice(write_item(alloc, item)?.as_slice())?;
    }
    Ok(out)
}

fn listed(alloc: Global, text: &[u8]) -> Result<Vec<u8>, CallError> {
    let mut out = String::new(alloc);
    for item in &read_message(alloc, text)? {
        show(alloc, item, &mut out)?;
    }
    Ok(out.into_bytes())
}

fn show(alloc: Global, item: &Item, out: &mut String) -> Result<(), AllocError> {
    let octets = write_item(alloc, item)?.len();
    let (kind, own, eff, base) = (item.kind, item.own, item.eff, item.todo.base);
    out.push_str(format!(in alloc; "{kind:?} {own} {eff} {base:?} {octets};")?.as_str())
}

fn all_read<R: AllocGlobal + Threads + Sync>(
    rt: &R,
    texts: &[Vec<u8>],
) -> Result<Vec<u8>, CallError> {
    let mut out = String::new(rt.alloc());
    for answer in &read_all(rt, rt.alloc(), texts)? {
        if !out.is_empty() {
            out.push_str(" ")?;
        }
        out.push_str(counted(rt.alloc(), answer)?.as_str())?;
    }
    Ok(out.into_bytes())
}

fn parted(alloc: Global, place: usize, text: &[u8]) -> Result<Vec<u8>, CallError> {
    match part_messages(text, place) {
        Some((front, _)) => {
            let octets = front.len();
            Ok(format!(in alloc; "{octets}")?.into_bytes())
        }
        None => Ok(Vec::from_slice(alloc, b"None")?),
    }
}

fn counted(alloc: Global, answer: &Result<Vec<Item>, ReadError>) -> Result<String, CallError> {
    match answer {
        Ok(items) => {
            let count = items.len();
            Ok(format!(in alloc; "{count}")?)
        }
        Err(ReadError::Refused(refusal)) => {
            let shown = ShownMessage(*refusal);
            Ok(format!(in alloc; "{shown}")?)
        },
        Err(ReadError::NoMemory) => Err(CallError::NoMemory),
    }
}
