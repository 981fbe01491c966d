//! Calls about one desk that takes messages, each a batch; an empty text is a batch of nothing.

use crate::error::CallError;
use crate::texts::{batch, number, text};
use crate::views::window;
use itip_desk::{Batch, Changed, Desk, DeskError};
use itip_todo::Uid;
use itip_view::Window;
use std::alloc::Global;

pub(crate) fn answer(
    alloc: Global,
    word: &str,
    arguments: &[Vec<u8>],
) -> Result<Vec<u8>, CallError> {
    match (word, arguments) {
        ("takes", [tick, texts @ ..]) => takes(alloc, number(tick)?, texts),
        ("counts", texts) => Ok(counts(alloc, &desk_after(alloc, texts)?)?.into_bytes()),
        ("in_orders", [orders, texts @ ..]) => in_orders(alloc, text(orders)?, texts),
        ("shown", [from, to, texts @ ..]) => shown(alloc, window(from, to)?, texts),
        ("shown_to", [address, from, to, texts @ ..]) => {
            shown_to(alloc, text(address)?, window(from, to)?, texts)
        }
        ("found_in", [from, to, texts @ ..]) => found_in(alloc, window(from, to)?, texts),
        ("found_for", [address, texts @ ..]) => found_for(alloc, text(address)?, texts),
        ("since", [tick, texts @ ..]) => since(alloc, number(tick)?, texts),
        _ => Err(CallError::NoSuchCall),
    }
}

/// A desk that has taken these messages.
pub(crate) fn desk_after(alloc: Global, texts: &[Vec<u8>]) -> Result<Desk, CallError> {
    let mut desk = Desk::empty_at(alloc, 0);
    for text in texts {
        take(&mut desk, &batch(alloc, text)?)?;
    }
    Ok(desk)
}

fn take(desk: &mut Desk, batch: &Batch) -> Result<(), CallError> {
    desk.take(batch)?;
    Ok(())
}

/// What comes of each take, and the desk after it.
fn takes(alloc: Global, tick: u64, texts: &[Vec<u8>]) -> Result<Vec<u8>, CallError> {
    let mut desk = Desk::empty_at(alloc, tick);
    let mut told = String::new(alloc);
    for text in texts {
        told.push_str(taken(alloc, &mut desk, text)?.as_str())?;
        told.push_str(counts(alloc, &desk)?.as_str())?;
    }
    Ok(told.into_bytes())
}

fn taken(alloc: Global, desk: &mut Desk, text: &[u8]) -> Result<String, CallError> {
    outcome(alloc, desk.take(&batch(alloc, text)?))
}

fn outcome(alloc: Global, taken: Result<Changed, DeskError>) -> Result<String, CallError> {
    match taken {
        Ok(changed) => {
            let tick = changed.tick;
            let moved = changed.uids.len();
            Ok(format!(in alloc; "moved {moved} at {tick}: ")?)
        }
        Err(fault) => Ok(format!(in alloc; "{fault:?}: ")?),
    }
}

/// The tick of a desk, and how many items it keeps.
fn counts(alloc: Global, desk: &Desk) -> Result<String, CallError> {
    let tick = desk.tick();
    let entries = desk.entries();
    Ok(format!(in alloc; "tick {tick} entries {entries}\n")?)
}

/// For each of these orders, as `012 210`, how many items a desk keeps that takes the messages so, and whether it keeps what a
/// desk keeps that takes them as they are given.
fn in_orders(alloc: Global, orders: &str, texts: &[Vec<u8>]) -> Result<Vec<u8>, CallError> {
    let told = desk_after(alloc, texts)?;
    let mut lines = String::new(alloc);
    for order in orders.split(' ') {
        let desk = desk_in_order(alloc, order, texts)?;
        let entries = desk.entries();
        let equal = desk.state().equal(told.state());
        lines.push_str(format!(in alloc; "entries {entries} equal {equal}\n")?.as_str())?;
    }
    Ok(lines.into_bytes())
}

fn desk_in_order(alloc: Global, order: &str, texts: &[Vec<u8>]) -> Result<Desk, CallError> {
    let mut desk = Desk::empty_at(alloc, 0);
    for digit in order.as_bytes() {
        let place = usize::from(digit.wrapping_sub(b'0'));
        let text = texts.get(place).ok_or(CallError::NoSuchCall)?;
        take(&mut desk, &batch(alloc, text)?)?;
    }
    Ok(desk)
}

/// The list of a desk.
fn shown(alloc: Global, window: Window, texts: &[Vec<u8>]) -> Result<Vec<u8>, CallError> {
    Ok(desk_after(alloc, texts)?.list(window)?)
}

/// The rows of a desk that show an attendee.
fn shown_to(
    alloc: Global,
    address: &str,
    window: Window,
    texts: &[Vec<u8>],
) -> Result<Vec<u8>, CallError> {
    Ok(desk_after(alloc, texts)?.list_for(window, address)?)
}

/// The UIDs that a desk looks at for the list of a window.
fn found_in(alloc: Global, window: Window, texts: &[Vec<u8>]) -> Result<Vec<u8>, CallError> {
    let desk = desk_after(alloc, texts)?;
    named(alloc, &desk.uids_in(window)?)
}

/// The UIDs that a desk looks at for the rows of an attendee.
fn found_for(alloc: Global, address: &str, texts: &[Vec<u8>]) -> Result<Vec<u8>, CallError> {
    let desk = desk_after(alloc, texts)?;
    named(alloc, &desk.uids_naming(address)?)
}

/// UIDs with a blank before each.
fn named(alloc: Global, uids: &[&Uid]) -> Result<Vec<u8>, CallError> {
    let mut told = String::new(alloc);
    for uid in uids {
        told.push_str(" ")?;
        told.push_str(uid.as_str())?;
    }
    Ok(told.into_bytes())
}

/// How many items the delta since a tick has.
fn since(alloc: Global, tick: u64, texts: &[Vec<u8>]) -> Result<Vec<u8>, CallError> {
    let delta = desk_after(alloc, texts)?.delta_since(tick)?;
    let count = delta.as_slice().len();
    Ok(format!(in alloc; "{count}")?.into_bytes())
}
