//! How the events of a world are written: `deliver 0 TEXT`, `post 0 2` and `arrive 1 0`.

use crate::error::CallError;
use crate::texts::{count, number, text};
use itip_lines::Bytes;
use itip_world::Event;
use std::alloc::Global;

/// The events that these arguments spell.
pub(crate) fn events(alloc: Global, arguments: &[Vec<u8>]) -> Result<Vec<Event>, CallError> {
    let mut events = Vec::new(alloc);
    for argument in arguments {
        events.push(event(alloc, argument)?)?;
    }
    Ok(events)
}

fn event(alloc: Global, argument: &[u8]) -> Result<Event, CallError> {
    let (word, rest) = cut(argument);
    let (first, second) = cut(rest);
    let first = count(first)?;
    match text(word)? {
        "deliver" => Ok(Event::Deliver {
            desk: first,
            bytes: Bytes::new(Vec::from_slice(alloc, second)?),
        }),
        "post" => Ok(Event::Post {
            desk: first,
            since: number(second)?,
        }),
        "arrive" => Ok(Event::Arrive {
            packet: first,
            desk: count(second)?,
        }),
        _ => Err(CallError::NoSuchCall),
    }
}

/// What is before the first blank, and what is after it.
fn cut(octets: &[u8]) -> (&[u8], &[u8]) {
    match octets.iter().position(|octet| *octet == b' ') {
        Some(place) => (&octets[..place], &octets[place + 1..]),
        None => (octets, &[]),
    }
}
