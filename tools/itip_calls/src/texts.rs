//! What arguments say: texts, numbers and messages.

use crate::error::CallError;
use itip_desk::Batch;
use itip_items::Item;
use itip_message::read_message;
use itip_state::State;
use itip_view::Window;
use std::alloc::Global;
use std::str;

/// The text of an argument. No call has one that is not UTF-8 where it takes a text.
pub(crate) fn text(argument: &[u8]) -> Result<&str, CallError> {
    str::from_utf8(argument).map_err(|_| CallError::NoSuchCall)
}

pub(crate) fn all_texts(alloc: Global, arguments: &[Vec<u8>]) -> Result<Vec<&str>, CallError> {
    let mut texts = Vec::new(alloc);
    for argument in arguments {
        texts.push(text(argument)?)?;
    }
    Ok(texts)
}

pub(crate) fn number(argument: &[u8]) -> Result<u64, CallError> {
    text(argument)?.parse().map_err(|_| CallError::NoSuchCall)
}

pub(crate) fn count(argument: &[u8]) -> Result<usize, CallError> {
    text(argument)?.parse().map_err(|_| CallError::NoSuchCall)
}

/// A day, counted from 1970-01-01.
pub(crate) fn day(argument: &[u8]) -> Result<i32, CallError> {
    text(argument)?.parse().map_err(|_| CallError::NoSuchCall)
}

/// The year 2026.
pub(crate) fn year() -> Result<Window, CallError> {
    Ok(Window::new(20_454, 20_819)?)
}

/// The items of these messages, in order.
pub(crate) fn items(alloc: Global, texts: &[Vec<u8>]) -> Result<Vec<Item>, CallError> {
    let mut items = Vec::new(alloc);
    for text in texts {
        let mut more = read_message(alloc, text.as_slice())?;
        items.append(&mut more)?;
    }
    Ok(items)
}

/// What is kept of these messages.
pub(crate) fn state(alloc: Global, texts: &[Vec<u8>]) -> Result<State, CallError> {
    Ok(State::of_items(alloc, &items(alloc, texts)?)?)
}

/// The batch of a message, or of nothing where the text is empty.
pub(crate) fn batch(alloc: Global, text: &[u8]) -> Result<Batch, CallError> {
    if text.is_empty() {
        return Ok(Batch::of_items(Vec::new(alloc))?);
    }
    Ok(Batch::of_items(read_message(alloc, text)?)?)
}

pub(crate) fn truth(alloc: Global, is_so: bool) -> Result<Vec<u8>, CallError> {
    Ok(format!(in alloc; "{is_so}")?.into_bytes())
}

/// A number as an answer, or `none`.
pub(crate) fn shown(alloc: Global, found: Option<u32>) -> Result<String, CallError> {
    match found {
        Some(number) => Ok(format!(in alloc; "{number}")?),
        None => Ok(String::from_str(alloc, "none")?),
    }
}
