//! Calls of `itip_todo`.
//!
//! - `read_todo TEXT`: the lines that the to-do with the lines of TEXT is written as, between BEGIN and END, with a bar
//!   for each break

use crate::error::CallError;
use itip_lines::read_lines;
use itip_todo::{Todo, read_todo, write_todo};
use std::alloc::Global;

pub(crate) fn answer(alloc: Global, texts: &[&str]) -> Result<Vec<u8>, CallError> {
    match texts {
        [text] => written(alloc, &to_do(alloc, text)?),
        _ => Err(CallError::NoSuchCall),
    }
}

/// The to-do with these lines.
pub(crate) fn to_do(alloc: Global, text: &str) -> Result<Todo, CallError> {
    let lines = read_lines(alloc, text.as_bytes())?;
    Ok(read_todo(alloc, &lines)?)
}

fn written(alloc: Global, todo: &Todo) -> Result<Vec<u8>, CallError> {
    let mut octets = Vec::new(alloc);
    write_todo(todo, &mut octets)?;
    let text = String::from_utf8(octets).map_err(|_| CallError::NoSuchCall)?;
    let mut out = String::new(alloc);
    for line in text.as_str().lines() {
        if line != "BEGIN:VTODO" && line != "END:VTODO" {
            out.push_str(line)?;
            out.push_str("|")?;
        }
    }
    Ok(out.into_bytes())
}
