//! Calls of `itip_lines`.
//!
//! - `read_lines TEXT`: of each line the name, the parameters with their values and the value, with a bar after each line
//! - `count_lines TEXT`: how many lines are read
//! - `write_lines BEFORE TEXT`: what is in a vector that held BEFORE once the lines of TEXT are written to it
//! - `show_bad_line NUMBER`, `show_no_memory_for_lines`: what these errors say

use crate::error::CallError;
use crate::texts::count;
use itip_lines::{LineCause, LineError, LineRefusal, SeenLine, read_lines, write_line};
use std::alloc::{AllocError, Global};

pub(crate) fn answer(
    alloc: Global,
    word: &str,
    arguments: &[Vec<u8>],
) -> Result<Vec<u8>, CallError> {
    match (word, arguments) {
        ("read_lines", [text]) => read(alloc, text),
        ("count_lines", [text]) => counted(alloc, text),
        ("write_lines", [before, text]) => written(alloc, before, text),
        ("show_bad_line", [number]) => { bad_line(alloc, count(number)?) }
        ("show_no_memory_for_lines", []) => error(alloc, &LineError::NoMemory),
        _ => Err(CallError::NoSuchCall),
    }
}

fn read(alloc: Global, text: &[u8]) -> Result<Vec<u8>, CallError> {
    let mut out = String::new(alloc);
    for line in &read_lines(alloc, text)? {
        show(&line.line, &mut out)?;
    }
    Ok(out.into_bytes())
}

fn show(line: &SeenLine<'_>, out: &mut String) -> Result<(), AllocError> {
    out.push_str(line.name())?;
    show_params(line.params(), out)?;
    out.push_str(" ")?;
    out.push_str(line.value())?;
    out.push_str("|")
}

/// Each parameter behind a blank, and each of its values behind `=`, without quotes.
fn show_params(params: &str, out: &mut String) -> Result<(), AllocError> {
    let mut quoted = false;
    for c in params.chars() {
        match c {
            '"' => quoted = !quoted,
            ';' if !quoted => out.push(' ')?,
            ',' if !quoted => out.push('=')?,
            _ => out.push(c)?,
        }
    }
    Ok(())
}

fn counted(alloc: Global, text: &[u8]) -> Result<Vec<u8>, CallError> {
    let count = read_lines(alloc, text)?.len();
    Ok(format!(in alloc; "{count}")?.into_bytes())
}

fn written(alloc: Global, before: &[u8], text: &[u8]) -> Result<Vec<u8>, CallError> {
    let mut out = Vec::from_slice(alloc, before)?;
    for line in &read_lines(alloc, text)? {
        write_line(&line.line.to_line(alloc)?, &mut out)?;
    }
    Ok(out)
}

fn bad_line(alloc: Global, number: usize) -> Result<Vec<u8>, CallError> {
    let refusal = LineRefusal {
        cause: LineCause::BadLine,
        line: Some(number),
    };
    error(alloc, &LineError::Refused(refusal))
}

fn error(alloc: Global, error: &LineError) -> Result<Vec<u8>, CallError> {
    Ok(format!(in alloc; "{error}")?.into_bytes())
}
