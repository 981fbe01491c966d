//! Calls about scripts: cutting, reading, running, and writing what they answer.

use crate::commands::commands;
use crate::error::CallError;
use crate::narrow::Narrow;
use crate::pieces::Pieces;
use crate::texts::{count, text, year};
use itip_script::read_script;
use itip_streams::{StreamFault, write_output};
use itip_world::run_script;
use std::alloc::{AllocError, Global};

pub(crate) fn answer(
    alloc: Global,
    word: &str,
    arguments: &[Vec<u8>],
) -> Result<Vec<u8>, CallError> {
    match (word, arguments) {
        ("commands", [script]) => commands(alloc, script),
        ("read_script", [step, fails_at, script]) => {
            let reader = Pieces::new(script, count(step)?, count(fails_at)?);
            read(alloc, reader)
        }
        ("write_output", [step, room, fails, output]) => {
            let writer = Narrow::new(alloc, count(step)?, count(room)?, truth(fails)?);
            write(alloc, writer, output)
        }
        ("run_script", [pieces @ .., desks, script]) => {
            run_in_pieces(alloc, pieces, count(desks)?, script)
        }
        ("fault", [name]) => fault(alloc, text(name)?),
        _ => Err(CallError::NoSuchCall),
    }
}

fn truth(argument: &[u8]) -> Result<bool, CallError> {
    match text(argument)? {
        "true" => Ok(true),
        "false" => Ok(false),
        _ => Err(CallError::NoSuchCall),
    }
}

/// The script that is read, or `too long`.
fn read(alloc: Global, mut reader: Pieces<'_>) -> Result<Vec<u8>, CallError> {
    match read_script(alloc, &mut reader)? {
        Some(script) => Ok(script),
        None => Ok(String::from_str(alloc, "too long")?.into_bytes()),
    }
}

/// Whether all was written, and what the writer holds.
fn write(alloc: Global, mut writer: Narrow, output: &[u8]) -> Result<Vec<u8>, CallError> {
    let outcome = match write_output(&mut writer, output) {
        Ok(()) => String::from_str(alloc, "written")?,
        Err(fault) => format!(in alloc; "{fault:?}")?,
    };
    held(outcome, writer)
}

/// An outcome, and below it what a writer holds.
fn held(outcome: String, writer: Narrow) -> Result<Vec<u8>, CallError> {
    let mut told = outcome.into_bytes();
    told.push(b'\n')?;
    told.extend_from_slice(writer.held.as_slice())?;
    Ok(told)
}

/// Runs a script that is read and written in pieces: the octets of a read, the read that fails, the octets of a write, and the room.
fn run_in_pieces(
    alloc: Global,
    pieces: &[Vec<u8>],
    desks: usize,
    script: &[u8],
) -> Result<Vec<u8>, CallError> {
    let [step, fails_at, write_step, room] = pieces else {
        return Err(CallError::NoSuchCall);
    };
    let reader = Pieces::new(script, count(step)?, count(fails_at)?);
    let writer = Narrow::new(alloc, count(write_step)?, count(room)?, true);
    run(alloc, reader, writer, desks)
}

/// Whether something was refused, or the fault, and below it what was written. The window is the year 2026.
fn run(
    alloc: Global,
    mut reader: Pieces<'_>,
    mut writer: Narrow,
    desks: usize,
) -> Result<Vec<u8>, CallError> {
    if desks < 1 || desks > 16 {
        return Err(CallError::NoSuchCall);
    }
    let outcome = match run_script(alloc, &mut reader, &mut writer, desks, year()?) {
        Ok(is_refused) => format!(in alloc; "refusal {is_refused}")?,
        Err(fault) => format!(in alloc; "{fault:?}")?,
    };
    held(outcome, writer)
}

/// The text of a fault.
fn fault(alloc: Global, name: &str) -> Result<Vec<u8>, CallError> {
    let fault = match name {
        "read" => StreamFault::Read,
        "write" => StreamFault::Write,
        "memory" => StreamFault::from(AllocError),
        _ => return Err(CallError::NoSuchCall),
    };
    Ok(format!(in alloc; "{fault}")?.into_bytes())
}
