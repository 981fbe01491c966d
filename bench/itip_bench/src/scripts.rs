//! Scripts for the program to be measured with: takes, and desks that exchange everything.

use crate::error::BenchError;
use crate::load::{Numbers, SEED, message};
use std::alloc::Global;

/// Prints a script of so many takes.
pub(crate) fn print_takes<R: AllocGlobal + Print>(rt: &R, takes: u64) -> Result<(), BenchError> {
    let mut numbers = Numbers::of_seed(SEED);
    rt.println(taking(rt.alloc(), takes, 1, &mut numbers)?.as_str())?;
    Ok(())
}

/// Prints a script in which eight desks, of so many to-dos each, exchange everything with everybody twice.
pub(crate) fn print_exchange<R: AllocGlobal + Print>(rt: &R, each: u64) -> Result<(), BenchError> {
    let mut numbers = Numbers::of_seed(SEED);
    rt.println(exchanging(rt.alloc(), each, &mut numbers)?.as_str())?;
    Ok(())
}

/// A script in which eight desks take so many to-dos each, and then exchange everything twice.
fn exchanging(alloc: Global, each: u64, numbers: &mut Numbers) -> Result<String, BenchError> {
    let mut script = taking(alloc, each.saturating_mul(8), 8, numbers)?;
    exchange(alloc, &mut script, 0)?;
    exchange(alloc, &mut script, 8)?;
    Ok(script)
}

/// A script of so many takes, by so many desks in turn.
fn taking(
    alloc: Global,
    takes: u64,
    desks: u64,
    numbers: &mut Numbers,
) -> Result<String, BenchError> {
    let mut script = String::new(alloc);
    for number in 0..takes {
        let desk = number.checked_rem(desks).unwrap_or(0);
        take(alloc, &mut script, desk, number, numbers)?;
    }
    Ok(script)
}

fn take(
    alloc: Global,
    script: &mut String,
    desk: u64,
    number: u64,
    numbers: &mut Numbers,
) -> Result<(), BenchError> {
    let command = format!(in alloc; "!take {desk}\n")?;
    script.push_str(command.as_str())?;
    script.push_str(message(alloc, number, numbers)?.as_str())?;
    Ok(())
}

/// Each of eight desks posts all that it has, and each packet arrives at each desk.
fn exchange(alloc: Global, script: &mut String, first: u64) -> Result<(), BenchError> {
    for desk in 0..8u64 {
        script.push_str(format!(in alloc; "!post {desk} 0\n")?.as_str())?;
    }
    for packet in 0..8u64 {
        arrive(alloc, script, packet.saturating_add(first))?;
    }
    Ok(())
}

/// A packet arrives at each of eight desks.
fn arrive(alloc: Global, script: &mut String, packet: u64) -> Result<(), BenchError> {
    for desk in 0..8u64 {
        script.push_str(format!(in alloc; "!arrive {packet} {desk}\n")?.as_str())?;
    }
    Ok(())
}
