//! Makes calls of the crates from content lines to scripts, and shows what they answer.
//!
//! A line of standard input is a call: its word, and after it the arguments in hexadecimal (`-` for an empty one), with a
//! blank before each. A line of standard output is the answer to it, in hexadecimal. A fault is an answer too, by its name,
//! and so is `no such call`. `tools/calls` sends the calls of `examples/calls/itip_calls` and compares what is answered.
//!
//! `topics` has the words of all calls, and each other file the calls of one topic. None of this is proved: it is text that
//! `rt try` runs over the proved crates.
#![tactic(auto)]

mod agree;
mod batches;
mod call;
mod commands;
mod deltas;
mod desks;
mod error;
mod events;
mod joins;
mod kept;
mod library;
mod lines;
mod maps;
mod messages;
mod moments;
mod narrow;
mod orders;
mod pieces;
mod reports;
mod rules;
mod scripts;
mod series;
mod states;
mod texts;
mod todos;
mod topics;
mod views;
mod worlds;

use crate::error::CallError;
use crate::topics::answer;
use std::io::{BufRead, BufReader};
use std::process::ExitCode;
use std::thread::Threads;

fn main(rt: HostRuntime) -> ExitCode {
    match run(&rt) {
        Ok(()) => ExitCode::SUCCESS,
        Err(error) => {
            let _ = eprintln!(rt; "itip_calls: {error}");
            ExitCode::from(2)
        }
    }
}

fn run<R: AllocGlobal + Input + Print + Threads + Sync>(rt: &R) -> Result<(), CallError> {
    let alloc = rt.alloc();
    for line in BufReader::new(alloc, rt.reader())?.lines(alloc) {
        let line = line?;
        let answer = answer(rt, line.as_str())?;
        rt.println(hex::encode(alloc, answer)?.as_str())?;
    }
    Ok(())
}
