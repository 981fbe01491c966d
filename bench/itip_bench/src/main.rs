//! A benchmark: it makes its own input from a seed, and prints how long each thing took.
//!
//! The words are a topic and a size, as `messages 1000` or `joins 100000`; `takes` and `exchange` print a script for the
//! program. Without words it prints nothing.
#![tactic(auto)]

mod attendees;
mod beside;
mod desks;
mod error;
mod index;
mod joins;
mod lists;
mod load;
mod messages;
mod recurrence;
mod reports;
mod revisions;
mod running;
mod scripts;
mod threads;
mod watch;

use crate::attendees::measure_attendees;
use crate::desks::measure_desks;
use crate::error::BenchError;
use crate::index::measure_index;
use crate::joins::measure_joins;
use crate::lists::measure_lists;
use crate::messages::measure_messages;
use crate::recurrence::measure_recurrence;
use crate::reports::measure_reports;
use crate::running::measure_running;
use crate::scripts::{print_exchange, print_takes};
use crate::threads::measure_threads;
use std::env;
use std::process::ExitCode;
use std::rt::{Clock, Env};
use std::sync::Wait;
use std::thread::Threads;

fn main(rt: HostRuntime) -> ExitCode {
    match run(&rt) {
        Ok(()) => ExitCode::SUCCESS,
        Err(error) => {
            let _ = eprintln!(rt; "itip_bench: {error}");
            ExitCode::FAILURE
        }
    }
}

fn run<R: AllocGlobal + Clock + Env + Print + Threads + Wait + Sync>(
    rt: &R,
) -> Result<(), BenchError> {
    let mut words = env::args(rt).map_err(|_| BenchError::Words)?.skip(1);
    let Some(topic) = words.next() else {
        return Ok(());
    };
    let Some(size) = words.next() else {
        return Err(BenchError::Words);
    };
    let size = size.as_str().parse().map_err(|_| BenchError::Words)?;
    match topic.as_str() {
        "messages" => measure_messages(rt, size),
        "joins" => measure_joins(rt, size),
        "attendees" => measure_attendees(rt, size),
        "threads" => measure_threads(rt, size),
        "recurrence" => measure_recurrence(rt, size),
        "desks" => measure_desks(rt, size),
        "lists" => measure_lists(rt, size),
        "index" => measure_index(rt, size),
        "reports" => measure_reports(rt, size),
        "running" => measure_running(rt, size),
        "takes" => print_takes(rt, size),
        "exchange" => print_exchange(rt, size),
        _ => Err(BenchError::Words),
    }
}
