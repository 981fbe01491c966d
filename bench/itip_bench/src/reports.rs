//! Reports over to-dos, cancellations, answers without a to-do and refresh requests.

use crate::error::BenchError;
use crate::lists::{hear, stamped};
use crate::watch::{micros, now};
use itip_desk::Desk;
use itip_report::{cancelled, load_by_attendee, next_seq, orphans, refresh_wanted, resend};
use itip_state::State;
use itip_todo::Uid;
use itip_view::{RowsByUid, Wanted, Window};
use std::alloc::Global;
use std::rt::Clock;
use std::time::Instant;

/// Makes each report over about so many kept items.
pub(crate) fn measure_reports<R: AllocGlobal + Clock + Print>(
    rt: &R,
    entries: u64,
) -> Result<(), BenchError> {
    let desk = reported(rt.alloc(), entries)?;
    let state = desk.state();
    print_entries(rt, state.entries())?;
    measure_one(rt, state)?;
    measure_cancelled(rt, state)?;
    measure_orphans(rt, state)?;
    measure_refresh(rt, state)?;
    measure_load(rt, state)
}

fn print_entries<R: Print>(rt: &R, entries: usize) -> Result<(), BenchError> {
    println!(rt; "reports over {entries} entries")?;
    Ok(())
}

/// A desk of about so many kept items, of which seven tell of four to-dos.
fn reported(alloc: Global, entries: u64) -> Result<Desk, BenchError> {
    let mut desk = Desk::empty_at(alloc, 0);
    for number in 0..entries / 7 {
        hear_four(&mut desk, alloc, number * 4)?;
    }
    Ok(desk)
}

/// What is heard of four to-dos: one with a newer refresh request, one cancelled, one that is not known, and one with a cancelled instance.
/// Each has its number, method, stamp and lines.
const HEARD: [(u64, &str, &str, &str); 7] = [
    (0, "REQUEST", EARLY, "ATTENDEE:mailto:a@example.com\r\n"),
    (0, "REFRESH", LATE, "ATTENDEE:mailto:a@example.com\r\n"),
    (1, "CANCEL", EARLY, ""),
    (2, "REPLY", EARLY, "ATTENDEE:mailto:a@example.com\r\n"),
    (2, "REFRESH", EARLY, "ATTENDEE:mailto:a@example.com\r\n"),
    (
        3,
        "REQUEST",
        EARLY,
        "DTSTART;VALUE=DATE:20260105\r\nATTENDEE:mailto:b@example.com\r\n",
    ),
    (3, "CANCEL", EARLY, "RECURRENCE-ID;VALUE=DATE:20260106\r\n"),
];

const EARLY: &str = "20260102T090000Z";

const LATE: &str = "20260103T090000Z";

/// Hears of four to-dos.
fn hear_four(desk: &mut Desk, alloc: Global, number: u64) -> Result<(), BenchError> {
    for (place, method, stamp, lines) in HEARD {
        let about = stamped(alloc, number.wrapping_add(place), stamp)?;
        hear(desk, alloc, method, about.as_str(), lines)?;
    }
    Ok(())
}

fn print_lines<R: Clock + Print>(
    rt: &R,
    what: &str,
    lines: usize,
    start: Instant,
) -> Result<(), BenchError> {
    let time = micros(rt, start)?;
    println!(rt; "{what} {lines} lines {time} us")?;
    Ok(())
}

fn measure_cancelled<R: AllocGlobal + Clock + Print>(
    rt: &R,
    state: &State,
) -> Result<(), BenchError> {
    let start = now(rt)?;
    let lines = cancelled(rt.alloc(), state)?.len();
    print_lines(rt, "cancelled", lines, start)
}

fn measure_orphans<R: AllocGlobal + Clock + Print>(
    rt: &R,
    state: &State,
) -> Result<(), BenchError> {
    let start = now(rt)?;
    let lines = orphans(rt.alloc(), state)?.len();
    print_lines(rt, "orphans", lines, start)
}

fn measure_refresh<R: AllocGlobal + Clock + Print>(
    rt: &R,
    state: &State,
) -> Result<(), BenchError> {
    let start = now(rt)?;
    let lines = refresh_wanted(rt.alloc(), state)?.len();
    print_lines(rt, "refresh", lines, start)
}

/// Counts the rows of each attendee.
fn measure_load<R: AllocGlobal + Clock + Print>(rt: &R, state: &State) -> Result<(), BenchError> {
    // 2026-01-01, and a year from there.
    let window = Window::new(20_454, 20_819)?;
    let rows = RowsByUid::of(rt.alloc(), state, window, &Wanted::all())?.to_vec()?;
    let start = now(rt)?;
    let lines = load_by_attendee(rt.alloc(), &rows)?.len();
    let time = micros(rt, start)?;
    print_load(rt, rows.len(), lines, time)
}

fn print_load<R: Print>(rt: &R, rows: usize, lines: usize, time: u128) -> Result<(), BenchError> {
    println!(rt; "load {rows} rows {lines} lines {time} us")?;
    Ok(())
}

/// Asks what to send again of one to-do, and for its next sequence.
fn measure_one<R: AllocGlobal + Clock + Print>(rt: &R, state: &State) -> Result<(), BenchError> {
    let uid = Uid::copy(rt.alloc(), "to-do-3@example.com")?;
    let start = now(rt)?;
    let octets = resend_octets(rt.alloc(), state, &uid)?;
    let next = next_seq(state, &uid).unwrap_or(0);
    let time = micros(rt, start)?;
    print_one(rt, octets, next, time)
}

/// What is sent again of a to-do: how long it is.
fn resend_octets(alloc: Global, state: &State, uid: &Uid) -> Result<usize, BenchError> {
    match resend(alloc, state, uid)? {
        Some(messages) => Ok(messages.len()),
        None => Ok(0),
    }
}

fn print_one<R: Print>(rt: &R, octets: usize, next: u32, time: u128) -> Result<(), BenchError> {
    println!(rt; "resend {octets} bytes next {next} {time} us")?;
    Ok(())
}
