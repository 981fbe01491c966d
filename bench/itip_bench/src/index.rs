//! Lists of a few rows of many: those of some days, and those of one attendee.

use crate::error::BenchError;
use crate::lists::{count, hear, list_octets, stamped};
use crate::watch::{micros, now};
use itip_desk::Desk;
use itip_moment::{Moment, read_date, write_moment};
use itip_view::Window;
use std::alloc::Global;
use std::rt::Clock;

/// 2026-01-01, from which on to-dos start over ten years.
const FIRST: i32 = 20_454;

/// How many days ten years have.
const DAYS: u64 = 3_652;

/// 2027-07-01, with which the lists begin.
const FROM: i32 = 21_000;

/// How often each list is made.
const TIMES: u64 = 10;

/// Lists a week of so many to-dos over ten years and what one of 1,000 attendees has to do; and of a tenth of the to-dos ten weeks and what
/// one of 100 attendees has to do, which is as much.
pub(crate) fn measure_index<R: AllocGlobal + Clock + Print>(
    rt: &R,
    to_dos: u64,
) -> Result<(), BenchError> {
    list_both(rt, to_dos, Window::new(FROM, FROM + 7)?, 1_000)?;
    list_both(rt, to_dos / 10, Window::new(FROM, FROM + 70)?, 100)
}

fn list_both<R: AllocGlobal + Clock + Print>(
    rt: &R,
    to_dos: u64,
    window: Window,
    attendees: u64,
) -> Result<(), BenchError> {
    let desk = filled(rt.alloc(), to_dos, attendees)?;
    list_days(rt, &desk, to_dos, window)?;
    list_attendee(rt, &desk, to_dos)
}

/// A desk that has heard of so many to-dos, each of one attendee.
fn filled(alloc: Global, to_dos: u64, attendees: u64) -> Result<Desk, BenchError> {
    let mut desk = Desk::empty_at(alloc, 0);
    for number in 0..to_dos {
        let uid = stamped(alloc, number, "20260102T090000Z")?;
        let attendee = number.checked_rem(attendees).unwrap_or(0);
        let lines = lines(alloc, number % DAYS, attendee)?;
        hear(&mut desk, alloc, "REQUEST", uid.as_str(), lines.as_str())?;
    }
    Ok(desk)
}

/// The lines of a to-do so many days after the first, for one attendee.
fn lines(alloc: Global, days: u64, attendee: u64) -> Result<String, BenchError> {
    let mut text = String::from_str(alloc, "DTSTART;VALUE=DATE:")?;
    text.push_str(date(alloc, days)?.as_str())?;
    let others = format!(in alloc;
        "\r\nSUMMARY:Sweep\r\nATTENDEE:mailto:attendee-{attendee}@example.com\r\n"
    )?;
    text.push_str(others.as_str())?;
    Ok(text)
}

/// The day so many days after the first, as eight digits.
fn date(alloc: Global, days: u64) -> Result<String, BenchError> {
    let Some(first) = read_date("20260101") else {
        return Err(BenchError::Words);
    };
    let mut day = Moment::Date(first);
    day.shift(days.min(DAYS) as i64, 0);
    let mut text = Vec::new(alloc);
    write_moment(&day, &mut text)?;
    String::from_utf8(text).map_err(|_| BenchError::Words)
}

/// Lists some days.
fn list_days<R: AllocGlobal + Clock + Print>(
    rt: &R,
    desk: &Desk,
    to_dos: u64,
    window: Window,
) -> Result<(), BenchError> {
    let rows = count(&desk.rows(window)?)?;
    let start = now(rt)?;
    for _ in 0..TIMES {
        list_octets(desk, window)?;
    }
    let time = micros(rt, start)? / TIMES as u128;
    println!(rt; "list {rows} rows of some days, of {to_dos} to-dos, {time} us")?;
    Ok(())
}

/// Lists what one attendee has to do in ten years.
fn list_attendee<R: AllocGlobal + Clock + Print>(
    rt: &R,
    desk: &Desk,
    to_dos: u64,
) -> Result<(), BenchError> {
    let window = Window::new(FIRST, FIRST + 3_660)?;
    let address = "MAILTO:attendee-7@example.com";
    let rows = count(&desk.rows_for(window, address)?)?;
    let start = now(rt)?;
    for _ in 0..TIMES {
        list_octets_for(desk, window, address)?;
    }
    let time = micros(rt, start)? / TIMES as u128;
    println!(rt; "list {rows} rows of one attendee, of {to_dos} to-dos, {time} us")?;
    Ok(())
}

fn list_octets_for(desk: &Desk, window: Window, address: &str) -> Result<usize, BenchError> {
    Ok(desk.list_for(window, address)?.len())
}
