//! Lists of to-dos with answers, and of series over ten years.

use crate::desks::hear as hear_text;
use crate::error::BenchError;
use crate::load::stating;
use crate::watch::{micros, now};
use itip_desk::Desk;
use itip_view::{RowCount, RowsByUid, ViewError, Wanted, Window};
use std::alloc::Global;
use std::rt::Clock;

/// So many daily series have nearly as many rows in 3,660 days as a list may have.
const SERIES: u64 = 27;

/// The revisions of the rest of each series.
const RANGES: u64 = 100;

const ASKED: &str =
    "DTSTART;VALUE=DATE:20260105\r\nSUMMARY:Sweep\r\nATTENDEE:mailto:a@example.com\r\nATTENDEE:mailto:b@example.com\r\n";

const ACCEPTED: &str = "ATTENDEE;PARTSTAT=ACCEPTED:mailto:a@example.com\r\n";

const DAILY: &str = "DTSTART;VALUE=DATE:20260101\r\nRRULE:FREQ=DAILY\r\nSUMMARY:Sweep\r\n";

/// Lists so many to-dos of two attendees each, of whom one has answered; 27 daily series over 3,660 days; and these under
/// 100 revisions each of an instance and all after it.
pub(crate) fn measure_lists<R: AllocGlobal + Clock + Print>(
    rt: &R,
    to_dos: u64,
) -> Result<(), BenchError> {
    list(rt, &answered(rt.alloc(), to_dos)?, "single to-dos")?;
    list(rt, &daily(rt.alloc())?, "daily series")?;
    list(rt, &ranged(rt.alloc())?, "daily series under ranges")
}

/// A desk that has heard of so many to-dos, and of one answer to each.
fn answered(alloc: Global, to_dos: u64) -> Result<Desk, BenchError> {
    let mut desk = Desk::empty_at(alloc, 0);
    for number in 0..to_dos {
        let uid = about(alloc, number)?;
        hear(&mut desk, alloc, "REQUEST", uid.as_str(), ASKED)?;
        hear(&mut desk, alloc, "REPLY", uid.as_str(), ACCEPTED)?;
    }
    Ok(desk)
}

/// A desk that has heard of the daily series.
fn daily(alloc: Global) -> Result<Desk, BenchError> {
    let mut desk = Desk::empty_at(alloc, 0);
    for number in 0..SERIES {
        let uid = about(alloc, number)?;
        hear(&mut desk, alloc, "REQUEST", uid.as_str(), DAILY)?;
    }
    Ok(desk)
}

/// A desk that has heard of the daily series, and then of each the revisions of its rest.
fn ranged(alloc: Global) -> Result<Desk, BenchError> {
    let mut desk = daily(alloc)?;
    for number in 0..SERIES {
        let uid = about(alloc, number)?;
        for range in 0..RANGES {
            let lines = range_lines(alloc, range)?;
            hear(&mut desk, alloc, "REQUEST", uid.as_str(), lines.as_str())?;
        }
    }
    Ok(desk)
}

/// A revision of all days from the first of a month on.
fn range_lines(alloc: Global, range: u64) -> Result<String, BenchError> {
    let year = (range / 12).saturating_add(2026);
    let day = year
        .saturating_mul(10_000)
        .saturating_add((range % 12 + 1) * 100 + 1);
    Ok(format!(in alloc;
        "RECURRENCE-ID;VALUE=DATE;RANGE=THISANDFUTURE:{day}\r\nDTSTART;VALUE=DATE:{day}\r\nSUMMARY:Sweep twice\r\n"
    )?)
}

fn about(alloc: Global, number: u64) -> Result<String, BenchError> {
    stamped(alloc, number, "20260102T090000Z")
}

/// The lines that name a to-do and its revision.
pub(crate) fn stamped(alloc: Global, number: u64, stamp: &str) -> Result<String, BenchError> {
    Ok(format!(in alloc; "UID:to-do-{number}@example.com\r\nSEQUENCE:1\r\nDTSTAMP:{stamp}\r\n")?)
}

pub(crate) fn hear(
    desk: &mut Desk,
    alloc: Global,
    method: &str,
    uid: &str,
    lines: &str,
) -> Result<(), BenchError> {
    hear_text(alloc, desk, &stating(alloc, method, uid, lines)?)
}

fn list<R: AllocGlobal + Clock + Print>(rt: &R, desk: &Desk, what: &str) -> Result<(), BenchError> {
    // 2026-01-01, and the 3,660 days from there.
    let window = Window::new(20_454, 24_114)?;
    let count = count_rows(rt.alloc(), desk, window)?;
    let start = now(rt)?;
    let octets = list_octets(desk, window)?;
    let time = micros(rt, start)?;
    print(rt, count, what, octets, time)
}

fn count_rows(alloc: Global, desk: &Desk, window: Window) -> Result<usize, BenchError> {
    count(&RowsByUid::of(alloc, desk.state(), window, &Wanted::all())?)
}

/// How many rows there are; no list here has too many.
pub(crate) fn count(rows: &RowsByUid<'_, '_>) -> Result<usize, BenchError> {
    match rows.count()? {
        RowCount::Few(number) => Ok(number),
        RowCount::TooMany(_) => Err(BenchError::View(ViewError::TooManyRows)),
    }
}

/// Lists what a desk shows: how long the list is.
pub(crate) fn list_octets(desk: &Desk, window: Window) -> Result<usize, BenchError> {
    Ok(desk.list(window)?.len())
}

fn print<R: Print>(
    rt: &R,
    count: usize,
    what: &str,
    octets: usize,
    time: u128,
) -> Result<(), BenchError> {
    println!(rt; "list {count} rows of {what} {octets} bytes {time} us")?;
    Ok(())
}
