//! Reading to-dos with few and with many attendees.

use crate::error::BenchError;
use crate::watch::{micros, now};
use itip_message::read_message;
use std::alloc::{AllocError, Global};
use std::rt::Clock;

/// How many attendees the messages of one load have in all, for each one of the size.
const ATTENDEES: u64 = 500;

/// Reads so many times 500 attendees: 5 in each message, and then 500 in each.
pub(crate) fn measure_attendees<R: AllocGlobal + Clock + Print>(
    rt: &R,
    size: u64,
) -> Result<(), BenchError> {
    measure(rt, size.saturating_mul(ATTENDEES / 5), 5)?;
    measure(rt, size, ATTENDEES)
}

fn measure<R: AllocGlobal + Clock + Print>(
    rt: &R,
    count: u64,
    attendees: u64,
) -> Result<(), BenchError> {
    let text = message(rt.alloc(), attendees)?;
    let start = now(rt)?;
    read(rt.alloc(), text.as_str(), count)?;
    let time = micros(rt, start)?;
    print(rt, count, attendees, text.len(), time)
}

/// Reads a message so many times.
fn read(alloc: Global, text: &str, count: u64) -> Result<(), BenchError> {
    for _ in 0..count {
        read_message(alloc, text.as_bytes())?;
    }
    Ok(())
}

fn print<R: Print>(
    rt: &R,
    count: u64,
    attendees: u64,
    length: usize,
    time: u128,
) -> Result<(), BenchError> {
    let octets = count.saturating_mul(length as u64);
    println!(rt; "read {count} to-dos with {attendees} attendees {octets} bytes {time} us")?;
    Ok(())
}

/// A REQUEST that asks so many attendees.
fn message(alloc: Global, attendees: u64) -> Result<String, AllocError> {
    let mut text = String::from_str(
        alloc,
        "BEGIN:VCALENDAR\r\nVERSION:2.0\r\nMETHOD:REQUEST\r\nBEGIN:VTODO\r\n",
    )?;
    text.push_str("UID:to-do@example.com\r\nSEQUENCE:1\r\nDTSTAMP:20260101T090000Z\r\n")?;
    for number in 0..attendees {
        let line = format!(in alloc;
            "ATTENDEE;ROLE=REQ-PARTICIPANT;PARTSTAT=NEEDS-ACTION:mailto:attendee-{number}@example.com\r\n"
        )?;
        text.push_str(line.as_str())?;
    }
    text.push_str("END:VTODO\r\nEND:VCALENDAR\r\n")?;
    Ok(text)
}
