//! Calls of `itip_moment`.
//!
//! - `read_moment TEXT`, `read_moment TEXT TZID`: the form, the text that is written of the moment, and its zone; or `none`
//! - `read_stamp TEXT`: the day, the second in it, and the text that is written of the stamp; or `none`
//! - `read_date TEXT`: the number of the day; or `none`
//! - `shift MOMENT DAYS SECONDS`: whether it can be shifted, and what it is after that
//! - `cmp_moments ONE OTHER`: how one is to the other
//!
//! A MOMENT is written as its text, after its TZID and a colon where it has one.

use crate::error::CallError;
use itip_moment::{
    Day, Moment, Stamp, read_date, read_moment, read_stamp, write_moment, write_stamp,
};
use std::alloc::Global;

pub(crate) fn answer(alloc: Global, word: &str, texts: &[&str]) -> Result<Vec<u8>, CallError> {
    match (word, texts) {
        ("read_moment", [text]) => shown(alloc, read_moment(alloc, text, None)?),
        ("read_moment", [text, tzid]) => { shown(alloc, read_moment(alloc, text, Some(tzid))?) }
        ("read_stamp", [text]) => shown_stamp(alloc, read_stamp(text)),
        ("read_date", [text]) => shown_date(alloc, read_date(text)),
        ("shift", [moment, days, seconds]) => shifted(alloc, moment, days, seconds),
        ("cmp_moments", [one, other]) => compared(alloc, one, other),
        _ => Err(CallError::NoSuchCall),
    }
}

/// The moment that a text stands for. No call takes another text for a moment.
pub(crate) fn moment_of(alloc: Global, text: &str) -> Result<Moment, CallError> {
    let read = match text.split_once(':') {
        Some((tzid, text)) => read_moment(alloc, text, Some(tzid))?,
        None => read_moment(alloc, text, None)?,
    };
    read.ok_or(CallError::NoSuchCall)
}

fn shown(alloc: Global, moment: Option<Moment>) -> Result<Vec<u8>, CallError> {
    let Some(moment) = moment else {
        return none(alloc);
    };
    let form = moment.form();
    let mut out = format!(in alloc; "{form:?} ")?.into_bytes();
    write_moment(&moment, &mut out)?;
    if let Some(tzid) = moment.tzid() {
        out.push(b' ')?;
        out.extend_from_slice(tzid.as_bytes())?;
    }
    Ok(out)
}

fn shown_stamp(alloc: Global, stamp: Option<Stamp>) -> Result<Vec<u8>, CallError> {
    let Some(stamp) = stamp else {
        return none(alloc);
    };
    let (day, second) = (stamp.day, stamp.second);
    let mut out = format!(in alloc; "{day} {second} ")?.into_bytes();
    write_stamp(&stamp, &mut out)?;
    Ok(out)
}

fn shown_date(alloc: Global, day: Option<Day>) -> Result<Vec<u8>, CallError> {
    let Some(day) = day else {
        return none(alloc);
    };
    let number = day.number;
    Ok(format!(in alloc; "{number}")?.into_bytes())
}

fn none(alloc: Global) -> Result<Vec<u8>, CallError> {
    Ok(Vec::from_slice(alloc, b"none")?)
}

fn shifted(alloc: Global, text: &str, days: &str, seconds: &str) -> Result<Vec<u8>, CallError> {
    let mut moment = moment_of(alloc, text)?;
    let is_shifted = moment.shift(number_of(days)?, number_of(seconds)?);
    let mut out = format!(in alloc; "{is_shifted} ")?.into_bytes();
    write_moment(&moment, &mut out)?;
    Ok(out)
}

fn number_of(text: &str) -> Result<i64, CallError> {
    text.parse::<i64>().map_err(|_| CallError::NoSuchCall)
}

fn compared(alloc: Global, one: &str, other: &str) -> Result<Vec<u8>, CallError> {
    let order = moment_of(alloc, one)?.cmp(&moment_of(alloc, other)?);
    Ok(format!(in alloc; "{order:?}")?.into_bytes())
}
