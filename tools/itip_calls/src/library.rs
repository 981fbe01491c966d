//! Calls of `itipdesk`, by the names that a program outside has.
//!
//! What is refused is answered by the number and the words of its [`Error`].
//!
//! - `window_of FROM TO`: the window of two days, as day numbers
//! - `read TEXT`, `batch TEXT`: how many items a message has, and how many different ones
//! - `cut TEXT`: how many octets each message of a text has
//! - `report_lines NAME FROM TO TEXT ..`: the lines of a report by its name
//! - `item_of UID STAMP LINE ..`: the octets of the item that a program makes of these lines
//! - `item_with UID STAMP NAME VALUE ..`: the same of properties by name, where a moment is as lists show it
//! - `todo_of UID STAMP LINE ..`: the SEQUENCE and the number of attendees of the to-do of these lines
//! - `file_of TEXT ..`: the file of a desk that has taken these messages, one after the other
//! - `file_within OCTETS TEXT ..`: the same, written to a place of so many octets: how many are left of it
//! - `desk_in FILE`: the tick of the desk that a file tells, its entries, and how many items it sends since each lower tick
//! - `load_records FROM TO TEXT ..`, `progress_records FROM TO TEXT ..`, `report_items NAME TEXT ..`: a record a line
//! - `write_reply UID ID ATTENDEE STATUS PERCENT AT TEXT ..`, `write_refresh UID ID ATTENDEE AT TEXT ..`,
//!   `write_cancel UID ID AT TEXT ..`, `write_onward UID ID AT TEXT ..`, `write_removal UID ID ATTENDEE AT TEXT ..`,
//!   `write_request DRAFT AT TEXT ..`, `write_resend UID AT TEXT ..`: the message, and a line for each property that it lacks; an ID
//!   or a PERCENT that is `-` is none

use crate::error::CallError;
use crate::texts::all_texts;
use itipdesk::Error;
use itipdesk::desks::{Desk, State, read_batch, read_desk, write_desk};
use itipdesk::lists::{
    Report, ReportName, Row, RowsByUid, Wanted, Window, load_records, no_rows, progress_records,
    report_items, report_lines, rows,
};
use itipdesk::messages::{
    Item, Moment, PartStat, Stamp, TodoBuilder, Uid, next_message, read_draft, read_message,
    read_moment,
};
use itipdesk::writing::{Answer, Errand, message_for};
use std::alloc::Global;

pub(crate) fn answer(
    alloc: Global,
    word: &str,
    arguments: &[Vec<u8>],
) -> Result<Vec<u8>, CallError> {
    match made(alloc, word, &all_texts(alloc, arguments)?) {
        Ok(Some(answer)) => Ok(answer),
        Ok(None) => Err(CallError::NoSuchCall),
        Err(Error::NoMemory) => Err(CallError::NoMemory),
        Err(error) => {
            let number = error.number();
            Ok(format!(in alloc; "{number} {error}")?.into_bytes())
        }
    }
}

fn made(alloc: Global, word: &str, texts: &[&str]) -> Result<Option<Vec<u8>>, Error> {
    let answer = match (word, texts) {
        ("window_of", [from, to]) => window_text(alloc, window(from, to)?)?,
        ("read", [text]) => count(alloc, read_message(alloc, text.as_bytes())?.len())?,
        ("batch", [text]) => { count(alloc, read_batch(alloc, text.as_bytes())?.as_slice().len())? }
        ("cut", [text]) => cut(alloc, text.as_bytes())?,
        ("report_lines", [name, from, to, texts @ ..]) => {
            lines(alloc, named(name)?, window(from, to)?, texts)?
        }
        ("item_of", [uid, stamp, lines @ ..]) => octets(
            alloc,
            &item_of(alloc, uid, stamp, lines)?,
        )?,
        ("item_with", [uid, stamp, parts @ ..]) => {
            octets(alloc, &item_with(alloc, uid, stamp, parts)?)?
        }
        ("todo_of", [uid, stamp, lines @ ..]) => todo_of(alloc, uid, stamp, lines)?,
        ("file_of", texts) => file_of(alloc, texts)?,
        ("file_within", [octets, texts @ ..]) => file_within(alloc, octets, texts)?,
        ("desk_in", [file]) => desk_in(alloc, file.as_bytes())?,
        ("load_records", [from, to, texts @ ..]) => {
            loads(alloc, &shown(alloc, window(from, to)?, texts)?)?
        }
        ("progress_records", [from, to, texts @ ..]) => {
            progresses(alloc, &shown(alloc, window(from, to)?, texts)?)?
        }
        ("report_items", [name, texts @ ..]) => reported(alloc, name, texts)?,
        _ => return written(alloc, word, texts),
    };
    Ok(Some(answer))
}

fn window(from: &str, to: &str) -> Result<Window, Error> {
    Ok(Window::of(from.parse()?, to.parse()?)?)
}

fn window_text(alloc: Global, window: Window) -> Result<Vec<u8>, Error> {
    let from = window.from;
    let to = window.to;
    Ok(format!(in alloc; "{from} {to}")?.into_bytes())
}

fn count(alloc: Global, count: usize) -> Result<Vec<u8>, Error> {
    Ok(format!(in alloc; "{count}")?.into_bytes())
}

fn cut(alloc: Global, text: &[u8]) -> Result<Vec<u8>, Error> {
    let mut told = String::new(alloc);
    let mut rest = text;
    while let Some((message, after)) = next_message(rest) {
        let octets = message.len();
        told.push_str(format!(in alloc; "{octets}\n")?.as_str())?;
        rest = after;
    }
    Ok(told.into_bytes())
}

/// A desk that has taken these messages.
fn desk_of(alloc: Global, texts: &[&str]) -> Result<Desk, Error> {
    let mut desk = Desk::empty_at(alloc, 0);
    for text in texts {
        desk.take(&read_batch(alloc, text.as_bytes())?)?;
    }
    Ok(desk)
}

fn file_of(alloc: Global, texts: &[&str]) -> Result<Vec<u8>, Error> {
    let mut file = Vec::new(alloc);
    write_desk(alloc, &desk_of(alloc, texts)?, &mut file)?;
    Ok(file)
}

fn file_within(alloc: Global, octets: &str, texts: &[&str]) -> Result<Vec<u8>, Error> {
    let mut place = vec![in alloc; 0; octets.parse().map_err(|_| Error::Text)?]?;
    let mut rest = place.as_mut_slice();
    write_desk(alloc, &desk_of(alloc, texts)?, &mut rest)?;
    count(alloc, rest.len())
}

fn desk_in(alloc: Global, file: &[u8]) -> Result<Vec<u8>, Error> {
    let desk = read_desk(alloc, file)?;
    let tick = desk.tick();
    let entries = desk.entries();
    let mut told = format!(in alloc; "{tick} {entries}")?;
    for since in 0..tick {
        let items = desk.delta_since(since)?.as_slice().len();
        told.push_str(format!(in alloc; " {items}")?.as_str())?;
    }
    Ok(told.into_bytes())
}

fn named(name: &str) -> Result<ReportName, Error> {
    match name {
        "load" => Ok(ReportName::Load),
        "progress" => Ok(ReportName::Progress),
        "cancelled" => Ok(ReportName::Cancelled),
        "orphans" => Ok(ReportName::Orphans),
        "refresh" => Ok(ReportName::Refresh),
        _ => Err(Error::Text),
    }
}

/// The lines of a report, of the rows of a window where it is of rows.
fn lines(
    alloc: Global,
    name: ReportName,
    window: Window,
    texts: &[&str],
) -> Result<Vec<u8>, Error> {
    let state = state(alloc, texts)?;
    let rows = if name.is_of_rows() {
        RowsByUid::of(alloc, &state, window, &Wanted::all())?
    } else {
        no_rows(alloc, &state, window)?
    };
    let mut told = String::new(alloc);
    for line in &report_lines(alloc, &state, name, rows)? {
        told.push_str(line.as_str())?;
        told.push_str("\n")?;
    }
    Ok(told.into_bytes())
}

fn octets(alloc: Global, item: &Item) -> Result<Vec<u8>, Error> {
    let mut octets = Vec::new(alloc);
    item.bytes.append_to(&mut octets)?;
    Ok(octets)
}

fn of_lines(alloc: Global, uid: &str, stamp: &str, lines: &[&str]) -> Result<TodoBuilder, Error> {
    let mut builder = TodoBuilder::new(alloc, uid, stamp.parse()?)?;
    for line in lines {
        builder.line(line)?;
    }
    Ok(builder)
}

fn item_of(alloc: Global, uid: &str, stamp: &str, lines: &[&str]) -> Result<Item, Error> {
    Ok(of_lines(alloc, uid, stamp, lines)?.item()?)
}

fn todo_of(alloc: Global, uid: &str, stamp: &str, lines: &[&str]) -> Result<Vec<u8>, Error> {
    let todo = of_lines(alloc, uid, stamp, lines)?.todo()?;
    let sequence = todo.seq;
    let attendees = todo.attendees.len();
    Ok(format!(in alloc; "{sequence} {attendees}")?.into_bytes())
}

fn item_with(alloc: Global, uid: &str, stamp: &str, parts: &[&str]) -> Result<Item, Error> {
    let mut builder = TodoBuilder::new(alloc, uid, stamp.parse()?)?;
    let mut rest = parts;
    while let [name, value, others @ ..] = rest {
        add(alloc, &mut builder, name, value)?;
        rest = others;
    }
    Ok(builder.item()?)
}

fn add(alloc: Global, builder: &mut TodoBuilder, name: &str, value: &str) -> Result<(), Error> {
    match name {
        "sequence" => builder.sequence(value.parse().map_err(|_| Error::Text)?)?,
        "organizer" => builder.organizer(value)?,
        "attendee" => builder.attendee(value)?,
        "start" => builder.start(&moment(alloc, value)?)?,
        "due" => builder.due(&moment(alloc, value)?)?,
        "instance" => builder.instance(&moment(alloc, value)?)?,
        "rule" => builder.rule(value)?,
        "summary" => builder.summary(value)?,
        _ => builder.line(value)?,
    }
    Ok(())
}

/// A moment as lists show it: with `TZID=`, its zone and a colon before it where it is in one.
fn moment(alloc: Global, text: &str) -> Result<Moment, Error> {
    let read = match text.strip_prefix("TZID=") {
        Some(zoned) => match zoned.rsplit_once(':') {
            Some((zone, text)) => read_moment(alloc, text, Some(zone))?,
            None => None,
        },
        None => read_moment(alloc, text, None)?,
    };
    read.ok_or(Error::Text)
}

fn moment_or_none(alloc: Global, text: &str) -> Result<Option<Moment>, Error> {
    if text == "-" {
        return Ok(None);
    }
    Ok(Some(moment(alloc, text)?))
}

fn items(alloc: Global, texts: &[&str]) -> Result<Vec<Item>, Error> {
    let mut items = Vec::new(alloc);
    for text in texts {
        let mut more = read_message(alloc, text.as_bytes())?;
        items.append(&mut more)?;
    }
    Ok(items)
}

fn state(alloc: Global, texts: &[&str]) -> Result<State, Error> {
    Ok(State::of_items(alloc, &items(alloc, texts)?)?)
}

fn shown(alloc: Global, window: Window, texts: &[&str]) -> Result<Vec<Row>, Error> {
    Ok(rows(alloc, &state(alloc, texts)?, window)?)
}

fn loads(alloc: Global, rows: &[Row]) -> Result<Vec<u8>, Error> {
    let mut told = String::new(alloc);
    for load in &load_records(alloc, rows)? {
        let attendee = load.attendee.as_str();
        let count = load.rows;
        told.push_str(format!(in alloc; "{attendee} {count}\n")?.as_str())?;
    }
    Ok(told.into_bytes())
}

fn progresses(alloc: Global, rows: &[Row]) -> Result<Vec<u8>, Error> {
    let mut told = String::new(alloc);
    for record in &progress_records(alloc, rows)? {
        let uid = &record.row.uid;
        let percent = record.percent;
        told.push_str(format!(in alloc; "{uid} {percent}\n")?.as_str())?;
    }
    Ok(told.into_bytes())
}

fn reported(alloc: Global, name: &str, texts: &[&str]) -> Result<Vec<u8>, Error> {
    let report = match name {
        "cancelled" => Report::Cancelled,
        "orphans" => Report::Orphans,
        _ => Report::Refresh,
    };
    let state = state(alloc, texts)?;
    let mut told = String::new(alloc);
    for item in &report_items(alloc, &state, report)? {
        let key = &item.key;
        let uid = key.uid();
        let attendee = key.attendee();
        let stamp = item.stamp;
        told.push_str(format!(in alloc; "{uid} {attendee} {stamp}\n")?.as_str())?;
    }
    Ok(told.into_bytes())
}

fn written(alloc: Global, word: &str, texts: &[&str]) -> Result<Option<Vec<u8>>, Error> {
    let answer = match (word, texts) {
        ("write_reply", [uid, id, attendee, status, percent, at, texts @ ..]) => {
            let answer = Answer {
                attendee,
                status: status_named(status)?,
                percent: percent.parse().ok(),
            };
            reply(alloc, uid, id, answer, at.parse()?, texts)?
        }
        ("write_refresh", [uid, id, attendee, at, texts @ ..]) => {
            let uid = Uid::copy(alloc, uid)?;
            let id = moment_or_none(alloc, id)?;
            let errand = Errand::Refresh {
                uid: &uid,
                id: id.as_ref(),
                attendee,
            };
            message(alloc, &errand, at.parse()?, texts)?
        }
        ("write_cancel", [uid, id, at, texts @ ..]) => {
            let uid = Uid::copy(alloc, uid)?;
            let id = moment_or_none(alloc, id)?;
            let errand = Errand::Cancel {
                uid: &uid,
                id: id.as_ref(),
            };
            message(alloc, &errand, at.parse()?, texts)?
        }
        ("write_onward", [uid, id, at, texts @ ..]) => {
            let uid = Uid::copy(alloc, uid)?;
            let id = moment(alloc, id)?;
            message(
                alloc,
                &Errand::CancelOnward { uid: &uid, id: &id },
                at.parse()?,
                texts,
            )?
        }
        ("write_removal", [uid, id, attendee, at, texts @ ..]) => {
            let attendees = vec![in alloc; String::from_str(alloc, attendee)?]?;
            let uid = Uid::copy(alloc, uid)?;
            let id = moment_or_none(alloc, id)?;
            let errand = Errand::Remove {
                uid: &uid,
                id: id.as_ref(),
                attendees: &attendees,
            };
            message(alloc, &errand, at.parse()?, texts)?
        }
        ("write_request", [draft, at, texts @ ..]) => {
            let draft = read_draft(alloc, draft.as_bytes())?;
            message(
                alloc,
                &Errand::Request { draft: &draft },
                at.parse()?,
                texts,
            )?
        }
        ("write_resend", [uid, at, texts @ ..]) => {
            let uid = Uid::copy(alloc, uid)?;
            message(alloc, &Errand::Resend { uid: &uid }, at.parse()?, texts)?
        }
        _ => return Ok(None),
    };
    Ok(Some(answer))
}

fn status_named(name: &str) -> Result<PartStat, Error> {
    match name {
        "ACCEPTED" => Ok(PartStat::Accepted),
        "COMPLETED" => Ok(PartStat::Completed),
        "IN-PROCESS" => Ok(PartStat::InProcess),
        _ => Err(Error::Text),
    }
}

fn reply(
    alloc: Global,
    uid: &str,
    id: &str,
    answer: Answer<'_>,
    at: Stamp,
    texts: &[&str],
) -> Result<Vec<u8>, Error> {
    let uid = Uid::copy(alloc, uid)?;
    let id = moment_or_none(alloc, id)?;
    let errand = Errand::Reply {
        uid: &uid,
        id: id.as_ref(),
        answer,
    };
    message(alloc, &errand, at, texts)
}

/// The message that is asked for, and a line for each property that it lacks.
fn message(
    alloc: Global,
    errand: &Errand<'_>,
    at: Stamp,
    texts: &[&str],
) -> Result<Vec<u8>, Error> {
    let message = message_for(alloc, &state(alloc, texts)?, errand, at)?;
    let mut told = message.octets;
    for property in &message.lacking {
        told.extend_from_slice(format!(in alloc; "lacks {property}\n")?.as_bytes())?;
    }
    Ok(told)
}
