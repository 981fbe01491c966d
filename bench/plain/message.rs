//! Messages and their to-dos, which stay in the text that they are read from, and canonical octets.

use crate::moment::{Form, Moment, Stamp, read_moment, read_stamp, write_moment, write_stamp};
use crate::text::{Line, Lines, is_name, needs_quotes, push, push_number, unfold, write_line};

/// A name that is looked for.
#[derive(Clone, Copy)]
enum Name {
    Begin,
    End,
    Version,
    Method,
    Uid,
    Stamp,
    Sequence,
    Rid,
    Start,
    Due,
    Status,
    Percent,
    Priority,
    Summary,
    Organizer,
    Attendee,
    Rule,
    Rdate,
    Exdate,
    Other,
}

impl Name {
    /// Which name a text is, in any case: mostly it is in upper case. None where it can be no name.
    fn of(text: &[u8]) -> Option<Name> {
        Some(match text {
            b"BEGIN" => Name::Begin,
            b"END" => Name::End,
            b"VERSION" => Name::Version,
            b"METHOD" => Name::Method,
            b"UID" => Name::Uid,
            b"DTSTAMP" => Name::Stamp,
            b"SEQUENCE" => Name::Sequence,
            b"RECURRENCE-ID" => Name::Rid,
            b"DTSTART" => Name::Start,
            b"DUE" => Name::Due,
            b"STATUS" => Name::Status,
            b"PERCENT-COMPLETE" => Name::Percent,
            b"PRIORITY" => Name::Priority,
            b"SUMMARY" => Name::Summary,
            b"ORGANIZER" => Name::Organizer,
            b"ATTENDEE" => Name::Attendee,
            b"RRULE" => Name::Rule,
            b"RDATE" => Name::Rdate,
            b"EXDATE" => Name::Exdate,
            _ if !is_name(text) => return None,
            _ if text.iter().any(u8::is_ascii_lowercase) => Name::of_small(text)?,
            _ => Name::Other,
        })
    }

    /// Which name a text with small letters is.
    fn of_small(text: &[u8]) -> Option<Name> {
        let mut room = [0; "PERCENT-COMPLETE".len()];
        let Some(upper) = room.get_mut(..text.len()) else {
            return Some(Name::Other);
        };
        upper.copy_from_slice(text);
        upper.make_ascii_uppercase();
        Name::of(upper)
    }
}

const METHODS: [&str; 6] = ["REQUEST", "REPLY", "CANCEL", "ADD", "REFRESH", "PUBLISH"];
const STATUSES: [&str; 4] = ["NEEDS-ACTION", "COMPLETED", "IN-PROCESS", "CANCELLED"];

/// Which of some words a text is, in any case.
fn one_of(words: &[&'static str], text: &[u8]) -> Option<&'static str> {
    words.iter().find(|it| it.as_bytes().eq_ignore_ascii_case(text)).copied()
}

/// Sets what may be said once.
fn once<T>(place: &mut Option<T>, value: Option<T>) -> Option<()> {
    if place.is_some() {
        return None;
    }
    *place = Some(value?);
    Some(())
}

/// The number that digits behind a plus or none spell.
fn number(text: &[u8], limit: u32) -> Option<u32> {
    let digits = text.strip_prefix(b"+").unwrap_or(text);
    let mut number = 0u32;
    for it in digits {
        let digit = it.is_ascii_digit().then(|| u32::from(it - b'0'))?;
        number = number.checked_mul(10)?.checked_add(digit)?;
    }
    (!digits.is_empty() && number <= limit).then_some(number)
}

fn small(text: &[u8], limit: u8) -> Option<u8> {
    number(text, limit.into()).map(|it| it as u8)
}

pub struct Message<'a> {
    /// In upper case.
    pub method: &'static str,
    pub todos: Vec<Todo<'a>>,
}

impl<'a> Message<'a> {
    /// Reads a text of these lines. Since no folded line is read, one that is refused is read once more without its folds, for which
    /// there is a room.
    pub fn read(text: &'a [u8], lines: impl Iterator<Item = &'a [u8]>, room: &'a mut Vec<u8>) -> Option<Message<'a>> {
        std::str::from_utf8(text).ok()?;
        if let Some(message) = Message::of(lines) {
            return Some(message);
        }
        *room = unfold(text)?;
        Message::of(Lines { rest: room })
    }

    fn of(lines: impl Iterator<Item = &'a [u8]>) -> Option<Message<'a>> {
        let (open, todos) = (Vec::with_capacity(2), Vec::with_capacity(1));
        let mut draft = Draft { open, in_todo: false, has_version: false, method: None, todos };
        for line in lines.filter(|it| !it.is_empty()) {
            draft.add(Line::read(line)?)?;
        }
        draft.done()
    }
}

/// What is read of a message so far.
struct Draft<'a> {
    /// The names of the components that are open, and whether the second is or was a to-do.
    open: Vec<&'a [u8]>,
    in_todo: bool,
    has_version: bool,
    method: Option<&'static str>,
    todos: Vec<Todo<'a>>,
}

impl<'a> Draft<'a> {
    fn add(&mut self, line: Line<'a>) -> Option<()> {
        match (Name::of(line.name)?, &self.open[..]) {
            (Name::Begin, _) => self.begin(line.value),
            (Name::End, _) => self.open.pop().filter(|it| it.eq_ignore_ascii_case(line.value)).map(|_| ())?,
            (Name::Method, [_]) => once(&mut self.method, one_of(&METHODS, line.value))?,
            (Name::Version, [_]) => self.has_version = line.value == b"2.0",
            (name, [_, _]) if self.in_todo => self.todos.last_mut()?.add(name, line)?,
            _ => {}
        }
        Some(())
    }

    fn begin(&mut self, name: &'a [u8]) {
        if self.open.len() == 1 {
            self.in_todo = name.eq_ignore_ascii_case(b"VTODO");
            self.todos.extend(self.in_todo.then(Todo::default));
        }
        self.open.push(name);
    }

    fn done(mut self) -> Option<Message<'a>> {
        let method = self.method.filter(|_| self.has_version && self.open.is_empty())?;
        self.todos.iter_mut().all(Todo::is_done).then_some(Message { method, todos: self.todos })
    }
}

/// What is read of a to-do. A UID and a stamp are there when it is done.
#[derive(Default)]
pub struct Todo<'a> {
    uid: Option<&'a [u8]>,
    stamp: Option<Stamp>,
    sequence: Option<u32>,
    pub rid: Option<Moment>,
    /// Whether it is of all instances from its recurrence id on.
    pub is_range: bool,
    pub start: Option<Moment>,
    pub due: Option<Moment>,
    pub status: Option<&'static str>,
    pub percent: Option<u8>,
    pub priority: Option<u8>,
    pub summary: Option<Line<'a>>,
    pub organizer: Option<Line<'a>>,
    pub attendees: Vec<Line<'a>>,
    pub rules: Vec<&'a [u8]>,
    pub rdates: Vec<Moment>,
    pub exdates: Vec<Moment>,
    pub others: Vec<Line<'a>>,
}

fn moment(line: Line) -> Option<Moment> {
    read_moment(line.value, line.param(b"TZID"))
}

fn add_moments(line: Line, into: &mut Vec<Moment>) -> Option<()> {
    for text in line.value.split(|it| *it == b',') {
        into.push(read_moment(text, line.param(b"TZID"))?);
    }
    Some(())
}

impl<'a> Todo<'a> {
    pub fn uid(&self) -> &'a [u8] {
        self.uid.expect("it is done")
    }

    /// What orders its revisions.
    pub fn revision(&self) -> (u32, Stamp) {
        (self.sequence.unwrap_or(0), self.stamp.expect("it is done"))
    }

    fn add(&mut self, name: Name, line: Line<'a>) -> Option<()> {
        let value = line.value;
        match name {
            Name::Uid => once(&mut self.uid, Some(value).filter(|it| !it.is_empty())),
            Name::Stamp => once(&mut self.stamp, read_stamp(value)),
            Name::Sequence => once(&mut self.sequence, number(value, 2_147_483_647)),
            Name::Rid => {
                self.is_range = line.param(b"RANGE").is_some_and(|it| it.eq_ignore_ascii_case(b"THISANDFUTURE"));
                once(&mut self.rid, moment(line))
            }
            Name::Start => once(&mut self.start, moment(line)),
            Name::Due => once(&mut self.due, moment(line)),
            Name::Status => once(&mut self.status, one_of(&STATUSES, value)),
            Name::Percent => once(&mut self.percent, small(value, 100)),
            Name::Priority => once(&mut self.priority, small(value, 9)),
            Name::Summary => once(&mut self.summary, Some(line)),
            Name::Organizer => once(&mut self.organizer, Some(line).filter(|it| !it.value.is_empty())),
            _ => self.add_to_list(name, line),
        }
    }

    fn add_to_list(&mut self, name: Name, line: Line<'a>) -> Option<()> {
        match name {
            Name::Attendee => self.attendees.push(Some(line).filter(|it| !it.value.is_empty())?),
            Name::Rule => self.rules.push(line.value),
            Name::Rdate if !line.value.contains(&b'/') => add_moments(line, &mut self.rdates)?,
            Name::Exdate => add_moments(line, &mut self.exdates)?,
            _ => self.others.push(line),
        }
        Some(())
    }

    /// Whether all is there that has to be. Moments of lists are then in order, and each once.
    fn is_done(&mut self) -> bool {
        for list in [&mut self.rdates, &mut self.exdates] {
            list.sort();
            list.dedup();
        }
        self.uid.is_some() && self.stamp.is_some()
    }

    /// Writes the canonical octets of the to-do under a method, or of what it says of one attendee.
    pub fn write(&self, method: &str, attendee: Option<Line>, out: &mut Vec<u8>) {
        out.extend_from_slice(b"BEGIN:VCALENDAR\r\nPRODID:-//itipdesk//1//EN\r\nVERSION:2.0\r\nMETHOD:");
        push(out, [method.as_bytes(), b"\r\nBEGIN:VTODO\r\n"]);
        self.write_head(out);
        match attendee {
            Some(it) => self.write_answer(it, out),
            None => self.write_rest(out),
        }
        out.extend_from_slice(b"END:VTODO\r\nEND:VCALENDAR\r\n");
    }

    fn write_head(&self, out: &mut Vec<u8>) {
        let (sequence, stamp) = self.revision();
        write_value(b"UID:", self.uid(), out);
        out.extend_from_slice(b"DTSTAMP:");
        write_stamp(stamp, out);
        out.extend_from_slice(b"\r\nSEQUENCE:");
        push_number(sequence, out);
        out.extend_from_slice(b"\r\n");
        if let Some(rid) = &self.rid {
            write_moment_line(b"RECURRENCE-ID", rid, if self.is_range { b";RANGE=THISANDFUTURE" } else { b"" }, out);
        }
    }

    fn write_answer(&self, attendee: Line, out: &mut Vec<u8>) {
        self.write_status(out);
        self.organizer.iter().for_each(|it| it.write(out));
        attendee.write(out);
    }

    fn write_status(&self, out: &mut Vec<u8>) {
        if let Some(status) = self.status {
            write_value(b"STATUS:", status.as_bytes(), out);
        }
        write_small(b"PERCENT-COMPLETE:", self.percent, out);
    }

    fn write_rest(&self, out: &mut Vec<u8>) {
        write_moments(b"DTSTART", self.start.as_slice(), out);
        write_moments(b"DUE", self.due.as_slice(), out);
        self.write_status(out);
        write_small(b"PRIORITY:", self.priority, out);
        let people = self.organizer.iter().chain(&self.attendees);
        self.summary.iter().chain(people).for_each(|it| it.write(out));
        self.rules.iter().for_each(|it| write_value(b"RRULE:", it, out));
        write_moments(b"RDATE", &self.rdates, out);
        write_moments(b"EXDATE", &self.exdates, out);
        self.others.iter().for_each(|it| it.write(out));
    }
}

fn write_value(name: &[u8], value: &[u8], out: &mut Vec<u8>) {
    write_line(out, |out| push(out, [name, value]));
}

fn write_small(name: &[u8], number: Option<u8>, out: &mut Vec<u8>) {
    if let Some(number) = number {
        out.extend_from_slice(name);
        push_number(number.into(), out);
        out.extend_from_slice(b"\r\n");
    }
}

fn write_moments(name: &[u8], moments: &[Moment], out: &mut Vec<u8>) {
    moments.iter().for_each(|it| write_moment_line(name, it, b"", out));
}

/// Writes a moment with its parameters, and one more.
fn write_moment_line(name: &[u8], moment: &Moment, param: &[u8], out: &mut Vec<u8>) {
    write_line(out, |out| {
        out.extend_from_slice(name);
        match (moment.form, &moment.zone) {
            (Form::Date, _) => out.extend_from_slice(b";VALUE=DATE"),
            (_, Some(zone)) if zone.iter().any(needs_quotes) => push(out, [b";TZID=\"", zone, b"\""]),
            (_, Some(zone)) => push(out, [b";TZID=", zone]),
            _ => {}
        }
        push(out, [param, b":"]);
        write_moment(moment, out);
    });
}
