//! The list of a desk.

use crate::desk::{Desk, Item, Key, Kind};
use crate::moment::{Form, LAST_DAY, Moment, write_moment};
use crate::recur::{Rule, Series, occurrences, read_rule};
use crate::text::{push, push_number};
use std::collections::BTreeMap;
use std::ops::Deref;

type Items<P> = BTreeMap<Key, P>;

enum Shape {
    Single,
    Opaque,
    Repeats(Series),
}

fn shape(item: &Item) -> Shape {
    if item.rules.is_empty() && item.rdates.is_empty() && item.exdates.is_empty() && !item.has_period {
        return Shape::Single;
    }
    let rule: Option<Option<Rule>> = match item.rules.as_slice() {
        [] => Some(None),
        [text] => std::str::from_utf8(text).ok().and_then(read_rule).map(Some),
        _ => None,
    };
    match (&item.start, rule) {
        (Some(start), Some(rule)) if !item.has_period => {
            Shape::Repeats(Series { start: start.clone(), rule, rdates: item.rdates.clone(), exdates: item.exdates.clone() })
        }
        _ => Shape::Opaque,
    }
}

fn show(moment: Option<&Moment>, out: &mut Vec<u8>) {
    match moment {
        None => out.push(b'-'),
        Some(moment) => {
            if let (Form::Zoned, Some(zone)) = (moment.form, &moment.zone) {
                push(out, [b"TZID=", zone, b":"]);
            }
            write_moment(moment, out);
        }
    }
}

fn number(number: Option<u8>, out: &mut Vec<u8>) {
    match number {
        None => out.push(b'-'),
        Some(number) => push_number(number.into(), out),
    }
}

enum Id<'a> {
    Whole,
    Opaque,
    At(&'a Moment),
}

fn row<P: Deref<Target = Item>>(items: &Items<P>, item: &Item, id: &Id, occurrence: Option<&Moment>, out: &mut Vec<u8>) {
    push(out, [b"TODO ", &item.uid, b"\n  ID "]);
    match id {
        Id::Whole => out.push(b'-'),
        Id::Opaque => out.extend_from_slice(b"opaque"),
        Id::At(moment) => show(Some(moment), out),
    }
    out.extend_from_slice(b"\n  SEQ ");
    push_number(item.sequence, out);
    push(out, [b" STATUS ", item.status.unwrap_or("-").as_bytes(), b" PERCENT "]);
    number(item.percent, out);
    out.extend_from_slice(b" PRIORITY ");
    number(item.priority, out);
    out.extend_from_slice(b"\n  START ");
    show(occurrence.or(item.start.as_ref()), out);
    out.extend_from_slice(b" DUE ");
    let due = match (&item.due, &item.start, occurrence) {
        (Some(due), Some(start), Some(at)) => Some(Moment { day: due.day + at.day - start.day, ..due.clone() }),
        (due, ..) => due.clone(),
    };
    let due = due.filter(|it| it.day <= LAST_DAY);
    show(due.as_ref(), out);
    push(out, [b"\n  SUMMARY ", item.summary.as_deref().unwrap_or(b"-"), b"\n"]);
    attendees(items, item, id, out);
}

fn attendees<P: Deref<Target = Item>>(items: &Items<P>, item: &Item, id: &Id, out: &mut Vec<u8>) {
    let (mut told, mut percents) = (0u32, 0u32);
    for attendee in &item.attendees {
        let counts = |it: &&P| it.sequence >= item.sequence;
        let answer_to = |rid: Option<&Moment>| items.get(&Key::Answer(rid.cloned(), attendee.key.clone())).filter(counts);
        let at = match id {
            Id::At(moment) => answer_to(Some(moment)),
            _ => None,
        };
        let answer = at.or_else(|| if item.key == Key::Series { answer_to(None) } else { None });
        let shown = answer.map_or(attendee, |it| &it.attendees[0]);
        let percent = answer.and_then(|it| it.percent);
        let partstat = shown.partstat.as_deref().unwrap_or(b"NEEDS-ACTION");
        push(out, [b"  ATTENDEE ", &attendee.address, b" ", partstat, b" "]);
        number(percent, out);
        out.push(b'\n');
        told += u32::from(percent.is_some());
        percents += u32::from(percent.unwrap_or(0));
    }
    out.extend_from_slice(b"  PROGRESS ");
    number(percents.checked_div(told).map(|mean| mean as u8), out);
    out.push(b'\n');
}

/// The text of the list, and how many rows it has.
pub fn list<P: Deref<Target = Item>>(desk: &Desk<P>, from: i32, to: i32) -> (Vec<u8>, usize) {
    let (mut out, mut rows) = (Vec::new(), 0);
    for items in desk.uids.values() {
        let series = items.get(&Key::Series);
        let least = series.filter(|it| it.kind == Kind::State).map_or(0, |it| it.sequence);
        let standing = |moment: &Moment| items.get(&Key::Instance(moment.clone())).filter(|it| it.sequence >= least);
        let mut found: Vec<(Moment, Option<&P>)> = Vec::new();
        if let Some(item) = series.filter(|it| it.kind == Kind::State) {
            match shape(item) {
                Shape::Repeats(series) => {
                    let days = occurrences(&series, from, to).into_iter();
                    found.extend(days.filter(|it| standing(it).is_none()).map(|it| (it, None)));
                }
                shape => {
                    rows += 1;
                    row(items, item, if matches!(shape, Shape::Opaque) { &Id::Opaque } else { &Id::Whole }, None, &mut out);
                }
            }
        }
        for (key, item) in items {
            if let Key::Instance(rid) = key {
                let day = item.start.as_ref().unwrap_or(rid).day;
                if item.kind == Kind::State && item.sequence >= least && from <= day && day < to {
                    found.push((rid.clone(), Some(item)));
                }
            }
        }
        if found.iter().any(|(_, item)| item.is_some()) {
            found.sort_by(|a, b| a.0.cmp(&b.0));
        }
        rows += found.len();
        for (moment, item) in &found {
            match (item, series) {
                (Some(item), _) => row(items, item, &Id::At(moment), None, &mut out),
                (None, Some(series)) => row(items, series, &Id::At(moment), Some(moment), &mut out),
                (None, None) => {}
            }
        }
    }
    (out, rows)
}
