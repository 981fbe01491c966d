//! What a desk keeps of one UID, and the parts of a desk that lists are made of.

use crate::desks::desk_after;
use crate::error::CallError;
use crate::texts::{text, year};
use itip_items::{Item, Key};
use itip_lines::Text;
use itip_moment::{Moment, read_moment};
use itip_state::{ItemsOfUid, State};
use itip_todo::{Uid, attendee_key};
use itip_view::{RowsByUid, Wanted};
use std::alloc::{AllocError, Global};

pub(crate) fn answer(
    alloc: Global,
    word: &str,
    arguments: &[Vec<u8>],
) -> Result<Vec<u8>, CallError> {
    match (word, arguments) {
        ("kept", [uid, at, address, texts @ ..]) => {
            kept(alloc, &Names::of(alloc, uid, at, address)?, texts)
        }
        ("parts", [address, texts @ ..]) => parts(alloc, text(address)?, texts),
        _ => Err(CallError::NoSuchCall),
    }
}

/// A UID, a recurrence id, and the key of an attendee.
#[derive(Drop)]
struct Names {
    uid: Uid,
    at: Moment,
    attendee: Text,
}

impl Names {
    fn of(alloc: Global, uid: &[u8], at: &[u8], address: &[u8]) -> Result<Names, CallError> {
        let uid = Uid::copy(alloc, text(uid)?)?;
        let Some(at) = read_moment(alloc, text(at)?, None)? else {
            return Err(CallError::NoSuchCall);
        };
        let attendee = attendee_key(alloc, text(address)?)?;
        Ok(Names { uid, at, attendee })
    }
}

/// The sequences of some of the kept items of a UID.
#[derive(Clone, Copy)]
struct Sequences {
    series: Option<u32>,
    instance: Option<u32>,
    answer: Option<u32>,
    answer_to_whole: Option<u32>,
}

/// What a desk that took these messages keeps of a UID: whether anything, how many items, and the sequences of some of them.
fn kept(alloc: Global, names: &Names, texts: &[Vec<u8>]) -> Result<Vec<u8>, CallError> {
    let desk = desk_after(alloc, texts)?;
    let state = desk.state();
    let keeps = state.keeps(&names.uid);
    let shared = state.shared_of(&[&names.uid])?.len();
    let found = sequences_of(names, &state.of_uid(&names.uid)?)?;
    let mut told = format!(in alloc; "keeps {keeps} shared {shared}")?;
    add_all(alloc, &mut told, found)?;
    Ok(told.into_bytes())
}

fn sequences_of(names: &Names, items: &ItemsOfUid<'_>) -> Result<Sequences, AllocError> {
    let attendee = names.attendee.as_str();
    Ok(Sequences {
        series: series_sequence(names, items)?,
        instance: sequence(items.instance(&names.at)),
        answer: sequence(items.answer(Some(&names.at), attendee)),
        answer_to_whole: sequence(items.answer(None, attendee)),
    })
}

fn series_sequence(names: &Names, items: &ItemsOfUid<'_>) -> Result<Option<u32>, AllocError> {
    let key = Key::Series(names.uid.clone()?);
    Ok(sequence(items.best(&key)))
}

fn sequence(item: Option<&Item>) -> Option<u32> {
    match item {
        Some(item) => Some(item.own),
        None => None,
    }
}

fn add_all(alloc: Global, told: &mut String, found: Sequences) -> Result<(), AllocError> {
    add(alloc, told, "series", found.series)?;
    add(alloc, told, "instance", found.instance)?;
    add(alloc, told, "answer", found.answer)?;
    add(alloc, told, "whole", found.answer_to_whole)?;
    told.push_str("\n")
}

fn add(
    alloc: Global,
    told: &mut String,
    word: &str,
    sequence: Option<u32>,
) -> Result<(), AllocError> {
    let shown = match sequence {
        Some(sequence) => format!(in alloc; " {word} {sequence}")?,
        None => format!(in alloc; " {word} -")?,
    };
    told.push_str(shown.as_str())
}

/// The list of the year 2026 of a desk that took these messages, made of its items for that year, and then the list of an
/// attendee, made of the items of the to-dos that name the attendee.
fn parts(alloc: Global, address: &str, texts: &[Vec<u8>]) -> Result<Vec<u8>, CallError> {
    let desk = desk_after(alloc, texts)?;
    let window = year()?;
    let part = State::of_shared(alloc, &desk.items_in(window)?)?;
    let mut told = RowsByUid::of(alloc, &part, window, &Wanted::all())?.text()?;
    told.extend_from_slice(b"of the attendee\n")?;
    let part = State::of_shared(alloc, &desk.items_naming(address)?)?;
    let wanted = Wanted::showing(Some(address));
    let mut shown = RowsByUid::of(alloc, &part, window, &wanted)?.text()?;
    told.append(&mut shown)?;
    Ok(told)
}
