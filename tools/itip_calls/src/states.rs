//! Calls about what is kept of messages, each of which is a state that is merged in.

use crate::error::CallError;
use crate::texts::{number, shown, state, text, truth};
use itip_state::State;
use itip_todo::Uid;
use std::alloc::Global;

pub(crate) fn answer(
    alloc: Global,
    word: &str,
    arguments: &[Vec<u8>],
) -> Result<Vec<u8>, CallError> {
    match (word, arguments) {
        ("keeps", [eff, texts @ ..]) => {
            truth(alloc, keeps(&merged(alloc, texts)?, number(eff)?)?)
        }
        ("merge", [mine, theirs]) => both_ways(alloc, mine, theirs),
        ("part", [names, wanted, texts @ ..]) => part(alloc, text(names)?, wanted, texts),
        ("copies", texts) => copies(alloc, &merged(alloc, texts)?),
        ("state", [uid, texts @ ..]) => told(alloc, text(uid)?, &merged(alloc, texts)?),
        _ => Err(CallError::NoSuchCall),
    }
}

/// The states of these messages, merged.
fn merged(alloc: Global, texts: &[Vec<u8>]) -> Result<State, CallError> {
    let mut all = State::empty(alloc);
    for text in texts {
        merge_in(alloc, &mut all, text)?;
    }
    Ok(all)
}

/// Merges in the state of a message, where the text is not empty.
fn merge_in(alloc: Global, all: &mut State, text: &Vec<u8>) -> Result<(), CallError> {
    if !text.is_empty() {
        all.merge(&state(alloc, [text.clone()?].as_slice())?)?;
    }
    Ok(())
}

/// Whether an item of this effective sequence is kept.
fn keeps(state: &State, eff: u64) -> Result<bool, CallError> {
    let items = state.items()?;
    Ok(items.iter().any(|item| u64::from(item.eff) == eff))
}

/// How many items two states keep when they are merged, and whether they keep the same whichever is merged in.
fn both_ways(alloc: Global, mine: &Vec<u8>, theirs: &Vec<u8>) -> Result<Vec<u8>, CallError> {
    let here = merged_two(alloc, mine, theirs)?;
    let there = merged_two(alloc, theirs, mine)?;
    let entries = here.entries();
    let equal = here.equal(&there);
    Ok(format!(in alloc; "entries {entries} equal {equal}")?.into_bytes())
}

fn merged_two(alloc: Global, mine: &Vec<u8>, theirs: &Vec<u8>) -> Result<State, CallError> {
    let mut both = State::empty(alloc);
    merge_in(alloc, &mut both, mine)?;
    merge_in(alloc, &mut both, theirs)?;
    Ok(both)
}

/// Whether what is kept of these UIDs, each on a line, is what is kept of the message `wanted`.
fn part(
    alloc: Global,
    names: &str,
    wanted: &Vec<u8>,
    texts: &[Vec<u8>],
) -> Result<Vec<u8>, CallError> {
    let mut told = State::empty(alloc);
    merge_in(alloc, &mut told, wanted)?;
    let uids = uids(alloc, names)?;
    let mut named = Vec::new(alloc);
    for uid in &uids {
        named.push(uid)?;
    }
    let part = State::of_shared(alloc, &merged(alloc, texts)?.shared_of(&named)?)?;
    truth(alloc, part.equal(&told))
}

fn uids(alloc: Global, names: &str) -> Result<Vec<Uid>, CallError> {
    let mut uids = Vec::new(alloc);
    for name in names.split('\n') {
        if !name.is_empty() {
            uids.push(Uid::copy(alloc, name)?)?;
        }
    }
    Ok(uids)
}

/// The canonical octets of a second one of each kept item.
fn copies(alloc: Global, state: &State) -> Result<Vec<u8>, CallError> {
    let mut told = Vec::new(alloc);
    for item in &state.shared_items()? {
        let copy = item.clone()?;
        copy.item().bytes.append_to(&mut told)?;
    }
    Ok(told)
}

/// How many series and UIDs a state has, and what it has of one UID.
fn told(alloc: Global, name: &str, state: &State) -> Result<Vec<u8>, CallError> {
    let series = state.series()?.len();
    let uids = state.uids()?.len();
    let mut told = format!(in alloc; "series {series} uids {uids}\n")?;
    told.push_str(told_of_uid(alloc, Uid::copy(alloc, name)?, state)?.as_str())?;
    Ok(told.into_bytes())
}

/// How many items a UID has, its last sequence, and the effective sequence of its series item.
fn told_of_uid(alloc: Global, uid: Uid, state: &State) -> Result<String, CallError> {
    let of_uid = state.of_uid(&uid)?;
    let items = of_uid.as_slice().len();
    let last = shown(alloc, state.last_used(&uid))?;
    let series = of_uid.series().map(|item| item.eff);
    let series = shown(alloc, series)?;
    Ok(format!(in alloc; "items {items} last {last} series {series}\n")?)
}
