//! `changes MAP STEP STEP ..`: what each step answers at a map that the steps before it have changed.

use crate::error::CallError;
use crate::texts::{shown, text};
use itip_join::Join;
use itip_notation::{Key, Map, Notation, Number};
use std::alloc::Global;

pub(crate) fn answer(alloc: Global, arguments: &[Vec<u8>]) -> Result<Vec<u8>, CallError> {
    let [map, steps @ ..] = arguments else {
        return Err(CallError::NoSuchCall);
    };
    let mut map = Map::read(alloc, text(map)?)?;
    let mut told = String::new(alloc);
    for step in steps {
        told.push_str(changed(alloc, &mut map, text(step)?)?.as_str())?;
        told.push_str("\n")?;
    }
    Ok(told.into_bytes())
}

fn changed(alloc: Global, map: &mut Map, step: &str) -> Result<String, CallError> {
    let (word, rest) = step.split_once(' ').unwrap_or((step, ""));
    match word {
        "join" => join(alloc, map, rest),
        "join_one" => join_one(alloc, map, rest),
        "replace" => replace(alloc, map, rest),
        "remove" => shown(alloc, value(map.remove(&u32::read_key(rest)?))),
        "get" => get(alloc, map, rest),
        "map" => Ok(map.write(alloc)?),
        "size" => size(alloc, map),
        _ => Err(CallError::NoSuchCall),
    }
}

fn join(alloc: Global, map: &mut Map, text: &str) -> Result<String, CallError> {
    map.join(&Map::read(alloc, text)?)?;
    Ok(String::from_str(alloc, "joined")?)
}

fn join_one(alloc: Global, map: &mut Map, text: &str) -> Result<String, CallError> {
    let (key, value) = entry(alloc, text)?;
    map.join_one(&key, &value)?;
    Ok(String::from_str(alloc, "joined")?)
}

fn replace(alloc: Global, map: &mut Map, text: &str) -> Result<String, CallError> {
    let (key, number) = entry(alloc, text)?;
    shown(alloc, value(map.replace(&key, number)))
}

fn get(alloc: Global, map: &Map, text: &str) -> Result<String, CallError> {
    let found = map.get(&u32::read_key(text)?);
    shown(alloc, found.map(|number| number.value))
}

fn size(alloc: Global, map: &Map) -> Result<String, CallError> {
    let len = map.map.len();
    let is_empty = map.map.is_empty();
    Ok(format!(in alloc; "{len} {is_empty}")?)
}

/// A key and a number, as `3=7`.
fn entry(alloc: Global, text: &str) -> Result<(u32, Number), CallError> {
    let (key, value) = text.split_once('=').ok_or(CallError::NoSuchCall)?;
    Ok((u32::read_key(key)?, Number::read(alloc, value)?))
}

fn value(number: Option<Number>) -> Option<u32> {
    number.map(|number| number.value)
}
