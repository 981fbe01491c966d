//! Calls about joins: `join TYPE VALUE VALUE` and others, for values of each type.

use crate::error::CallError;
use crate::texts::{text, truth};
use itip_join::laws::join_all;
use itip_join::{Both, Lift};
use itip_notation::{GuardedByKey, GuardedMap, GuardedTwo, Map, Notation, Number, Parts};
use std::alloc::Global;

pub(crate) fn answer(
    alloc: Global,
    word: &str,
    arguments: &[Vec<u8>],
) -> Result<Vec<u8>, CallError> {
    let [name, values @ ..] = arguments else {
        return Err(CallError::NoSuchCall);
    };
    match text(name)? {
        "unit" => answer_of::<()>(alloc, word, values),
        "number" => answer_of::<Number>(alloc, word, values),
        "lift" => answer_of::<Lift<Number>>(alloc, word, values),
        "both" => answer_of::<Both<Number, Number>>(alloc, word, values),
        "map" => answer_of::<Map>(alloc, word, values),
        name => answer_of_keyed(alloc, name, word, values),
    }
}

fn answer_of_keyed(
    alloc: Global,
    name: &str,
    word: &str,
    values: &[Vec<u8>],
) -> Result<Vec<u8>, CallError> {
    match name {
        "parts" => answer_of::<Parts>(alloc, word, values),
        "guarded" => answer_of::<GuardedMap>(alloc, word, values),
        "guarded_two" => answer_of::<GuardedTwo>(alloc, word, values),
        "guarded_by_key" => answer_of::<GuardedByKey>(alloc, word, values),
        _ => Err(CallError::NoSuchCall),
    }
}

/// What a call answers about values of one type.
fn answer_of<T: Notation>(
    alloc: Global,
    word: &str,
    arguments: &[Vec<u8>],
) -> Result<Vec<u8>, CallError> {
    let values: Vec<T> = values(alloc, arguments)?;
    match values.as_slice() {
        [value] => of_one(alloc, word, value),
        [mine, theirs] => of_two(alloc, word, mine, theirs),
        [mine, theirs, want] => of_three(alloc, word, (mine, theirs), want),
        [a, b, c, want] => of_four(alloc, word, (a, b, c), want),
        _ => Err(CallError::NoSuchCall),
    }
}

fn of_one<T: Notation>(alloc: Global, word: &str, value: &T) -> Result<Vec<u8>, CallError> {
    match word {
        "written" => written(alloc, value),
        _ => Err(CallError::NoSuchCall),
    }
}

fn of_two<T: Notation>(
    alloc: Global,
    word: &str,
    mine: &T,
    theirs: &T,
) -> Result<Vec<u8>, CallError> {
    match word {
        "join" => written(alloc, &met(mine, theirs)?),
        "below" => truth(alloc, mine.below(theirs)),
        _ => Err(CallError::NoSuchCall),
    }
}

fn of_three<T: Notation>(
    alloc: Global,
    word: &str,
    (mine, theirs): (&T, &T),
    want: &T,
) -> Result<Vec<u8>, CallError> {
    match word {
        "meet" => truth(alloc, meet_at(mine, theirs, want)?),
        _ => Err(CallError::NoSuchCall),
    }
}

fn of_four<T: Notation>(
    alloc: Global,
    word: &str,
    told: (&T, &T, &T),
    want: &T,
) -> Result<Vec<u8>, CallError> {
    match word {
        "end_in_any_order" => truth(alloc, end_in_any_order(alloc, told, want)?),
        _ => Err(CallError::NoSuchCall),
    }
}

fn values<T: Notation>(alloc: Global, arguments: &[Vec<u8>]) -> Result<Vec<T>, CallError> {
    let mut values = Vec::new(alloc);
    for argument in arguments {
        values.push(T::read(alloc, text(argument)?)?)?;
    }
    Ok(values)
}

fn written<T: Notation>(alloc: Global, value: &T) -> Result<Vec<u8>, CallError> {
    Ok(value.write(alloc)?.into_bytes())
}

/// `mine` once it has taken in `theirs`.
fn met<T: Notation>(mine: &T, theirs: &T) -> Result<T, CallError> {
    let mut both = mine.copy()?;
    both.join(theirs)?;
    Ok(both)
}

fn same<T: Notation>(mine: &T, theirs: &T) -> bool {
    mine.below(theirs) && theirs.below(mine)
}

/// Whether the two joined are `want`, whichever takes in the other, and each of them is below that.
fn meet_at<T: Notation>(mine: &T, theirs: &T, want: &T) -> Result<bool, CallError> {
    let here = met(mine, theirs)?;
    let there = met(theirs, mine)?;
    let again = met(&here, theirs)?;
    let are_same = same(&here, want) && same(&there, want) && same(&again, want);
    Ok(are_same && mine.below(want) && theirs.below(want))
}

/// Whether the three, told in this order and the last two twice, end up as `want`.
fn end_at<T: Notation>(alloc: Global, told: (&T, &T, &T), want: &T) -> Result<bool, CallError> {
    let mut rest = Vec::new(alloc);
    for value in [told.1, told.2, told.1, told.2] {
        rest.push(value.copy()?)?;
    }
    Ok(same(&join_all(told.0, &rest)?, want))
}

/// The same of the three in each order.
fn end_in_any_order<T: Notation>(
    alloc: Global,
    (a, b, c): (&T, &T, &T),
    want: &T,
) -> Result<bool, CallError> {
    for told in [
        (a, b, c),
        (a, c, b),
        (b, a, c),
        (b, c, a),
        (c, a, b),
        (c, b, a),
    ] {
        if !end_at(alloc, told, want)? {
            return Ok(false);
        }
    }
    Ok(true)
}
