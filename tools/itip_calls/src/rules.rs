//! Calls of `itip_recur` about rules and shapes.
//!
//! - `read_rule TEXT`: `plain`, and after it `count` or `until` with its value; or `opaque`
//! - `is_day RULE START DAY`: whether the day is one of the rule from the start, both as dates
//! - `shape TEXT`: whether the to-do with the lines of TEXT is `single`, `opaque` or `repeats`

use crate::error::CallError;
use crate::series::series_of_todo;
use itip_moment::{Day, read_date, write_moment};
use itip_recur::{End, Reading, Rule, is_day, read_rule};
use std::alloc::{AllocError, Global};

pub(crate) fn answer(alloc: Global, word: &str, texts: &[&str]) -> Result<Vec<u8>, CallError> {
    match (word, texts) {
        ("read_rule", [text]) => Ok(ended(alloc, &rule_of(alloc, text)?)?),
        ("is_day", [rule, start, day]) => is_told(alloc, rule, start, day),
        ("shape", [text]) => shaped(alloc, text),
        _ => Err(CallError::NoSuchCall),
    }
}

/// The rule that a text is.
pub(crate) fn rule_of(alloc: Global, text: &str) -> Result<Rule, CallError> {
    match read_rule(alloc, text)? {
        Reading::Plain(rule) => Ok(rule),
        Reading::OutsideProfile => Err(CallError::Opaque),
    }
}

/// The number of a day, which is written as its date or as its number. No call takes another text for a day.
pub(crate) fn day_of(text: &str) -> Result<i32, CallError> {
    match read_date(text) {
        Some(day) => Ok(day.number),
        None => text.parse::<i32>().map_err(|_| CallError::NoSuchCall),
    }
}

fn ended(alloc: Global, rule: &Rule) -> Result<Vec<u8>, AllocError> {
    let mut out = Vec::from_slice(alloc, b"plain")?;
    match &rule.end {
        End::Never => {}
        End::Count(count) => out.extend_from_slice(format!(in alloc;
            " count {count}"
        )?.as_bytes())?,
        End::Until(last) => {
            out.extend_from_slice(b" until ")?;
            write_moment(last, &mut out)?;
        }
    }
    Ok(out)
}

fn is_told(alloc: Global, rule: &str, start: &str, day: &str) -> Result<Vec<u8>, CallError> {
    let is_told = is_of_rule(alloc, rule, &date_of(start)?, &date_of(day)?)?;
    Ok(format!(in alloc; "{is_told}")?.into_bytes())
}

fn is_of_rule(alloc: Global, rule: &str, start: &Day, day: &Day) -> Result<bool, CallError> {
    let rule = rule_of(alloc, rule)?;
    Ok(is_day(&rule, start.number, day.number))
}

fn date_of(text: &str) -> Result<Day, CallError> {
    read_date(text).ok_or(CallError::NoSuchCall)
}

fn shaped(alloc: Global, text: &str) -> Result<Vec<u8>, CallError> {
    series_of_todo(alloc, text)?;
    Ok(Vec::from_slice(alloc, b"repeats")?)
}
