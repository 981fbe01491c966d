//! Calls of `itip_recur` about the moments of a series in a window.
//!
//! - `occurrences START RULE RDATES EXDATES FROM TO`: the occurrences, in order, or `none`
//! - `occurrences_of_todo TEXT FROM TO`: the same of the to-do with the lines of TEXT, or `single` or `opaque`
//! - `count_occurrences ..`, `count_all_occurrences ..`: how many there are of such a series, with the limit and without it
//!
//! `-` is no rule and no moments; moments have commas between them. Where there are more than are listed the answer is `31`.

use crate::error::CallError;
use crate::moments::moment_of;
use crate::rules::{day_of, rule_of};
use crate::todos::to_do;
use itip_lines::ListOf;
use itip_moment::{Moment, write_moment};
use itip_recur::{Rule, Series, Shape, all_occurrences, occurrences, shape};
use std::alloc::{AllocError, Global};

pub(crate) fn answer(alloc: Global, word: &str, texts: &[&str]) -> Result<Vec<u8>, CallError> {
    match (word, texts) {
        ("occurrences_of_todo", [text, from, to]) => {
            listed(alloc, &series_of_todo(alloc, text)?, from, to)
        }
        (_, [start, rule, rdates, exdates, from, to]) => {
            let series = series_of(alloc, start, rule, rdates, exdates)?;
            answer_of(alloc, word, &series, from, to)
        }
        _ => Err(CallError::NoSuchCall),
    }
}

fn answer_of(
    alloc: Global,
    word: &str,
    series: &Series,
    from: &str,
    to: &str,
) -> Result<Vec<u8>, CallError> {
    match word {
        "occurrences" => listed(alloc, series, from, to),
        "count_occurrences" => counted(alloc, series, from, to),
        "count_all_occurrences" => all_counted(alloc, series, from, to),
        _ => Err(CallError::NoSuchCall),
    }
}

fn series_of(
    alloc: Global,
    start: &str,
    rule: &str,
    rdates: &str,
    exdates: &str,
) -> Result<Series, CallError> {
    let start = moment_of(alloc, start)?;
    let rule = rule_if_any(alloc, rule)?;
    let rdates = moments_of(alloc, rdates)?;
    Ok(Series::new(start, rule, rdates, moments_of(alloc, exdates)?)?)
}

fn rule_if_any(alloc: Global, text: &str) -> Result<Option<Rule>, CallError> {
    if text == "-" {
        return Ok(None);
    }
    Ok(Some(rule_of(alloc, text)?))
}

fn moments_of(alloc: Global, texts: &str) -> Result<ListOf<Moment>, CallError> {
    let mut moments = Vec::new(alloc);
    if texts != "-" {
        for text in texts.split(',') {
            moments.push(moment_of(alloc, text)?)?;
        }
    }
    Ok(ListOf::from_vec(moments))
}

/// The series that the to-do with these lines is.
pub(crate) fn series_of_todo(alloc: Global, text: &str) -> Result<Series, CallError> {
    match shape_of(alloc, text)? {
        Shape::Single => Err(CallError::Single),
        Shape::Opaque => Err(CallError::Opaque),
        Shape::Repeats(series) => Ok(series),
    }
}

fn shape_of(alloc: Global, text: &str) -> Result<Shape, CallError> {
    Ok(shape(alloc, &to_do(alloc, text)?)?)
}

fn listed(alloc: Global, series: &Series, from: &str, to: &str) -> Result<Vec<u8>, CallError> {
    let found = occurrences(alloc, series, day_of(from)?, day_of(to)?)?;
    Ok(written(alloc, &found)?)
}

/// Moments with blanks between them; `none` where there is none.
fn written(alloc: Global, moments: &[Moment]) -> Result<Vec<u8>, AllocError> {
    let mut out = Vec::new(alloc);
    for moment in moments {
        if !out.is_empty() {
            out.push(b' ')?;
        }
        write_moment(moment, &mut out)?;
    }
    if out.is_empty() {
        out.extend_from_slice(b"none")?;
    }
    Ok(out)
}

fn counted(alloc: Global, series: &Series, from: &str, to: &str) -> Result<Vec<u8>, CallError> {
    let count = occurrences(alloc, series, day_of(from)?, day_of(to)?)?.len();
    Ok(format!(in alloc; "{count}")?.into_bytes())
}

fn all_counted(alloc: Global, series: &Series, from: &str, to: &str) -> Result<Vec<u8>, CallError> {
    let count = all_occurrences(alloc, series, day_of(from)?, day_of(to)?)?.len();
    Ok(format!(in alloc; "{count}")?.into_bytes())
}
