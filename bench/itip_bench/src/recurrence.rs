//! Occurrences of rules, near and far.

use crate::error::BenchError;
use crate::watch::now;
use itip_lines::ListOf;
use itip_moment::read_moment;
use itip_recur::{Reading, Series, occurrences, read_rule};
use std::alloc::Global;
use std::rt::Clock;
use std::time::Duration;

/// DTSTART, RRULE, and the first day of the window of 3,660 days, counted from 1970-01-01.
const SERIES: [(&str, &str, i32); 9] = [
    ("20240101", "FREQ=DAILY", 20_454),
    ("20240101", "FREQ=WEEKLY;BYDAY=TU,FR", 20_454),
    ("20240101", "FREQ=WEEKLY;INTERVAL=2;BYDAY=MO,TH", 20_454),
    ("20240101", "FREQ=WEEKLY;BYDAY=TU,FR;COUNT=400", 20_454),
    ("20240101", "FREQ=MONTHLY;BYDAY=-1FR", 20_454),
    ("20240229", "FREQ=YEARLY", 20_454),
    ("19700101", "FREQ=DAILY", 2_567_664),
    ("19700101", "FREQ=MONTHLY;BYDAY=-1FR", 2_567_664),
    (
        "19700101",
        "FREQ=WEEKLY;BYDAY=TU,FR;COUNT=800000",
        2_567_664,
    ),
];

/// How many days the window has.
const DAYS: i32 = 3660;

/// Lists the occurrences of each series so many times.
pub(crate) fn measure_recurrence<R: AllocGlobal + Clock + Print>(
    rt: &R,
    rounds: u64,
) -> Result<(), BenchError> {
    for (start, rule, from) in SERIES {
        let (count, time) = measure_series(rt, start, rule, from, rounds)?;
        println!(rt; "occurrences {start} {rule} from day {from} {count} in {time} us")?;
    }
    Ok(())
}

/// Lists the occurrences of a series so many times: how many there were in all, and how many microseconds it took.
fn measure_series<R: AllocGlobal + Clock>(
    rt: &R,
    start: &str,
    rule: &str,
    from: i32,
    rounds: u64,
) -> Result<(u64, u128), BenchError> {
    let series = series(rt.alloc(), start, rule)?;
    let (count, time) = time_rounds(rt, &series, from, rounds)?;
    Ok((count, time.as_micros()))
}

/// Lists the occurrences so many times: how many there were in all, and how long it took.
fn time_rounds<R: AllocGlobal + Clock>(
    rt: &R,
    series: &Series,
    from: i32,
    rounds: u64,
) -> Result<(u64, Duration), BenchError> {
    let mut time = Duration::ZERO;
    let mut count = 0u64;
    for _ in 0..rounds {
        let start = now(rt)?;
        let moments = occurrences(rt.alloc(), series, from, from.saturating_add(DAYS))?;
        time = time.saturating_add(start.elapsed(rt)?);
        count = count.saturating_add(moments.len() as u64);
    }
    Ok((count, time))
}

fn series(alloc: Global, start: &str, rule: &str) -> Result<Series, BenchError> {
    let Some(start) = read_moment(alloc, start, None)? else {
        return Err(BenchError::Words);
    };
    let Reading::Plain(rule) = read_rule(alloc, rule)? else {
        return Err(BenchError::Words);
    };
    Ok(Series::new(start, Some(rule), ListOf::new(alloc), ListOf::new(alloc))?)
}
