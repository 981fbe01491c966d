//! Joins of a small map into a large one and into a small one.

use crate::error::BenchError;
use crate::watch::now;
use itip_join::{Greatest, Join, Keyed, NoMemory};
use std::alloc::Global;
use std::rt::Clock;
use std::time::Duration;

type Map = Keyed<u64, Greatest<u64>>;

/// How many keys the map that is joined in has.
const JOINED_IN: u64 = 100;

/// How often it is measured.
const ROUNDS: u64 = 200;

/// Joins maps of 100 keys into one of so many keys, and maps of 100 keys into others of 100, and prints what a join of each kind took.
pub(crate) fn measure_joins<R: AllocGlobal + Clock + Print>(
    rt: &R,
    keys: u64,
) -> Result<(), BenchError> {
    let mut large = map_of(rt.alloc(), keys)?;
    let mut into_large = Duration::ZERO;
    let mut into_small = Duration::ZERO;
    for round in 1..=ROUNDS {
        let time = time_round(rt, &mut large, keys, round)?;
        into_large = into_large.saturating_add(time);
        let time = time_small(rt, round)?;
        into_small = into_small.saturating_add(time);
    }
    print(rt, keys, into_large)?;
    print(rt, JOINED_IN, into_small)
}

/// Joins what is heard in a round into a map of 100 keys.
fn time_small<R: AllocGlobal + Clock>(rt: &R, round: u64) -> Result<Duration, BenchError> {
    let mut small = map_of(rt.alloc(), JOINED_IN)?;
    time_round(rt, &mut small, JOINED_IN, round)
}

/// Joins what is heard in a round into a map of so many keys.
fn time_round<R: AllocGlobal + Clock>(
    rt: &R,
    map: &mut Map,
    keys: u64,
    round: u64,
) -> Result<Duration, BenchError> {
    let news = news(rt.alloc(), keys, round)?;
    time_join(rt, map, &news)
}

fn time_join<R: Clock>(rt: &R, map: &mut Map, news: &Map) -> Result<Duration, BenchError> {
    let start = now(rt)?;
    map.join(news)?;
    Ok(start.elapsed(rt)?)
}

fn print<R: Print>(rt: &R, keys: u64, time: Duration) -> Result<(), BenchError> {
    let each = time.as_nanos() / u128::from(ROUNDS);
    println!(rt; "join {keys} keys with {JOINED_IN} in {each} ns")?;
    Ok(())
}

/// A map with the keys 0, 2, 4 and so on.
fn map_of(alloc: Global, keys: u64) -> Result<Map, NoMemory> {
    let mut map = Keyed::empty(alloc);
    for key in 0..keys {
        map.insert(key.wrapping_mul(2), Greatest { value: 0 })?;
    }
    Ok(map)
}

/// What a copy hears in a round: half of it about keys that the map has, half about new ones.
fn news(alloc: Global, keys: u64, round: u64) -> Result<Map, NoMemory> {
    let mut map = Keyed::empty(alloc);
    let far = keys.wrapping_mul(2) / JOINED_IN;
    for number in 0..JOINED_IN / 2 {
        let key = number.wrapping_mul(far).wrapping_mul(2);
        map.insert(key, Greatest { value: round })?;
        let between = round.wrapping_mul(2).wrapping_add(1);
        map.insert(key.wrapping_add(between), Greatest { value: round })?;
    }
    Ok(map)
}
