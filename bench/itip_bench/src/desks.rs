//! Taking items of all kinds in random order, merging states, and deltas.

use crate::error::BenchError;
use crate::load::{Numbers, SEED, about, message};
use crate::watch::{micros, now};
use itip_desk::{Batch, Desk};
use itip_items::Item;
use itip_message::read_message;
use itip_state::State;
use std::alloc::Global;
use std::rt::Clock;

/// How many UIDs of a large desk a delta is about.
const MOVED: u64 = 100;

/// Takes five items of each of so many to-dos, each twice and in random order; merges two states of them; and makes a delta of 100 UIDs out
/// of five times as many.
pub(crate) fn measure_desks<R: AllocGlobal + Clock + Print>(
    rt: &R,
    to_dos: u64,
) -> Result<(), BenchError> {
    let alloc = rt.alloc();
    let items = all_items(alloc, to_dos)?;
    take_all(rt, &items, 1)?;
    take_all(rt, &items, 100)?;
    merge_halves(rt, &items)?;
    delta(rt, to_dos.saturating_mul(5))
}

/// The series item, an instance and three answers of each to-do.
fn all_items(alloc: Global, to_dos: u64) -> Result<Vec<Item>, BenchError> {
    let mut items = Vec::new(alloc);
    for number in 0..to_dos {
        for text in about(alloc, number)? {
            add(alloc, &mut items, &text)?;
        }
    }
    Ok(items)
}

/// Adds the items of a message.
fn add(alloc: Global, items: &mut Vec<Item>, text: &String) -> Result<(), BenchError> {
    for item in read_message(alloc, text.as_bytes())? {
        items.push(item)?;
    }
    Ok(())
}

fn take_all<R: AllocGlobal + Clock + Print>(
    rt: &R,
    items: &[Item],
    size: usize,
) -> Result<(), BenchError> {
    let batches = batches(rt.alloc(), items, size)?;
    let mut desk = Desk::empty_at(rt.alloc(), 0);
    let time = time_taking(rt, &mut desk, &batches)?;
    print_taken(rt, items.len(), size, desk.entries(), time)
}

/// Has a desk take these batches: how many microseconds it took.
pub(crate) fn time_taking<R: Clock>(
    rt: &R,
    desk: &mut Desk,
    batches: &[Batch],
) -> Result<u128, BenchError> {
    let start = now(rt)?;
    take_batches(desk, batches)?;
    micros(rt, start)
}

/// Takes these batches, one after another.
fn take_batches(desk: &mut Desk, batches: &[Batch]) -> Result<(), BenchError> {
    for batch in batches {
        desk.take(batch)?;
    }
    Ok(())
}

fn print_taken<R: Print>(
    rt: &R,
    items: usize,
    size: usize,
    entries: usize,
    time: u128,
) -> Result<(), BenchError> {
    let taken = items.saturating_mul(2);
    println!(rt;
        "take {taken} items in batches of {size}, of which {entries} are kept, {time} us"
    )?;
    Ok(())
}

/// These items, each twice, in batches of this size and in random order.
fn batches(alloc: Global, items: &[Item], size: usize) -> Result<Vec<Batch>, BenchError> {
    let mut batches = Vec::new(alloc);
    let mut batch = Vec::new(alloc);
    for place in shuffled(alloc, items.len())? {
        if let Some(item) = items.get(place) {
            batch.push(item.clone()?)?;
        }
        if batch.len() == size {
            batches.push(Batch::of_items(batch)?)?;
            batch = Vec::new(alloc);
        }
    }
    batches.push(Batch::of_items(batch)?)?;
    Ok(batches)
}

/// The numbers below `count`, each twice, in random order.
fn shuffled(alloc: Global, count: usize) -> Result<Vec<usize>, BenchError> {
    let mut places = Vec::new(alloc);
    for place in 0..count {
        places.push(place)?;
        places.push(place)?;
    }
    let mut numbers = Numbers::of_seed(SEED);
    let count = places.len();
    for place in 0..count {
        let other = (numbers.next() as usize).checked_rem(count).unwrap_or(0);
        if place < places.len() && other < places.len() {
            places.swap(place, other);
        }
    }
    Ok(places)
}

fn merge_halves<R: AllocGlobal + Clock + Print>(rt: &R, items: &[Item]) -> Result<(), BenchError> {
    let (mut mine, theirs) = halves(rt.alloc(), items)?;
    let time = time_merging(rt, &mut mine, &theirs)?;
    print_merged(rt, mine.entries(), time)
}

fn time_merging<R: Clock>(rt: &R, mine: &mut State, theirs: &State) -> Result<u128, BenchError> {
    let start = now(rt)?;
    mine.merge(theirs)?;
    micros(rt, start)
}

fn print_merged<R: Print>(rt: &R, entries: usize, time: u128) -> Result<(), BenchError> {
    println!(rt; "merge two states to {entries} entries {time} us")?;
    Ok(())
}

/// The states of every other item, from the first and from the second.
fn halves(alloc: Global, items: &[Item]) -> Result<(State, State), BenchError> {
    let mut mine = State::empty(alloc);
    let mut theirs = State::empty(alloc);
    let mut is_mine = true;
    for item in items {
        if is_mine {
            merge_one(alloc, &mut mine, item)?;
        } else {
            merge_one(alloc, &mut theirs, item)?;
        }
        is_mine = !is_mine;
    }
    Ok((mine, theirs))
}

fn merge_one(alloc: Global, state: &mut State, item: &Item) -> Result<(), BenchError> {
    let mut one = Vec::new(alloc);
    one.push(item.clone()?)?;
    state.merge(&State::of_items(alloc, &one)?)?;
    Ok(())
}

fn delta<R: AllocGlobal + Clock + Print>(rt: &R, to_dos: u64) -> Result<(), BenchError> {
    let mut desk = large_desk(rt.alloc(), to_dos)?;
    let since = desk.tick();
    move_some(rt.alloc(), &mut desk, to_dos)?;
    measure_delta(rt, &desk, since, to_dos)
}

fn measure_delta<R: Clock + Print>(
    rt: &R,
    desk: &Desk,
    since: u64,
    to_dos: u64,
) -> Result<(), BenchError> {
    let start = now(rt)?;
    let delta = desk.delta_since(since)?;
    let time = micros(rt, start)?;
    print_delta(rt, delta.as_slice().len(), to_dos, time)
}

fn print_delta<R: Print>(rt: &R, items: usize, to_dos: u64, time: u128) -> Result<(), BenchError> {
    println!(rt; "delta of {items} items of {MOVED} out of {to_dos} to-dos {time} us")?;
    Ok(())
}

/// A desk that has heard of so many to-dos.
fn large_desk(alloc: Global, to_dos: u64) -> Result<Desk, BenchError> {
    let mut numbers = Numbers::of_seed(SEED);
    let mut desk = Desk::empty_at(alloc, 0);
    for number in 0..to_dos {
        hear_new(alloc, &mut desk, number, &mut numbers)?;
    }
    Ok(desk)
}

/// Hears of a to-do of its own.
fn hear_new(
    alloc: Global,
    desk: &mut Desk,
    number: u64,
    numbers: &mut Numbers,
) -> Result<(), BenchError> {
    hear(alloc, desk, &message(alloc, number, numbers)?)
}

/// Has 100 UIDs move, at even distances.
fn move_some(alloc: Global, desk: &mut Desk, to_dos: u64) -> Result<(), BenchError> {
    for number in 0..MOVED {
        move_one(alloc, desk, number.saturating_mul(to_dos / MOVED))?;
    }
    Ok(())
}

/// Hears five messages of a to-do.
fn move_one(alloc: Global, desk: &mut Desk, number: u64) -> Result<(), BenchError> {
    for text in about(alloc, number)? {
        hear(alloc, desk, &text)?;
    }
    Ok(())
}

/// Hears a message.
pub(crate) fn hear(alloc: Global, desk: &mut Desk, text: &String) -> Result<(), BenchError> {
    let batch = Batch::of_items(read_message(alloc, text.as_bytes())?)?;
    desk.take(&batch)?;
    Ok(())
}
