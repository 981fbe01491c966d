//! Reading, taking and listing small messages.

use crate::desks::time_taking;
use crate::error::BenchError;
use crate::lists::list_octets;
use crate::load::{Numbers, SEED, message};
use crate::watch::{micros, now};
use itip_desk::{Batch, Desk};
use itip_message::read_message;
use itip_view::Window;
use std::alloc::Global;
use std::rt::Clock;

/// Reads so many messages, takes them one after another, lists what the desk keeps, and prints a line for each.
pub(crate) fn measure_messages<R: AllocGlobal + Clock + Print>(
    rt: &R,
    count: u64,
) -> Result<(), BenchError> {
    let batches = measure_reading(rt, count)?;
    let mut desk = Desk::empty_at(rt.alloc(), 0);
    measure_taking(rt, &mut desk, &batches)?;
    measure_list(rt, &desk)
}

fn measure_reading<R: AllocGlobal + Clock + Print>(
    rt: &R,
    count: u64,
) -> Result<Vec<Batch>, BenchError> {
    let (texts, octets) = messages(rt.alloc(), count)?;
    let start = now(rt)?;
    let batches = read(rt.alloc(), &texts)?;
    let time = micros(rt, start)?;
    print_read(rt, count, octets, time)?;
    Ok(batches)
}

fn print_read<R: Print>(rt: &R, count: u64, octets: u64, time: u128) -> Result<(), BenchError> {
    println!(rt; "read {count} messages {octets} bytes {time} us")?;
    Ok(())
}

fn measure_taking<R: Clock + Print>(
    rt: &R,
    desk: &mut Desk,
    batches: &[Batch],
) -> Result<(), BenchError> {
    let time = time_taking(rt, desk, batches)?;
    let count = batches.len();
    println!(rt; "take {count} items {time} us")?;
    Ok(())
}

fn measure_list<R: Clock + Print>(rt: &R, desk: &Desk) -> Result<(), BenchError> {
    let window = Window::new(20_454, 20_819)?;
    let start = now(rt)?;
    let octets = list_octets(desk, window)?;
    let time = micros(rt, start)?;
    print_list(rt, desk.entries(), octets, time)
}

fn print_list<R: Print>(
    rt: &R,
    entries: usize,
    octets: usize,
    time: u128,
) -> Result<(), BenchError> {
    println!(rt; "list {entries} to-dos {octets} bytes {time} us")?;
    Ok(())
}

fn messages(alloc: Global, count: u64) -> Result<(Vec<String>, u64), BenchError> {
    let mut numbers = Numbers::of_seed(SEED);
    let mut texts = Vec::new(alloc);
    let mut octets = 0u64;
    for number in 0..count {
        let text = message(alloc, number, &mut numbers)?;
        octets = octets.saturating_add(text.len() as u64);
        texts.push(text)?;
    }
    Ok((texts, octets))
}

fn read(alloc: Global, texts: &Vec<String>) -> Result<Vec<Batch>, BenchError> {
    let mut batches = Vec::new(alloc);
    for text in texts {
        let items = read_message(alloc, text.as_bytes())?;
        batches.push(Batch::of_items(items)?)?;
    }
    Ok(batches)
}
