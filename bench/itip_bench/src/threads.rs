//! Reading many messages at once, and one message of many to-dos.

use crate::error::BenchError;
use crate::load::{Numbers, SEED, message, to_do};
use crate::watch::{micros, now};
use itip_message::read_message;
use itip_reading::read_all;
use std::alloc::{AllocError, Global};
use std::rt::Clock;
use std::thread::Threads;

/// How many to-dos a message may have.
const TO_DOS: u64 = 1000;

/// Reads so many messages in as many threads as there are processors, and then one message of 1,000 to-dos.
pub(crate) fn measure_threads<R: AllocGlobal + Clock + Print + Threads + Sync>(
    rt: &R,
    count: u64,
) -> Result<(), BenchError> {
    let mut numbers = Numbers::of_seed(SEED);
    let (texts, octets) = messages(rt.alloc(), count, &mut numbers)?;
    let start = now(rt)?;
    let read = read_all(rt, rt.alloc(), &texts)?.len();
    let time = micros(rt, start)?;
    print_read(rt, read, octets, time)?;
    measure_large(rt, &mut numbers)
}

fn print_read<R: Print>(rt: &R, read: usize, octets: u64, time: u128) -> Result<(), BenchError> {
    println!(rt; "read_all {read} messages {octets} bytes {time} us")?;
    Ok(())
}

/// So many small messages, and how long they are in all.
fn messages(
    alloc: Global,
    count: u64,
    numbers: &mut Numbers,
) -> Result<(Vec<Vec<u8>>, u64), BenchError> {
    let mut texts = Vec::new(alloc);
    let mut octets = 0u64;
    for number in 0..count {
        let text = message(alloc, number, numbers)?;
        octets = octets.saturating_add(text.len() as u64);
        texts.push(text.into_bytes())?;
    }
    Ok((texts, octets))
}

fn measure_large<R: AllocGlobal + Clock + Print>(
    rt: &R,
    numbers: &mut Numbers,
) -> Result<(), BenchError> {
    let text = large(rt.alloc(), numbers)?;
    let start = now(rt)?;
    let items = count_items(rt.alloc(), text.as_str())?;
    let time = micros(rt, start)?;
    print_large(rt, items, text.len(), time)
}

fn count_items(alloc: Global, text: &str) -> Result<usize, BenchError> {
    Ok(read_message(alloc, text.as_bytes())?.len())
}

fn print_large<R: Print>(
    rt: &R,
    items: usize,
    octets: usize,
    time: u128,
) -> Result<(), BenchError> {
    println!(rt; "read 1 message of {items} to-dos {octets} bytes {time} us")?;
    Ok(())
}

fn large(alloc: Global, numbers: &mut Numbers) -> Result<String, AllocError> {
    let mut text = String::from_str(
        alloc,
        "BEGIN:VCALENDAR\r\nVERSION:2.0\r\nMETHOD:REQUEST\r\n",
    )?;
    for number in 0..TO_DOS {
        text.push_str(to_do(alloc, number, numbers)?.as_str())?;
    }
    text.push_str("END:VCALENDAR\r\n")?;
    Ok(text)
}
