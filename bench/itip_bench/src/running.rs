//! A keeper that publishes batches beside passes that list, and the same desk behind a lock.

use crate::beside::{Listing, Lists, READERS, Run, Writes, list_alone, list_beside, write_all};
use crate::error::BenchError;
use crate::revisions::{ITEMS, revisions};
use itip_desk::{Batch, Desk};
use itip_running::{Keeper, Pass, meet, start_desk};
use itip_view::Window;
use std::alloc::{AllocError, Global};
use std::rt::Clock;
use std::sync::{RwLock, Wait};
use std::thread::Threads;

/// How often each to-do is revised while readers list.
const ROUNDS: u64 = 5;

/// A desk behind a lock.
#[derive(Clone, Copy)]
struct Locked<'a> {
    lock: &'a RwLock<Desk>,
}

impl Writes for Keeper {
    fn write<R: Wait>(&mut self, rt: &R, batch: Batch) -> Result<(), BenchError> {
        self.submit(batch).map_err(|_| BenchError::Memory)?;
        self.publish(rt)?;
        Ok(())
    }
}

impl Lists for Pass {
    fn is_listed<R: Wait>(&mut self, _rt: &R, window: Window) -> bool {
        self.list(window).is_ok()
    }
}

impl Writes for Locked<'_> {
    fn write<R: Wait>(&mut self, rt: &R, batch: Batch) -> Result<(), BenchError> {
        self.lock.write(rt).take(&batch)?;
        Ok(())
    }
}

impl Lists for Locked<'_> {
    fn is_listed<R: Wait>(&mut self, rt: &R, window: Window) -> bool {
        self.lock.read(rt).list(window).is_ok()
    }
}

/// Measures a running desk of so many to-dos, and one behind a lock, beside no reader, two and four.
pub(crate) fn measure_running<R: AllocGlobal + Clock + Print + Threads + Wait + Sync>(
    rt: &R,
    to_dos: u64,
) -> Result<(), BenchError> {
    let hundreds = to_dos / ITEMS;
    for readers in [0usize, 2, 4] {
        measure_pair(rt, hundreds, readers)?;
        measure_lock(rt, hundreds, readers)?;
    }
    Ok(())
}

fn measure_pair<R: AllocGlobal + Clock + Print + Threads + Wait + Sync>(
    rt: &R,
    hundreds: u64,
    readers: usize,
) -> Result<(), BenchError> {
    let (mut keeper, passes) = start_desk(rt, READERS)?;
    let measured = measure_passes(rt, &mut keeper, passes, hundreds, readers);
    meet(rt, keeper, Vec::new(rt.alloc()))?;
    let (alone, beside) = measured?;
    print_runs(rt, "running", readers, hundreds, alone, beside)
}

fn measure_passes<R: AllocGlobal + Clock + Threads + Wait + Sync>(
    rt: &R,
    keeper: &mut Keeper,
    passes: Vec<Pass>,
    hundreds: u64,
    readers: usize,
) -> Result<(Run, Run), BenchError> {
    let mut listings = listings(rt.alloc(), passes, readers)?;
    measure(rt, keeper, &mut listings, hundreds)
}

fn measure_lock<R: AllocGlobal + Clock + Print + Threads + Wait + Sync>(
    rt: &R,
    hundreds: u64,
    readers: usize,
) -> Result<(), BenchError> {
    let lock = RwLock::new(Desk::empty_at(rt.alloc(), 0));
    let mut locked = Locked { lock: &lock };
    let mut listings = locked_listings(rt.alloc(), locked, readers)?;
    let (alone, beside) = measure(rt, &mut locked, &mut listings, hundreds)?;
    print_runs(rt, "locked", readers, hundreds, alone, beside)
}

/// The readers of a desk alone, and then beside its writer.
fn measure<R: AllocGlobal + Clock + Threads + Wait + Sync, W: Writes + Send, L: Lists + Send>(
    rt: &R,
    writer: &mut W,
    listings: &mut [Listing<L>],
    hundreds: u64,
) -> Result<(Run, Run), BenchError> {
    let window = window()?;
    write_all(rt, writer, &mut revisions(rt.alloc(), hundreds, 0, 1)?)?;
    let mut batches = revisions(rt.alloc(), hundreds, 1, ROUNDS)?;
    let alone = list_alone(rt, listings, window)?;
    let beside = list_beside(rt, writer, &mut batches, listings, window)?;
    Ok((alone, beside))
}

fn listings(
    alloc: Global,
    passes: Vec<Pass>,
    readers: usize,
) -> Result<Vec<Listing<Pass>>, AllocError> {
    let mut listings = Vec::new(alloc);
    for pass in passes {
        if listings.len() < readers {
            listings.push(Listing::new(pass))?;
        }
    }
    Ok(listings)
}

fn locked_listings<'a>(
    alloc: Global,
    locked: Locked<'a>,
    readers: usize,
) -> Result<Vec<Listing<Locked<'a>>>, AllocError> {
    let mut listings = Vec::new(alloc);
    for _ in 0..readers {
        listings.push(Listing::new(locked))?;
    }
    Ok(listings)
}

fn print_runs<R: Print>(
    rt: &R,
    what: &str,
    readers: usize,
    hundreds: u64,
    alone: Run,
    beside: Run,
) -> Result<(), BenchError> {
    let items = a_second(
        hundreds.saturating_mul(ITEMS).saturating_mul(ROUNDS),
        beside.writing,
    );
    let lists = a_second(beside.lists, beside.listing);
    let alone = a_second(alone.lists, alone.listing);
    println!(rt;
        "{what} {readers} readers: {items} items and {lists} lists a second, {alone} lists where nobody writes"
    )?;
    Ok(())
}

/// So many in so many microseconds, as a number a second.
fn a_second(count: u64, micros: u128) -> u128 {
    u128::from(count)
        .saturating_mul(1_000_000)
        .checked_div(micros)
        .unwrap_or(0)
}

/// The year 2026.
fn window() -> Result<Window, BenchError> {
    Ok(Window::new(20_454, 20_819)?)
}
