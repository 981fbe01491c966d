//! One that writes to a desk beside others that list it without a pause, each on a thread of its own.

use crate::error::BenchError;
use crate::watch::{micros, now};
use itip_desk::Batch;
use itip_view::Window;
use std::rt::Clock;
use std::sync::Wait;
use std::sync::atomic::{AtomicU64, Ordering};
use std::thread;
use std::thread::{Threads, join_mut};

/// How often a reader lists where nobody writes.
const ALONE: u64 = 50;

/// The most readers.
pub(crate) const READERS: usize = 4;

/// What shows others the batches that it is given.
pub(crate) trait Writes {
    fn write<R: Wait>(&mut self, rt: &R, batch: Batch) -> Result<(), BenchError>;
}

/// What lists the desk that others write to.
pub(crate) trait Lists {
    /// Lists, and tells whether there was a list.
    fn is_listed<R: Wait>(&mut self, rt: &R, window: Window) -> bool;
}

/// A reader, how often it has listed, and whether it was refused.
#[derive(Drop)]
pub(crate) struct Listing<L> {
    reader: L,
    lists: u64,
    is_refused: bool,
}

/// How many lists were made in how long, and how long the writer took.
#[derive(Clone, Copy)]
pub(crate) struct Run {
    pub(crate) lists: u64,
    pub(crate) listing: u128,
    pub(crate) writing: u128,
}

impl<L> Listing<L> {
    pub(crate) fn new(reader: L) -> Listing<L> {
        Listing {
            reader,
            lists: 0,
            is_refused: false,
        }
    }
}

impl<L: Lists> Listing<L> {
    /// Lists until all are to end, and at most so often; then all are to end.
    fn list_on<R: Wait>(&mut self, rt: &R, window: Window, end: &AtomicU64, most: u64) {
        for _ in 0..most {
            if self.is_refused || end.load(Ordering::SeqCst) != 0 {
                break;
            }
            self.list(rt, window);
        }
        end.store(1, Ordering::SeqCst);
    }

    fn list<R: Wait>(&mut self, rt: &R, window: Window) {
        if self.reader.is_listed(rt, window) {
            self.lists = self.lists.saturating_add(1);
        } else {
            self.is_refused = true;
        }
    }
}

/// Lists where nobody writes, until the first reader has listed 50 times.
pub(crate) fn list_alone<R: Clock + Threads + Wait + Sync, L: Lists + Send>(
    rt: &R,
    listings: &mut [Listing<L>],
    window: Window,
) -> Result<Run, BenchError> {
    let end = AtomicU64::new(0);
    let start = now(rt)?;
    list_all(rt, listings, window, &end, ALONE);
    let listing = micros(rt, start)?;
    Ok(Run {
        lists: counted(listings)?,
        listing,
        writing: 0,
    })
}

/// Lists while these batches are written.
pub(crate) fn list_beside<R: Clock + Threads + Wait + Sync, W: Writes + Send, L: Lists + Send>(
    rt: &R,
    writer: &mut W,
    batches: &mut Vec<Batch>,
    listings: &mut [Listing<L>],
    window: Window,
) -> Result<Run, BenchError> {
    let end = AtomicU64::new(0);
    let start = now(rt)?;
    let (writing, ()) = join_mut(
        rt,
        &mut || write_timed(rt, writer, batches, &end),
        &mut || list_all(rt, listings, window, &end, u64::MAX),
    );
    let listing = micros(rt, start)?;
    Ok(Run {
        lists: counted(listings)?,
        listing,
        writing: writing?,
    })
}

fn list_all<R: Threads + Wait + Sync, L: Lists + Send>(
    rt: &R,
    listings: &mut [Listing<L>],
    window: Window,
    end: &AtomicU64,
    most: u64,
) {
    thread::for_each_mut(
        rt,
        listings,
        READERS,
        &|_, listing| { listing.list_on(rt, window, end, most) },
    );
}

/// How many lists were made since they were counted last.
fn counted<L>(listings: &mut [Listing<L>]) -> Result<u64, BenchError> {
    let mut lists = 0u64;
    for listing in listings {
        if listing.is_refused {
            return Err(BenchError::Refused);
        }
        lists = lists.saturating_add(listing.lists);
        listing.lists = 0;
    }
    Ok(lists)
}

/// Writes these batches, and then all are to end: how long it took.
fn write_timed<R: Clock + Wait, W: Writes>(
    rt: &R,
    writer: &mut W,
    batches: &mut Vec<Batch>,
    end: &AtomicU64,
) -> Result<u128, BenchError> {
    let start = now(rt);
    let written = write_all(rt, writer, batches);
    end.store(1, Ordering::SeqCst);
    written?;
    micros(rt, start?)
}

/// Writes these batches, which are spent then.
pub(crate) fn write_all<R: Wait, W: Writes>(
    rt: &R,
    writer: &mut W,
    batches: &mut Vec<Batch>,
) -> Result<(), BenchError> {
    for batch in batches.drain(..) {
        writer.write(rt, batch)?;
    }
    Ok(())
}
