//! Reads a message, lists, brings another desk up to date, is listed beside its writer, and goes on after a restart.
#![tactic(auto)]

use itipdesk::Error;
use itipdesk::deltas::{read_delta, write_delta};
use itipdesk::desks::{Batch, Desk, read_batch, read_desk, write_desk};
use itipdesk::lists::Window;
use itipdesk::messages::{Moment, TodoBuilder};
use itipdesk::running::{OpenDesk, Receipt, with_desk};
use std::alloc::Global;
use std::io;
use std::sync::Wait;
use std::thread::{Threads, for_each_mut, join_mut};

const MESSAGE: &[u8] = b"BEGIN:VCALENDAR\nVERSION:2.0\nMETHOD:REQUEST\nBEGIN:VTODO\nUID:u1\n\
DTSTAMP:20260102T091000Z\nDUE:20260109\nSUMMARY:Look at it\nEND:VTODO\nEND:VCALENDAR\n";

fn main(rt: HostRuntime) -> io::Result<()> {
    match play(&rt) {
        Ok(text) => rt.print(text.as_str()),
        Err(error) => println!(rt; "refused {}: {error}", error.number()),
    }
}

fn play<R: AllocGlobal + Threads + Wait + Sync>(rt: &R) -> Result<String, Error> {
    let alloc = rt.alloc();
    let year = Window::of("20260101".parse()?, "20270101".parse()?)?;
    let mut desk = Desk::empty_at(alloc, 0);
    desk.take(&read_batch(alloc, MESSAGE)?)?;
    desk.take(&own_batch(alloc)?)?;
    let other = desk_of(alloc, &write_delta(alloc, &desk.delta_since(0)?)?)?;
    // One thread writes to a running desk, and others list it.
    let (_published, met) = with_desk(rt, 2, |desk| -> Result<Receipt, Error> {
        let OpenDesk { keeper, passes } = desk;
        let mut write = || -> Result<Receipt, Error> {
            keeper.submit(other.delta_since(0)?)?;
            Ok(keeper.publish(rt)?)
        };
        let mut read = || for_each_mut(rt, passes, 2, &|_, pass| drop(pass.list(year)));
        join_mut(rt, &mut write, &mut read).0
    })?;
    // The program ends here, and goes on with the file that it wrote.
    let mut file = Vec::new(alloc);
    write_desk(alloc, &met.desk, &mut file)?;
    Ok(String::from_utf8_lossy(alloc, &read_desk(alloc, &file)?.list(year)?)?)
}

fn own_batch(alloc: Global) -> Result<Batch, Error> {
    let mut todo = TodoBuilder::new(alloc, "u2", "20260103T080000Z".parse()?)?;
    todo.attendee("mailto:omar@example.com")?;
    todo.due(&Moment::Date("20260112".parse()?))?;
    todo.summary("Water the plants, and feed the cat")?;
    Ok(Batch::of_items(vec![in alloc; todo.item()?]?)?)
}

fn desk_of(alloc: Global, delta: &[u8]) -> Result<Desk, Error> {
    let mut desk = Desk::empty_at(alloc, 0);
    desk.take(&read_delta(alloc, delta)?)?;
    Ok(desk)
}
