//! Calls about worlds of desks: what comes of events, written as in `events`.

use crate::error::CallError;
use crate::events::events;
use crate::texts::{count, number};
use itip_desk::Refusal;
use itip_world::{Cause, Outcome, Packet, Ran, Stopped, World, run_world};
use std::alloc::Global;

pub(crate) fn answer(
    alloc: Global,
    word: &str,
    arguments: &[Vec<u8>],
) -> Result<Vec<u8>, CallError> {
    match (word, arguments) {
        ("replies", [desks, rest @ ..]) => outcomes(alloc, run(alloc, count(desks)?, rest)?),
        ("desks", [desks, rest @ ..]) => {
            shown_desks(alloc, &world(run(alloc, count(desks)?, rest)?))
        }
        ("packets", [desks, rest @ ..]) => {
            shown_packets(alloc, world(run(alloc, count(desks)?, rest)?).packets())
        }
        ("packet", [place, desks, rest @ ..]) => {
            let world = world(run(alloc, count(desks)?, rest)?);
            packet(alloc, world.packets(), count(place)?)
        }
        ("steps", [tick, rest @ ..]) => steps(alloc, number(tick)?, rest),
        _ => Err(CallError::NoSuchCall),
    }
}

/// The world after these events, or where it stopped.
fn run(
    alloc: Global,
    desks: usize,
    arguments: &[Vec<u8>],
) -> Result<Result<Ran, Stopped>, CallError> {
    let events = events(alloc, arguments)?;
    if desks < 1 || desks > 16 {
        return Err(CallError::NoSuchCall);
    }
    Ok(run_world(alloc, desks, &events))
}

/// The world after the events that were done.
fn world(ran: Result<Ran, Stopped>) -> World {
    match ran {
        Ok(ran) => ran.world,
        Err(stopped) => stopped.world,
    }
}

/// What came of the events, and where the run stopped and why.
fn outcomes(alloc: Global, ran: Result<Ran, Stopped>) -> Result<Vec<u8>, CallError> {
    match ran {
        Ok(ran) => Ok(lines(alloc, &ran.outcomes)?.into_bytes()),
        Err(stopped) => {
            let told = lines(alloc, &stopped.outcomes)?;
            let done = stopped.done;
            let cause = cause_name(stopped.cause);
            Ok(format!(in alloc; "{told}stopped after {done}: {cause}\n")?.into_bytes())
        }
    }
}

fn lines(alloc: Global, outcomes: &[Outcome]) -> Result<String, CallError> {
    let mut told = String::new(alloc);
    for outcome in outcomes {
        told.push_str(line(alloc, *outcome)?.as_str())?;
    }
    Ok(told)
}

fn line(alloc: Global, outcome: Outcome) -> Result<String, CallError> {
    match outcome {
        Outcome::Heard { tick, changed } => {
            Ok(format!(in alloc; "taken at {tick}, {changed} moved\n")?)
        }
        Outcome::Posted { packet, items } => {
            Ok(format!(in alloc; "posted as {packet}, {items} items\n")?)
        }
        Outcome::Refused(refusal) => {
            let number = refusal.number();
            Ok(format!(in alloc; "refused {number}\n")?)
        }
    }
}

fn cause_name(cause: Cause) -> &'static str {
    match cause {
        Cause::NoMemory => "NoMemory",
        Cause::Refused(Refusal::NoDesk(_)) => "NoDesk",
        Cause::Refused(Refusal::NoPacket(_)) => "NoPacket",
        Cause::Refused(Refusal::TicksSpent { .. }) => "TicksSpent",
        Cause::Refused(_) => "another refusal",
    }
}

/// The tick and the number of items of each desk, and whether it keeps what the first keeps.
fn shown_desks(alloc: Global, world: &World) -> Result<Vec<u8>, CallError> {
    let first = world.desks().first().ok_or(CallError::NoSuchCall)?;
    let mut told = String::new(alloc);
    for (number, desk) in world.desks().iter().enumerate() {
        let tick = desk.tick();
        let entries = world.entries(number).unwrap_or(0);
        let equal = desk.state().equal(first.state());
        told.push_str(format!(in alloc;
            "tick {tick} entries {entries} equal {equal}\n"
        )?.as_str())?;
    }
    Ok(told.into_bytes())
}

/// How many octets each packet has, and each of its items.
fn shown_packets(alloc: Global, packets: &[Packet]) -> Result<Vec<u8>, CallError> {
    let mut told = String::new(alloc);
    for packet in packets {
        let length = packet.octets(alloc)?.len();
        let items = lengths(alloc, packet)?;
        told.push_str(format!(in alloc; "{length}:{items}\n")?.as_str())?;
    }
    Ok(told.into_bytes())
}

fn lengths(alloc: Global, packet: &Packet) -> Result<String, CallError> {
    let mut told = String::new(alloc);
    for item in packet.batch().as_slice() {
        let length = item.bytes.len();
        told.push_str(format!(in alloc; " {length}")?.as_str())?;
    }
    Ok(told)
}

/// The octets of a packet.
fn packet(alloc: Global, packets: &[Packet], place: usize) -> Result<Vec<u8>, CallError> {
    let packet = packets.get(place).ok_or(CallError::NoSuchCall)?;
    Ok(packet.octets(alloc)?)
}

/// What comes of each event at one desk that has heard nothing, at this tick; the outcomes, and the desk.
fn steps(alloc: Global, tick: u64, arguments: &[Vec<u8>]) -> Result<Vec<u8>, CallError> {
    let mut world = World::start_at(alloc, 1, tick)?;
    let mut told = String::new(alloc);
    let mut outcomes = Vec::new(alloc);
    for event in &events(alloc, arguments)? {
        match world.step(event) {
            Ok(outcome) => {
                outcomes.push(outcome)?;
                told.push_str("done\n")?;
            }
            Err(cause) => {
                told.push_str(cause_name(cause))?;
                told.push_str("\n")?;
            }
        }
    }
    told.push_str(lines(alloc, &outcomes)?.as_str())?;
    let mut told = told.into_bytes();
    told.append(&mut shown_desks(alloc, &world)?)?;
    Ok(told)
}
