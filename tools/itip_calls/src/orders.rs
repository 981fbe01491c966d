//! Batches heard in several orders, and what is kept of them.

use crate::error::CallError;
use itip_desk::{Batch, Desk};
use itip_items::Item;
use itip_state::{State, kept};
use std::alloc::Global;

/// Orders in which three batches are heard, with repeats.
const ORDERS: [&[usize]; 6] = [
    &[0, 1, 2],
    &[2, 1, 0],
    &[1, 2, 0],
    &[0, 0, 2, 1, 2],
    &[2, 0, 1, 2, 0],
    &[1, 0, 1, 0, 2],
];

/// Whether states and desks keep, in each order, what the definition says of all items.
pub(crate) fn agree(alloc: Global, batches: &[Vec<Item>; 3]) -> Result<bool, CallError> {
    let all = all_items(alloc, batches)?;
    let told = Batch::of_items(kept(alloc, &all)?)?;
    if !is_told(&State::of_items(alloc, &all)?, &told)? {
        return Ok(false);
    }
    for order in ORDERS {
        if !agree_in(alloc, batches, order, &told)? {
            return Ok(false);
        }
    }
    Ok(true)
}

/// Whether a state keeps these items.
fn is_told(state: &State, told: &Batch) -> Result<bool, CallError> {
    let told = told.as_slice();
    Ok(state.shared_items()?.as_slice() == told && state.entries() == told.len())
}

/// Whether a state and a desk keep these items that hear the batches in this order.
fn agree_in(
    alloc: Global,
    batches: &[Vec<Item>; 3],
    order: &[usize],
    told: &Batch,
) -> Result<bool, CallError> {
    let state = merged(alloc, batches, order)?;
    let desk = taken(alloc, batches, order)?;
    Ok(is_told(&state, told)? && desk.state().equal(&state))
}

fn all_items(alloc: Global, batches: &[Vec<Item>; 3]) -> Result<Vec<Item>, CallError> {
    let mut all = Vec::new(alloc);
    for batch in batches {
        all.append(&mut copies(alloc, batch)?)?;
    }
    Ok(all)
}

fn copies(alloc: Global, items: &[Item]) -> Result<Vec<Item>, CallError> {
    let mut copies = Vec::new(alloc);
    for item in items {
        copies.push(item.clone()?)?;
    }
    Ok(copies)
}

fn merged(alloc: Global, batches: &[Vec<Item>; 3], order: &[usize]) -> Result<State, CallError> {
    let mut state = State::empty(alloc);
    for place in order {
        if let Some(batch) = batches.get(*place) {
            merge(alloc, &mut state, batch)?;
        }
    }
    Ok(state)
}

fn merge(alloc: Global, state: &mut State, items: &[Item]) -> Result<(), CallError> {
    state.merge(&State::of_items(alloc, items)?)?;
    Ok(())
}

fn taken(alloc: Global, batches: &[Vec<Item>; 3], order: &[usize]) -> Result<Desk, CallError> {
    let mut desk = Desk::empty_at(alloc, 0);
    for place in order {
        if let Some(batch) = batches.get(*place) {
            take(alloc, &mut desk, batch)?;
        }
    }
    Ok(desk)
}

fn take(alloc: Global, desk: &mut Desk, items: &[Item]) -> Result<(), CallError> {
    desk.take(&Batch::of_items(copies(alloc, items)?)?)?;
    Ok(())
}
