//! Items, and the best one of each key.

use crate::message::{Message, Todo};
use crate::moment::{Moment, Stamp};
use crate::text::{Line, Lines};
use std::collections::{BTreeMap, BTreeSet};
use std::ops::Deref;
use std::rc::Rc;
use std::sync::Arc;

#[derive(Clone, Copy, Debug, PartialEq, Eq)]
pub enum Kind {
    State,
    Cancel,
    Answer,
}

/// An address in an answer's key is in lower case.
#[derive(Clone, Debug, PartialEq, Eq, PartialOrd, Ord)]
pub enum Key {
    Series,
    Instance(Moment),
    Answer(Option<Moment>, Arc<[u8]>),
}

#[derive(Debug)]
pub struct Attendee {
    pub address: Box<[u8]>,
    /// As in the key of an answer.
    pub key: Arc<[u8]>,
    /// In upper case.
    pub partstat: Option<Box<[u8]>>,
}

/// What desks and lists ask of a to-do, and its octets, which have all that it says.
#[derive(Debug)]
pub struct Item {
    pub kind: Kind,
    pub key: Key,
    pub uid: Arc<[u8]>,
    pub sequence: u32,
    pub stamp: Stamp,
    pub start: Option<Moment>,
    pub due: Option<Moment>,
    pub status: Option<&'static str>,
    pub percent: Option<u8>,
    pub priority: Option<u8>,
    pub summary: Option<Box<[u8]>>,
    pub attendees: Vec<Attendee>,
    pub rules: Vec<Box<[u8]>>,
    pub rdates: Vec<Moment>,
    pub exdates: Vec<Moment>,
    /// Whether it has an RDATE that is no list of moments.
    pub has_period: bool,
    pub octets: Box<[u8]>,
}

/// The items of a message, each behind a pointer.
pub fn read_items<P: From<Item>>(text: &[u8]) -> Option<Vec<P>> {
    let mut room = Vec::new();
    let Message { method, todos } = Message::read(text, Lines { rest: text }, &mut room)?;
    let kind = match method {
        "REQUEST" | "ADD" | "PUBLISH" => Kind::State,
        "CANCEL" => Kind::Cancel,
        "REPLY" => Kind::Answer,
        _ => return None,
    };
    let mut octets = Vec::with_capacity(text.len() + 128);
    let mut items = Vec::with_capacity(todos.len());
    for todo in todos {
        octets.clear();
        todo.write(method, None, &mut octets);
        items.push(P::from(Item::new(kind, todo, &octets)));
    }
    Some(items)
}

impl Item {
    fn new(kind: Kind, todo: Todo, octets: &[u8]) -> Item {
        let (uid, (sequence, stamp)) = (todo.uid(), todo.revision());
        let attendees: Vec<Attendee> = todo.attendees.iter().map(|it| Attendee::new(*it)).collect();
        Item {
            kind,
            key: key(kind, todo.rid, &attendees),
            uid: uid.into(),
            sequence,
            stamp,
            start: todo.start,
            due: todo.due,
            status: todo.status,
            percent: todo.percent,
            priority: todo.priority,
            summary: todo.summary.map(|it| it.value.into()),
            attendees,
            rules: todo.rules.into_iter().map(Box::from).collect(),
            rdates: todo.rdates,
            exdates: todo.exdates,
            has_period: todo.others.iter().any(|it| it.name.eq_ignore_ascii_case(b"RDATE")),
            octets: octets.into(),
        }
    }

    fn is_later(&self, held: &Item) -> bool {
        (self.sequence, self.stamp, &self.octets) > (held.sequence, held.stamp, &held.octets)
    }
}

impl Attendee {
    fn new(line: Line) -> Attendee {
        let partstat = line.param(b"PARTSTAT").map(|it| it.to_ascii_uppercase().into());
        let mut key: Arc<[u8]> = line.value.into();
        Arc::make_mut(&mut key).make_ascii_lowercase();
        Attendee { address: line.value.into(), key, partstat }
    }
}

fn key(kind: Kind, rid: Option<Moment>, attendees: &[Attendee]) -> Key {
    match (kind, rid) {
        (Kind::Answer, rid) => Key::Answer(rid, attendees.first().map_or_else(Arc::default, |it| it.key.clone())),
        (_, Some(rid)) => Key::Instance(rid),
        (_, None) => Key::Series,
    }
}

/// Items are shared by `Rc`, or by `Arc` where threads take them.
#[derive(Clone)]
pub struct Desk<P = Rc<Item>> {
    pub uids: BTreeMap<Arc<[u8]>, BTreeMap<Key, P>>,
    /// The tick of each UID's last change, and the UIDs in the order of their ticks.
    ticks: BTreeMap<Arc<[u8]>, u64>,
    moved: BTreeSet<(u64, Arc<[u8]>)>,
    pub tick: u64,
}

impl<P> Default for Desk<P> {
    fn default() -> Desk<P> {
        Desk { uids: BTreeMap::new(), ticks: BTreeMap::new(), moved: BTreeSet::new(), tick: 0 }
    }
}

impl<P: Deref<Target = Item> + Clone> Desk<P> {
    /// Keeps an item where it is the best of its key; whether it is news.
    fn keep(&mut self, item: &P) -> bool {
        let items = match self.uids.get_mut(&item.uid) {
            Some(items) => items,
            None => self.uids.entry(item.uid.clone()).or_default(),
        };
        // An answer to the to-do, or an instance, below the series' sequence is dead.
        let may_die = !matches!(item.key, Key::Series | Key::Answer(Some(_), _));
        if may_die && items.get(&Key::Series).is_some_and(|it| it.sequence > item.sequence) {
            return false;
        }
        match items.get_mut(&item.key) {
            Some(held) if !item.is_later(held) => return false,
            Some(held) => *held = item.clone(),
            None => drop(items.insert(item.key.clone(), item.clone())),
        }
        true
    }

    /// How many UIDs a batch changes.
    pub fn take(&mut self, batch: &[P]) -> usize {
        let mut changed = BTreeSet::new();
        for item in batch {
            if self.keep(item) {
                changed.insert(item.uid.clone());
            }
        }
        if !changed.is_empty() {
            self.tick += 1;
        }
        let count = changed.len();
        for uid in changed {
            if let Some(old) = self.ticks.insert(uid.clone(), self.tick) {
                self.moved.remove(&(old, uid.clone()));
            }
            self.moved.insert((self.tick, uid));
        }
        count
    }

    pub fn merge(&mut self, other: &Desk<P>) {
        for items in other.uids.values() {
            for item in items.values() {
                self.keep(item);
            }
        }
    }

    pub fn entries(&self) -> usize {
        self.uids.values().map(BTreeMap::len).sum()
    }

    /// The items of the UIDs that changed since a tick.
    pub fn since(&self, tick: u64) -> Vec<P> {
        let mut uids: Vec<&Arc<[u8]>> = self.moved.range((tick + 1, Arc::default())..).map(|(_, uid)| uid).collect();
        uids.sort();
        uids.into_iter().flat_map(|uid| self.uids[uid].values().cloned()).collect()
    }
}
