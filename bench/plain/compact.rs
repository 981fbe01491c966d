//! Compaction of many messages: of all that sources tell, the octets of what counts.
//!
//! Threads take blocks of whole messages from the sources, read them without copying a line, and keep the best items in maps by
//! UID, each behind a lock of its own. The octets of an item are only written where no later one is kept.

use crate::message::{Message, Todo};
use crate::moment::{Moment, Stamp};
use crate::text::{Line, Lines};
use std::collections::btree_map::Entry;
use std::collections::{BTreeMap, HashMap};
use std::fs::File;
use std::hash::{BuildHasher, RandomState};
use std::io::{self, BufWriter, Read, Write};
use std::sync::Mutex;
use std::{mem, thread};

const BLOCK: usize = 1 << 20;
const SHARDS: usize = 64;

/// Whole messages of a source, or its end. The source and the block count from 0.
struct Block {
    source: usize,
    number: usize,
    text: Vec<u8>,
}

/// What is left of the sources.
struct Blocks {
    left: std::vec::IntoIter<String>,
    open: Option<Box<dyn Read + Send>>,
    source: usize,
    number: usize,
    rest: Vec<u8>,
}

impl Blocks {
    fn new(mut names: Vec<String>) -> Blocks {
        if names.is_empty() {
            names.push("-".to_owned());
        }
        Blocks { left: names.into_iter(), open: None, source: usize::MAX, number: 0, rest: Vec::new() }
    }

    fn next(&mut self) -> io::Result<Option<Block>> {
        loop {
            if self.open.is_none() {
                let Some(name) = self.left.next() else {
                    return Ok(None);
                };
                self.open = Some(if name == "-" { Box::new(io::stdin()) } else { Box::new(File::open(name)?) });
                (self.source, self.number) = (self.source.wrapping_add(1), 0);
            }
            let reader = self.open.as_mut().expect("a source is open");
            let mut text = mem::take(&mut self.rest);
            text.reserve_exact(BLOCK);
            if reader.take(BLOCK as u64).read_to_end(&mut text)? < BLOCK {
                self.open = None;
            } else if let Some(end) = last_end(&text) {
                self.rest = text.split_off(end);
            } else {
                self.rest = text;
                continue;
            }
            self.number += 1;
            return Ok(Some(Block { source: self.source, number: self.number - 1, text }));
        }
    }
}

/// Where the last message ends behind which another octet shows that no fold goes on.
fn last_end(text: &[u8]) -> Option<usize> {
    let mut at = text.len();
    for line in text.split_inclusive(|it| *it == b'\n').rev() {
        let whole = Lines { rest: line }.next().unwrap_or_default();
        if at < text.len() && ends_message(whole, &text[at..]) {
            return Some(at);
        }
        at -= line.len();
    }
    None
}

/// Whether a line is the last of a message, with what stands behind it.
fn ends_message(line: &[u8], after: &[u8]) -> bool {
    line.eq_ignore_ascii_case(b"END:VCALENDAR") && !matches!(after, [b' ' | b'\t', ..])
}

/// The first message of what is left of a text, and its lines. Empty lines alone are no message.
fn next_message<'a>(left: &mut Lines<'a>, lines: &mut Vec<&'a [u8]>) -> Option<&'a [u8]> {
    let text = left.rest;
    lines.clear();
    while let Some(line) = left.next() {
        lines.push(line);
        if ends_message(line, left.rest) {
            return Some(&text[..text.len() - left.rest.len()]);
        }
    }
    lines.iter().any(|it| !it.is_empty()).then_some(text)
}

#[derive(Clone, Debug, PartialEq, Eq, PartialOrd, Ord)]
enum Key {
    Series,
    Instance(Moment),
    Range(Moment),
    Answer(Option<Moment>, Vec<u8>),
    Refresh(Option<Moment>, Vec<u8>),
}

/// An item, in the order of revisions.
#[derive(Debug, PartialEq, Eq, PartialOrd, Ord)]
struct Item {
    sequence: u32,
    stamp: Stamp,
    octets: Box<[u8]>,
}

/// What is kept of a UID.
#[derive(Default)]
struct Held {
    series: Option<Item>,
    others: BTreeMap<Key, Item>,
}

impl Held {
    /// Whether an item of this key and revision is not dead, and none that is later is kept.
    fn may_keep(&self, key: &Key, revision: (u32, Stamp)) -> bool {
        let held = if *key == Key::Series { self.series.as_ref() } else { self.others.get(key) };
        let is_later = held.is_none_or(|it| (it.sequence, it.stamp) <= revision);
        is_later && (never_dies(key) || self.series.as_ref().is_none_or(|it| it.sequence <= revision.0))
    }

    /// Keeps an item that may be kept, where its octets are not less than those of an equal revision.
    fn keep(&mut self, key: Key, item: Item) {
        if key == Key::Series {
            return self.keep_series(item);
        }
        match self.others.entry(key) {
            Entry::Vacant(place) => drop(place.insert(item)),
            Entry::Occupied(mut held) if *held.get() < item => drop(held.insert(item)),
            Entry::Occupied(_) => {}
        }
    }

    fn keep_series(&mut self, item: Item) {
        if self.series.as_ref().is_some_and(|it| *it >= item) {
            return;
        }
        if self.series.as_ref().map_or(0, |it| it.sequence) < item.sequence {
            self.others.retain(|key, it| never_dies(key) || it.sequence >= item.sequence);
        }
        self.series = Some(item);
    }

    fn items(&self) -> impl Iterator<Item = &Item> {
        self.series.iter().chain(self.others.values())
    }
}

fn never_dies(key: &Key) -> bool {
    matches!(key, Key::Answer(Some(_), _) | Key::Refresh(..))
}

type Shard = Mutex<HashMap<Box<[u8]>, Held>>;

/// What a thread reads messages with: a room for the octets of an item, and the maps that all threads put items into.
struct Reader<'a> {
    octets: Vec<u8>,
    shards: &'a [Shard],
    hasher: &'a RandomState,
}

impl Reader<'_> {
    /// Keeps the items of a message, or refuses it.
    fn read(&mut self, text: &[u8], lines: &[&[u8]]) -> Option<()> {
        let mut room = Vec::new();
        let Message { method, todos } = Message::read(text, lines.iter().copied(), &mut room)?;
        if todos.is_empty() {
            return None;
        }
        todos.iter().try_for_each(|it| self.keep(method, it))
    }

    fn keep(&mut self, method: &str, todo: &Todo) -> Option<()> {
        let removes = method == "CANCEL" && todo.status.is_none() && !todo.attendees.is_empty();
        match method {
            "REQUEST" | "CANCEL" if !removes => {
                let key = match todo.rid.clone() {
                    None => Key::Series,
                    Some(rid) if todo.is_range => Key::Range(rid),
                    Some(rid) => Key::Instance(rid),
                };
                self.put(method, todo, key, None);
            }
            "ADD" => self.put(method, todo, Key::Instance(todo.start.clone()?), None),
            "REPLY" | "CANCEL" | "REFRESH" => {
                let key = if method == "REFRESH" { Key::Refresh } else { Key::Answer };
                for it in &todo.attendees {
                    self.put(method, todo, key(todo.rid.clone(), it.value.to_ascii_lowercase()), Some(*it));
                }
            }
            _ => return None,
        }
        Some(())
    }

    fn put(&mut self, method: &str, todo: &Todo, key: Key, attendee: Option<Line>) {
        let (uid, (sequence, stamp)) = (todo.uid(), todo.revision());
        let mut shard = self.shards[self.hasher.hash_one(uid) as usize % SHARDS].lock().expect("no thread panics");
        let held = match shard.get_mut(uid) {
            Some(held) => held,
            None => shard.entry(uid.into()).or_default(),
        };
        if held.may_keep(&key, (sequence, stamp)) {
            self.octets.clear();
            todo.write(method, attendee, &mut self.octets);
            held.keep(key, Item { sequence, stamp, octets: self.octets[..].into() });
        }
    }
}

/// How many messages a block has, and the refused ones by their numbers in it, from 0.
struct Told {
    source: usize,
    number: usize,
    count: usize,
    refused: Vec<usize>,
}

fn read_block(block: &Block, reader: &mut Reader) -> Told {
    let mut told = Told { source: block.source, number: block.number, count: 0, refused: Vec::new() };
    let (mut left, mut lines) = (Lines { rest: &block.text }, Vec::new());
    while let Some(message) = next_message(&mut left, &mut lines) {
        if reader.read(message, &lines).is_none() {
            told.refused.push(told.count);
        }
        told.count += 1;
    }
    told
}

/// The numbers of the refused messages in their sources, from 1.
fn refusals(mut told: Vec<Told>) -> Vec<(usize, usize)> {
    told.sort_unstable_by_key(|it| (it.source, it.number));
    let (mut found, mut source, mut before) = (Vec::new(), 0, 0);
    for it in told {
        if it.source != source {
            (source, before) = (it.source, 0);
        }
        found.extend(it.refused.iter().map(|at| (source, before + at + 1)));
        before += it.count;
    }
    found
}

fn read_all(blocks: Blocks, shards: &[Shard], threads: usize) -> io::Result<Vec<Told>> {
    let (blocks, hasher) = (Mutex::new(blocks), RandomState::new());
    let work = || -> io::Result<Vec<Told>> {
        let (mut told, mut reader) = (Vec::new(), Reader { octets: Vec::new(), shards, hasher: &hasher });
        loop {
            let next = blocks.lock().expect("no thread panics").next()?;
            let Some(block) = next else {
                return Ok(told);
            };
            told.push(read_block(&block, &mut reader));
        }
    };
    thread::scope(|scope| {
        let others: Vec<_> = (1..threads).map(|_| scope.spawn(work)).collect();
        let mut told = work()?;
        for it in others {
            told.extend(it.join().expect("no thread panics")?);
        }
        Ok(told)
    })
}

/// All octets that are kept, in their order: each thread sorts a part, and then one finds them sorted in parts.
fn sorted<'a>(maps: &'a [HashMap<Box<[u8]>, Held>], threads: usize) -> Vec<&'a [u8]> {
    let mut parts: Vec<Vec<&'a [u8]>> = thread::scope(|scope| {
        let handles: Vec<_> = maps
            .chunks(SHARDS.div_ceil(threads))
            .map(|some| {
                scope.spawn(move || {
                    let mut part: Vec<&[u8]> = some.iter().flat_map(HashMap::values).flat_map(Held::items).map(|it| &*it.octets).collect();
                    part.sort_unstable();
                    part
                })
            })
            .collect();
        handles.into_iter().map(|it| it.join().expect("no thread panics")).collect()
    });
    let mut all = parts.pop().unwrap_or_default();
    parts.iter_mut().for_each(|it| all.append(it));
    all.sort();
    all
}

/// Reads sources and writes what is kept of them. The refused messages are named on standard error.
pub fn compact(threads: usize, names: Vec<String>) -> io::Result<()> {
    let shards: Vec<Shard> = (0..SHARDS).map(|_| Shard::default()).collect();
    let told = read_all(Blocks::new(names.clone()), &shards, threads)?;
    for (source, message) in refusals(told) {
        eprintln!("{} message {message}: refused", names.get(source).map_or("standard input", String::as_str));
    }
    let maps: Vec<_> = shards.into_iter().map(|it| it.into_inner().expect("no thread panics")).collect();
    let mut out = BufWriter::with_capacity(1 << 16, io::stdout().lock());
    for octets in sorted(&maps, threads) {
        out.write_all(octets)?;
    }
    out.flush()?;
    // The program ends, and the memory goes with it.
    mem::forget(maps);
    Ok(())
}
