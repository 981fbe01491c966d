//! An office: jobs on threads.
//!
//! Workers take jobs from a channel, some at a time, read the texts, and put their items into desks, each behind a lock of its own. In
//! the end every desk has what all of them have.

use crate::desk::{Desk, Item, read_items};
use crate::list::list;
use crate::moment::read_moment;
use crate::script::commands;
use std::io::{self, BufWriter, Read, Write};
use std::sync::mpsc::{Receiver, sync_channel};
use std::sync::{Arc, Mutex};
use std::thread;

// How many jobs a worker takes at a time.
const SOME: usize = 32;

type Shared = Mutex<Desk<Arc<Item>>>;

enum Job<'a> {
    Take(usize, &'a [u8]),
    Carry(usize, usize),
    Look(usize),
    Unknown,
}

impl<'a> Job<'a> {
    fn read(command: &str, text: &'a [u8]) -> Job<'a> {
        let mut words = command.split(' ');
        let name = words.next();
        let numbers: Option<Vec<usize>> = words.map(|it| it.parse().ok()).collect();
        match (name, numbers.as_deref()) {
            (Some("!take"), Some([desk])) => Job::Take(*desk, text),
            (Some("!carry"), Some([from, to])) => Job::Carry(*from, *to),
            (Some("!look"), Some([desk])) => Job::Look(*desk),
            _ => Job::Unknown,
        }
    }
}

/// Does a job, or refuses it.
fn done(job: &Job, desks: &[Shared], window: (i32, i32)) -> Option<()> {
    let locked = |at: usize| Some(desks.get(at)?.lock().expect("no thread panics"));
    match job {
        Job::Take(desk, text) => {
            let items = read_items(text)?;
            locked(*desk)?.take(&items);
        }
        Job::Carry(from, to) => {
            desks.get(*to)?;
            let items = locked(*from)?.since(0);
            locked(*to)?.take(&items);
        }
        Job::Look(desk) => drop(list(&*locked(*desk)?, window.0, window.1)),
        Job::Unknown => return None,
    }
    Some(())
}

/// The numbers of the jobs that a worker refused.
fn work(given: &Mutex<Receiver<Vec<(usize, Job)>>>, desks: &[Shared], window: (i32, i32)) -> Vec<usize> {
    let mut refused = Vec::new();
    loop {
        let next = given.lock().expect("no thread panics").recv();
        let Ok(some) = next else {
            return refused;
        };
        refused.extend(some.iter().filter(|(_, job)| done(job, desks, window).is_none()).map(|(number, _)| *number));
    }
}

fn run_jobs(script: &[u8], workers: usize, desks: &[Shared], window: (i32, i32)) -> Vec<usize> {
    let (give, given) = sync_channel(2 * workers);
    let given = Mutex::new(given);
    thread::scope(|scope| {
        let team: Vec<_> = (0..workers).map(|_| scope.spawn(|| work(&given, desks, window))).collect();
        let mut all = commands(script).map(|(command, text)| Job::read(command, text)).enumerate().peekable();
        while all.peek().is_some() {
            give.send(all.by_ref().take(SOME).collect()).expect("a worker is there");
        }
        drop(give);
        let mut refused: Vec<usize> = team.into_iter().flat_map(|it| it.join().expect("no thread panics")).collect();
        refused.sort_unstable();
        refused
    })
}

/// Does the jobs on standard input by so many workers, and writes the list of each desk.
pub fn office(count: usize, words: &[String]) -> io::Result<()> {
    let mut script = Vec::new();
    io::stdin().read_to_end(&mut script)?;
    let day = |at: usize| words.get(at).and_then(|it| read_moment(it.as_bytes(), None)).map_or(0, |it| it.day);
    let (workers, window) = (words.first().and_then(|it| it.parse().ok()).unwrap_or(1), (day(1), day(2)));
    let desks: Vec<Shared> = (0..count).map(|_| Shared::default()).collect();
    let refused = run_jobs(&script, workers, &desks, window);
    let mut all = Desk::default();
    for desk in desks {
        all.merge(&desk.into_inner().expect("no thread panics"));
    }
    let mut out = BufWriter::new(io::stdout().lock());
    for number in refused {
        writeln!(out, "job {number} refused")?;
    }
    let (text, rows) = list(&all, window.0, window.1);
    for desk in 0..count {
        writeln!(out, "list {desk} rows {rows}")?;
        out.write_all(&text)?;
    }
    out.flush()
}
