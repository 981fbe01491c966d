//! A plain program that does what the benchmark does, for its times to be held against.
//!
//! The words are a topic and a size, as of the benchmark; `run` for a script on standard input; `office`, the numbers of desks and of
//! workers and the days of a window, for jobs on standard input; or `compact`, a number of threads and the names of sources. It knows
//! as much of a message as these need. It prints the lines that the benchmark prints.

mod compact;
mod desk;
mod list;
mod load;
mod message;
mod moment;
mod office;
mod recur;
mod script;
mod text;

use crate::desk::{Desk, Item, read_items};
use crate::load::{Numbers, about, message, shuffled, stating};
use crate::recur::{Series, occurrences, read_rule};
use crate::script::commands;
use std::io::{Read, Write};
use std::rc::Rc;
use std::time::Instant;

fn read(text: &str) -> Vec<Rc<Item>> {
    read_items(text.as_bytes()).expect("a good message")
}

fn messages(count: u64) {
    let mut numbers = Numbers::new();
    let texts: Vec<String> = (0..count).map(|it| message(it, &mut numbers)).collect();
    let octets: usize = texts.iter().map(String::len).sum();
    let start = Instant::now();
    let batches: Vec<_> = texts.iter().map(|it| read(it)).collect();
    println!("read {count} messages {octets} bytes {} us", start.elapsed().as_micros());
    let mut desk = Desk::default();
    let start = Instant::now();
    for batch in &batches {
        desk.take(batch);
    }
    println!("take {count} items {} us", start.elapsed().as_micros());
    let start = Instant::now();
    let (text, _) = list::list(&desk, 20_454, 20_819);
    println!("list {} to-dos {} bytes {} us", desk.entries(), text.len(), start.elapsed().as_micros());
}

const SERIES: [(&str, &str, i32); 9] = [
    ("20240101", "FREQ=DAILY", 20_454),
    ("20240101", "FREQ=WEEKLY;BYDAY=TU,FR", 20_454),
    ("20240101", "FREQ=WEEKLY;INTERVAL=2;BYDAY=MO,TH", 20_454),
    ("20240101", "FREQ=WEEKLY;BYDAY=TU,FR;COUNT=400", 20_454),
    ("20240101", "FREQ=MONTHLY;BYDAY=-1FR", 20_454),
    ("20240229", "FREQ=YEARLY", 20_454),
    ("19700101", "FREQ=DAILY", 2_567_664),
    ("19700101", "FREQ=MONTHLY;BYDAY=-1FR", 2_567_664),
    ("19700101", "FREQ=WEEKLY;BYDAY=TU,FR;COUNT=800000", 2_567_664),
];

fn recurrence(rounds: u64) {
    for (start, rule, from) in SERIES {
        let series = Series {
            start: moment::read_moment(start.as_bytes(), None).expect("a moment"),
            rule: read_rule(rule),
            rdates: Vec::new(),
            exdates: Vec::new(),
        };
        let mut count = 0;
        let begin = Instant::now();
        for _ in 0..rounds {
            count += occurrences(&series, from, from + 3660).len();
        }
        println!("occurrences {start} {rule} from day {from} {count} in {} us", begin.elapsed().as_micros());
    }
}

fn desks(to_dos: u64) {
    let items: Vec<Rc<Item>> = (0..to_dos).flat_map(about).flat_map(|it| read(&it)).collect();
    for size in [1, 100] {
        let places = shuffled(items.len());
        let batch = |some: &[usize]| -> Vec<Rc<Item>> { some.iter().map(|it| Rc::clone(&items[*it])).collect() };
        let batches: Vec<_> = places.chunks(size).map(batch).collect();
        let mut desk = Desk::default();
        let start = Instant::now();
        for batch in &batches {
            desk.take(batch);
        }
        let (taken, time) = (2 * items.len(), start.elapsed().as_micros());
        println!("take {taken} items in batches of {size}, of which {} are kept, {time} us", desk.entries());
    }
    let (mut mine, mut theirs) = (Desk::default(), Desk::default());
    for (place, item) in items.iter().enumerate() {
        let half = if place % 2 == 0 { &mut mine } else { &mut theirs };
        half.take(std::slice::from_ref(item));
    }
    let start = Instant::now();
    mine.merge(&theirs);
    println!("merge two states to {} entries {} us", mine.entries(), start.elapsed().as_micros());
}

fn lists(to_dos: u64) {
    let head = |number: u64| format!("UID:to-do-{number}@example.com\r\nSEQUENCE:1\r\nDTSTAMP:20260102T090000Z\r\n");
    let mut desk = Desk::default();
    for number in 0..to_dos {
        let asked = "DTSTART;VALUE=DATE:20260105\r\nSUMMARY:Sweep\r\nATTENDEE:mailto:a@example.com\r\nATTENDEE:mailto:b@example.com\r\n";
        desk.take(&read(&stating("REQUEST", &head(number), asked)));
        desk.take(&read(&stating("REPLY", &head(number), "ATTENDEE;PARTSTAT=ACCEPTED:mailto:a@example.com\r\n")));
    }
    print_list(&desk, "single to-dos");
    let mut desk = Desk::default();
    for number in 0..27 {
        desk.take(&read(&stating("REQUEST", &head(number), "DTSTART;VALUE=DATE:20260101\r\nRRULE:FREQ=DAILY\r\nSUMMARY:Sweep\r\n")));
    }
    print_list(&desk, "daily series");
}

fn print_list(desk: &Desk, what: &str) {
    let start = Instant::now();
    let (text, rows) = list::list(desk, 20_454, 24_114);
    println!("list {rows} rows of {what} {} bytes {} us", text.len(), start.elapsed().as_micros());
}

/// Runs a script of takes, posts and arrivals at eight desks.
fn run() -> std::io::Result<()> {
    let mut script = Vec::new();
    std::io::stdin().read_to_end(&mut script)?;
    let mut desks: Vec<Desk> = (0..8).map(|_| Desk::default()).collect();
    let mut packets: Vec<Vec<Rc<Item>>> = Vec::new();
    let mut out = std::io::BufWriter::new(std::io::stdout().lock());
    for (command, text) in commands(&script) {
        let mut words = command.split(' ');
        let name = words.next();
        let mut number = || words.next().and_then(|it| it.parse::<usize>().ok()).expect("a number");
        match name {
            Some("!take") => {
                let at = number();
                let changed = desks[at].take(&read_items(text).expect("a good message"));
                writeln!(out, "take {at} tick {} changed {changed}", desks[at].tick)?;
            }
            Some("!post") => {
                let packet = desks[number()].since(number() as u64);
                writeln!(out, "post {} items {}", packets.len(), packet.len())?;
                packets.push(packet);
            }
            Some("!arrive") => {
                let (packet, at) = (number(), number());
                let changed = desks[at].take(&packets[packet]);
                writeln!(out, "arrive {packet} {at} tick {} changed {changed}", desks[at].tick)?;
            }
            _ => {}
        }
    }
    out.flush()
}

fn main() {
    let words: Vec<String> = std::env::args().skip(1).collect();
    let size = words.get(1).and_then(|it| it.parse().ok()).unwrap_or(0);
    match words.first().map(String::as_str) {
        Some("messages") => messages(size),
        Some("recurrence") => recurrence(size),
        Some("desks") => desks(size),
        Some("lists") => lists(size),
        Some("run") => run().expect("standard input and output"),
        Some("office") => office::office(size as usize, &words[2..]).expect("jobs on standard input, and standard output"),
        Some("compact") => compact::compact((size as usize).max(1), words[2..].to_vec()).expect("sources and standard output"),
        _ => eprintln!("the words are a topic and a size, run, office, or compact"),
    }
}
