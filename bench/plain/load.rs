//! The input, made from the same seed as that of the proved benchmark.

/// Numbers that look random, and are the same for the same seed (the generator of Knuth's MMIX).
pub struct Numbers(u64);

impl Numbers {
    pub fn new() -> Numbers {
        Numbers(1)
    }

    pub fn next(&mut self) -> u64 {
        self.0 = self.0.wrapping_mul(6_364_136_223_846_793_005).wrapping_add(1_442_695_040_888_963_407);
        self.0 >> 33
    }
}

/// A small REQUEST about a to-do of its own.
pub fn message(number: u64, numbers: &mut Numbers) -> String {
    let sequence = numbers.next() % 10;
    let minute = numbers.next() % 60;
    let summary = numbers.next();
    let head = format!("UID:to-do-{number}@example.com\r\nSEQUENCE:{sequence}\r\nDTSTAMP:20260101T09{minute:02}00Z\r\n");
    stating("REQUEST", &head, &format!("SUMMARY:Task {number} of project {summary}, as it was agreed\r\n"))
}

const ABOUT: [(&str, &str); 5] = [
    ("REQUEST", "DTSTART;VALUE=DATE:20260105\r\nRRULE:FREQ=DAILY;COUNT=5\r\nSUMMARY:Stand-up\r\n"),
    ("REQUEST", "RECURRENCE-ID;VALUE=DATE:20260106\r\nSUMMARY:Moved\r\n"),
    ("REPLY", "ATTENDEE;PARTSTAT=ACCEPTED:mailto:a@example.com\r\n"),
    ("REPLY", "ATTENDEE;PARTSTAT=ACCEPTED:mailto:b@example.com\r\n"),
    ("REPLY", "ATTENDEE;PARTSTAT=ACCEPTED:mailto:c@example.com\r\n"),
];

/// Five messages about one to-do.
pub fn about(number: u64) -> Vec<String> {
    let head = format!("UID:to-do-{number}@example.com\r\nSEQUENCE:10\r\nDTSTAMP:20260102T090000Z\r\n");
    ABOUT.iter().map(|(method, lines)| stating(method, &head, lines)).collect()
}

pub fn stating(method: &str, head: &str, lines: &str) -> String {
    format!("BEGIN:VCALENDAR\r\nVERSION:2.0\r\nMETHOD:{method}\r\nBEGIN:VTODO\r\n{head}{lines}END:VTODO\r\nEND:VCALENDAR\r\n")
}

/// The numbers below `count`, each twice, in random order.
pub fn shuffled(count: usize) -> Vec<usize> {
    let mut places: Vec<usize> = (0..count).flat_map(|it| [it, it]).collect();
    let mut numbers = Numbers::new();
    for place in 0..places.len() {
        let other = numbers.next() as usize % places.len();
        places.swap(place, other);
    }
    places
}
