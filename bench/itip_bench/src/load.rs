//! The messages of a benchmark, made from a seed.

use std::alloc::{AllocError, Global};

/// Numbers that look random, and are the same for the same seed (the generator of Knuth's MMIX).
#[derive(Clone, Copy)]
pub(crate) struct Numbers {
    state: u64,
}

impl Numbers {
    pub(crate) fn of_seed(seed: u64) -> Numbers {
        Numbers { state: seed }
    }

    /// The next number, below 2^31.
    pub(crate) fn next(&mut self) -> u64 {
        self.state = self
            .state
            .wrapping_mul(6_364_136_223_846_793_005)
            .wrapping_add(1_442_695_040_888_963_407);
        self.state >> 33
    }
}

/// The seed of what the messages say.
pub(crate) const SEED: u64 = 1;

/// A small REQUEST about a to-do of its own.
pub(crate) fn message(
    alloc: Global,
    number: u64,
    numbers: &mut Numbers,
) -> Result<String, AllocError> {
    let to_do = to_do(alloc, number, numbers)?;
    format!(in alloc;
        "BEGIN:VCALENDAR\r\nVERSION:2.0\r\nMETHOD:REQUEST\r\n{to_do}END:VCALENDAR\r\n"
    )
}

/// A small to-do.
pub(crate) fn to_do(
    alloc: Global,
    number: u64,
    numbers: &mut Numbers,
) -> Result<String, AllocError> {
    let sequence = numbers.next() % 10;
    let minute = numbers.next() % 60;
    let summary = numbers.next();
    format!(in alloc;
        "BEGIN:VTODO\r\nUID:to-do-{number}@example.com\r\nSEQUENCE:{sequence}\r\nDTSTAMP:20260101T09{minute:02}00Z\r\nSUMMARY:Task {number} of project {summary}, as it was agreed\r\nEND:VTODO\r\n"
    )
}

/// What is said of a to-do: its series, an instance and three answers. Each has its method and lines.
const ABOUT: [(&str, &str); 5] = [
    (
        "REQUEST",
        "DTSTART;VALUE=DATE:20260105\r\nRRULE:FREQ=DAILY;COUNT=5\r\nSUMMARY:Stand-up\r\n",
    ),
    (
        "REQUEST",
        "RECURRENCE-ID;VALUE=DATE:20260106\r\nSUMMARY:Moved\r\n",
    ),
    (
        "REPLY",
        "ATTENDEE;PARTSTAT=ACCEPTED:mailto:a@example.com\r\n",
    ),
    (
        "REPLY",
        "ATTENDEE;PARTSTAT=ACCEPTED:mailto:b@example.com\r\n",
    ),
    (
        "REPLY",
        "ATTENDEE;PARTSTAT=ACCEPTED:mailto:c@example.com\r\n",
    ),
];

/// Five messages about one to-do.
pub(crate) fn about(alloc: Global, number: u64) -> Result<Vec<String>, AllocError> {
    let uid = format!(in alloc;
        "UID:to-do-{number}@example.com\r\nSEQUENCE:10\r\nDTSTAMP:20260102T090000Z\r\n"
    )?;
    let mut texts = Vec::new(alloc);
    for (method, lines) in ABOUT {
        texts.push(stating(alloc, method, uid.as_str(), lines)?)?;
    }
    Ok(texts)
}

/// A message of this method about a to-do of these lines.
pub(crate) fn stating(
    alloc: Global,
    method: &str,
    uid: &str,
    lines: &str,
) -> Result<String, AllocError> {
    format!(in alloc;
        "BEGIN:VCALENDAR\r\nVERSION:2.0\r\nMETHOD:{method}\r\nBEGIN:VTODO\r\n{uid}{lines}END:VTODO\r\nEND:VCALENDAR\r\n"
    )
}
