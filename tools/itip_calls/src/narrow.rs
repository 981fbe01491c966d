//! A writer with little room.

use std::alloc::Global;
use std::io;
use std::io::Write;

/// Takes at most `step` octets at a write, and `room` in all. Once it is full it fails, or takes nothing more.
#[derive(Drop)]
pub(crate) struct Narrow {
    pub(crate) held: Vec<u8>,
    step: usize,
    room: usize,
    fails: bool,
}

impl Narrow {
    pub(crate) fn new(alloc: Global, step: usize, room: usize, fails: bool) -> Narrow {
        Narrow {
            held: Vec::new(alloc),
            step,
            room,
            fails,
        }
    }
}

impl Write for Narrow {
    fn write(&mut self, buf: &[u8]) -> io::Result<usize> {
        let left = self.room.saturating_sub(self.held.len());
        if left == 0 && self.fails {
            return Err(io::Error::from(io::ErrorKind::Interrupted));
        }
        let count = buf.len().min(self.step).min(left);
        self.held.extend_from_slice(&buf[..count])?;
        Ok(count)
    }

    fn flush(&mut self) -> io::Result<()> {
        Ok(())
    }
}
