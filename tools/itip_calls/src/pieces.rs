//! A reader that gives a text in pieces.

use std::io;
use std::io::Read;

/// Gives at most `step` octets at a read, and fails at read `fails_at`.
#[derive(Drop)]
pub(crate) struct Pieces<'a> {
    text: &'a [u8],
    step: usize,
    reads: usize,
    fails_at: usize,
}

impl<'a> Pieces<'a> {
    pub(crate) fn new(text: &'a [u8], step: usize, fails_at: usize) -> Pieces<'a> {
        Pieces {
            text,
            step,
            reads: 0,
            fails_at,
        }
    }
}

impl<'a> Read for Pieces<'a> {
    fn read(&mut self, buf: &mut [u8]) -> io::Result<usize> {
        if self.reads == self.fails_at {
            return Err(io::Error::from(io::ErrorKind::Interrupted));
        }
        self.reads = self.reads.saturating_add(1);
        let count = self.text.len().min(buf.len()).min(self.step);
        let (front, rest) = self.text.split_at(count);
        buf[..count].copy_from_slice(front);
        self.text = rest;
        Ok(count)
    }
}
