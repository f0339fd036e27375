//! Texts in blocks of whole lines.

use crate::bytes::Bytes;
use std::fs::File;
use std::io::{self, Read};

/// How much of a file is read at once: small enough to stay in the second cache, and used over and over.
const BLOCK: usize = 1 << 17;
/// How many bytes behind the end of a line may be loaded with it.
const PADDING: usize = 128;

/// A file, of which whole lines stand in a buffer.
pub struct Blocks {
    file: File,
    /// `PADDING` bytes longer than what is ever filled.
    buffer: Vec<u8>,
    /// Where the whole lines end, each with its line feed.
    pub whole: usize,
    filled: usize,
    ended: bool,
}

impl Blocks {
    pub fn new(file: File) -> Blocks {
        Blocks { file, buffer: vec![0; BLOCK + PADDING], whole: 0, filled: 0, ended: false }
    }

    /// Reads on until there are whole lines, which then begin at 0; a last line without a line feed is given one.
    /// False where nothing is left.
    pub fn refill(&mut self) -> io::Result<bool> {
        self.buffer.copy_within(self.whole..self.filled, 0);
        self.filled -= self.whole;
        self.whole = 0;
        while !self.ended {
            let room = self.buffer.len() - PADDING;
            if self.filled == room {
                self.buffer.resize(2 * room + PADDING, 0);
                continue;
            }
            let before = self.filled;
            self.filled += self.file.read(&mut self.buffer[before..room])?;
            self.ended = self.filled == before;
            if let Some(last) = self.buffer[before..self.filled].iter().rposition(|&byte| byte == b'\n') {
                self.whole = before + last + 1;
                return Ok(true);
            }
        }
        if self.filled == 0 {
            return Ok(false);
        }
        self.buffer[self.filled] = b'\n';
        self.filled += 1;
        self.whole = self.filled;
        Ok(true)
    }

    /// Reads the rest, only to learn whether it can be read.
    pub fn drain(&mut self) -> io::Result<()> {
        self.filled = 0;
        while !self.ended {
            self.ended = self.file.read(&mut self.buffer)? == 0;
        }
        self.whole = 0;
        Ok(())
    }

    /// The bytes from a place on, which is before `whole`.
    #[inline(always)]
    pub fn at(&self, place: usize) -> Bytes {
        debug_assert!(place < self.whole);
        // SAFETY: the place is within the buffer.
        Bytes(unsafe { self.buffer.as_ptr().add(place) })
    }

    /// A line without its line feed.
    pub fn line(&self, place: usize) -> &[u8] {
        &self.buffer[place..place + self.at(place).line_length()]
    }
}
