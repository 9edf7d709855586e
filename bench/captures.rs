//! Reading a capture, 64 KiB at a time. A frame is lent from the buffer, as far as its fields can reach.

use crate::faults::{Fault, MOST_RECORDS};
use std::io::{self, Read};

const BUFFER: usize = 64 * 1024;
/// No field of a frame stands behind so many bytes.
const HEAD: usize = 128;
const LONGEST_FRAME: u32 = 262_144;
const FILE_HEADER: usize = 24;
const RECORD_HEADER: usize = 16;
const MICROSECONDS: u32 = 0xA1B2_C3D4;
const NANOSECONDS: u32 = 0xA1B2_3C4D;

/// Bytes of a stream, through a buffer.
struct Input<R> {
    inner: R,
    buffer: Box<[u8]>,
    start: usize,
    end: usize,
}

impl<R: Read> Input<R> {
    fn new(inner: R) -> Self {
        Input { inner, buffer: vec![0; BUFFER].into_boxed_slice(), start: 0, end: 0 }
    }

    /// The bytes that are in the buffer.
    #[inline(always)]
    fn ready(&self) -> usize {
        self.end - self.start
    }

    /// Brings so many bytes into the buffer, or fewer where the stream ends.
    #[cold]
    #[inline(never)]
    fn refill(&mut self, wanted: usize) -> Result<(), Fault> {
        self.buffer.copy_within(self.start..self.end, 0);
        self.end -= self.start;
        self.start = 0;
        while self.end < wanted {
            match self.inner.read(&mut self.buffer[self.end..]) {
                Ok(0) => break,
                Ok(count) => self.end += count,
                Err(error) if error.kind() == io::ErrorKind::Interrupted => {}
                Err(_) => return Err(Fault::Read),
            }
        }
        Ok(())
    }
}

#[inline(always)]
fn number(bytes: &[u8], at: usize, is_swapped: bool) -> u32 {
    let number = u32::from_le_bytes([bytes[at], bytes[at + 1], bytes[at + 2], bytes[at + 3]]);
    if is_swapped { number.swap_bytes() } else { number }
}

/// What a record has, and the first bytes of its frame.
pub struct Record<'a> {
    /// In microseconds.
    pub time: u64,
    pub captured: usize,
    pub head: &'a [u8],
}

/// A capture, at the record that comes next.
pub struct Capture<R> {
    input: Input<R>,
    is_swapped: bool,
    has_nanoseconds: bool,
    number: u32,
    /// How many bytes of the last frame aren't in the buffer yet.
    rest: usize,
}

impl<R: Read> Capture<R> {
    /// Reads the header of a capture.
    pub fn begin(inner: R) -> Result<Self, Fault> {
        let mut input = Input::new(inner);
        input.refill(FILE_HEADER)?;
        if input.ready() < FILE_HEADER {
            return Err(Fault::Header("ShortHeader"));
        }
        let header = &input.buffer[..FILE_HEADER];
        let magic = |is_swapped| number(header, 0, is_swapped);
        let has_magic = |it: &bool| matches!(magic(*it), MICROSECONDS | NANOSECONDS);
        let is_swapped = [false, true].into_iter().find(has_magic).ok_or(Fault::Header("Magic"))?;
        if header[4..8] != if is_swapped { [0, 2, 0, 4] } else { [2, 0, 4, 0] } {
            return Err(Fault::Header("Version"));
        }
        if number(header, 20, is_swapped) & 0xFFFF != 1 {
            return Err(Fault::Header("LinkType"));
        }
        let has_nanoseconds = magic(is_swapped) == NANOSECONDS;
        input.start = FILE_HEADER;
        Ok(Capture { input, is_swapped, has_nanoseconds, number: 0, rest: 0 })
    }

    /// The next record, or none where the capture ends.
    #[inline(always)]
    pub fn next(&mut self) -> Result<Option<Record<'_>>, Fault> {
        if self.input.ready() < RECORD_HEADER && !self.bring_header()? {
            return Ok(None);
        }
        if self.number == MOST_RECORDS {
            return Err(Fault::TooMany);
        }
        self.number += 1;
        let at = self.input.start;
        let header = &self.input.buffer[at..at + RECORD_HEADER];
        let word = |at| number(header, at, self.is_swapped);
        let (seconds, fraction, captured) = (word(0), word(4), word(8));
        if captured > LONGEST_FRAME {
            return Err(Fault::LongRecord(self.number, captured));
        }
        let captured = captured as usize;
        let head = captured.min(HEAD);
        if self.input.ready() < RECORD_HEADER + head {
            self.bring_head(RECORD_HEADER + head)?;
        }
        let at = self.input.start + RECORD_HEADER;
        let there = captured.min(self.input.end - at);
        self.rest = captured - there;
        self.input.start = at + there;
        let fraction = if self.has_nanoseconds { fraction / 1_000 } else { fraction };
        let time = u64::from(seconds) * 1_000_000 + u64::from(fraction);
        Ok(Some(Record { time, captured, head: &self.input.buffer[at..at + head] }))
    }

    /// Passes over the rest of the last frame, and brings the next record's header into the buffer, where one follows.
    #[cold]
    #[inline(never)]
    fn bring_header(&mut self) -> Result<bool, Fault> {
        while self.rest > 0 {
            self.input.refill(1)?;
            let step = self.rest.min(self.input.ready());
            if step == 0 {
                return Err(Fault::ShortRecord(self.number));
            }
            self.rest -= step;
            self.input.start += step;
        }
        self.input.refill(RECORD_HEADER)?;
        match self.input.ready() {
            0 => Ok(false),
            _ if self.number == MOST_RECORDS => Err(Fault::TooMany),
            ready if ready < RECORD_HEADER => Err(Fault::ShortRecord(self.number + 1)),
            _ => Ok(true),
        }
    }

    #[cold]
    #[inline(never)]
    fn bring_head(&mut self, wanted: usize) -> Result<(), Fault> {
        self.input.refill(wanted)?;
        if self.input.ready() < wanted { Err(Fault::ShortRecord(self.number)) } else { Ok(()) }
    }
}
