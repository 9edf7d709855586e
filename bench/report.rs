//! Writing a report, 64 KiB at a time.

use crate::faults::Fault;
use std::io::Write;

const BUFFER: usize = 64 * 1024;
/// No verdict's line is longer.
const LONGEST_LINE: usize = 32;
const ENDING: usize = 16;

/// What stands behind the number of a verdict's line, and how long it is.
struct Ending([u8; ENDING], usize);

impl Ending {
    fn of(name: &&str) -> Ending {
        let text = format!(" {name}\n");
        let mut bytes = [0; ENDING];
        bytes[..text.len()].copy_from_slice(text.as_bytes());
        Ending(bytes, text.len())
    }
}

/// The numbers from 00 to 99, as text.
const PAIRS: [[u8; 2]; 100] = {
    let mut pairs = [[0; 2]; 100];
    let mut n = 0;
    while n < 100 {
        pairs[n] = [b'0' + n as u8 / 10, b'0' + n as u8 % 10];
        n += 1;
    }
    pairs
};

/// Lines collected to 64 KiB a write.
struct Output<W> {
    inner: W,
    buffer: Box<[u8]>,
    end: usize,
}

impl<W: Write> Output<W> {
    #[inline(always)]
    fn put_line(&mut self, number: u32, Ending(ending, length): &Ending) -> Result<(), Fault> {
        if self.end > BUFFER - LONGEST_LINE {
            self.flush()?;
        }
        self.put_number(number);
        self.buffer[self.end..self.end + ENDING].copy_from_slice(ending);
        self.end += length;
        Ok(())
    }

    #[inline(always)]
    fn put_number(&mut self, mut number: u32) {
        let length = number.checked_ilog10().map_or(1, |power| power as usize + 1);
        let place = &mut self.buffer[self.end..self.end + length];
        let mut at = length;
        while at >= 2 {
            at -= 2;
            place[at..at + 2].copy_from_slice(&PAIRS[(number % 100) as usize]);
            number /= 100;
        }
        if at == 1 {
            place[0] = b'0' + number as u8;
        }
        self.end += length;
    }

    fn put(&mut self, text: &[u8]) -> Result<(), Fault> {
        if self.end + text.len() > BUFFER {
            self.flush()?;
        }
        self.buffer[self.end..self.end + text.len()].copy_from_slice(text);
        self.end += text.len();
        Ok(())
    }

    #[cold]
    #[inline(never)]
    fn flush(&mut self) -> Result<(), Fault> {
        self.inner.write_all(&self.buffer[..self.end]).map_err(|_| Fault::Write)?;
        self.end = 0;
        Ok(())
    }
}

/// The verdict lines of a capture, whose verdicts are places in the list of names; the other lines; and the totals.
pub fn write_report<W: Write>(verdicts: &[u8], names: &[&str], others: &str, inner: W) -> Result<(), Fault> {
    let mut out = Output { inner, buffer: vec![0; BUFFER].into_boxed_slice(), end: 0 };
    let endings: Vec<Ending> = names.iter().map(Ending::of).collect();
    let mut totals = vec![0u64; names.len()];
    for (verdict, number) in verdicts.iter().zip(1..) {
        let place = usize::from(*verdict);
        totals[place] += 1;
        out.put_line(number, &endings[place])?;
    }
    out.put(others.as_bytes())?;
    for (name, total) in names.iter().zip(totals) {
        out.put(format!("verdict {name} {total}\n").as_bytes())?;
    }
    out.flush()
}
