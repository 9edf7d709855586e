//! `spray program=conn cores=K`: what the cores are delivered, as one stream of bytes, as `scr spray` writes it with all other
//! settings at their defaults. It is for captures of TCP alone, since a row of any other packet is 0 there.

use crate::captures::Capture;
use crate::faults::Fault;
use crate::frames::row_of;
use crate::messages::{encode_into, Words, END, FRAME};
use crate::rows::Row;
use std::io::{Read, Write};

const PIECE: usize = 1 << 16;
const CONN: u8 = 4;

/// Writes the messages of all frames, each with the rows of the history before it, through one buffer.
fn spray(rows: &[Words], cores: u8, mut out: impl Write) -> std::io::Result<()> {
    let (history, count) = (usize::from(cores) - 1, rows.len() as u32);
    let mut piece = vec![0x53, 0x43, 0x52, 0x53, 1, CONN, cores, cores - 1];
    for number in 1..=count {
        let carried = &rows[(number as usize).saturating_sub(history + 1)..number as usize];
        encode_into(&mut piece, FRAME, number, carried);
        if piece.len() >= PIECE {
            out.write_all(&piece)?;
            piece.clear();
        }
    }
    encode_into(&mut piece, END, count, &[]);
    out.write_all(&piece)
}

/// The command `spray`, where the words are `conn` and 1 to 16 cores.
pub fn run_spray<R: Read, W: Write>(words: &[String], input: R, out: W) -> Result<(), Fault> {
    let [program, cores] = words else { return Err(Fault::Words) };
    let cores = cores.strip_prefix("cores=").and_then(|it| it.parse().ok()).filter(|it| (1..=16).contains(it));
    let cores = cores.filter(|_| program == "program=conn").ok_or(Fault::Words)?;
    let mut capture = Capture::begin(input)?;
    let mut rows: Vec<Words> = Vec::new();
    while let Some(record) = capture.next()? {
        // The program doesn't look at lengths, so its rows don't keep them.
        rows.push(Row { w6: 0, ..row_of(&record) }.into());
    }
    spray(&rows, cores, out).map_err(|_| Fault::Write)
}
