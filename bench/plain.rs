//! `plain program=NAME` with all other settings at their defaults, and `run program=ddos threshold=N`: the program's step
//! over each frame of a capture. The two write the same report, but for the line of the one core.

use crate::captures::Capture;
use crate::faults::Fault;
use crate::frames::row_of;
use crate::report::write_report;
use crate::steps::{Bucket, Conn, Ddos, Heavy, Knock, Program};
use crate::table::FlowTable;
use std::io::{Read, Write};

const MOST_FLOWS: u32 = 4_096;

/// Gives each frame its verdict. The verdicts are kept until the capture is read to its end.
fn run<P: Program, R: Read, W: Write>(mut program: P, has_core: bool, input: R, out: W) -> Result<(), Fault> {
    let mut capture = Capture::begin(input)?;
    let mut verdicts = Vec::new();
    while let Some(record) = capture.next()? {
        verdicts.push(program.step(&row_of(&record)));
    }
    let (frames, flows) = (verdicts.len(), program.flows());
    let core = match has_core {
        true => format!("core 0 delivered {frames} carried {frames} recovered 0 skipped 0\n"),
        false => String::new(),
    };
    let others = format!("frames {frames} delivered {frames} kept {frames}\n{core}flows {flows}\n");
    write_report(&verdicts, P::NAMES, &others, out)
}

/// The threshold, where the words are exactly `program=ddos threshold=N`.
fn threshold_of(words: &[String]) -> Option<u64> {
    let [program, threshold] = words else { return None };
    let digits = threshold.strip_prefix("threshold=")?;
    let are_digits = digits.bytes().all(|it| it.is_ascii_digit());
    let number = digits.parse::<u32>().ok()?;
    (program == "program=ddos" && are_digits).then_some(u64::from(number))
}

/// The command `run`.
pub fn run_counted<R: Read, W: Write>(words: &[String], input: R, out: W) -> Result<(), Fault> {
    let mut program = Ddos::new(FlowTable::new(MOST_FLOWS));
    program.threshold = threshold_of(words).ok_or(Fault::Words)?;
    run(program, true, input, out)
}

/// The command `plain`, where the words are one of the five programs.
pub fn run_plain<R: Read, W: Write>(words: &[String], input: R, out: W) -> Result<(), Fault> {
    let [program] = words else { return Err(Fault::Words) };
    match program.as_str() {
        "program=ddos" => run(Ddos::new(FlowTable::new(MOST_FLOWS)), false, input, out),
        "program=heavy" => run(Heavy::new(FlowTable::new(MOST_FLOWS)), false, input, out),
        "program=bucket" => run(Bucket::new(FlowTable::new(MOST_FLOWS)), false, input, out),
        "program=knock" => run(Knock::new(FlowTable::new(MOST_FLOWS)), false, input, out),
        "program=conn" => run(Conn::new(FlowTable::new(MOST_FLOWS)), false, input, out),
        _ => Err(Fault::Words),
    }
}
