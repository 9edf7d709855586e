//! The same work as scr's in plain Rust, std only, to measure against. Nothing of it is proved.
//!
//! `run program=ddos threshold=N`, `plain program=NAME` and `crew program=NAME cores=K` read a capture on standard input, and
//! write the report; `spray program=conn cores=K` writes the stream of one; `step PROGRAM FLOWS PACKETS`, `lane KIND FRAMES` and `log CORES ROWS` are the work of scr_bench.

mod captures;
mod crew;
mod faults;
mod frames;
mod logs;
mod messages;
mod pause;
mod plain;
mod report;
mod ring;
mod rows;
mod shared;
mod sprayed;
mod steps;
mod table;
mod traffic;

use faults::Fault;
use std::fs::File;
use std::io::{self, Write};
use std::os::fd::AsFd;
use std::process::ExitCode;

/// A stream without std's buffers, whose standard output looks for the last line end in each piece.
fn unbuffered<S: AsFd>(stream: S, fault: Fault) -> Result<File, Fault> {
    stream.as_fd().try_clone_to_owned().map(File::from).map_err(|_| fault)
}

fn run_words() -> Result<(), Fault> {
    let words = std::env::args_os().skip(1).map(|it| it.into_string().map_err(|_| Fault::Words));
    let words = words.collect::<Result<Vec<String>, Fault>>()?;
    let (command, operands) = words.split_first().ok_or(Fault::Words)?;
    let input = || unbuffered(io::stdin(), Fault::Read);
    let out = || unbuffered(io::stdout(), Fault::Write);
    match command.as_str() {
        "run" => plain::run_counted(operands, input()?, out()?),
        "plain" => plain::run_plain(operands, input()?, out()?),
        "crew" => crew::run_crew(operands, input()?, out()?),
        "spray" => sprayed::run_spray(operands, input()?, out()?),
        "step" => {
            println!("{}", traffic::checksum_of(operands).ok_or(Fault::Words)?);
            Ok(())
        }
        "lane" | "log" => {
            println!("{}", shared::checksum_of(&words).ok_or(Fault::Words)?);
            Ok(())
        }
        _ => Err(Fault::Words),
    }
}

fn main() -> ExitCode {
    match run_words() {
        Ok(()) => ExitCode::SUCCESS,
        Err(fault) => {
            let _ = writeln!(io::stderr(), "scr: {}", fault.text());
            ExitCode::from(fault.status())
        }
    }
}
