//! `crew program=NAME cores=K`: a run whose cores are threads, as `scr run` has it, with all other settings at their defaults.
//! The caller gives each core its messages through a ring; a core gets what it lost from the logs of the others.

use crate::captures::Capture;
use crate::faults::Fault;
use crate::frames::row_of;
use crate::logs::{Logs, Pass};
use crate::messages::{decode, encode, Words, BEACON, BEACON_EVERY, END, FRAME};
use crate::report::write_report;
use crate::ring::{Ring, RingReceiver, RingSender};
use crate::rows::Row;
use crate::steps::{Bucket, Conn, Ddos, Heavy, Knock, Program};
use crate::table::FlowTable;
use std::fmt::Write as _;
use std::io::{Read, Write};
use std::thread;

const MOST_FLOWS: u32 = 4_096;
const SLOTS: u32 = 1_024;

impl From<Words> for Row {
    fn from([w0, w1, w2, w3, w4, w5, w6]: Words) -> Row {
        Row { w0, w1, w2, w3, w4, w5, w6 }
    }
}

impl From<Row> for Words {
    fn from(row: Row) -> Words {
        [row.w0, row.w1, row.w2, row.w3, row.w4, row.w5, row.w6]
    }
}

/// What a core made of the run.
#[derive(Default)]
struct Done {
    /// The verdicts at the frames that were its own, in order.
    verdicts: Vec<u8>,
    delivered: u32,
    carried: u32,
    recovered: u32,
    skipped: u32,
    flows: usize,
}

struct Core<'a, P> {
    program: P,
    pass: Pass<'a>,
    history: u32,
    finished: u32,
    done: Done,
}

impl<P: Program> Core<'_, P> {
    fn follow(mut self, mut lane: RingReceiver) -> Done {
        while self.take(&lane.receive()) {}
        self.done.flows = self.program.flows();
        self.done
    }

    /// Whether more messages come.
    fn take(&mut self, message: &[u8]) -> bool {
        let Some(view) = decode(message) else { return false };
        match view.kind {
            FRAME => {
                let first = view.number - view.count + 1;
                self.lose_up_to(first - 1);
                for place in self.finished + 1 - first..view.count {
                    let verdict = self.carried(&view.row(place));
                    if place + 1 == view.count {
                        self.done.verdicts.push(verdict);
                    }
                }
                self.done.delivered += 1;
            }
            BEACON => self.lose_up_to(view.number.saturating_sub(self.history)),
            _ => self.lose_up_to(view.number),
        }
        view.kind != END
    }

    #[inline]
    fn carried(&mut self, words: &Words) -> u8 {
        let p = self.finished + 1;
        self.pass.publish(p, Some(words));
        self.done.carried += 1;
        let verdict = self.program.step(&Row::from(*words));
        self.finish(p);
        verdict
    }

    fn lose_up_to(&mut self, last: u32) {
        while self.finished < last {
            let p = self.finished + 1;
            self.pass.publish(p, None);
            match self.pass.found(p) {
                Some(words) => {
                    self.done.recovered += 1;
                    self.program.step(&Row::from(words));
                }
                None => self.done.skipped += 1,
            }
            self.finish(p);
        }
    }

    #[inline]
    fn finish(&mut self, p: u32) {
        self.pass.finish(p);
        self.finished = p;
    }
}

/// Sends each core its messages: the frames in turn, with the rows of the history before each, and now and then to all how
/// far the capture is.
fn feed(rows: &[Words], history: u32, mut lanes: Vec<RingSender>) {
    for number in 1..=rows.len() as u32 {
        if number > 1 && (number - 1) % BEACON_EVERY == 0 {
            lanes.iter_mut().for_each(|lane| lane.send(encode(BEACON, number - 1, &[])));
        }
        let carried = &rows[number.saturating_sub(history + 1) as usize..number as usize];
        let turn = (number as usize - 1) % lanes.len();
        lanes[turn].send(encode(FRAME, number, carried));
    }
    lanes.iter_mut().for_each(|lane| lane.send(encode(END, rows.len() as u32, &[])));
}

fn run<P: Program + Send>(new: impl Fn() -> P, cores: u32, input: impl Read, out: impl Write) -> Result<(), Fault> {
    let mut capture = Capture::begin(input)?;
    let mut rows: Vec<Words> = Vec::new();
    while let Some(record) = capture.next()? {
        rows.push(row_of(&record).into());
    }
    let (logs, history) = (&Logs::new(cores, SLOTS), cores - 1);
    let rings: Vec<Ring> = (0..cores).map(|_| Ring::new()).collect();
    let (senders, receivers): (Vec<_>, Vec<_>) = rings.iter().map(Ring::ends).unzip();
    let done: Vec<Done> = thread::scope(|scope| {
        let cores = (0..).map(|core| Core {
            program: new(),
            pass: Pass::new(logs, core),
            history,
            finished: 0,
            done: Done::default(),
        });
        let workers: Vec<_> = cores.zip(receivers).map(|(core, lane)| scope.spawn(move || core.follow(lane))).collect();
        feed(&rows, history, senders);
        workers.into_iter().map(|worker| worker.join().unwrap_or_default()).collect()
    });
    report(&done, rows.len(), P::NAMES, out)
}

fn report(done: &[Done], frames: usize, names: &[&str], out: impl Write) -> Result<(), Fault> {
    let verdicts: Vec<u8> = (0..frames).map(|place| done[place % done.len()].verdicts[place / done.len()]).collect();
    let mut others = format!("frames {frames} delivered {frames} kept {frames}\n");
    for (core, it) in done.iter().enumerate() {
        let Done { delivered, carried, recovered, skipped, .. } = it;
        let _ = writeln!(others, "core {core} delivered {delivered} carried {carried} recovered {recovered} skipped {skipped}");
    }
    let _ = writeln!(others, "flows {}", done.first().map_or(0, |it| it.flows));
    write_report(&verdicts, names, &others, out)
}

/// The command `crew`, where the words are one of the five programs and 1 to 16 cores.
pub fn run_crew<R: Read, W: Write>(words: &[String], input: R, out: W) -> Result<(), Fault> {
    let [program, cores] = words else { return Err(Fault::Words) };
    let cores = cores.strip_prefix("cores=").and_then(|it| it.parse().ok()).filter(|it| (1..=16).contains(it));
    let cores = cores.ok_or(Fault::Words)?;
    match program.as_str() {
        "program=ddos" => run(|| Ddos::new(FlowTable::new(MOST_FLOWS)), cores, input, out),
        "program=heavy" => run(|| Heavy::new(FlowTable::new(MOST_FLOWS)), cores, input, out),
        "program=bucket" => run(|| Bucket::new(FlowTable::new(MOST_FLOWS)), cores, input, out),
        "program=knock" => run(|| Knock::new(FlowTable::new(MOST_FLOWS)), cores, input, out),
        "program=conn" => run(|| Conn::new(FlowTable::new(MOST_FLOWS)), cores, input, out),
        _ => Err(Fault::Words),
    }
}
