//! `step PROGRAM FLOWS PACKETS`: a program's steps over the same made-up rows as scr_bench gives it, and the same checksum
//! of the verdicts.

use crate::rows::Row;
use crate::steps::{Bucket, Conn, Ddos, Heavy, Knock, Program};
use crate::table::FlowTable;

const FEW_FLOWS: u32 = 4_096;
const MOST_FLOWS: u32 = 65_536;
const FIRST_CLIENT: u32 = 0x0A00_0001;
const SERVER: u64 = 0x0AF0_0001;
const CLIENT_PORT: u64 = 40000;
const STRIDE: u32 = 7_919;

/// A segment of TCP between a client and the server, whose port is here.
#[derive(Clone, Copy)]
enum Segment {
    FromClient { port: u16, flags: u8 },
    FromServer { port: u16, flags: u8 },
}

const FIN: u8 = 1;
const SYN: u8 = 2;
const ACK: u8 = 16;

const DATA: &[Segment] = &[Segment::FromClient { port: 80, flags: ACK }];

const KNOCKS: &[Segment] = &[
    Segment::FromClient { port: 7000, flags: SYN },
    Segment::FromClient { port: 8000, flags: SYN },
    Segment::FromClient { port: 9000, flags: SYN },
];

const CONNECTION: &[Segment] = &[
    Segment::FromClient { port: 80, flags: SYN },
    Segment::FromServer { port: 80, flags: SYN | ACK },
    Segment::FromClient { port: 80, flags: ACK },
    Segment::FromServer { port: 80, flags: ACK },
    Segment::FromClient { port: 80, flags: FIN | ACK },
    Segment::FromServer { port: 80, flags: FIN | ACK },
    Segment::FromClient { port: 80, flags: ACK },
];

const OPENINGS: &[Segment] = &[Segment::FromClient { port: 80, flags: SYN }];

impl Segment {
    fn row(self, client: u64, number: u32) -> Row {
        let (source, destination, ports, flags) = match self {
            Segment::FromClient { port, flags } => (client, SERVER, CLIENT_PORT << 16 | u64::from(port), flags),
            Segment::FromServer { port, flags } => (SERVER, client, u64::from(port) << 16 | CLIENT_PORT, flags),
        };
        let w4 = ports << 32 | 6 << 24 | u64::from(flags) << 16 | 2;
        Row { w0: 0, w1: source, w2: 0, w3: destination, w4, w5: 10 * u64::from(number), w6: 40 }
    }
}

/// The packets of so many flows in turn.
struct Traffic {
    talk: &'static [Segment],
    flows: u32,
    flow: u32,
    segment: usize,
    number: u32,
}

impl Traffic {
    fn next_row(&mut self) -> Row {
        let row = self.talk[self.segment].row(u64::from(FIRST_CLIENT + self.flow), self.number);
        self.number = self.number.wrapping_add(1);
        self.flow = (self.flow + STRIDE) % self.flows;
        if self.flow == 0 {
            self.segment = (self.segment + 1) % self.talk.len();
        }
        row
    }
}

fn checksum(mut program: impl Program, talk: &'static [Segment], flows: u32, packets: u32) -> u64 {
    let mut traffic = Traffic { talk, flows, flow: 0, segment: 0, number: 0 };
    (0..packets).fold(0u64, |sum, _| {
        let verdict = program.step(&traffic.next_row());
        sum.wrapping_mul(31).wrapping_add(u64::from(verdict) + 1)
    })
}

/// The checksum of the verdicts, where the arguments are a program, a number of flows and a number of packets.
pub fn checksum_of(words: &[String]) -> Option<u64> {
    let [program, flows, packets] = words else { return None };
    let (flows, packets) = (flows.parse().ok()?, packets.parse().ok()?);
    let most = if flows <= FEW_FLOWS { FEW_FLOWS } else { MOST_FLOWS };
    let sum = match program.as_str() {
        "ddos" => checksum(Ddos::new(FlowTable::new(most)), DATA, flows, packets),
        "heavy" => checksum(Heavy::new(FlowTable::new(most)), DATA, flows, packets),
        "bucket" => checksum(Bucket::new(FlowTable::new(most)), DATA, flows, packets),
        "knock" => checksum(Knock::new(FlowTable::new(most)), KNOCKS, flows, packets),
        "conn" if most < flows => checksum(Conn::new(FlowTable::new(most)), OPENINGS, flows, packets),
        "conn" => checksum(Conn::new(FlowTable::new(most)), CONNECTION, flows, packets),
        _ => return None,
    };
    Some(sum)
}
