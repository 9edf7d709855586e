//! The five programs' steps. They are inlined, with the table's look-up, into the loop that takes them: once a packet a call
//! would show.

use crate::rows::Row;
use crate::table::FlowTable;

pub trait Program {
    const NAMES: &'static [&'static str];

    /// The place of the verdict on the next packet in the list of names.
    fn step(&mut self, row: &Row) -> u8;

    /// How many flows the table has.
    fn flows(&self) -> usize;
}

const PASS: u8 = 0;
const DROP: u8 = 1;
const HEAVY: u8 = 1;
const OTHER: u8 = 2;

/// Drops a source's packets past the threshold.
pub struct Ddos {
    pub threshold: u64,
    counts: FlowTable<3, u64>,
}

impl Ddos {
    pub fn new(counts: FlowTable<3, u64>) -> Ddos {
        Ddos { threshold: 1_000, counts }
    }
}

impl Program for Ddos {
    const NAMES: &'static [&'static str] = &["PASS", "DROP", "OTHER"];

    #[inline(always)]
    fn step(&mut self, row: &Row) -> u8 {
        if !row.is_packet() {
            return OTHER;
        }
        let count = self.counts.used(row.source(), || 0);
        *count = count.saturating_add(1);
        if *count > self.threshold { DROP } else { PASS }
    }

    fn flows(&self) -> usize {
        self.counts.len()
    }
}

/// Tells the flows that have had so many bytes.
pub struct Heavy {
    limit: u64,
    bytes: FlowTable<5, u64>,
}

impl Heavy {
    pub fn new(bytes: FlowTable<5, u64>) -> Heavy {
        Heavy { limit: 1_000_000, bytes }
    }
}

impl Program for Heavy {
    const NAMES: &'static [&'static str] = &["PASS", "HEAVY", "OTHER"];

    #[inline(always)]
    fn step(&mut self, row: &Row) -> u8 {
        if !row.is_packet() {
            return OTHER;
        }
        let bytes = self.bytes.used(row.five_tuple(), || 0);
        *bytes = bytes.saturating_add(row.w6);
        if *bytes >= self.limit { HEAVY } else { PASS }
    }

    fn flows(&self) -> usize {
        self.bytes.len()
    }
}

pub struct Tokens {
    held: u64,
    time: u64,
}

/// Gives each flow a bucket of tokens, and drops a packet that finds none.
pub struct Bucket {
    rate: u64,
    burst: u64,
    buckets: FlowTable<5, Tokens>,
}

impl Bucket {
    const TOKEN: u64 = 1_000_000;

    pub fn new(buckets: FlowTable<5, Tokens>) -> Bucket {
        Bucket { rate: 1_000, burst: 100, buckets }
    }
}

impl Program for Bucket {
    const NAMES: &'static [&'static str] = &["PASS", "DROP", "OTHER"];

    #[inline(always)]
    fn step(&mut self, row: &Row) -> u8 {
        if !row.is_packet() {
            return OTHER;
        }
        let (full, time) = (self.burst * Bucket::TOKEN, row.w5);
        let tokens = self.buckets.used(row.five_tuple(), || Tokens { held: full, time });
        let elapsed = time.saturating_sub(tokens.time);
        // No more than 2^64 tokens are ever held, so that what is beyond doesn't count.
        tokens.held = tokens.held.saturating_add(elapsed.saturating_mul(self.rate)).min(full);
        tokens.time = tokens.time.max(time);
        if tokens.held < Bucket::TOKEN {
            return DROP;
        }
        tokens.held -= Bucket::TOKEN;
        PASS
    }

    fn flows(&self) -> usize {
        self.buckets.len()
    }
}

/// How far a source has come: so many ports knocked at in turn, and with three its door is open.
type Place = u8;

const OPEN: Place = 3;

/// Passes the packets of a source once it has knocked at three ports in turn.
pub struct Knock {
    ports: [u16; 3],
    places: FlowTable<3, Place>,
}

impl Knock {
    pub fn new(places: FlowTable<3, Place>) -> Knock {
        Knock { ports: [7_000, 8_000, 9_000], places }
    }
}

impl Program for Knock {
    const NAMES: &'static [&'static str] = &["PASS", "DROP", "OTHER"];

    #[inline(always)]
    fn step(&mut self, row: &Row) -> u8 {
        if !matches!(row.kind(), 2 | 3) {
            return OTHER;
        }
        let (_, port) = row.ports();
        let place = self.places.used(row.source(), || 0);
        if *place == OPEN {
            return PASS;
        }
        *place = match port {
            port if port == self.ports[usize::from(*place)] => *place + 1,
            port if port == self.ports[0] => 1,
            _ => 0,
        };
        DROP
    }

    fn flows(&self) -> usize {
        self.places.len()
    }
}

const SYN_SENT: u8 = 0;
const SYN_RECV: u8 = 1;
const ESTABLISHED: u8 = 2;
const FIN_WAIT: u8 = 3;
const LAST_ACK: u8 = 4;
const TIME_WAIT: u8 = 5;
const CLOSED: u8 = 6;
const INVALID: u8 = 7;
const NOT_TCP: u8 = 8;
/// No connection is known, or it has been idle for too long.
const ABSENT: usize = 7;

/// The sender becomes the side of the connection.
const TURNS: u8 = 0x80;

/// Of each byte of flags: RST, SYN with ACK, SYN, FIN, ACK, or none that can be valid.
const CLASSES: [u8; 256] = {
    let mut classes = [0; 256];
    let mut flags = 0;
    while flags < 256 {
        let (fin, syn, rst, ack) = (flags & 1 != 0, flags & 2 != 0, flags & 4 != 0, flags & 16 != 0);
        classes[flags] = match (rst, syn, fin, ack) {
            (true, ..) => 0,
            (_, true, false, true) => 1,
            (_, true, false, false) => 2,
            (_, false, true, _) => 3,
            (_, false, false, true) => 4,
            _ => 5,
        };
        flags += 1;
    }
    classes
};

/// By the state, by whether the sender is the side, and by the class of the flags: the next state, or INVALID.
const MOVES: [[[u8; 6]; 2]; 8] = {
    use CLOSED as CL;
    use ESTABLISHED as ES;
    use FIN_WAIT as FW;
    use INVALID as NO;
    use LAST_ACK as LA;
    use SYN_RECV as SR;
    use SYN_SENT as SS;
    use TIME_WAIT as TW;
    const AGAIN: u8 = SYN_SENT | TURNS;
    const CLOSES: u8 = FIN_WAIT | TURNS;
    [
        [[CL, SR, NO, NO, NO, NO], [CL, NO, SS, NO, NO, NO]],
        [[CL, SR, NO, CLOSES, SR, NO], [CL, NO, SR, CLOSES, ES, NO]],
        [[CL, ES, NO, CLOSES, ES, NO], [CL, NO, NO, CLOSES, ES, NO]],
        [[CL, NO, NO, LA, FW, NO], [CL, NO, NO, FW, FW, NO]],
        [[CL, NO, NO, LA, LA, NO], [CL, NO, NO, LA, TW, NO]],
        [[CL, NO, AGAIN, TW, TW, NO], [CL, NO, AGAIN, TW, TW, NO]],
        [[CL, NO, AGAIN, NO, NO, NO], [CL, NO, AGAIN, NO, NO, NO]],
        [[NO, NO, AGAIN, NO, NO, NO], [NO, NO, AGAIN, NO, NO, NO]],
    ]
};

pub struct Entry {
    state: u8,
    is_low: bool,
    time: u64,
}

/// Follows each connection through its states.
pub struct Conn {
    idle: u64,
    connections: FlowTable<5, Entry>,
}

impl Conn {
    pub fn new(connections: FlowTable<5, Entry>) -> Conn {
        Conn { idle: 60_000_000, connections }
    }
}

impl Program for Conn {
    const NAMES: &'static [&'static str] = &[
        "SYN_SENT", "SYN_RECV", "ESTABLISHED", "FIN_WAIT", "LAST_ACK", "TIME_WAIT", "CLOSED", "INVALID", "OTHER",
    ];

    #[inline(always)]
    fn step(&mut self, row: &Row) -> u8 {
        if row.kind() != 2 {
            return NOT_TCP;
        }
        let (time, class) = (row.w5, usize::from(CLASSES[usize::from(row.flags())]));
        let (connection, is_low) = row.connection();
        let Some(place) = self.connections.place_of(&connection) else {
            let next = MOVES[ABSENT][0][class];
            if next != INVALID {
                self.connections.add(connection, Entry { state: next & !TURNS, is_low, time });
            }
            return next & !TURNS;
        };
        let entry = self.connections.entry(place);
        let is_known = time.saturating_sub(entry.time) <= self.idle;
        let next = match is_known {
            true => MOVES[usize::from(entry.state)][usize::from(entry.is_low == is_low)][class],
            false => MOVES[ABSENT][0][class],
        };
        if next == INVALID {
            return INVALID;
        }
        entry.state = next & !TURNS;
        if next & TURNS != 0 {
            entry.is_low = is_low;
        }
        entry.time = if is_known { entry.time.max(time) } else { time };
        self.connections.make_newest(place);
        next & !TURNS
    }

    fn flows(&self) -> usize {
        self.connections.len()
    }
}
