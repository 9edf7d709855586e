//! Why a call ends without a whole report.

pub const MOST_RECORDS: u32 = 1_000_000;

pub enum Fault {
    Words,
    Header(&'static str),
    ShortRecord(u32),
    LongRecord(u32, u32),
    Read,
    Write,
    TooMany,
}

impl Fault {
    pub fn status(&self) -> u8 {
        match self {
            Fault::Words => 1,
            Fault::Header(_) | Fault::ShortRecord(_) | Fault::LongRecord(..) => 2,
            Fault::Read => 3,
            Fault::Write => 4,
            Fault::TooMany => 6,
        }
    }

    pub fn text(&self) -> String {
        match self {
            Fault::Words => "word 1: NotBuilt".to_string(),
            Fault::Header(cause) => format!("header: {cause}"),
            Fault::ShortRecord(number) => format!("record {number}: ShortRecord"),
            Fault::LongRecord(number, length) => format!("record {number}: LongRecord {length}"),
            Fault::Read => "read fault".to_string(),
            Fault::Write => "write fault".to_string(),
            Fault::TooMany => format!("more than {MOST_RECORDS} records"),
        }
    }
}
