//! The messages of a lane, as bytes.

pub const FRAME: u8 = 1;
pub const BEACON: u8 = 2;
pub const END: u8 = 3;
pub const BEACON_EVERY: u32 = 256;
const HEADER: usize = 10;
const ROW: usize = 56;

/// The seven words of a row.
pub type Words = [u64; 7];

pub fn encode(kind: u8, number: u32, rows: &[Words]) -> Vec<u8> {
    let mut bytes = Vec::with_capacity(HEADER + ROW * rows.len());
    encode_into(&mut bytes, kind, number, rows);
    bytes
}

/// Appends a message.
pub fn encode_into(to: &mut Vec<u8>, kind: u8, number: u32, rows: &[Words]) {
    let start = to.len();
    to.resize(start + HEADER + ROW * rows.len(), 0);
    let bytes = &mut to[start..];
    bytes[..4].copy_from_slice(&[0x53, 0x43, 2, kind]);
    bytes[4..8].copy_from_slice(&number.to_be_bytes());
    bytes[8..HEADER].copy_from_slice(&(rows.len() as u16).to_be_bytes());
    for (place, word) in bytes[HEADER..].chunks_exact_mut(8).zip(rows.iter().flatten()) {
        place.copy_from_slice(&word.to_be_bytes());
    }
}

/// A message, whose rows are read where they lie.
pub struct View<'a> {
    pub kind: u8,
    pub number: u32,
    pub count: u32,
    rows: &'a [u8],
}

impl View<'_> {
    pub fn row(&self, place: u32) -> Words {
        let bytes = &self.rows[ROW * place as usize..ROW * (place as usize + 1)];
        std::array::from_fn(|i| bytes[8 * i..8 * i + 8].iter().fold(0, |word, byte| word << 8 | u64::from(*byte)))
    }
}

pub fn decode(bytes: &[u8]) -> Option<View<'_>> {
    let &[0x53, 0x43, 2, kind, n0, n1, n2, n3, c0, c1, ..] = bytes else { return None };
    let (number, count) = (u32::from_be_bytes([n0, n1, n2, n3]), u32::from(u16::from_be_bytes([c0, c1])));
    let is_allowed = match kind {
        FRAME => (1..=65).contains(&count) && count <= number,
        BEACON | END => count == 0,
        _ => false,
    };
    let is_whole = is_allowed && bytes.len() == HEADER + ROW * count as usize;
    is_whole.then_some(View { kind, number, count, rows: &bytes[HEADER..] })
}
