//! What the steps know of a packet, and the keys that their tables have, as words.

use crate::table::Key;

const FAMILY: u64 = 0xFF << 8;
const FLAGS: u64 = 0xFF << 16;
const KIND: u64 = 0xFF;

/// Two words for each address; ports, protocol, flags, family and kind; the time; the length.
#[derive(Clone, Copy, Default)]
pub struct Row {
    pub w0: u64,
    pub w1: u64,
    pub w2: u64,
    pub w3: u64,
    pub w4: u64,
    pub w5: u64,
    pub w6: u64,
}

/// An address and its family.
pub type Source = Key<3>;

/// Both addresses, and ports, protocol and family in one word.
pub type FiveTuple = Key<5>;

impl Row {
    #[inline(always)]
    pub fn kind(&self) -> u8 {
        (self.w4 & KIND) as u8
    }

    #[inline(always)]
    pub fn is_packet(&self) -> bool {
        matches!(self.kind(), 1..=3)
    }

    #[inline(always)]
    pub fn ports(&self) -> (u16, u16) {
        ((self.w4 >> 48) as u16, (self.w4 >> 32) as u16)
    }

    #[inline(always)]
    pub fn flags(&self) -> u8 {
        (self.w4 >> 16) as u8
    }

    #[inline(always)]
    pub fn source(&self) -> Source {
        Key([self.w0, self.w1, self.w4 & FAMILY])
    }

    #[inline(always)]
    pub fn five_tuple(&self) -> FiveTuple {
        Key([self.w0, self.w1, self.w2, self.w3, self.w4 & !(FLAGS | KIND)])
    }

    /// The connection of a segment, whichever end sends it, and whether the lower end does.
    #[inline(always)]
    pub fn connection(&self) -> (FiveTuple, bool) {
        let (source, destination) = (self.w4 >> 48, self.w4 >> 32 & 0xFFFF);
        let family = self.w4 & FAMILY;
        if (self.w0, self.w1, source) <= (self.w2, self.w3, destination) {
            (Key([self.w0, self.w1, self.w2, self.w3, source << 48 | destination << 32 | family]), true)
        } else {
            (Key([self.w2, self.w3, self.w0, self.w1, destination << 48 | source << 32 | family]), false)
        }
    }
}
