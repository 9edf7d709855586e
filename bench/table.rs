//! A flow table: std's `HashMap` from a key to its place in a `Vec`, whose elements are linked in the order of their last
//! use. A step looks its key up once where it is there, and changes the entry where it lies. A key hashes itself, by the
//! products of its words two by two; std's own hasher would take longer.

use std::collections::HashMap;
use std::hash::{BuildHasherDefault, Hash, Hasher};

/// Words that tell flows apart.
#[derive(Clone, Copy)]
pub struct Key<const N: usize>(pub [u64; N]);

impl<const N: usize> PartialEq for Key<N> {
    /// Without a branch for each word, which a comparison of arrays calls out for.
    #[inline(always)]
    fn eq(&self, other: &Self) -> bool {
        self.0.iter().zip(&other.0).fold(0, |differ, (one, two)| differ | (one ^ two)) == 0
    }
}

impl<const N: usize> Eq for Key<N> {}

const MULTIPLIERS: [u64; 6] = [
    0x9E37_79B9_7F4A_7C15,
    0xC2B2_AE3D_27D4_EB4F,
    0x1656_67B1_9E37_79F9,
    0x85EB_CA77_C2B2_AE63,
    0x27D4_EB2F_1656_67C5,
    0xD6E8_FEB8_6659_FD93,
];

/// The product of two words, folded into one.
#[inline(always)]
fn folded(one: u64, two: u64) -> u64 {
    let product = u128::from(one) * u128::from(two);
    product as u64 ^ (product >> 64) as u64
}

impl<const N: usize> Hash for Key<N> {
    #[inline(always)]
    fn hash<H: Hasher>(&self, state: &mut H) {
        let word = |at: usize| if at < N { self.0[at] } else { 0 };
        let pairs = (0..N).step_by(2);
        let hash = pairs.fold(0, |hash, at| {
            hash ^ folded(word(at) ^ MULTIPLIERS[at], word(at + 1) ^ MULTIPLIERS[at + 1])
        });
        state.write_u64(folded(hash, MULTIPLIERS[5]));
    }
}

/// Takes what a key says of itself.
#[derive(Default)]
struct KeyHasher(u64);

impl Hasher for KeyHasher {
    fn write(&mut self, _: &[u8]) {
        unreachable!("a key writes one word");
    }

    #[inline(always)]
    fn write_u64(&mut self, hash: u64) {
        self.0 = hash;
    }

    #[inline(always)]
    fn finish(&self) -> u64 {
        self.0
    }
}

struct Flow<const N: usize, V> {
    key: Key<N>,
    entry: V,
    newer: u32,
    older: u32,
}

const NONE: u32 = u32::MAX;

/// The flows that were used last.
pub struct FlowTable<const N: usize, V> {
    places: HashMap<Key<N>, u32, BuildHasherDefault<KeyHasher>>,
    flows: Vec<Flow<N, V>>,
    most: usize,
    newest: u32,
    oldest: u32,
}

impl<const N: usize, V> FlowTable<N, V> {
    pub fn new(most: u32) -> Self {
        FlowTable { places: HashMap::default(), flows: Vec::new(), most: most as usize, newest: NONE, oldest: NONE }
    }

    /// How many flows there are.
    pub fn len(&self) -> usize {
        self.flows.len()
    }

    /// Where a key's flow is.
    #[inline(always)]
    pub fn place_of(&self, key: &Key<N>) -> Option<u32> {
        self.places.get(key).copied()
    }

    /// The entry of the flow at a place.
    #[inline(always)]
    pub fn entry(&mut self, place: u32) -> &mut V {
        &mut self.flows[place as usize].entry
    }

    /// The entry of a key, whose flow becomes the newest. A new flow begins with `first`.
    #[inline(always)]
    pub fn used(&mut self, key: Key<N>, first: impl FnOnce() -> V) -> &mut V {
        let place = match self.place_of(&key) {
            Some(place) => {
                self.make_newest(place);
                place
            }
            None => self.add(key, first()),
        };
        self.entry(place)
    }

    /// Makes the flow at a place the newest.
    #[inline(always)]
    pub fn make_newest(&mut self, place: u32) {
        if place != self.newest {
            self.unlink(place);
            self.link_newest(place);
        }
    }

    /// Puts a new flow in front, in the place of the oldest where the table is full.
    #[inline(never)]
    pub fn add(&mut self, key: Key<N>, entry: V) -> u32 {
        let flow = Flow { key, entry, newer: NONE, older: NONE };
        let place = if self.flows.len() < self.most {
            self.flows.push(flow);
            self.flows.len() as u32 - 1
        } else {
            let oldest = self.oldest;
            self.unlink(oldest);
            let gone = std::mem::replace(&mut self.flows[oldest as usize], flow);
            self.places.remove(&gone.key);
            oldest
        };
        self.places.insert(key, place);
        self.link_newest(place);
        place
    }

    fn unlink(&mut self, place: u32) {
        let Flow { newer, older, .. } = self.flows[place as usize];
        match newer {
            NONE => self.newest = older,
            newer => self.flows[newer as usize].older = older,
        }
        match older {
            NONE => self.oldest = newer,
            older => self.flows[older as usize].newer = newer,
        }
    }

    fn link_newest(&mut self, place: u32) {
        let older = self.newest;
        let flow = &mut self.flows[place as usize];
        (flow.newer, flow.older) = (NONE, older);
        match older {
            NONE => self.oldest = place,
            older => self.flows[older as usize].newer = place,
        }
        self.newest = place;
    }
}
