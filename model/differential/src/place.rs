//! Memory lent to a call, with canary bytes around it. Its end may be the end of
//! an allocation, so that a memory checker sees a step past it.

use crate::region::{Region, USED};
use rtcm2_model::rng::Rng;
use std::slice;

/// Bytes or one number, between canary bytes.
#[derive(Clone, PartialEq, Eq)]
pub struct Place {
    store: Store,
    from: usize,
    size: usize,
}

/// Where the bytes are.
#[derive(Clone, PartialEq, Eq)]
enum Store {
    /// In memory, as numbers so that eight bytes are aligned.
    Memory(Vec<u64>),
    /// At the start of over 2^32 bytes.
    Region(Region),
}

/// Canary bytes before a place, at least.
const BEFORE: usize = 8;

/// Numbers that a call is lent: any bytes are one.
pub trait Number {}
impl Number for u8 {}
impl Number for u16 {}
impl Number for u32 {}
impl Number for i32 {}
impl Number for usize {}

impl Place {
    /// A place with these bytes, at any alignment, with 0 to 24 canary bytes behind.
    pub fn holding(rng: &mut Rng, bytes: &[u8]) -> Place {
        let after = match rng.below(2) {
            0 => 0,
            _ => rng.place(25),
        };
        let mut place = Place::random(rng, bytes.len(), after);
        place.bytes().copy_from_slice(bytes);
        place
    }

    /// A place that starts with these bytes: mostly it holds no more, seldom 2^32 more.
    pub fn starting(rng: &mut Rng, bytes: &[u8]) -> Place {
        let longer = match rng.below(300) {
            0 => Place::far_longer(rng, bytes),
            _ => None,
        };
        longer.unwrap_or_else(|| Place::holding(rng, bytes))
    }

    /// A place with these bytes and 2^32 more, zeros or any, if they are few enough and
    /// the system has the address space.
    fn far_longer(rng: &mut Rng, bytes: &[u8]) -> Option<Place> {
        let mask = [0, 255][rng.place(2)];
        let mut start: Vec<u8> = (0..USED).map(|_| rng.byte() & mask).collect();
        let place = start.get_mut(BEFORE..BEFORE + bytes.len())?;
        place.copy_from_slice(bytes);
        Some(Place {
            store: Store::Region(Region::holding(&start)?),
            from: BEFORE,
            size: bytes.len() + (1 << 32),
        })
    }

    /// So many random bytes.
    pub fn bytes_of_size(rng: &mut Rng, size: usize) -> Place {
        let bytes: Vec<u8> = (0..size).map(|_| rng.byte()).collect();
        Place::starting(rng, &bytes)
    }

    /// A random number of any type.
    pub fn number_drawn(rng: &mut Rng) -> Place {
        Place::random(rng, 8, 8)
    }

    /// Random bytes with canary bytes before and so many behind.
    fn random(rng: &mut Rng, size: usize, after: usize) -> Place {
        let words = BEFORE / 8 + (size + after).div_ceil(8);
        Place {
            store: Store::Memory((0..words).map(|_| rng.draw()).collect()),
            from: 8 * words - after - size,
            size,
        }
    }

    /// How many bytes are lent.
    pub fn size(&self) -> usize {
        self.size
    }

    /// Where they lie.
    pub fn pointer(&mut self) -> *mut u8 {
        let start = match &mut self.store {
            Store::Memory(numbers) => numbers.as_mut_ptr().cast::<u8>(),
            Store::Region(region) => region.pointer(),
        };
        // Safety: `from` is inside the store, or just behind it for no bytes.
        unsafe { start.add(self.from) }
    }

    /// The lent bytes.
    pub fn bytes(&mut self) -> &mut [u8] {
        // Safety: the `size` bytes from `from` on are inside the store.
        unsafe { slice::from_raw_parts_mut(self.pointer(), self.size) }
    }

    /// The lent number; the place was drawn as one.
    pub fn number<T: Number>(&mut self) -> &mut T {
        assert!(self.size == 8 && self.from.is_multiple_of(8), "no number");
        // Safety: eight aligned bytes inside the store, and any bytes are a number.
        unsafe { &mut *self.pointer().cast::<T>() }
    }

    /// The lent bytes in hex, those of them that are used.
    pub fn hex(&self) -> String {
        let bytes: Vec<u8> = match &self.store {
            Store::Memory(numbers) => numbers.iter().flat_map(|n| n.to_ne_bytes()).collect(),
            Store::Region(region) => region.start().to_vec(),
        };
        let lent = bytes.iter().skip(self.from).take(self.size);
        lent.map(|byte| format!("{byte:02x}")).collect()
    }
}
