//! The rights already met in an hour: a hash table that never holds more than a quarter of its places.

use crate::package::MAX_HOLDINGS;

const BITS: u32 = 12;
const PLACES: usize = 1 << BITS;
const _: () = assert!(MAX_HOLDINGS * 4 <= PLACES);

pub struct Rights {
    /// A right, or 0 for a free place.
    places: [u32; PLACES],
}

impl Rights {
    pub const NONE: Rights = Rights {
        places: [0; PLACES],
    };

    /// Adds a right, which is not 0, and answers whether it was not there before.
    #[inline(always)]
    pub fn add(&mut self, right: u32) -> bool {
        // The high bits of the product depend on every bit of the right.
        let mut place = (right.wrapping_mul(0x9E37_79B1) >> (32 - BITS)) as usize;
        loop {
            let there = &mut self.places[place % PLACES];
            if *there == 0 {
                *there = right;
                return true;
            }
            if *there == right {
                return false;
            }
            place += 1;
        }
    }
}
