//! Stand-in for `ahash`, for times: the standard map with a hasher that does what ahash's does where it has no AES instructions, a multiplication
//! folded for each number. The oracle's stand-in has the standard hasher, which is slower than plexus' own.

use std::collections::HashMap;
use std::hash::{BuildHasherDefault, Hasher};

pub type AHashMap<K, V> = HashMap<K, V, BuildHasherDefault<Folded>>;

const FIRST: u64 = 0x243f_6a88_85a3_08d3;
const PAD: u64 = 0x1319_8a2e_0370_7344;
const MULTIPLE: u64 = 6_364_136_223_846_793_005;

fn folded(a: u64, b: u64) -> u64 {
    let product = u128::from(a) * u128::from(b);
    product as u64 ^ (product >> 64) as u64
}

pub struct Folded(u64);

impl Default for Folded {
    fn default() -> Folded {
        Folded(FIRST)
    }
}

impl Hasher for Folded {
    fn write(&mut self, bytes: &[u8]) {
        bytes.iter().for_each(|byte| self.write_u64(u64::from(*byte)));
    }

    fn write_u64(&mut self, number: u64) {
        self.0 = folded(number ^ self.0, MULTIPLE);
    }

    fn finish(&self) -> u64 {
        folded(self.0, PAD).rotate_left(self.0 as u32 & 63)
    }
}
