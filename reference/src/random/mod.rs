//! Random lists of calls, words, buffers and scripts, for comparisons. Equal
//! seeds draw equal ones everywhere.

pub mod buffers;
pub mod damage;
pub mod lists;
pub mod scripts;
pub mod systematic;
pub mod words;

/// A small generator of numbers.
pub struct Draws(u64);

impl Draws {
    /// The numbers for one list, buffer or script of a comparison, whatever
    /// else is compared.
    pub fn new(seed: u64, kind: u64, place: u64) -> Draws {
        let mut draws = Draws(seed);
        for part in [kind, place] {
            draws.0 = draws.next() ^ part;
        }
        draws
    }

    /// SplitMix64.
    fn next(&mut self) -> u64 {
        self.0 = self.0.wrapping_add(0x9e37_79b9_7f4a_7c15);
        let mut mixed = self.0;
        mixed = (mixed ^ (mixed >> 30)).wrapping_mul(0xbf58_476d_1ce4_e5b9);
        mixed = (mixed ^ (mixed >> 27)).wrapping_mul(0x94d0_49bb_1331_11eb);
        mixed ^ (mixed >> 31)
    }

    /// A number from 0 to limit − 1.
    pub fn below(&mut self, limit: usize) -> usize {
        (self.next() >> 32) as usize % limit
    }

    pub fn once_in(&mut self, times: usize) -> bool {
        self.below(times) == 0
    }

    pub fn one_of<T: Copy>(&mut self, things: &[T]) -> T {
        things[self.below(things.len())]
    }

    pub fn shuffle<T>(&mut self, things: &mut [T]) {
        for count in (2..=things.len()).rev() {
            things.swap(count - 1, self.below(count));
        }
    }
}
