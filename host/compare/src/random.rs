//! A small generator (splitmix64), so that a seed and a number give the same picture everywhere.

use std::ops::RangeInclusive;

const STEP: u64 = 0x9e37_79b9_7f4a_7c15;

pub struct Random(u64);

impl Random {
    /// The generator of the case with this number: each has its own, so that one case can be made
    /// again without those before it.
    pub fn new(seed: u64, number: u64) -> Random {
        Random(mix(seed.wrapping_add(STEP)) ^ mix(number))
    }

    fn next(&mut self) -> u64 {
        self.0 = self.0.wrapping_add(STEP);
        mix(self.0)
    }

    /// A number of the range. The ranges are small beside 2^64, so none is noticeably favoured.
    pub fn within(&mut self, range: RangeInclusive<i64>) -> i64 {
        let (least, most) = range.into_inner();
        least + (self.next() % (most - least + 1) as u64) as i64
    }

    pub fn within_u32(&mut self, range: RangeInclusive<u32>) -> u32 {
        let (least, most) = range.into_inner();
        least + (self.next() % (u64::from(most - least) + 1)) as u32
    }

    pub fn one_in(&mut self, count: u64) -> bool {
        self.next().is_multiple_of(count)
    }

    pub fn pick<T: Copy, const N: usize>(&mut self, from: &[T; N]) -> T {
        from[self.within(0..=N as i64 - 1) as usize]
    }

    pub fn byte(&mut self) -> u8 {
        self.next() as u8
    }

    /// A color whose bytes are any, and often 0 or 255.
    pub fn color(&mut self) -> [u8; 4] {
        let mut color = [self.byte(), self.byte(), self.byte(), self.byte()];
        for byte in &mut color {
            match self.within(0..=7) {
                0 => *byte = 0,
                1 | 2 => *byte = 255,
                _ => {}
            }
        }
        color
    }

    pub fn fill(&mut self, bytes: &mut [u8]) {
        for chunk in bytes.chunks_mut(8) {
            chunk.copy_from_slice(&self.next().to_le_bytes()[..chunk.len()]);
        }
    }
}

fn mix(number: u64) -> u64 {
    let number = (number ^ (number >> 30)).wrapping_mul(0xbf58_476d_1ce4_e5b9);
    let number = (number ^ (number >> 27)).wrapping_mul(0x94d0_49bb_1331_11eb);
    number ^ (number >> 31)
}
