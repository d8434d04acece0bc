//! Numbers that look random and follow from a seed alone: splitmix64, by Steele, Lea and Flood.

#[derive(Clone, Debug)]
pub struct Random(u64);

/// The finishing step of splitmix64: it spreads each bit of a number over all of them.
pub fn mixed(n: u64) -> u64 {
    let n = (n ^ (n >> 30)).wrapping_mul(0xbf58_476d_1ce4_e5b9);
    let n = (n ^ (n >> 27)).wrapping_mul(0x94d0_49bb_1331_11eb);
    n ^ (n >> 31)
}

impl Random {
    pub fn new(seed: u64) -> Random {
        Random(seed)
    }

    /// A sequence of its own for each index, so that a single film can be made again without those before it.
    pub fn of(seed: u64, index: u64) -> Random {
        Random(mixed(mixed(seed).wrapping_add(index)))
    }

    /// 64 bits.
    pub fn bits(&mut self) -> u64 {
        self.0 = self.0.wrapping_add(0x9e37_79b9_7f4a_7c15);
        mixed(self.0)
    }

    pub fn below(&mut self, n: usize) -> usize {
        usize::try_from(self.bits() % u64::try_from(n).unwrap()).unwrap()
    }

    /// A number from 0 to the greatest given.
    pub fn up_to(&mut self, most: u32) -> u32 {
        u32::try_from(self.bits() % (u64::from(most) + 1)).unwrap()
    }

    pub fn number(&mut self) -> u32 {
        self.up_to(u32::MAX)
    }

    pub fn byte(&mut self) -> u8 {
        u8::try_from(self.below(256)).unwrap()
    }

    pub fn bytes(&mut self, length: usize) -> Vec<u8> {
        (0..length).map(|_| self.byte()).collect()
    }

    /// True once in so many.
    pub fn once_in(&mut self, n: usize) -> bool {
        self.below(n) == 0
    }

    pub fn one<T: Copy>(&mut self, list: &[T]) -> T {
        list[self.below(list.len())]
    }

    pub fn shuffle<T>(&mut self, list: &mut [T]) {
        for i in (1..list.len()).rev() {
            list.swap(i, self.below(i + 1));
        }
    }
}
