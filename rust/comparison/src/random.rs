//! Numbers that look random and are the same in every run (SplitMix64).

/// A source of numbers, settled by a seed and the number of a case.
pub struct Random {
    state: u64,
}

/// The odd constant by which the state moves on.
const STEP: u64 = 0x9e37_79b9_7f4a_7c15;

/// Mixes a state into a number that shows no pattern.
fn mixed(state: u64) -> u64 {
    let once = (state ^ state >> 30).wrapping_mul(0xbf58_476d_1ce4_e5b9);
    let twice = (once ^ once >> 27).wrapping_mul(0x94d0_49bb_1331_11eb);
    twice ^ twice >> 31
}

impl Random {
    /// The source of one case, which no other case shares.
    pub fn new(seed: u64, number: u64) -> Random {
        let state = mixed(mixed(seed.wrapping_add(STEP)).wrapping_add(number));
        Random { state }
    }

    /// Any 64-bit number.
    pub fn word(&mut self) -> u64 {
        self.state = self.state.wrapping_add(STEP);
        mixed(self.state)
    }

    /// A number below the bound, which is not 0.
    pub fn below(&mut self, bound: usize) -> usize {
        (self.word() % bound as u64) as usize
    }

    /// True once in so many times.
    pub fn one_in(&mut self, times: usize) -> bool {
        self.below(times) == 0
    }

    /// Any octet.
    pub fn octet(&mut self) -> u8 {
        self.word() as u8
    }

    /// So many octets.
    pub fn octets(&mut self, count: usize) -> Vec<u8> {
        (0..count).map(|_| self.octet()).collect()
    }

    /// One of the given, each as likely.
    pub fn pick<T: Copy>(&mut self, choices: &[T]) -> T {
        choices[self.below(choices.len())]
    }

    /// Puts a list into any order.
    pub fn shuffle<T>(&mut self, list: &mut [T]) {
        for end in (1..list.len()).rev() {
            list.swap(end, self.below(end + 1));
        }
    }

    /// Cuts a list short, to any length from nothing to all of it.
    pub fn cut<T>(&mut self, list: &mut Vec<T>) {
        list.truncate(self.below(list.len() + 1));
    }

    /// Turns one bit over, if there is any.
    pub fn flip_bit(&mut self, octets: &mut [u8]) {
        if !octets.is_empty() {
            let at = self.below(octets.len());
            octets[at] ^= 1 << self.below(8);
        }
    }
}
