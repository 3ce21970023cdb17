//! Random numbers that are the same each time for the same seed (splitmix64).

pub struct Random(u64);

const STEP: u64 = 0x9E37_79B9_7F4A_7C15;

fn mixed(mut word: u64) -> u64 {
    word = (word ^ (word >> 30)).wrapping_mul(0xBF58_476D_1CE4_E5B9);
    word = (word ^ (word >> 27)).wrapping_mul(0x94D0_49BB_1331_11EB);
    word ^ (word >> 31)
}

impl Random {
    /// Each round has numbers of its own, so that it can be tried again without the rounds before
    /// it.
    pub fn of_round(seed: u64, round: u64) -> Random {
        Random(mixed(
            mixed(seed.wrapping_add(STEP)) ^ round.wrapping_mul(STEP),
        ))
    }

    pub fn word(&mut self) -> u64 {
        self.0 = self.0.wrapping_add(STEP);
        mixed(self.0)
    }

    pub fn below(&mut self, bound: usize) -> usize {
        (self.word() % bound as u64) as usize
    }

    pub fn byte(&mut self) -> u8 {
        self.word() as u8
    }

    pub fn number(&mut self) -> u16 {
        self.word() as u16
    }

    pub fn office(&mut self, n: u16) -> u16 {
        self.below(usize::from(n)) as u16
    }

    /// True once in so many times.
    pub fn once_in(&mut self, times: usize) -> bool {
        self.below(times) == 0
    }

    pub fn one_of<T: Copy>(&mut self, list: &[T]) -> T {
        list[self.below(list.len())]
    }

    pub fn shuffle<T>(&mut self, list: &mut [T]) {
        for place in (1..list.len()).rev() {
            list.swap(place, self.below(place + 1));
        }
    }

    /// What stands in a buffer before it is lent.
    pub fn bytes(&mut self, many: usize) -> Vec<u8> {
        (0..many).map(|_| self.byte()).collect()
    }
}
