//! A small generator of numbers: the same seed gives the same numbers on
//! every machine.

/// splitmix64.
#[derive(Clone, Debug)]
pub struct Rng(u64);

impl Rng {
    pub fn new(seed: u64) -> Rng {
        Rng(seed)
    }

    /// A generator of its own for the numbered case of a seed.
    pub fn for_case(seed: u64, index: u64) -> Rng {
        let mut outer = Rng(seed);
        let mixed = outer.draw() ^ index.wrapping_mul(0xD6E8_FEB8_6659_FD93);
        let mut inner = Rng(mixed);
        Rng(inner.draw())
    }

    pub fn draw(&mut self) -> u64 {
        self.0 = self.0.wrapping_add(0x9E37_79B9_7F4A_7C15);
        let mut z = self.0;
        z = (z ^ (z >> 30)).wrapping_mul(0xBF58_476D_1CE4_E5B9);
        z = (z ^ (z >> 27)).wrapping_mul(0x94D0_49BB_1331_11EB);
        z ^ (z >> 31)
    }

    /// A number below `bound`; 0 if the bound is 0.
    pub fn below(&mut self, bound: usize) -> usize {
        if bound == 0 {
            return 0;
        }
        (self.draw() % bound as u64) as usize
    }

    /// A number from `least` to `most`, both included.
    pub fn between(&mut self, least: usize, most: usize) -> usize {
        least + self.below(most.saturating_sub(least) + 1)
    }

    pub fn chance(&mut self, percent: usize) -> bool {
        self.below(100) < percent
    }

    pub fn pick<T: Copy>(&mut self, values: &[T]) -> T {
        values[self.below(values.len())]
    }

    pub fn byte(&mut self) -> u8 {
        self.draw() as u8
    }

    pub fn bytes(&mut self, length: usize) -> Vec<u8> {
        (0..length).map(|_| self.byte()).collect()
    }

    /// Bytes that are often 00, digits or letters with a meaning.
    pub fn telling_bytes(&mut self, length: usize) -> Vec<u8> {
        (0..length)
            .map(|_| match self.below(6) {
                0 => 0,
                1 => b'0' + self.below(10) as u8,
                2 => self.pick(b"FDHSVB 0123"),
                _ => self.byte(),
            })
            .collect()
    }

    pub fn a_character(&mut self) -> u8 {
        self.pick(A_SET)
    }

    pub fn a_characters(&mut self, length: usize) -> Vec<u8> {
        (0..length).map(|_| self.a_character()).collect()
    }

    /// A byte outside the a-set, often one next to it.
    pub fn outside_a_set(&mut self) -> u8 {
        self.pick(b"\x00\x1F\x23\x24\x40\x5B\x5E\x60\x61\x7A\x7F\x80\xA0\xDF\xFF")
    }

    /// A number no file is large enough for.
    pub fn huge(&mut self) -> u64 {
        let step = self.below(3) as u64;
        self.pick(&[
            u64::MAX - step,
            (1 << 63) + step,
            (1 << 32) - 1 + step,
            (1 << 31) + step,
            (1 << 16) - 1 + step,
        ])
    }

    pub fn shuffle<T>(&mut self, values: &mut [T]) {
        for place in (1..values.len()).rev() {
            values.swap(place, self.below(place + 1));
        }
    }
}

pub const A_SET: &[u8] = b" !\"%&'()*+,-./0123456789:;<=>?ABCDEFGHIJKLMNOPQRSTUVWXYZ_";
