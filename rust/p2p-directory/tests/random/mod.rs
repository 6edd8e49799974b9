//! Pseudo-random bytes and numbers. Each program of tests uses a part of these.

/// So many bytes, the same in each run.
#[allow(dead_code)]
pub fn bytes(seed: usize, count: usize) -> Vec<u8> {
    let mut number = (seed as u64).wrapping_mul(0x9e37_79b9_7f4a_7c15);
    let next = || {
        number ^= number << 13;
        number ^= number >> 7;
        number ^= number << 17;
        // The low bits of such a number are the worst.
        (number >> 32) as u8
    };
    std::iter::repeat_with(next).take(count).collect()
}

/// Pseudo-random numbers, the same in each run.
#[allow(dead_code)]
pub struct Draws(pub u64);

#[allow(dead_code)]
impl Draws {
    pub fn number(&mut self) -> u64 {
        self.0 ^= self.0 << 13;
        self.0 ^= self.0 >> 7;
        self.0 ^= self.0 << 17;
        self.0
    }

    pub fn below(&mut self, end: u64) -> u64 {
        self.number() % end
    }

    /// A random byte, or one that often occurs in names, numbers and prefixes.
    pub fn byte(&mut self) -> u8 {
        const TELLING: &[u8] = b"a-.Z9\x00\x01\x02\x03\x04\x06\x7f\x80\xff";
        match self.below(2) {
            0 => self.number() as u8,
            _ => TELLING[self.below(TELLING.len() as u64) as usize],
        }
    }

    /// A frame with up to three bytes replaced, removed or inserted.
    pub fn spoilt(&mut self, frame: &[u8]) -> Vec<u8> {
        let mut frame = frame.to_vec();
        for _ in 0..self.below(4) {
            let place = self.below(frame.len() as u64 + 1) as usize;
            let byte = self.byte();
            match self.below(3) {
                0 if place < frame.len() => frame[place] = byte,
                1 if place < frame.len() => drop(frame.remove(place)),
                _ => frame.insert(place, byte),
            }
        }
        frame
    }
}
