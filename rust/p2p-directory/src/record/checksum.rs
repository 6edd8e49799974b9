//! The checksum of a log.

/// How many bytes are added at once.
const STEP: usize = 8;

/// For each byte, what it adds to a checksum if so many bytes follow it in a step.
const TABLES: [[u32; 256]; STEP] = {
    let mut tables = [[0; 256]; STEP];
    let mut byte = 0;
    while byte < 256 {
        let mut added = byte as u32;
        let mut table = 0;
        while table < STEP {
            let mut bit = 0;
            while bit < 8 {
                added = (added >> 1) ^ (0xedb8_8320 & (added & 1).wrapping_neg());
                bit += 1;
            }
            tables[table][byte] = added;
            table += 1;
        }
        byte += 1;
    }
    tables
};

/// The CRC-32 of bytes that are added one slice after the other, as zlib computes it. It finds
/// accidents, not what somebody changed on purpose.
#[derive(Clone, Copy, Debug)]
pub(crate) struct Checksum(u32);

impl Checksum {
    /// Of no bytes.
    pub(crate) fn new() -> Checksum {
        Checksum(u32::MAX)
    }

    /// Of these bytes alone.
    pub(crate) fn of(bytes: &[u8]) -> u32 {
        let mut checksum = Checksum::new();
        checksum.add(bytes);
        checksum.value()
    }

    pub(crate) fn add(&mut self, bytes: &[u8]) {
        let (steps, rest) = bytes.as_chunks::<STEP>();
        self.0 = steps.iter().fold(self.0, |left, step| {
            let bytes = (u64::from_le_bytes(*step) ^ u64::from(left)).to_le_bytes();
            let added = bytes.iter().zip(TABLES.iter().rev());
            added.fold(0, |sum, (byte, table)| sum ^ table[usize::from(*byte)])
        });
        self.0 = rest.iter().fold(self.0, |left, byte| {
            TABLES[0][usize::from(left as u8 ^ byte)] ^ (left >> 8)
        });
    }

    pub(crate) fn value(self) -> u32 {
        !self.0
    }
}

#[cfg(test)]
mod tests {
    use super::*;

    // The check value of the CRC's definition, and others of zlib.
    #[test]
    fn it_is_the_one_of_zlib() {
        assert_eq!(Checksum::of(b"123456789"), 0xcbf4_3926);
        assert_eq!(Checksum::of(b""), 0);
        assert_eq!(
            Checksum::of(b"a message of more than one step"),
            0x1d13_656f
        );
        for place in 0..=9 {
            let (front, rest) = b"123456789".split_at(place);
            let mut parts = Checksum::new();
            parts.add(front);
            parts.add(rest);
            assert_eq!(parts.value(), 0xcbf4_3926, "{place}");
        }
    }
}
