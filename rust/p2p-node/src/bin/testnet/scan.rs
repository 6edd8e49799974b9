//! Finds the handshake and the frames in the bytes of one direction of a connection.

use p2p_directory::{KEY_SIZE, Key};
use p2p_node::handshake::NONCE_SIZE;

/// How many bytes each side of a handshake sends: a nonce, a key and a signature.
pub const HANDSHAKE: usize = NONCE_SIZE + KEY_SIZE + 64;

/// How many bytes of a handshake tell the key.
pub const CLAIM: usize = NONCE_SIZE + KEY_SIZE;

/// The maximum number of bytes that are kept of a frame.
const KEPT: usize = 2 << 20;

/// What was found so far in one direction.
#[derive(Debug, Default)]
pub struct Scanner {
    handshake: Vec<u8>,
    length: Vec<u8>,
    left: usize,
    frame: Vec<u8>,
}

impl Scanner {
    /// The key that the side claimed, if its bytes were seen.
    pub fn key(&self) -> Option<Key> {
        Key::from_slice(self.handshake.get(NONCE_SIZE..CLAIM)?)
    }

    /// Whether the side has sent its part of the handshake.
    pub fn has_signed(&self) -> bool {
        self.handshake.len() == HANDSHAKE
    }

    /// Takes the next bytes, and returns the frames that end in them. Of a long frame only the
    /// first two MiB are returned.
    pub fn take(&mut self, mut bytes: &[u8]) -> Vec<Vec<u8>> {
        let mut frames = Vec::new();
        move_up_to(&mut self.handshake, &mut bytes, HANDSHAKE);
        while !bytes.is_empty() {
            if self.length.len() < 4 {
                move_up_to(&mut self.length, &mut bytes, 4);
                let Ok(length) = <[u8; 4]>::try_from(self.length.as_slice()) else {
                    break;
                };
                self.left = u32::from_be_bytes(length) as usize;
            }
            let (now, rest) = bytes.split_at(self.left.min(bytes.len()));
            let kept = now.len().min(KEPT.saturating_sub(self.frame.len()));
            self.frame.extend_from_slice(&now[..kept]);
            self.left -= now.len();
            bytes = rest;
            if self.left == 0 {
                self.length.clear();
                frames.push(std::mem::take(&mut self.frame));
            }
        }
        frames
    }
}

/// Moves bytes to the end of a buffer until it has so many.
fn move_up_to(buffer: &mut Vec<u8>, bytes: &mut &[u8], length: usize) {
    let wanted = length.saturating_sub(buffer.len()).min(bytes.len());
    let (now, rest) = bytes.split_at(wanted);
    buffer.extend_from_slice(now);
    *bytes = rest;
}

#[cfg(test)]
mod tests {
    use super::*;

    #[test]
    fn finds_frames_however_the_bytes_are_cut() {
        let mut stream = vec![1; NONCE_SIZE];
        stream.extend([2; KEY_SIZE]);
        stream.extend([3; 64]);
        stream.extend(b"\0\0\0\x02hi\0\0\0\0\0\0\0\x03you");
        for size in 1..stream.len() {
            let mut scanner = Scanner::default();
            let chunks = stream.chunks(size);
            let frames: Vec<_> = chunks.flat_map(|chunk| scanner.take(chunk)).collect();
            assert_eq!(frames, [b"hi".to_vec(), Vec::new(), b"you".to_vec()]);
            assert_eq!(scanner.key(), Some(Key([2; KEY_SIZE])));
        }
    }

    #[test]
    fn a_part_of_a_frame_is_none() {
        let mut scanner = Scanner::default();
        assert!(scanner.take(&[0; HANDSHAKE - 1]).is_empty());
        assert!(!scanner.has_signed());
        assert!(scanner.take(b"\0\0\0\0\x02h").is_empty());
        assert!(scanner.has_signed());
        assert_eq!(scanner.take(b"i"), [b"hi".to_vec()]);
    }
}
