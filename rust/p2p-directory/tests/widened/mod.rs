//! Frames of the scripts of `play`, whose keys and signatures have eight bytes each, with the wider
//! ones of this crate.

use p2p_directory::sized::testing::{key, sign};
use p2p_directory::sized::{Info, Pair};

/// The namespaces in which the infos of the scripts' frames are signed.
const NAMESPACES: [&[u8]; 2] = [b"rows", b"other"];

/// The bytes of these digits, or `None` if they encode none.
pub fn bytes_of(digits: &str) -> Option<Vec<u8>> {
    let (pairs, rest) = digits.as_bytes().as_chunks::<2>();
    let pairs = rest.is_empty().then_some(pairs)?;
    let byte = |pair: &[u8; 2]| u8::from_str_radix(str::from_utf8(pair).ok()?, 16).ok();
    pairs.iter().map(byte).collect()
}

/// The frame with wide keys and signatures, or `None` if it is none with infos.
pub fn widened_frame<P: Pair>(frame: &[u8]) -> Option<Vec<u8>> {
    let (head, mut infos) = match frame {
        [1, ..] => frame.split_at(1),
        [3, 1..=127, ..] => frame.split_at(2),
        _ => return None,
    };
    let mut widened = head.to_vec();
    while !infos.is_empty() {
        let (info, rest) = widened_info::<P>(infos)?;
        widened.extend(info.encode());
        infos = rest;
    }
    Some(widened)
}

// The first info, and the bytes after it.
fn widened_info<P: Pair>(bytes: &[u8]) -> Option<(Info<P>, &[u8])> {
    let ingress = match bytes {
        [0, 4, ..] => 8,
        [0, 6, ..] => 20,
        [1, length, ..] => 4 + usize::from(*length),
        _ => return None,
    };
    let timestamp = bytes.get(ingress..)?.iter().position(|byte| *byte < 128)? + 1;
    let (front, rest) = bytes.split_at(ingress + timestamp);
    let (number, rest) = rest.split_first_chunk::<8>()?;
    let (signature, rest) = rest.split_first_chunk::<8>()?;
    let (zero, tail) = (key::<P>(0), vec![0; P::SIGNATURE_SIZE]);
    let head = &zero.as_ref()[..P::KEY_SIZE - 8];
    let mut info = Info::<P>::decode(&[front, head, number, &tail].concat()).ok()?;
    let message = info.signed_bytes();
    let number = u64::from_be_bytes(*number);
    let signed_in = NAMESPACES.into_iter().find(|namespace| {
        narrow_signature(number, namespace, &message) == u64::from_be_bytes(*signature)
    });
    if let Some(namespace) = signed_in {
        info.signature = sign::<P>(&info.public_key, namespace, &message);
    }
    Some((info, rest))
}

// The signature of the scripts' keys: "Test keys" of `docs/FORMATS.md`.
fn narrow_signature(key: u64, namespace: &[u8], message: &[u8]) -> u64 {
    let bytes = namespace.iter().chain(message);
    bytes.fold(key, |number, byte| {
        number.wrapping_mul(257).wrapping_add(u64::from(*byte) + 1)
    })
}
