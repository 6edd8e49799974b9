//! The arguments of sessions: the setting of the worked examples, with keys of equal bytes.

use super::{Exported, Session, least_first};

/// The key of such bytes, but the first if a key can't begin with each byte.
pub(super) fn key<P: Exported>(byte: u8) -> Vec<u8> {
    let mut key = vec![byte; P::KEY_SIZE];
    if least_first::<P>() != 0 {
        key[0] = least_first::<P>();
    }
    key
}

/// The keys of these bytes, one after the other.
pub(super) fn keys<P: Exported>(bytes: &[u8]) -> Vec<u8> {
    bytes.iter().flat_map(|byte| key::<P>(*byte)).collect()
}

/// The info of a key at 1.2.3.4 and the port 8000 plus the key's byte, with a timestamp below 128.
pub(super) fn info<P: Exported>(byte: u8, timestamp: u8) -> Vec<u8> {
    let port = 8000 + u16::from(byte);
    let mut info = vec![0, 4, 1, 2, 3, 4];
    info.extend(port.to_be_bytes());
    info.push(timestamp);
    info.extend(key::<P>(byte));
    info.extend(vec![byte; P::SIGNATURE_SIZE]);
    info
}

/// The list of fewer than 128 infos with these keys and timestamps.
pub(super) fn infos<P: Exported>(told: &[(u8, u8)]) -> Vec<u8> {
    let mut infos = vec![told.len() as u8];
    for (byte, timestamp) in told {
        infos.extend(info::<P>(*byte, *timestamp));
    }
    infos
}

/// The arguments that create a node.
#[derive(Clone, Copy)]
pub(super) struct Given<'a> {
    pub(super) max_sets: u64,
    pub(super) max_bit_vec: u64,
    /// The nanoseconds of the cooldown, of the block duration and of the synchrony bound.
    pub(super) nanos: [u32; 3],
    pub(super) bootstrappers: &'a [u8],
    pub(super) myself: &'a [u8],
}

/// Arguments with one retained set, everything allowed, a cooldown of 10 seconds and blocks of 60.
/// The limits are 8 bits, 8 infos and messages of 32 bytes, and the synchrony bound is 30 seconds.
pub(super) fn given(myself: &[u8]) -> Given<'_> {
    Given {
        max_sets: 1,
        max_bit_vec: 8,
        nanos: [0; 3],
        bootstrappers: &[],
        myself,
    }
}

/// Creates the node of a session.
pub(super) fn init<P: Exported>(session: &Session<P>, given: &Given<'_>) -> u64 {
    let [cooldown, block, bound] = given.nanos;
    session.init(
        true,
        true,
        given.max_sets,
        1,
        10,
        cooldown,
        60,
        block,
        given.max_bit_vec,
        8,
        32,
        8,
        30,
        bound,
        b"rows",
        given.bootstrappers,
        given.myself,
    )
}

/// A session whose node has this key, and an info with the timestamp 0.
pub(super) fn session<P: Exported>(byte: u8) -> Session<P> {
    let session = Session::<P>::new().expect("memory for a session");
    assert_eq!(init::<P>(&session, &given(&info::<P>(byte, 0))), 1);
    session
}

/// A session with a registered set of these primary peers, with the index 0.
pub(super) fn tracking<P: Exported>(byte: u8, primary: &[u8]) -> Session<P> {
    let session = session::<P>(byte);
    assert_eq!(session.track(0, &keys::<P>(primary), &[], &mut []), 0);
    session
}

/// Calls with a buffer that is long enough, and returns the bytes that were written. The rest of
/// the buffer must be unchanged.
pub(super) fn asked(ask: impl FnOnce(&mut [u8]) -> u64) -> Vec<u8> {
    const UNTOUCHED: u8 = 0xaa;
    let mut room = vec![UNTOUCHED; 1024];
    let length = ask(&mut room) as usize;
    assert!(length <= room.len(), "{length:#x} is no length");
    assert!(room[length..].iter().all(|byte| *byte == UNTOUCHED));
    room.truncate(length);
    room
}
