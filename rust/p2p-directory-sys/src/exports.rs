//! Written by tools/exports.sh from tools/exports/session.table.
//!
//! What the library exports: a session for each pair of sizes, and what needs no session. This file
//! and `library.rs` have `unsafe`, and no others.

use crate::library::{Exported, Exports, Handle, Library};

/// Out of memory.
pub const MEMORY: u64 = u64::MAX;
/// `init` has created no node yet. This comes before all others but BAD_CALL.
pub const NO_NODE: u64 = u64::MAX - 1;
/// There is none.
pub const NONE: u64 = u64::MAX - 2;
/// The buffer is shorter than the longest answer of a call that changes something.
pub const NO_ROOM: u64 = u64::MAX - 3;
/// There is no reservation to connect.
pub const NOT_RESERVED: u64 = u64::MAX - 4;
/// There is no reservation to release.
pub const NOT_HELD: u64 = u64::MAX - 5;
/// Bytes that are no key: another number of bytes, or a first byte that no key of these sizes has.
pub const BAD_KEY: u64 = u64::MAX - 6;
/// Bytes that are no keys, one after the other.
pub const BAD_KEYS: u64 = u64::MAX - 7;
/// No info, no list of infos, no address, or no bootstrappers.
pub const BAD_INFO: u64 = u64::MAX - 8;
/// No bits with their index, or more than `u32::MAX` of them.
pub const BAD_BITS: u64 = u64::MAX - 9;
/// A second of nanoseconds or more.
pub const BAD_MOMENT: u64 = u64::MAX - 10;
/// A setting out of its bounds, or there is a node already.
pub const BAD_SETTING: u64 = u64::MAX - 11;
/// Not as many verdicts as infos.
pub const BAD_VERDICTS: u64 = u64::MAX - 12;
/// No call has this number, or it takes other numbers or bytes. This comes before all others.
pub const BAD_CALL: u64 = u64::MAX - 13;

unsafe extern "C" {
    // Only an archive with the same calls, refusals and pairs of sizes has this name.
    #[link_name = "p2p_session_interface_982d1876193cea3c"]
    pub(crate) safe fn interface() -> u64;
}

/// Whether an address of 4 or 16 bytes is global: 1 or 0. BAD_INFO for another number of bytes. It
/// needs no session.
pub fn is_global(address: &[u8]) -> u64 {
    unsafe extern "C" {
        fn p2p_session_is_global(
            address: *const u8,
            address_length: usize,
        ) -> u64;
    }
    // SAFETY: slices are valid.
    unsafe { p2p_session_is_global(address.as_ptr(), address.len()) }
}

/// Whether an ingress may be dialled under these settings: 1 or 0. address: the 4 or 16 bytes of
/// its address, or none if it is a name. BAD_INFO for another number of bytes. It needs no session.
pub fn is_valid(address: &[u8], allow_private_ips: bool, allow_dns: bool) -> u64 {
    unsafe extern "C" {
        fn p2p_session_is_valid(
            address: *const u8,
            address_length: usize,
            allow_private_ips: bool,
            allow_dns: bool,
        ) -> u64;
    }
    // SAFETY: slices are valid.
    unsafe { p2p_session_is_valid(address.as_ptr(), address.len(), allow_private_ips, allow_dns) }
}

/// Keys of 32 bytes and signatures of 64.
pub struct Keys32_64;

/// How many bytes a key has.
pub const KEY_SIZE: usize = 32;
/// How many bytes a signature has.
pub const SIGNATURE_SIZE: usize = 64;

/// A session with keys and signatures of these sizes.
pub type Session = crate::sized::Session<Library<Keys32_64>>;

impl Exported for Keys32_64 {
    const EXPORTS: Exports = Exports {
        size: p2p_session_size,
        new: p2p_session_new,
        free: p2p_session_free,
        call: p2p_session_call,
        call_peer: p2p_session_call_peer,
    };
}

unsafe extern "C" {
    safe fn p2p_session_size() -> usize;

    fn p2p_session_new(at: *mut Handle);

    fn p2p_session_free(at: *mut Handle);

    fn p2p_session_call(
        at: *mut Handle,
        number: u64,
        numbers: *const u64,
        numbers_length: usize,
        first: *const u8,
        first_length: usize,
        second: *const u8,
        second_length: usize,
        third: *const u8,
        third_length: usize,
        out: *mut u8,
        out_length: usize,
    ) -> u64;

    fn p2p_session_call_peer(
        at: *mut Handle,
        number: u64,
        numbers: *const u64,
        numbers_length: usize,
        peer: *const u8,
        peer_length: usize,
    ) -> u64;
}

/// The calls of a session with keys of 33 bytes and signatures of 64: secp256k1 and secp256r1,
/// compressed.
pub mod keys33_64 {
    use crate::library::{Exported, Exports, Handle, Library};

    /// Keys of 33 bytes and signatures of 64.
    pub struct Keys33_64;

    /// How many bytes a key has.
    pub const KEY_SIZE: usize = 33;
    /// How many bytes a signature has.
    pub const SIGNATURE_SIZE: usize = 64;
    /// The first byte of a key is one of these.
    pub const FIRST_BYTES: [u8; 2] = [2, 3];

    /// A session with keys and signatures of these sizes.
    pub type Session = crate::sized::Session<Library<Keys33_64>>;

    impl Exported for Keys33_64 {
        const EXPORTS: Exports = Exports {
            size: p2p_session_33_64_size,
            new: p2p_session_33_64_new,
            free: p2p_session_33_64_free,
            call: p2p_session_33_64_call,
            call_peer: p2p_session_33_64_call_peer,
        };
    }

    unsafe extern "C" {
        safe fn p2p_session_33_64_size() -> usize;

        fn p2p_session_33_64_new(at: *mut Handle);

        fn p2p_session_33_64_free(at: *mut Handle);

        fn p2p_session_33_64_call(
            at: *mut Handle,
            number: u64,
            numbers: *const u64,
            numbers_length: usize,
            first: *const u8,
            first_length: usize,
            second: *const u8,
            second_length: usize,
            third: *const u8,
            third_length: usize,
            out: *mut u8,
            out_length: usize,
        ) -> u64;

        fn p2p_session_33_64_call_peer(
            at: *mut Handle,
            number: u64,
            numbers: *const u64,
            numbers_length: usize,
            peer: *const u8,
            peer_length: usize,
        ) -> u64;
    }
}

/// The calls of a session with keys of 48 bytes and signatures of 96: BLS12-381, keys in G1.
pub mod keys48_96 {
    use crate::library::{Exported, Exports, Handle, Library};

    /// Keys of 48 bytes and signatures of 96.
    pub struct Keys48_96;

    /// How many bytes a key has.
    pub const KEY_SIZE: usize = 48;
    /// How many bytes a signature has.
    pub const SIGNATURE_SIZE: usize = 96;

    /// A session with keys and signatures of these sizes.
    pub type Session = crate::sized::Session<Library<Keys48_96>>;

    impl Exported for Keys48_96 {
        const EXPORTS: Exports = Exports {
            size: p2p_session_48_96_size,
            new: p2p_session_48_96_new,
            free: p2p_session_48_96_free,
            call: p2p_session_48_96_call,
            call_peer: p2p_session_48_96_call_peer,
        };
    }

    unsafe extern "C" {
        safe fn p2p_session_48_96_size() -> usize;

        fn p2p_session_48_96_new(at: *mut Handle);

        fn p2p_session_48_96_free(at: *mut Handle);

        fn p2p_session_48_96_call(
            at: *mut Handle,
            number: u64,
            numbers: *const u64,
            numbers_length: usize,
            first: *const u8,
            first_length: usize,
            second: *const u8,
            second_length: usize,
            third: *const u8,
            third_length: usize,
            out: *mut u8,
            out_length: usize,
        ) -> u64;

        fn p2p_session_48_96_call_peer(
            at: *mut Handle,
            number: u64,
            numbers: *const u64,
            numbers_length: usize,
            peer: *const u8,
            peer_length: usize,
        ) -> u64;
    }
}

/// The calls of a session with keys of 96 bytes and signatures of 48: BLS12-381, keys in G2.
pub mod keys96_48 {
    use crate::library::{Exported, Exports, Handle, Library};

    /// Keys of 96 bytes and signatures of 48.
    pub struct Keys96_48;

    /// How many bytes a key has.
    pub const KEY_SIZE: usize = 96;
    /// How many bytes a signature has.
    pub const SIGNATURE_SIZE: usize = 48;

    /// A session with keys and signatures of these sizes.
    pub type Session = crate::sized::Session<Library<Keys96_48>>;

    impl Exported for Keys96_48 {
        const EXPORTS: Exports = Exports {
            size: p2p_session_96_48_size,
            new: p2p_session_96_48_new,
            free: p2p_session_96_48_free,
            call: p2p_session_96_48_call,
            call_peer: p2p_session_96_48_call_peer,
        };
    }

    unsafe extern "C" {
        safe fn p2p_session_96_48_size() -> usize;

        fn p2p_session_96_48_new(at: *mut Handle);

        fn p2p_session_96_48_free(at: *mut Handle);

        fn p2p_session_96_48_call(
            at: *mut Handle,
            number: u64,
            numbers: *const u64,
            numbers_length: usize,
            first: *const u8,
            first_length: usize,
            second: *const u8,
            second_length: usize,
            third: *const u8,
            third_length: usize,
            out: *mut u8,
            out_length: usize,
        ) -> u64;

        fn p2p_session_96_48_call_peer(
            at: *mut Handle,
            number: u64,
            numbers: *const u64,
            numbers_length: usize,
            peer: *const u8,
            peer_length: usize,
        ) -> u64;
    }
}
