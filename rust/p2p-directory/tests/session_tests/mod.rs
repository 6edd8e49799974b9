//! The exports of the library, as `docs/C.md` of the repository describes them: each is called,
//! with enough memory, and its result is compared.

mod bad_calls;
mod calls;
mod calls_of_peers;
mod frames;
mod given;
mod hostile;
mod keys;
mod refused;
mod sets;

use p2p_directory::sized::Pair;
use p2p_directory_sys as exports;

/// A pair of sizes, and what the library exports for it.
trait Exported: Pair {
    /// The same sizes.
    type Exports: exports::sized::Pair;
}

impl Exported for p2p_directory::Keys32_64 {
    type Exports = exports::Keys32_64;
}

impl Exported for p2p_directory::keys33_64::Keys33_64 {
    type Exports = exports::keys33_64::Keys33_64;
}

impl Exported for p2p_directory::keys48_96::Keys48_96 {
    type Exports = exports::keys48_96::Keys48_96;
}

impl Exported for p2p_directory::keys96_48::Keys96_48 {
    type Exports = exports::keys96_48::Keys96_48;
}

/// A session with keys and signatures of these sizes.
type Session<P> = exports::sized::Session<exports::sized::Library<<P as Exported>::Exports>>;

/// The least byte with which a key begins. Keys of 33 bytes begin with 2 or 3.
const fn least_first<P: Pair>() -> u8 {
    if P::KEY_SIZE == 33 { 2 } else { 0 }
}
