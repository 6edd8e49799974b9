//! Keys of 33 bytes and signatures of 64: secp256k1 and secp256r1, compressed. A key begins with 2
//! or 3.
//!
//! Each name stands for what it does at the root of the crate, with these sizes. Types that don't
//! depend on them are the same. Examples are those of the root, with keys of 32 bytes.
// Written by tools/exports.sh from tools/exports/session.table.

use p2p_directory_sys::keys33_64 as exports;

pub use crate::shared::*;

crate::keys::first_key!(keys33_64, 33, exports);
crate::keys::signature!(keys33_64, 64);
crate::keys::pair!(keys33_64, Keys33_64, exports);
