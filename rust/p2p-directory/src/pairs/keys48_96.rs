//! Keys of 48 bytes and signatures of 96: BLS12-381, keys in G1.
//!
//! Each name stands for what it does at the root of the crate, with these sizes. Types that don't
//! depend on them are the same. Examples are those of the root, with keys of 32 bytes.
// Written by tools/exports.sh from tools/exports/session.table.

use p2p_directory_sys::keys48_96 as exports;

pub use crate::shared::*;

crate::keys::plain_key!(keys48_96, 48, exports);
crate::keys::signature!(keys48_96, 96);
crate::keys::pair!(keys48_96, Keys48_96, exports);
