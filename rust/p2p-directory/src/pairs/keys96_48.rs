//! Keys of 96 bytes and signatures of 48: BLS12-381, keys in G2.
//!
//! Each name stands for what it does at the root of the crate, with these sizes. Types that don't
//! depend on them are the same. Examples are those of the root, with keys of 32 bytes.
// Written by tools/exports.sh from tools/exports/session.table.

use p2p_directory_sys::keys96_48 as exports;

pub use crate::shared::*;

crate::keys::plain_key!(keys96_48, 96, exports);
crate::keys::signature!(keys96_48, 48);
crate::keys::pair!(keys96_48, Keys96_48, exports);
