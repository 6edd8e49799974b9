//! The pairs of sizes but that of the root.
// Written by tools/exports.sh from tools/exports/session.table.

pub mod keys33_64;
pub mod keys48_96;
pub mod keys96_48;
