//! A node that one can run: it finds the peers of its sets by signed gossip, over TCP.
//!
//! **Frames after the handshake are neither encrypted nor authenticated.** Run it in networks that
//! you trust.

#![deny(unsafe_code)]

pub mod broken;
pub mod counts;
pub mod handshake;
pub mod identity;
pub mod json;
pub mod ledger;
pub mod limits;
pub mod node;
pub mod sets;
pub mod settings;
pub mod simulate;
pub mod sodium;
pub mod wire;
pub mod writer;
