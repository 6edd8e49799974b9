//! Keys of 32 bytes and signatures of 64, as of ed25519: what stands at the root of the crate.

pub use crate::shared::*;

crate::keys::plain_key!(keys32_64, 32, p2p_directory_sys);
crate::keys::signature!(keys32_64, 64);
crate::keys::pair!(keys32_64, Keys32_64, p2p_directory_sys);
