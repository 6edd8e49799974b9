//! Settings of a node.

use super::fault::Fault;
use super::usage::nearest_setting;
use super::words::{Words, bootstrappers, ingress, number, time, truth};
use super::{key, signed};
use p2p_directory::sized::{Pair, Setup};
use p2p_directory::{Config, Ingress, PayloadConfig};
use std::net::SocketAddr;
use std::num::NonZeroUsize;
use std::time::Duration;

/// The namespace of a node whose settings have none.
const NAMESPACE: &[u8] = b"rows";

/// The default settings of a node.
pub fn default_setup<P: Pair>() -> Setup<P> {
    let ingress = Ingress::from(SocketAddr::from(([8, 8, 8, 8], 9_000)));
    Setup {
        bootstrappers: Vec::new(),
        myself: signed(key::<P>(9), NAMESPACE, ingress, 0),
        cfg: Config {
            allow_private_ips: true,
            allow_dns: true,
            max_sets: NonZeroUsize::MIN,
            dial_fail_limit: 1,
            peer_connection_cooldown: Duration::from_secs(10),
            block_duration: Duration::from_secs(60),
        },
        payload: PayloadConfig {
            max_bit_vec: 8,
            max_peers: 8,
            max_data_length: 32,
        },
        peer_gossip_max_count: 8,
        synchrony_bound: Duration::from_secs(30),
        namespace: NAMESPACE.to_vec(),
    }
}

/// The setup of a node with these settings. Its info is signed in its namespace.
pub fn setup<P: Pair>(words: &mut Words<'_, P>) -> Result<Setup<P>, Fault> {
    let mut setup = default_setup();
    while let Some(word) = words.optional() {
        let parts = word.split_once('=');
        let (name, value) = parts.ok_or_else(|| Fault::form("a setting as cooldown=10"))?;
        set(&mut setup, name, value)?;
    }
    if setup.cfg.max_sets == NonZeroUsize::MAX {
        return Err(Fault::too_large("max_sets", usize::MAX - 1));
    }
    if setup.payload.max_bit_vec > u64::from(u32::MAX) {
        return Err(Fault::too_large("max_bit_vec", u32::MAX));
    }
    let own = setup.myself;
    setup.myself = signed(own.public_key, &setup.namespace, own.ingress, own.timestamp);
    Ok(setup)
}

// Changes one setting.
fn set<P: Pair>(setup: &mut Setup<P>, name: &str, value: &str) -> Result<(), Fault> {
    match name {
        "max_sets" => {
            let sets = NonZeroUsize::new(number(value)?);
            setup.cfg.max_sets = sets.ok_or_else(|| Fault::form("max_sets of at least 1"))?;
        }
        "dial_fail_limit" => setup.cfg.dial_fail_limit = number(value)?,
        "cooldown" => setup.cfg.peer_connection_cooldown = time(value)?,
        "block" => setup.cfg.block_duration = time(value)?,
        "private" => setup.cfg.allow_private_ips = truth(value)?,
        "dns" => setup.cfg.allow_dns = truth(value)?,
        "own" => setup.myself.public_key = key::<P>(number(value)?),
        "own_at" => setup.myself.ingress = ingress(value)?,
        "own_ts" => setup.myself.timestamp = number(value)?,
        "boot" => setup.bootstrappers = bootstrappers::<P>(value)?,
        "max_bit_vec" => setup.payload.max_bit_vec = number(value)?,
        "max_peers" => setup.payload.max_peers = number(value)?,
        "max_data_length" => setup.payload.max_data_length = number(value)?,
        "gossip" => setup.peer_gossip_max_count = number(value)?,
        "bound" => setup.synchrony_bound = time(value)?,
        "namespace" => setup.namespace = value.as_bytes().to_vec(),
        _ => return Err(Fault::unknown("setting", nearest_setting(name))),
    }
    Ok(())
}
