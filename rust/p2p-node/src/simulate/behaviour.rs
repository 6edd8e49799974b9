//! What honest nodes and liars send.

use p2p_directory::{BitVec, Info, Key, Node, Payload, PayloadConfig, SIGNATURE_SIZE, Signature};
use std::collections::BTreeMap;

/// A way to lie. All of them make frames that decode, and only [`Lie::Forged`] makes frames that a
/// node refuses.
#[derive(Clone, Copy, Debug, PartialEq, Eq, Hash)]
pub enum Lie {
    /// Asks with all bits true, as if it knew all infos.
    True,
    /// Replies without infos.
    Empty,
    /// Replies with the oldest infos that it ever had of its connected peers.
    Oldest,
    /// Neither asks nor replies.
    Silent,
    /// Replies with infos whose signatures are wrong.
    Forged,
}

impl Lie {
    /// All ways to lie, in the order of the flags.
    pub const ALL: [Lie; 5] = [Lie::True, Lie::Empty, Lie::Oldest, Lie::Silent, Lie::Forged];

    /// The flag for the share of nodes that lie in this way, without its hyphens.
    #[must_use]
    pub fn flag(self) -> &'static str {
        match self {
            Lie::True => "liars-true",
            Lie::Empty => "liars-empty",
            Lie::Oldest => "liars-oldest",
            Lie::Silent => "liars-silent",
            Lie::Forged => "liars-forged",
        }
    }

    /// What such a node is called on the page.
    #[must_use]
    pub fn name(self) -> &'static str {
        match self {
            Lie::True => "liar: all bits true",
            Lie::Empty => "liar: empty replies",
            Lie::Oldest => "liar: oldest infos",
            Lie::Silent => "liar: silent",
            Lie::Forged => "liar: wrong signatures",
        }
    }
}

/// The oldest info that a liar ever had of each peer.
pub type Oldest = BTreeMap<Key, Info>;

/// The question that a node sends, of the set at this position: that of the node itself, or that of
/// a liar. `None` if it asks nothing.
pub fn question(node: &Node, lie: Option<Lie>, place: usize) -> Option<Vec<u8>> {
    match lie {
        Some(Lie::Silent) => None,
        Some(Lie::True) => {
            let known = node.directory().get_random_bit_vec(place).ok()??;
            let bits = vec![true; known.bits.len()];
            Some(Payload::BitVec(BitVec { bits, ..known }).encode())
        }
        _ => node.ask(place).ok()?,
    }
}

/// What a liar sends in place of the reply of its node. `None` if it sends nothing.
pub fn reply(lie: Lie, reply: Vec<u8>, limits: &PayloadConfig, oldest: &Oldest) -> Option<Vec<u8>> {
    match lie {
        Lie::Silent => None,
        Lie::True => Some(reply),
        Lie::Empty => Some(Payload::Peers(Vec::new()).encode()),
        Lie::Oldest => changed(&reply, limits, |info| {
            oldest.get(&info.public_key).cloned().unwrap_or(info)
        }),
        Lie::Forged => changed(&reply, limits, |info| Info {
            signature: Signature([0; SIGNATURE_SIZE]),
            ..info
        }),
    }
}

fn changed(
    reply: &[u8],
    limits: &PayloadConfig,
    change: impl FnMut(Info) -> Info,
) -> Option<Vec<u8>> {
    match Payload::decode(reply, limits) {
        Ok(Payload::Peers(infos)) => {
            let infos = infos.into_iter().map(change).collect();
            Some(Payload::Peers(infos).encode())
        }
        _ => None,
    }
}

/// Keeps the infos of an accepted frame that are older than those that a liar has.
pub fn remember(oldest: &mut Oldest, frame: &[u8], limits: &PayloadConfig) {
    let infos = match Payload::decode(frame, limits) {
        Ok(Payload::Greeting(info)) => vec![info],
        Ok(Payload::Peers(infos)) => infos,
        _ => return,
    };
    for info in infos {
        let had = oldest
            .entry(info.public_key)
            .or_insert_with(|| info.clone());
        if info.timestamp < had.timestamp {
            *had = info;
        }
    }
}
