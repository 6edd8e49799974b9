//! Values as they are printed.

use super::key;
use p2p_directory::sized::{Dialable, Info, Pair, Payload, PeerSetUpdate, TrackedPeers};
use p2p_directory::{BitVec, Data, Ingress};
use std::fmt::Display;

/// The value, or `None`.
pub fn or_none(value: Option<impl Display>) -> String {
    value.map_or_else(|| "None".to_owned(), |value| value.to_string())
}

/// The value in `Some`, or `None`.
pub fn option(value: Option<impl Display>) -> String {
    or_none(value.map(|value| format!("Some({value})")))
}

/// Two digits for each byte, and a hyphen for no bytes.
pub fn hexadecimal(bytes: &[u8]) -> String {
    if bytes.is_empty() {
        return "-".to_owned();
    }
    bytes.iter().map(|byte| format!("{byte:02x}")).collect()
}

fn list<T>(items: &[T], printed: impl Fn(&T) -> String) -> String {
    let items: Vec<String> = items.iter().map(printed).collect();
    format!("[{}]", items.join(", "))
}

// The number of a key, or its digits if it has none.
fn number<P: Pair>(of: &P::Key) -> String {
    let last = of.as_ref().last_chunk().copied().map(u64::from_be_bytes);
    let is_key_of = |number: &u64| key::<P>(*number) == *of;
    last.filter(is_key_of)
        .map_or_else(|| of.to_string(), |number| number.to_string())
}

/// The numbers of peers.
pub fn keys<P: Pair>(peers: &[P::Key]) -> String {
    list(peers, number::<P>)
}

/// The peers of both roles.
pub fn tracked<P: Pair>(peers: &TrackedPeers<P>) -> String {
    format!(
        "{} / {}",
        keys::<P>(&peers.primary),
        keys::<P>(&peers.secondary)
    )
}

/// The latest set, and the peers of all.
pub fn update<P: Pair>(update: &PeerSetUpdate<P>) -> String {
    let PeerSetUpdate {
        index, latest, all, ..
    } = update;
    format!("{index}, {}, {}", tracked(latest), tracked(all))
}

/// The peers to dial, and when to ask again.
pub fn dialable<P: Pair>(dialable: &Dialable<P>) -> String {
    let next = option(dialable.next_query_at);
    format!("{} {next}", keys::<P>(&dialable.peers))
}

/// A socket address, or a name after `~`.
pub fn ingress(ingress: &Ingress) -> String {
    match ingress {
        Ingress::Socket(_) => ingress.to_string(),
        Ingress::Dns { .. } => format!("~{ingress}"),
    }
}

/// The number of the key, the timestamp and the ingress of an info.
pub fn info<P: Pair>(info: &Info<P>) -> String {
    let at = ingress(&info.ingress);
    format!(
        "Info({}, {}, {at})",
        number::<P>(&info.public_key),
        info.timestamp
    )
}

/// Infos, separated by commas.
pub fn infos<P: Pair>(infos: &[Info<P>]) -> String {
    list(infos, info)
}

/// An index and bits, or a hyphen for no bits.
pub fn bit_vec(bit_vec: &BitVec) -> String {
    let digits = bit_vec.bits.iter().map(|bit| if *bit { '1' } else { '0' });
    let bits = match bit_vec.bits.len() {
        0 => "-".to_owned(),
        _ => digits.collect(),
    };
    format!("BitVec({}, {bits})", bit_vec.index)
}

/// A channel and the bytes of a message.
pub fn data(data: &Data) -> String {
    format!("Data({}, {})", data.channel, hexadecimal(&data.message))
}

/// The payload of a frame.
pub fn payload<P: Pair>(payload: &Payload<P>) -> String {
    match payload {
        Payload::Data(message) => data(message),
        Payload::Greeting(greeting) => format!("Greeting({})", info(greeting)),
        Payload::BitVec(bits) => bit_vec(bits),
        Payload::Peers(peers) => format!("Peers({})", infos(peers)),
    }
}
