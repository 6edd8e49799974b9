//! What the arguments of a recorded call stand for.

use p2p_directory::record::{Argument, Call, MOST_ROOM};
use p2p_directory::sized::{Bytes, Info, OrderedSet, Pair, Payload, Setup, TrackedPeers};
use p2p_directory::{BitVec, Config, Ingress, Moment, PayloadConfig};
use std::borrow::Cow;
use std::error::Error;
use std::marker::PhantomData;
use std::num::NonZeroUsize;
use std::time::Duration;

pub type Outcome<T> = Result<T, Box<dyn Error>>;

/// No limits, so that what was recorded is decoded.
pub const NO_LIMITS: PayloadConfig = PayloadConfig {
    max_bit_vec: u32::MAX as u64,
    max_peers: usize::MAX,
    max_data_length: usize::MAX,
};

/// The arguments of a call by the names of its parameters.
pub struct Fields<'a, 'b, P> {
    pub call: &'a Call<'b>,
    sizes: PhantomData<P>,
}

impl<'a, 'b, P: Pair> Fields<'a, 'b, P> {
    pub fn of(call: &'a Call<'b>) -> Fields<'a, 'b, P> {
        let sizes = PhantomData;
        Fields { call, sizes }
    }

    fn missing(&self, name: &str) -> Box<dyn Error> {
        format!("{} has no {name}", self.call.name()).into()
    }

    pub fn number(&self, name: &str) -> Outcome<u64> {
        match self.call.argument(name) {
            Some(Argument::Number(number)) => Ok(number),
            _ => Err(self.missing(name)),
        }
    }

    pub fn flag(&self, name: &str) -> Outcome<bool> {
        Ok(self.number(name)? != 0)
    }

    pub fn size(&self, name: &str) -> Outcome<usize> {
        Ok(usize::try_from(self.number(name)?)?)
    }

    /// The bytes of a slice, with zeros for what isn't recorded of a message.
    pub fn bytes(&self, name: &str) -> Outcome<Cow<'b, [u8]>> {
        let argument = self.call.argument(name).ok_or_else(|| self.missing(name))?;
        Ok(argument.bytes(MOST_ROOM)?)
    }

    pub fn peer(&self) -> Outcome<P::Key> {
        key::<P>(&self.bytes("peer")?)
    }

    pub fn keys(&self, name: &str) -> Outcome<Vec<P::Key>> {
        self.bytes(name)?
            .chunks(P::KEY_SIZE)
            .map(key::<P>)
            .collect()
    }

    pub fn duration(&self, name: &str) -> Outcome<Duration> {
        let seconds = self.number(&format!("{name}seconds"))?;
        let nanos = u32::try_from(self.number(&format!("{name}nanos"))?)?;
        Ok(Duration::new(seconds, nanos))
    }

    /// The time of the call.
    pub fn now(&self) -> Outcome<Moment> {
        Ok(Moment::from(self.duration("")?))
    }

    pub fn bit_vec(&self) -> Outcome<BitVec> {
        match tagged::<P>(2, &self.bytes("bits")?)? {
            Payload::BitVec(bits) => Ok(bits),
            other => Err(format!("{other:?} is no bits").into()),
        }
    }

    pub fn infos(&self) -> Outcome<Vec<Info<P>>> {
        infos(&self.bytes("infos")?)
    }

    pub fn setup(&self) -> Outcome<Setup<P>> {
        let max_sets = NonZeroUsize::new(self.size("max_sets")?);
        Ok(Setup {
            bootstrappers: bootstrappers::<P>(&self.bytes("bootstrappers")?)?,
            myself: Info::decode(&self.bytes("myself")?)?,
            cfg: Config {
                allow_private_ips: self.flag("allow_private_ips")?,
                allow_dns: self.flag("allow_dns")?,
                max_sets: max_sets.ok_or("no sets are retained")?,
                dial_fail_limit: self.size("dial_fail_limit")?,
                peer_connection_cooldown: self.duration("cooldown_")?,
                block_duration: self.duration("block_")?,
            },
            payload: PayloadConfig {
                max_bit_vec: self.number("max_bit_vec")?,
                max_peers: self.size("max_peers")?,
                max_data_length: self.size("max_data_length")?,
            },
            peer_gossip_max_count: self.size("peer_gossip_max_count")?,
            synchrony_bound: self.duration("bound_")?,
            namespace: self.bytes("namespace")?.to_vec(),
        })
    }
}

pub fn key<P: Pair>(bytes: &[u8]) -> Outcome<P::Key> {
    Ok(P::Key::of_bytes(bytes).ok_or("these bytes are no key")?)
}

/// The infos that these bytes encode as a list.
pub fn infos<P: Pair>(list: &[u8]) -> Outcome<Vec<Info<P>>> {
    match tagged(3, list)? {
        Payload::Peers(infos) => Ok(infos),
        other => Err(format!("{other:?} is no list of infos").into()),
    }
}

// The payload of a frame with this first byte.
fn tagged<P: Pair>(tag: u8, bytes: &[u8]) -> Outcome<Payload<P>> {
    let frame = [&[tag][..], bytes].concat();
    Ok(Payload::decode(&frame, &NO_LIMITS)?)
}

fn bootstrappers<P: Pair>(mut bytes: &[u8]) -> Outcome<Vec<(P::Key, Ingress)>> {
    let mut all = Vec::new();
    while let Some((front, rest)) = bytes.split_at_checked(P::KEY_SIZE) {
        // The only front of the rest that encodes an ingress.
        let encoded = (0..=rest.len()).find_map(|length| {
            let ingress = Ingress::decode(&rest[..length]).ok()?;
            Some((length, ingress))
        });
        let (length, ingress) = encoded.ok_or("a bootstrapper has no ingress")?;
        all.push((key::<P>(front)?, ingress));
        bytes = &rest[length..];
    }
    Ok(all)
}

/// The bytes of keys, one after the other.
pub fn key_bytes<P: Pair>(keys: &OrderedSet<P>) -> Vec<u8> {
    keys.iter().flat_map(|key| key.as_ref().to_vec()).collect()
}

/// The number of primary peers, their keys, and the keys of the secondary peers.
pub fn set_bytes<P: Pair>(peers: &TrackedPeers<P>) -> Vec<u8> {
    let mut bytes = (peers.primary.len() as u64).to_be_bytes().to_vec();
    bytes.extend(key_bytes(&peers.primary));
    bytes.extend(key_bytes(&peers.secondary));
    bytes
}

/// A time, in twelve bytes.
pub fn moment_bytes(moment: Moment) -> Vec<u8> {
    let passed = moment.as_duration();
    let mut bytes = passed.as_secs().to_be_bytes().to_vec();
    bytes.extend(passed.subsec_nanos().to_be_bytes());
    bytes
}
