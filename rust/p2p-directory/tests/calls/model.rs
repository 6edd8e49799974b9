//! A model of a node: maps and lists, and the results that the specification has for them.

use super::call::Call;
use p2p_directory::sized::{
    Info, Metadata, OrderedSet, Pair, Payload, Received, Setup, TrackedPeers,
};
use p2p_directory::{
    BitVec, CodecError, ConnectError, EncodedData, Error, Ingress, Moment, NotReservedError,
    OutOfMemory, Status, ValidateError,
};
use std::collections::{BTreeMap, BTreeSet};
use std::fmt::Debug;
use std::net::IpAddr;
use std::time::Duration;

/// What was granted and isn't released yet.
struct Held {
    // The address that was dialled, or `None` for an inbound peer.
    dialled: Option<Ingress>,
    is_active: bool,
}

/// The reservable time and the dial time of a peer.
struct Cooldown {
    reservable: Moment,
    dial: Moment,
}

/// A set: its index, its primary and its secondary peers.
type Set<Key> = (u64, BTreeSet<Key>, BTreeSet<Key>);

pub struct Model<P: Pair> {
    setup: Setup<P>,
    // All sets that were registered.
    sets: Vec<Set<P::Key>>,
    held: BTreeMap<P::Key, Held>,
    cooldowns: BTreeMap<P::Key, Cooldown>,
    // Infos, and how many of their dials failed.
    known: BTreeMap<P::Key, (Info<P>, usize)>,
    blocks: BTreeMap<P::Key, Moment>,
}

/// Whether the signature is valid of the info at a place of its frame.
pub type Validity<'a, P> = &'a dyn Fn(usize, &Info<P>) -> bool;

/// To how many infos a reply is cut, with which draw.
pub const CUTS: [(usize, u64); 6] = [(0, 1), (1, 0), (1, 1), (1, u64::MAX), (2, 2), (9, 1)];

/// A result as the text that is compared.
pub fn shown(answer: impl Debug) -> String {
    format!("{answer:?}")
}

// The frame with so many of the infos from a position on, wrapping around at the end, or with all.
fn cut<P: Pair>(infos: Vec<Info<P>>, count: usize, draw: u64) -> Vec<u8> {
    let length = infos.len();
    let chosen = match count < length {
        true => (0..count)
            .map(|step| {
                infos[((u128::from(draw) + step as u128) % length as u128) as usize].clone()
            })
            .collect(),
        false => infos,
    };
    Payload::Peers(chosen).encode()
}

// Whether an address is none of those that are private, local, unspecified or for documentation,
// which are the ones that tests have. The library knows more that aren't global.
fn is_global(address: IpAddr) -> bool {
    match address {
        IpAddr::V4(address) => {
            let is_local = address.is_loopback() || address.is_link_local();
            !(is_local
                || address.is_private()
                || address.is_unspecified()
                || address.is_documentation()
                || address.is_broadcast())
        }
        IpAddr::V6(address) => {
            let is_local = address.is_loopback() || address.is_unicast_link_local();
            !(is_local || address.is_unique_local() || address.is_unspecified())
        }
    }
}

fn ordered<P: Pair>(keys: impl IntoIterator<Item = P::Key>) -> OrderedSet<P> {
    OrderedSet::from_iter_dedup(keys)
}

impl<P: Pair> Model<P> {
    pub fn new(setup: Setup<P>) -> Model<P> {
        Model {
            setup,
            sets: Vec::new(),
            held: BTreeMap::new(),
            cooldowns: BTreeMap::new(),
            known: BTreeMap::new(),
            blocks: BTreeMap::new(),
        }
    }

    pub fn answer(&mut self, call: &Call<P>, is_valid: Validity<'_, P>) -> String {
        match call {
            Call::Track(index, primary, secondary) => shown(self.track(*index, primary, secondary)),
            Call::Dial(peer, now, draw) => shown(self.grant(peer, *now, *draw, true)),
            Call::Listen(peer, now, draw) => shown(self.grant(peer, *now, *draw, false)),
            Call::Connect(peer, is_dialer) => match self.connect(peer, *is_dialer) {
                true => shown(Ok::<(), NotReservedError>(())),
                false => shown(Err::<(), _>(NotReservedError)),
            },
            Call::ConnectReserved(peer) => shown(self.connect_reserved(peer)),
            Call::Release(peer) | Call::Abandon(peer) => shown(self.release(peer)),
            Call::Update(infos) => {
                self.update(infos);
                shown(Ok::<(), OutOfMemory>(()))
            }
            Call::Block(peer, now) => shown(self.block(peer, *now)),
            Call::UnblockExpired(now) => shown(self.unblock_expired(*now)),
            Call::ForgetCooled(now) => shown((
                self.next_cooled(),
                self.forget_cooled(*now),
                self.next_cooled(),
            )),
            Call::Receive(payload, now) => {
                let judged = match payload {
                    Payload::Greeting(info) => self.judged(0, info, *now, is_valid),
                    Payload::Peers(infos) => self.all_judged(infos, *now, is_valid),
                    Payload::Data(_) | Payload::BitVec(_) => Ok(()),
                };
                let judged = judged.map_err(ValidateError::Invalid);
                shown((judged, self.receive(payload, *now, is_valid)))
            }
            question => self.answer_question(question),
        }
    }

    fn answer_question(&self, question: &Call<P>) -> String {
        match question {
            Call::NextUnblock => shown(self.next_unblock()),
            Call::BlockedPeers(now) => shown(self.blocked_peers(*now)),
            Call::PeerSet(index) => shown(self.set_of(*index).map(|place| self.set_at(place))),
            Call::LatestUpdate => shown(self.latest_update()),
            Call::LatestSetIndex => shown(self.sets.last().map(|set| set.0)),
            Call::All => shown(self.all()),
            Call::Status(peer) => shown(self.is_present(peer).then(|| self.status(peer))),
            Call::Info(peer) => shown((self.sharable(peer), self.ingress(peer))),
            Call::Infos(bit_vec, now) => {
                let infos = self.infos(bit_vec, *now);
                let cuts = CUTS.map(|(count, draw)| Some(cut(infos.clone()?, count, draw)));
                shown((infos, cuts))
            }
            Call::Bits(place) => shown(self.bits(*place)),
            Call::Ask(place) => shown(
                self.bits(*place)
                    .map(|bits| Payload::<P>::BitVec(bits).encode()),
            ),
            Call::Eligible(peer, now) => shown(self.is_eligible(peer, *now)),
            Call::Acceptable(peer, now) => {
                shown((self.is_acceptable(peer, *now), self.may_listen(peer, *now)))
            }
            Call::Dialable(now) => shown(self.dialable(*now)),
            Call::Tracked => shown((self.tracked(), self.retained().len())),
            change @ (Call::Track(..)
            | Call::Dial(..)
            | Call::Listen(..)
            | Call::Connect(..)
            | Call::ConnectReserved(..)
            | Call::Release(..)
            | Call::Abandon(..)
            | Call::Update(..)
            | Call::Block(..)
            | Call::UnblockExpired(..)
            | Call::ForgetCooled(..)
            | Call::Receive(..)) => unreachable!("{change:?} changes something"),
        }
    }

    pub fn own(&self) -> P::Key {
        self.setup.myself.public_key
    }

    // All keys that something was said of, and which may have a record therefore.
    fn mentioned(&self) -> BTreeSet<P::Key> {
        let sets = self.sets.iter().flat_map(|set| set.1.iter().chain(&set.2));
        let bootstrappers = self.setup.bootstrappers.iter().map(|(key, _)| key);
        let all = sets.chain(bootstrappers).chain(self.held.keys());
        all.copied().collect()
    }

    // How many peers have a record, except the local node.
    pub fn tracked(&self) -> usize {
        let mut others = self.mentioned();
        others.remove(&self.own());
        others.retain(|peer| self.is_present(peer));
        others.len()
    }

    pub fn retained(&self) -> &[Set<P::Key>] {
        let first = self
            .sets
            .len()
            .saturating_sub(self.setup.cfg.max_sets.get());
        &self.sets[first..]
    }

    fn is_primary(&self, peer: &P::Key) -> bool {
        self.retained().iter().any(|set| set.1.contains(peer))
    }

    fn is_named(&self, peer: &P::Key) -> bool {
        self.is_primary(peer) || self.retained().iter().any(|set| set.2.contains(peer))
    }

    fn is_persistent(&self, peer: &P::Key) -> bool {
        let mut bootstrappers = self.setup.bootstrappers.iter();
        *peer == self.own() || bootstrappers.any(|(key, _)| key == peer)
    }

    fn is_entitled(&self, peer: &P::Key) -> bool {
        *peer != self.own() && (self.is_named(peer) || self.is_persistent(peer))
    }

    pub fn is_present(&self, peer: &P::Key) -> bool {
        self.is_persistent(peer) || self.is_named(peer) || self.held.contains_key(peer)
    }

    pub fn status(&self, peer: &P::Key) -> Status {
        match self.held.get(peer) {
            None => Status::Inert,
            Some(held) if held.is_active => Status::Active,
            Some(_) => Status::Reserved,
        }
    }

    // The address of the peer's info, or else that of its last bootstrapper.
    fn address(&self, peer: &P::Key) -> Option<&Ingress> {
        let mut bootstrappers = self.setup.bootstrappers.iter().rev();
        match self.known.get(peer) {
            Some((info, _)) => Some(&info.ingress),
            None => bootstrappers.find(|(key, _)| key == peer).map(|(_, at)| at),
        }
    }

    /// The address that is held of the peer: of the local node its own.
    pub fn ingress(&self, peer: &P::Key) -> Option<Ingress> {
        if *peer == self.own() {
            return Some(self.setup.myself.ingress.clone());
        }
        self.address(peer).cloned()
    }

    fn has_valid_address(&self, peer: &P::Key) -> bool {
        match self.address(peer) {
            None => false,
            Some(Ingress::Dns { .. }) => self.setup.cfg.allow_dns,
            Some(Ingress::Socket(at)) => self.setup.cfg.allow_private_ips || is_global(at.ip()),
        }
    }

    fn is_target(&self, peer: &P::Key) -> bool {
        self.is_entitled(peer)
            && self.status(peer) == Status::Inert
            && self.has_valid_address(peer)
            && (self.is_primary(peer) || self.is_persistent(peer))
    }

    pub fn is_blocked(&self, peer: &P::Key, now: Moment) -> bool {
        self.blocks.get(peer).is_some_and(|end| *end > now)
    }

    pub fn next_unblock(&self) -> Option<Moment> {
        self.blocks.values().min().copied()
    }

    pub fn blocked_peers(&self, now: Moment) -> OrderedSet<P> {
        let blocked = self.blocks.keys();
        ordered(blocked.filter(|peer| self.is_blocked(peer, now)).copied())
    }

    pub fn is_eligible(&self, peer: &P::Key, now: Moment) -> bool {
        self.is_entitled(peer) && !self.is_blocked(peer, now)
    }

    pub fn is_acceptable(&self, peer: &P::Key, now: Moment) -> bool {
        self.is_eligible(peer, now) && self.status(peer) == Status::Inert
    }

    /// Whether a listen of the peer would be granted.
    pub fn may_listen(&self, peer: &P::Key, now: Moment) -> bool {
        let cooldown = self.cooldowns.get(peer);
        let is_cooling = cooldown.is_some_and(|cooldown| now < cooldown.reservable);
        !is_cooling && self.is_acceptable(peer, now)
    }

    // What was known of a peer is removed when it isn't present any more.
    fn forget_absent(&mut self) {
        let known = std::mem::take(&mut self.known);
        let present = known.into_iter().filter(|(peer, _)| self.is_present(peer));
        self.known = present.collect();
    }

    pub fn track(
        &mut self,
        index: u64,
        primary: &[P::Key],
        secondary: &[P::Key],
    ) -> Option<OrderedSet<P>> {
        if self.sets.last().is_some_and(|set| index <= set.0) {
            return None;
        }
        let entitled: Vec<P::Key> = self.held.keys().copied().collect();
        let entitled: Vec<P::Key> = entitled
            .into_iter()
            .filter(|peer| self.is_entitled(peer))
            .collect();
        let primary: BTreeSet<P::Key> = primary.iter().copied().collect();
        let secondary = secondary.iter().filter(|peer| !primary.contains(peer));
        let secondary = secondary.copied().collect();
        self.sets.push((index, primary, secondary));
        self.forget_absent();
        let torn = entitled.into_iter().filter(|peer| !self.is_entitled(peer));
        Some(ordered(torn))
    }

    pub fn grant(
        &mut self,
        peer: &P::Key,
        now: Moment,
        draw: Duration,
        is_dial: bool,
    ) -> Option<Metadata<P>> {
        if !self.may_listen(peer, now) || is_dial && !self.is_target(peer) {
            return None;
        }
        let interval = self.setup.cfg.peer_connection_cooldown;
        let reservable = now.saturating_add(interval);
        let dial = reservable.saturating_add(draw.min(interval / 2 * 2));
        let dialled = self.address(peer).filter(|_| is_dial).cloned();
        self.cooldowns.insert(*peer, Cooldown { reservable, dial });
        let is_active = false;
        self.held.insert(*peer, Held { dialled, is_active });
        self.metadata(peer)
    }

    /// What is held of the peer.
    pub fn metadata(&self, peer: &P::Key) -> Option<Metadata<P>> {
        Some(match self.held.get(peer)?.dialled.clone() {
            Some(ingress) => Metadata::Dialer(*peer, ingress),
            None => Metadata::Listener(*peer),
        })
    }

    pub fn connect(&mut self, peer: &P::Key, is_dialer: bool) -> bool {
        let Some(held) = self.held.get_mut(peer).filter(|held| !held.is_active) else {
            return false;
        };
        held.is_active = true;
        if let Some((_, fails)) = self.known.get_mut(peer).filter(|_| is_dialer) {
            *fails = 0;
        }
        true
    }

    // `None` if there is no reservation.
    fn connect_reserved(&mut self, peer: &P::Key) -> Option<Result<(), ConnectError>> {
        let is_dialer = self.held.get(peer)?.dialled.is_some();
        Some(match self.connect(peer, is_dialer) {
            true => Ok(()),
            false => Err(ConnectError::NotReserved),
        })
    }

    // Whether there was a reservation to release.
    pub fn release(&mut self, peer: &P::Key) -> bool {
        let Some(held) = self.held.remove(peer) else {
            return false;
        };
        if let Some((info, fails)) = self.known.get_mut(peer) {
            *fails += usize::from(held.dialled.as_ref() == Some(&info.ingress));
        }
        self.forget_absent();
        true
    }

    pub fn update(&mut self, infos: &[Info<P>]) {
        for info in infos {
            let peer = info.public_key;
            let known = self.known.get(&peer);
            let is_newer = known.is_none_or(|(known, _)| info.timestamp > known.timestamp);
            if is_newer && peer != self.own() && self.is_present(&peer) {
                self.known.insert(peer, (info.clone(), 0));
            }
        }
    }

    pub fn block(&mut self, peer: &P::Key, now: Moment) -> bool {
        let is_taken = *peer != self.own() && !self.is_blocked(peer, now);
        if is_taken {
            let end = now.saturating_add(self.setup.cfg.block_duration);
            self.blocks.insert(*peer, end);
        }
        is_taken
    }

    pub fn unblock_expired(&mut self, now: Moment) -> bool {
        let before = self.blocks.len();
        self.blocks.retain(|_, end| *end > now);
        self.blocks.len() < before
    }

    pub fn next_cooled(&self) -> Option<Moment> {
        self.cooldowns.values().map(|cooldown| cooldown.dial).min()
    }

    pub fn forget_cooled(&mut self, now: Moment) -> usize {
        let before = self.cooldowns.len();
        self.cooldowns.retain(|_, cooldown| cooldown.dial > now);
        before - self.cooldowns.len()
    }

    // The position of the retained set of this index.
    pub fn set_of(&self, index: u64) -> Option<usize> {
        self.retained().iter().position(|set| set.0 == index)
    }

    pub fn set_at(&self, place: usize) -> TrackedPeers<P> {
        let (_, primary, secondary) = &self.retained()[place];
        TrackedPeers::new(ordered(primary.clone()), ordered(secondary.clone()))
    }

    pub fn all(&self) -> TrackedPeers<P> {
        let sets = self.retained().iter();
        let primary: BTreeSet<P::Key> = sets.clone().flat_map(|set| set.1.clone()).collect();
        let secondary: BTreeSet<P::Key> = sets.flat_map(|set| set.2.clone()).collect();
        let secondary = secondary.difference(&primary).copied();
        TrackedPeers::new(ordered(primary.iter().copied()), ordered(secondary))
    }

    // Its index, its peers, and those of all sets.
    pub fn latest_update(&self) -> Option<(u64, TrackedPeers<P>, TrackedPeers<P>)> {
        let last = self.retained().len().checked_sub(1)?;
        Some((self.retained()[last].0, self.set_at(last), self.all()))
    }

    pub fn sharable(&self, peer: &P::Key) -> Option<Info<P>> {
        if *peer == self.own() {
            return Some(self.setup.myself.clone());
        }
        let known = self.known.get(peer)?;
        (self.status(peer) == Status::Active).then(|| known.0.clone())
    }

    // `None` if the number of bits isn't that of the primary peers.
    pub fn infos(&self, bit_vec: &BitVec, now: Moment) -> Option<Vec<Info<P>>> {
        let Some(place) = self.set_of(bit_vec.index) else {
            return Some(Vec::new());
        };
        let primary = &self.retained()[place].1;
        if bit_vec.bits.len() != primary.len() {
            return None;
        }
        let unknown = primary.iter().zip(&bit_vec.bits).filter(|(_, bit)| !**bit);
        let shared = unknown.filter_map(|(peer, _)| self.sharable(peer));
        Some(
            shared
                .filter(|info| u128::from(info.timestamp) <= now.as_duration().as_millis())
                .collect(),
        )
    }

    fn is_wanted(&self, peer: &P::Key) -> bool {
        match self.known.get(peer) {
            _ if *peer == self.own() => false,
            None => true,
            Some((_, fails)) => {
                self.status(peer) != Status::Active && *fails >= self.setup.cfg.dial_fail_limit
            }
        }
    }

    pub fn bits(&self, place: usize) -> Option<BitVec> {
        let (index, primary, _) = self.retained().get(place)?;
        Some(BitVec {
            index: *index,
            bits: primary.iter().map(|peer| !self.is_wanted(peer)).collect(),
        })
    }

    // The peers that may be dialled, and when to ask again.
    pub fn dialable(&self, now: Moment) -> (Vec<P::Key>, Option<Moment>) {
        let all = || self.mentioned().into_iter();
        let dial_moment =
            |peer: &P::Key| self.cooldowns.get(peer).map_or(Moment::EPOCH, |c| c.dial);
        let targets = all().filter(|peer| self.is_target(peer) && !self.is_blocked(peer, now));
        let (peers, later): (Vec<P::Key>, Vec<P::Key>) =
            targets.partition(|peer| dial_moment(peer) <= now);
        let blocked = all().filter(|peer| self.is_present(peer) && self.is_blocked(peer, now));
        let ends = blocked.map(|peer| self.blocks[&peer]);
        let next_query_at = ends.chain(later.iter().map(dial_moment)).min();
        (peers, next_query_at)
    }

    pub fn receive(
        &mut self,
        payload: &Payload<P>,
        now: Moment,
        is_valid: Validity<'_, P>,
    ) -> Received<P> {
        if let Some(length) = self.excess(payload) {
            return Received::Codec(CodecError::InvalidLength(length as u64));
        }
        match payload {
            Payload::Data(data) => {
                let header = EncodedData::new(data.channel, data.message.len() as u32);
                let begin = header.as_bytes().len();
                Received::Data {
                    channel: data.channel,
                    message: begin..begin + data.message.len(),
                }
            }
            Payload::BitVec(bits) => match self.infos(bits, now) {
                Some(infos) => Received::Reply(Payload::Peers(infos).encode()),
                None => Received::Malformed,
            },
            Payload::Greeting(info) => match self.judged(0, info, now, is_valid) {
                Err(error) => Received::Invalid(error),
                Ok(()) => {
                    self.update(std::slice::from_ref(info));
                    Received::Greeted(info.public_key)
                }
            },
            Payload::Peers(infos) => match self.all_judged(infos, now, is_valid) {
                Err(error) => Received::Invalid(error),
                Ok(()) => {
                    self.update(infos);
                    Received::Applied(infos.len())
                }
            },
        }
    }

    // The length that exceeds the limits of frames.
    pub fn excess(&self, payload: &Payload<P>) -> Option<usize> {
        let limits = &self.setup.payload;
        let (length, most) = match payload {
            Payload::Data(data) => (data.message.len(), limits.max_data_length),
            Payload::BitVec(bits) => (bits.bits.len(), limits.max_bit_vec as usize),
            Payload::Peers(infos) => (infos.len(), limits.max_peers),
            Payload::Greeting(_) => return None,
        };
        (length > most).then_some(length)
    }

    pub fn judged(
        &self,
        place: usize,
        info: &Info<P>,
        now: Moment,
        is_valid: Validity<'_, P>,
    ) -> Result<(), Error> {
        let latest = now.saturating_add(self.setup.synchrony_bound);
        if info.public_key == self.own() {
            return Err(Error::ReceivedSelf);
        }
        if Duration::from_millis(info.timestamp) > latest.as_duration() {
            return Err(Error::SynchronyBound);
        }
        match is_valid(place, info) {
            true => Ok(()),
            false => Err(Error::InvalidSignature),
        }
    }

    pub fn all_judged(
        &self,
        infos: &[Info<P>],
        now: Moment,
        is_valid: Validity<'_, P>,
    ) -> Result<(), Error> {
        if infos.len() > self.setup.peer_gossip_max_count {
            return Err(Error::TooManyPeers(infos.len() as u64));
        }
        let mut places = infos.iter().enumerate();
        places.try_for_each(|(place, info)| self.judged(place, info, now, is_valid))
    }
}
