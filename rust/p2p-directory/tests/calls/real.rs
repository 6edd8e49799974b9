//! A node of this crate, called as the model is.

use super::call::Call;
use super::model::{CUTS, shown};
use p2p_directory::sized::testing::verify;
use p2p_directory::sized::{
    Info, InfoVerifier, Metadata, Node, OrderedSet, Pair, Payload, Reservation, Setup, TrackedPeers,
};
use p2p_directory::{Moment, ValidateError};
use std::collections::BTreeMap;

pub struct Real<P: Pair> {
    node: Node<P>,
    // It has the same key, limits and namespace.
    verifier: InfoVerifier<P>,
    held: BTreeMap<P::Key, Reservation<P>>,
}

const MEMORY: &str = "there is memory";

impl<P: Pair> Real<P> {
    pub fn new(setup: Setup<P>) -> Real<P> {
        Real::of(Node::new(&setup).expect("a node"), &setup)
    }

    /// A node that has this setup.
    pub fn of(node: Node<P>, setup: &Setup<P>) -> Real<P> {
        let (count, bound) = (setup.peer_gossip_max_count, setup.synchrony_bound);
        let verifier = Info::verifier(setup.myself.public_key, count, bound, &setup.namespace);
        Real {
            verifier: verifier.expect("a verifier"),
            node,
            held: BTreeMap::new(),
        }
    }

    pub fn answer(&mut self, call: &Call<P>) -> String {
        let directory = self.node.directory_mut();
        match call {
            Call::Track(index, primary, secondary) => {
                let set = |peers: &[P::Key]| OrderedSet::from_iter_dedup(peers.iter().copied());
                let peers = TrackedPeers::new(set(primary), set(secondary));
                let tracked = directory.track(*index, &peers).expect(MEMORY);
                shown(tracked.accepted())
            }
            Call::Dial(peer, now, draw) => {
                let granted = directory.dial(peer, *now, *draw).expect(MEMORY);
                shown(self.keep(granted))
            }
            Call::Listen(peer, now, draw) => {
                let granted = directory.listen(peer, *now, *draw).expect(MEMORY);
                shown(self.keep(granted))
            }
            Call::Connect(peer, is_dialer) => shown(directory.connect(peer, *is_dialer)),
            Call::ConnectReserved(peer) => {
                let reservation = self.held.get(peer);
                shown(reservation.map(|reservation| directory.connect_reserved(reservation)))
            }
            Call::Release(peer) => shown(match self.held.remove(peer) {
                Some(reservation) => directory.release(reservation).is_ok(),
                None => false,
            }),
            Call::Abandon(peer) => shown(self.held.remove(peer).is_some()),
            Call::Update(infos) => shown(directory.update_peers(infos)),
            Call::Block(peer, now) => shown(directory.block(peer, *now).expect(MEMORY)),
            Call::UnblockExpired(now) => shown(directory.unblock_expired(*now)),
            Call::ForgetCooled(now) => shown((
                directory.next_cooled(),
                directory.forget_cooled(*now),
                directory.next_cooled(),
            )),
            Call::Receive(payload, now) => {
                let judged = self.judged(payload, *now);
                let received = self.node.receive(&payload.encode(), *now, verify);
                shown((judged, received))
            }
            question => self.answer_question(question),
        }
    }

    fn keep(&mut self, granted: Option<Reservation<P>>) -> Option<Metadata<P>> {
        let reservation = granted?;
        let metadata = reservation.metadata().clone();
        self.held.insert(*reservation.public_key(), reservation);
        Some(metadata)
    }

    // The result of the verifier for the infos of a frame.
    fn judged(&self, payload: &Payload<P>, now: Moment) -> Result<(), ValidateError> {
        match payload {
            Payload::Greeting(info) => self.verifier.validate_info(now, info, verify),
            Payload::Peers(infos) => self.verifier.validate(now, infos, verify),
            Payload::Data(_) | Payload::BitVec(_) => Ok(()),
        }
    }

    fn answer_question(&self, question: &Call<P>) -> String {
        let directory = self.node.directory();
        match question {
            Call::NextUnblock => shown(directory.next_unblock()),
            Call::BlockedPeers(now) => shown(directory.blocked_peers(*now).expect(MEMORY)),
            Call::PeerSet(index) => shown(directory.get_peer_set(*index).expect(MEMORY)),
            Call::LatestUpdate => {
                let latest = directory.latest_update().expect(MEMORY);
                shown(latest.map(|told| (told.index, told.latest, told.all)))
            }
            Call::LatestSetIndex => shown(directory.latest_set_index()),
            Call::All => shown(directory.all().expect(MEMORY)),
            Call::Status(peer) => shown(directory.status(peer)),
            Call::Info(peer) => shown((
                directory.info(peer).expect(MEMORY),
                directory.ingress(peer).expect(MEMORY),
            )),
            Call::Infos(bit_vec, now) => {
                let infos = directory.infos(bit_vec, *now).expect(MEMORY);
                let cut = |(count, draw)| self.node.reply_at_most(bit_vec, *now, count, draw);
                shown((infos, CUTS.map(|cuts| cut(cuts).expect(MEMORY))))
            }
            Call::Bits(place) => shown(directory.get_random_bit_vec(*place).expect(MEMORY)),
            Call::Ask(place) => shown(self.node.ask(*place).expect(MEMORY)),
            Call::Eligible(peer, now) => shown(directory.eligible(peer, *now)),
            Call::Acceptable(peer, now) => shown((
                directory.acceptable(peer, *now),
                directory.may_listen(peer, *now),
            )),
            Call::Dialable(now) => {
                let told = directory.dialable(*now).expect(MEMORY);
                shown((told.peers, told.next_query_at))
            }
            Call::Tracked => shown((directory.tracked(), directory.retained())),
            change @ (Call::Track(..)
            | Call::Dial(..)
            | Call::Listen(..)
            | Call::Connect(..)
            | Call::ConnectReserved(..)
            | Call::Release(..)
            | Call::Abandon(..)
            | Call::Update(..)
            | Call::Block(..)
            | Call::UnblockExpired(..)
            | Call::ForgetCooled(..)
            | Call::Receive(..)) => unreachable!("{change:?} changes something"),
        }
    }
}
