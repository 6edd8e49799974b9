//! Calls with their arguments.

use p2p_directory::sized::{Info, Pair, Payload};
use p2p_directory::{BitVec, Moment};
use std::time::Duration;

/// A call of a directory or a node.
#[derive(Clone, Debug)]
pub enum Call<P: Pair> {
    Track(u64, Vec<P::Key>, Vec<P::Key>),
    Dial(P::Key, Moment, Duration),
    Listen(P::Key, Moment, Duration),
    Connect(P::Key, bool),
    /// Releases the reservation, if there is one.
    ConnectReserved(P::Key),
    Release(P::Key),
    /// Drops the reservation, if there is one.
    Abandon(P::Key),
    Update(Vec<Info<P>>),
    Block(P::Key, Moment),
    UnblockExpired(Moment),
    ForgetCooled(Moment),
    Receive(Payload<P>, Moment),
    NextUnblock,
    BlockedPeers(Moment),
    PeerSet(u64),
    LatestUpdate,
    LatestSetIndex,
    All,
    Status(P::Key),
    Info(P::Key),
    Infos(BitVec, Moment),
    Bits(usize),
    Ask(usize),
    Eligible(P::Key, Moment),
    Acceptable(P::Key, Moment),
    Dialable(Moment),
    Tracked,
}
