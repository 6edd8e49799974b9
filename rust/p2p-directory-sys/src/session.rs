//! The calls of a session, each by its name.

use crate::library::{Library, Pair};

/// What makes the calls of a session, each by its number: the [`Library`], or what does something
/// else besides, as recording them.
///
/// # Examples
///
/// ```
/// use p2p_directory_sys::sized::{Caller, Session};
///
/// /// Makes no call, and answers its number.
/// struct Numbered;
///
/// impl Caller for Numbered {
///     fn call(&self, number: u64, _: &[u64], _: [&[u8]; 3], _: &mut [u8]) -> u64 {
///         number
///     }
/// }
/// assert_eq!(Session::of(Numbered).tracked(), 28);
/// ```
pub trait Caller {
    /// Makes the call of this number, and returns what it answers. `numbers` are its numbers and
    /// bools, 0 or 1, in the order of its parameters. `bytes` are the slices that it reads, and then
    /// empty ones. `out` is the one that it writes, or an empty one.
    ///
    /// The answer is [`BAD_CALL`](crate::BAD_CALL) if no call has this number, if it doesn't take as
    /// many numbers, if a bool is neither 0 nor 1, or if there are bytes that it doesn't take.
    /// Nothing changes then.
    fn call(&self, number: u64, numbers: &[u64], bytes: [&[u8]; 3], out: &mut [u8]) -> u64;

    /// The same with `peer` as the first slice, and with nothing in the others. The methods that take
    /// one slice at most, and write no answer, make their calls by it. What implements it may make
    /// them faster.
    #[inline]
    fn call_peer(&self, number: u64, numbers: &[u64], peer: &[u8]) -> u64 {
        self.call(number, numbers, [peer, &[], &[]], &mut [])
    }
}

/// A session: a node, whose calls `C` makes. The methods take the arguments of calls in the forms of
/// `docs/C.md` of the repository, and return what the calls answer.
///
/// # Examples
///
/// ```
/// use p2p_directory_sys::{NO_NODE, Session};
///
/// let session = Session::new().ok_or("no memory")?;
/// assert_eq!(session.status(&[1; 32]), NO_NODE);
/// # Ok::<(), &str>(())
/// ```
pub struct Session<C> {
    caller: C,
}

impl<P: Pair> Session<Library<P>> {
    /// A session with no node, or `None` if the allocation fails.
    pub fn new() -> Option<Session<Library<P>>> {
        Library::new().map(Session::of)
    }
}

impl<C: Caller> Session<C> {
    /// A session whose calls this makes.
    pub fn of(caller: C) -> Session<C> {
        Session { caller }
    }

    /// What makes the calls.
    #[inline]
    pub fn caller(&self) -> &C {
        &self.caller
    }

    /// Makes the call of any number, as [`Caller::call`] says.
    ///
    /// # Examples
    ///
    /// ```
    /// use p2p_directory_sys::{BAD_CALL, Session};
    ///
    /// let session = Session::new().ok_or("no memory")?;
    /// assert_eq!(session.call(28, &[], [&[]; 3], &mut []), session.tracked());
    /// assert_eq!(session.call(28, &[], [b"bytes", &[], &[]], &mut []), BAD_CALL);
    /// # Ok::<(), &str>(())
    /// ```
    #[inline]
    pub fn call(&self, number: u64, numbers: &[u64], bytes: [&[u8]; 3], out: &mut [u8]) -> u64 {
        self.caller.call(number, numbers, bytes, out)
    }

    /// Makes the call of any number, as [`Caller::call_peer`] says.
    ///
    /// # Examples
    ///
    /// ```
    /// use p2p_directory_sys::{BAD_CALL, Session};
    ///
    /// let session = Session::new().ok_or("no memory")?;
    /// assert_eq!(session.call_peer(15, &[], &[1; 32]), session.status(&[1; 32]));
    /// assert_eq!(session.call_peer(15, &[1], &[1; 32]), BAD_CALL);
    /// # Ok::<(), &str>(())
    /// ```
    #[inline]
    pub fn call_peer(&self, number: u64, numbers: &[u64], peer: &[u8]) -> u64 {
        self.caller.call_peer(number, numbers, peer)
    }

    /// Creates the node of the session, once. Returns 1. BAD_SETTING: there is a node already,
    /// max_sets is 0 or UINT64_MAX, or max_bit_vec is above UINT32_MAX. bootstrappers: for each one
    /// its key and then its encoded ingress. myself: the encoded local info.
    #[inline]
    #[allow(clippy::too_many_arguments)]
    pub fn init(
        &self,
        allow_private_ips: bool,
        allow_dns: bool,
        max_sets: u64,
        dial_fail_limit: u64,
        cooldown_seconds: u64,
        cooldown_nanos: u32,
        block_seconds: u64,
        block_nanos: u32,
        max_bit_vec: u64,
        max_peers: u64,
        max_data_length: u64,
        peer_gossip_max_count: u64,
        bound_seconds: u64,
        bound_nanos: u32,
        namespace: &[u8],
        bootstrappers: &[u8],
        myself: &[u8],
    ) -> u64 {
        self.call(
            1,
            &[
                allow_private_ips.into(),
                allow_dns.into(),
                max_sets,
                dial_fail_limit,
                cooldown_seconds,
                cooldown_nanos.into(),
                block_seconds,
                block_nanos.into(),
                max_bit_vec,
                max_peers,
                max_data_length,
                peer_gossip_max_count,
                bound_seconds,
                bound_nanos.into(),
            ],
            [namespace, bootstrappers, myself],
            &mut [],
        )
    }

    /// Registers a peer set. Returns NONE if its index is not greater than the latest, else the
    /// number of bytes written to torn: the keys of the peers that must be disconnected. NO_ROOM if
    /// torn is shorter than track_room returns: the set is not registered then. Keys may come in
    /// any order and more than once.
    #[inline]
    pub fn track(&self, index: u64, primary: &[u8], secondary: &[u8], torn: &mut [u8]) -> u64 {
        self.call(2, &[index], [primary, secondary, &[]], torn)
    }

    /// How many bytes torn must have in track: the size of a key for each peer with a record.
    #[inline]
    pub fn track_room(&self) -> u64 {
        self.call_peer(3, &[], &[])
    }

    /// Reserves a peer to be dialled. Returns 1 if it is granted, else 0. The draw is a random
    /// duration (jitter).
    #[inline]
    pub fn dial(
        &self,
        peer: &[u8],
        seconds: u64,
        nanos: u32,
        draw_seconds: u64,
        draw_nanos: u32,
    ) -> u64 {
        let numbers = [seconds, nanos.into(), draw_seconds, draw_nanos.into()];
        self.call_peer(4, &numbers, peer)
    }

    /// Reserves an inbound peer. Returns 1 if it is granted, else 0. The draw is a random duration
    /// (jitter).
    #[inline]
    pub fn listen(
        &self,
        peer: &[u8],
        seconds: u64,
        nanos: u32,
        draw_seconds: u64,
        draw_nanos: u32,
    ) -> u64 {
        let numbers = [seconds, nanos.into(), draw_seconds, draw_nanos.into()];
        self.call_peer(5, &numbers, peer)
    }

    /// Describes the reservation that is held of a peer: byte 0 if it is inbound, or byte 1 and the
    /// encoded ingress that is dialled. NONE if none is held.
    #[inline]
    pub fn reservation(&self, peer: &[u8], out: &mut [u8]) -> u64 {
        self.call(6, &[], [peer, &[], &[]], out)
    }

    /// Marks a reserved peer as connected. Returns 1, or NOT_RESERVED.
    #[inline]
    pub fn connect(&self, peer: &[u8], dialer: bool) -> u64 {
        self.call_peer(7, &[dialer.into()], peer)
    }

    /// Releases the reservation that is held of a peer. Returns 1, or NOT_HELD.
    #[inline]
    pub fn release(&self, peer: &[u8]) -> u64 {
        self.call_peer(8, &[], peer)
    }

    /// Offers infos, an encoded list, to the records of their peers. Returns 1. The host must have
    /// made or verified them itself.
    #[inline]
    pub fn update_peers(&self, infos: &[u8]) -> u64 {
        self.call_peer(9, &[], infos)
    }

    /// Blocks a peer. Returns 1 if the block takes effect, else 0.
    #[inline]
    pub fn block(&self, peer: &[u8], seconds: u64, nanos: u32) -> u64 {
        self.call_peer(10, &[seconds, nanos.into()], peer)
    }

    /// Ends the blocks that hold until this time or an earlier one. Returns 1 if there was one,
    /// else 0.
    #[inline]
    pub fn unblock_expired(&self, seconds: u64, nanos: u32) -> u64 {
        self.call_peer(11, &[seconds, nanos.into()], &[])
    }

    /// Forgets the cooldowns whose dial time has come. Returns how many.
    #[inline]
    pub fn forget_cooled(&self, seconds: u64, nanos: u32) -> u64 {
        self.call_peer(12, &[seconds, nanos.into()], &[])
    }

    /// The time at which the next block ends, in 12 bytes, or NONE.
    #[inline]
    pub fn next_unblock(&self, out: &mut [u8]) -> u64 {
        self.call(13, &[], [&[]; 3], out)
    }

    /// The keys of the blocked peers.
    #[inline]
    pub fn blocked_peers(&self, seconds: u64, nanos: u32, out: &mut [u8]) -> u64 {
        self.call(14, &[seconds, nanos.into()], [&[]; 3], out)
    }

    /// The state of a peer: NONE if it has no record, 0 if it is inert, 1 if reserved, 2 if
    /// connected.
    #[inline]
    pub fn status(&self, peer: &[u8]) -> u64 {
        self.call_peer(15, &[], peer)
    }

    /// The set with an index, or NONE: the number of primary peers in 8 bytes, their keys, and the
    /// keys of the secondary peers.
    #[inline]
    pub fn get_peer_set(&self, index: u64, out: &mut [u8]) -> u64 {
        self.call(16, &[index], [&[]; 3], out)
    }

    /// The index of the latest set, in 8 bytes, or NONE.
    #[inline]
    pub fn latest_set_index(&self, out: &mut [u8]) -> u64 {
        self.call(17, &[], [&[]; 3], out)
    }

    /// NONE, or the index and the lengths of the first three lists, in 8 bytes each, and then the
    /// keys of four lists: the primary and secondary peers of the latest set, then those of all
    /// sets.
    #[inline]
    pub fn latest_update(&self, out: &mut [u8]) -> u64 {
        self.call(18, &[], [&[]; 3], out)
    }

    /// The peers of all sets, in the form of get_peer_set.
    #[inline]
    pub fn all(&self, out: &mut [u8]) -> u64 {
        self.call(19, &[], [&[]; 3], out)
    }

    /// The encoded info of a peer, if it may be shared with others, or NONE.
    #[inline]
    pub fn info(&self, peer: &[u8], out: &mut [u8]) -> u64 {
        self.call(20, &[], [peer, &[], &[]], out)
    }

    /// The encoded list of infos to send to a peer that sent these bits. NONE if they are not as
    /// many as the primary peers of the set.
    #[inline]
    pub fn infos(&self, bits: &[u8], seconds: u64, nanos: u32, out: &mut [u8]) -> u64 {
        self.call(21, &[seconds, nanos.into()], [bits, &[], &[]], out)
    }

    /// The encoded bits of the set at a position, with its index, or NONE.
    #[inline]
    pub fn get_random_bit_vec(&self, place: u64, out: &mut [u8]) -> u64 {
        self.call(22, &[place], [&[]; 3], out)
    }

    /// Whether a peer may be connected: 1 or 0.
    #[inline]
    pub fn eligible(&self, peer: &[u8], seconds: u64, nanos: u32) -> u64 {
        self.call_peer(23, &[seconds, nanos.into()], peer)
    }

    /// Whether a connection of a peer may be accepted: 1 or 0.
    #[inline]
    pub fn acceptable(&self, peer: &[u8], seconds: u64, nanos: u32) -> u64 {
        self.call_peer(24, &[seconds, nanos.into()], peer)
    }

    /// Byte 0, or byte 1 and the time at which to ask again, and then the keys of the peers that
    /// may be dialled.
    #[inline]
    pub fn dialable(&self, seconds: u64, nanos: u32, out: &mut [u8]) -> u64 {
        self.call(25, &[seconds, nanos.into()], [&[]; 3], out)
    }

    /// How many sets are retained: positions below this number have a set.
    #[inline]
    pub fn retained(&self) -> u64 {
        self.call_peer(26, &[], &[])
    }

    /// The time at which forget_cooled next forgets something, in 12 bytes, or NONE if no cooldown
    /// is kept.
    #[inline]
    pub fn next_cooled(&self, out: &mut [u8]) -> u64 {
        self.call(27, &[], [&[]; 3], out)
    }

    /// How many peers have a record, except the local node.
    #[inline]
    pub fn tracked(&self) -> u64 {
        self.call_peer(28, &[], &[])
    }

    /// The frame that asks for the wanted infos of the set at a position, or NONE.
    #[inline]
    pub fn ask(&self, place: u64, out: &mut [u8]) -> u64 {
        self.call(29, &[place], [&[]; 3], out)
    }

    /// Lists the signatures to verify before receive: first the number of infos of the frame, in 8
    /// bytes. Then follows, in their order, each info whose signature decides whether it is
    /// refused: the length of its signed bytes in 8 bytes, its key, the signed bytes, its
    /// signature. The list stops before the first info that is refused whatever its signature is.
    /// Namespace and signature scheme are the host's. The session keeps the frame, decoded, for
    /// receive, until that is given the same bytes or check another frame.
    #[inline]
    pub fn check(&self, frame: &[u8], seconds: u64, nanos: u32, out: &mut [u8]) -> u64 {
        self.call(30, &[seconds, nanos.into()], [frame, &[], &[]], out)
    }

    /// Processes a frame. verdicts has one byte for each info of the frame, in their order: 0 if
    /// its signature is invalid. Bytes after the first 0 are ignored, and so are those of infos
    /// that check does not list. NO_ROOM if out has fewer than 9 bytes, or fewer than a key and
    /// one. BAD_VERDICTS if verdicts and infos differ in number. Writes byte 0 for a message, its
    /// channel in 8 bytes and its length in 8: it is the last so many bytes of the frame; byte 1
    /// and the key of the peer whose greeting was applied; byte 2 and the frame to reply with; byte
    /// 3 and how many infos were applied, in 8 bytes; byte 4 and the error of the frame; byte 5 if
    /// bits and peers differ in number; byte 6 and why infos are refused. docs/C.md lists these
    /// errors and refusals.
    #[inline]
    pub fn receive(
        &self,
        frame: &[u8],
        seconds: u64,
        nanos: u32,
        verdicts: &[u8],
        out: &mut [u8],
    ) -> u64 {
        self.call(31, &[seconds, nanos.into()], [frame, verdicts, &[]], out)
    }

    /// Whether listen of a peer would grant a reservation, memory aside: 1 or 0.
    #[inline]
    pub fn may_listen(&self, peer: &[u8], seconds: u64, nanos: u32) -> u64 {
        self.call_peer(32, &[seconds, nanos.into()], peer)
    }

    /// The encoded address that is held of a peer, whether or not it may be dialled, or NONE.
    #[inline]
    pub fn ingress(&self, peer: &[u8], out: &mut [u8]) -> u64 {
        self.call(33, &[], [peer, &[], &[]], out)
    }
}
