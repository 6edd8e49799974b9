//! The calls that a log may have.

use Form::{Bytes, Flag, Frame, Number, Room, Small};

/// What a parameter of a call has in a log.
#[derive(Clone, Copy, Debug, PartialEq, Eq)]
pub(crate) enum Form {
    /// A bool, as the number 0 or 1.
    Flag,
    /// A number of 32 bits.
    Small,
    /// A number.
    Number,
    /// A slice that is read.
    Bytes,
    /// A slice that is read, of which a part stands in the log if it is a message.
    Frame,
    /// A buffer that is written: how long it is.
    Room,
}

/// A call, as it stands in a log: its name, and its parameters in their order.
#[derive(Debug)]
pub(crate) struct CallForm {
    pub(crate) name: &'static str,
    pub(crate) parameters: &'static [(&'static str, Form)],
}

const fn call(name: &'static str, parameters: &'static [(&'static str, Form)]) -> CallForm {
    CallForm { name, parameters }
}

/// The calls in the order of their numbers, which begin at 1.
#[rustfmt::skip]
pub(crate) const CALLS: [CallForm; 33] = [
    call("init", &[
        ("allow_private_ips", Flag), ("allow_dns", Flag), ("max_sets", Number),
        ("dial_fail_limit", Number), ("cooldown_seconds", Number), ("cooldown_nanos", Small),
        ("block_seconds", Number), ("block_nanos", Small), ("max_bit_vec", Number),
        ("max_peers", Number), ("max_data_length", Number), ("peer_gossip_max_count", Number),
        ("bound_seconds", Number), ("bound_nanos", Small), ("namespace", Bytes),
        ("bootstrappers", Bytes), ("myself", Bytes),
    ]),
    call("track", &[("index", Number), ("primary", Bytes), ("secondary", Bytes), ("torn", Room)]),
    call("track_room", &[]),
    call("dial", &[
        ("peer", Bytes), ("seconds", Number), ("nanos", Small), ("draw_seconds", Number),
        ("draw_nanos", Small),
    ]),
    call("listen", &[
        ("peer", Bytes), ("seconds", Number), ("nanos", Small), ("draw_seconds", Number),
        ("draw_nanos", Small),
    ]),
    call("reservation", &[("peer", Bytes), ("out", Room)]),
    call("connect", &[("peer", Bytes), ("dialer", Flag)]),
    call("release", &[("peer", Bytes)]),
    call("update_peers", &[("infos", Bytes)]),
    call("block", &[("peer", Bytes), ("seconds", Number), ("nanos", Small)]),
    call("unblock_expired", &[("seconds", Number), ("nanos", Small)]),
    call("forget_cooled", &[("seconds", Number), ("nanos", Small)]),
    call("next_unblock", &[("out", Room)]),
    call("blocked_peers", &[("seconds", Number), ("nanos", Small), ("out", Room)]),
    call("status", &[("peer", Bytes)]),
    call("get_peer_set", &[("index", Number), ("out", Room)]),
    call("latest_set_index", &[("out", Room)]),
    call("latest_update", &[("out", Room)]),
    call("all", &[("out", Room)]),
    call("info", &[("peer", Bytes), ("out", Room)]),
    call("infos", &[("bits", Bytes), ("seconds", Number), ("nanos", Small), ("out", Room)]),
    call("get_random_bit_vec", &[("place", Number), ("out", Room)]),
    call("eligible", &[("peer", Bytes), ("seconds", Number), ("nanos", Small)]),
    call("acceptable", &[("peer", Bytes), ("seconds", Number), ("nanos", Small)]),
    call("dialable", &[("seconds", Number), ("nanos", Small), ("out", Room)]),
    call("retained", &[]),
    call("next_cooled", &[("out", Room)]),
    call("tracked", &[]),
    call("ask", &[("place", Number), ("out", Room)]),
    call("check", &[("frame", Frame), ("seconds", Number), ("nanos", Small), ("out", Room)]),
    call("receive", &[
        ("frame", Frame), ("seconds", Number), ("nanos", Small), ("verdicts", Bytes), ("out", Room),
    ]),
    call("may_listen", &[("peer", Bytes), ("seconds", Number), ("nanos", Small)]),
    call("ingress", &[("peer", Bytes), ("out", Room)]),
];
