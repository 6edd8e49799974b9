//! What a node counts: events, and refusals by kind.

use crate::json::Object;
use std::sync::atomic::{AtomicU64, Ordering};

/// Declares an enum whose variants have names in the status line.
macro_rules! counted {
    ($(#[$about:meta])* $type:ident { $($(#[$doc:meta])* $variant:ident = $name:literal,)* }) => {
        $(#[$about])*
        #[derive(Clone, Copy, Debug, PartialEq, Eq)]
        pub enum $type {
            $($(#[$doc])* $variant,)*
        }

        impl $type {
            /// Each value, in the order of the status line.
            pub const ALL: [$type; [$($name),*].len()] = [$($type::$variant),*];

            /// The name in the status line.
            #[must_use]
            pub const fn name(self) -> &'static str {
                match self {
                    $($type::$variant => $name,)*
                }
            }
        }
    };
}

counted! {
    /// An event that is counted.
    Event {
        /// A frame was read from a stream.
        FrameIn = "frames_in",
        /// A frame was written to a stream.
        FrameOut = "frames_out",
        /// A frame of a peer that sends too many had to wait, and the peer's further ones with it.
        Delayed = "frames_delayed",
        /// A reply was dropped, since the peer doesn't read.
        ReplyDropped = "replies_dropped",
        /// A reply had more infos than peers accept, and was made again with fewer.
        ReplyCut = "replies_cut",
        /// A message of a peer was dropped, since there is no application.
        Message = "messages",
        /// A dial led to no connection.
        DialFailed = "dials_failed",
        /// A peer was blocked.
        Blocked = "blocks",
        /// A call was refused memory: the frame, the round or the connection was left out.
        OutOfMemory = "memory_refusals",
        /// A thread could not be started.
        NoThread = "thread_refusals",
        /// The system could not accept a stream.
        NoStream = "accept_refusals",
        /// A file with a set was refused.
        SetRefused = "set_refusals",
        /// A line of the ledger could not be written.
        LedgerLost = "ledger_losses",
    }
}

counted! {
    /// Why a peer, or a stream, was refused.
    Refusal {
        /// There were as many inbound handshakes as there may be, and one of them gave way.
        HandshakeLimit = "handshake_limit",
        /// There are as many inbound handshakes of an address as there may be.
        AddressLimit = "address_limit",
        /// The stream ended during the handshake, or took too long.
        HandshakeStream = "handshake_stream",
        /// A dialer has a key that isn't accepted now.
        NotAcceptable = "not_acceptable",
        /// A listener has another key than the one that was dialled.
        WrongKey = "wrong_key",
        /// The other side sent the own nonce or the own key.
        Reflected = "reflected",
        /// The signature of the handshake is wrong.
        HandshakeSignature = "handshake_signature",
        /// The peer may not connect any more after its handshake.
        NotGranted = "not_granted",
        /// There are as many connections as there may be.
        ConnectionLimit = "connection_limit",
        /// A frame is longer than frames may be.
        FrameLength = "frame_length",
        /// The first frame isn't the greeting of the peer, or a later one is a greeting.
        Greeting = "greeting",
        /// A frame encodes no payload.
        Codec = "codec",
        /// A question has another number of bits than its set has peers.
        Malformed = "malformed",
        /// There are more infos than may be.
        TooManyPeers = "too_many_peers",
        /// A peer sent the own info.
        ReceivedSelf = "received_self",
        /// The signature of an info is wrong.
        InvalidSignature = "invalid_signature",
        /// The timestamp of an info is too far ahead.
        SynchronyBound = "synchrony_bound",
        /// A refusal of a kind that this version doesn't know.
        Other = "other",
    }
}

/// The counts of a node since it started.
#[derive(Debug)]
pub struct Counts {
    events: [AtomicU64; Event::ALL.len()],
    refusals: [AtomicU64; Refusal::ALL.len()],
}

impl Default for Counts {
    fn default() -> Counts {
        Counts {
            events: [const { AtomicU64::new(0) }; Event::ALL.len()],
            refusals: [const { AtomicU64::new(0) }; Refusal::ALL.len()],
        }
    }
}

impl Counts {
    /// Counts an event.
    pub fn event(&self, event: Event) {
        self.events[event as usize].fetch_add(1, Ordering::Relaxed);
    }

    /// Counts a refusal.
    pub fn refusal(&self, refusal: Refusal) {
        self.refusals[refusal as usize].fetch_add(1, Ordering::Relaxed);
    }

    /// Adds each count to a status line, and the refusals as an object.
    #[must_use]
    pub fn write(&self, line: Object) -> Object {
        let of = |count: &AtomicU64| count.load(Ordering::Relaxed);
        let events = Event::ALL.iter().zip(&self.events);
        let line = events.fold(line, |line, (event, count)| {
            line.number(event.name(), of(count))
        });
        let refusals = Refusal::ALL.iter().zip(&self.refusals);
        let refusals = refusals.fold(Object::new(), |object, (refusal, count)| {
            object.number(refusal.name(), of(count))
        });
        line.object("refusals", refusals)
    }
}

#[cfg(test)]
mod tests {
    use super::*;

    #[test]
    fn each_value_has_its_own_count() {
        let counts = Counts::default();
        counts.event(Event::FrameIn);
        counts.event(Event::LedgerLost);
        counts.refusal(Refusal::Other);
        counts.refusal(Refusal::Other);
        let line = counts.write(Object::new()).end();
        for part in [
            "\"frames_in\":1",
            "\"frames_out\":0",
            "\"ledger_losses\":1",
            "\"other\":2}",
        ] {
            assert!(line.contains(part), "{part}: {line}");
        }
        assert!(
            line.contains("\"refusals\":{\"handshake_limit\":0,"),
            "{line}"
        );
    }
}
