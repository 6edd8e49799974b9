//! Frames of each kind, and each refusal of them: first the results of `check`, with enough memory,
//! then those of `receive`.

use super::state::{State, empty, known, named_info, new, said, seconds, text};
use super::{Case, longer_info};
use p2p_directory::sized::testing::{NAMESPACE, info, key, setup};
use p2p_directory::sized::{Bytes, Info, Pair, Payload, Received};
use p2p_directory::{CodecError, Error, OutOfMemory, What};

fn greeting<P: Pair>(state: &mut State<P>, info: Info<P>, now: u64) -> Result<String, OutOfMemory> {
    said(state.receives(Payload::Greeting(info), now))
}

fn infos<P: Pair>(
    state: &mut State<P>,
    infos: &[Info<P>],
    now: u64,
) -> Result<String, OutOfMemory> {
    said(state.receives(Payload::Peers(infos.to_vec()), now))
}

fn frame<P: Pair>(state: &mut State<P>, frame: &[u8]) -> Result<String, OutOfMemory> {
    said(state.receive(frame, seconds(100)))
}

// An info whose signature is invalid.
fn forged<P: Pair>(number: u16) -> Info<P> {
    let ingress = info::<P>(number, 0).ingress;
    Info::sign(key::<P>(number), NAMESPACE, ingress, 2000, |_, _| {
        P::Signature::of_bytes(&vec![7; P::SIGNATURE_SIZE]).expect("bytes")
    })
}

// A node that accepts one info at a time.
fn one_at_a_time<P: Pair>() -> State<P> {
    let mut setup = setup(9);
    setup.peer_gossip_max_count = 1;
    State::of(setup).tracks(0, &[1, 2], &[])
}

fn invalid<P: Pair>(error: Error) -> String {
    text(Received::<P>::Invalid(error))
}

fn fault<P: Pair>(fault: CodecError) -> String {
    text(Received::<P>::Codec(fault))
}

pub fn frames<P: Pair>() -> Vec<Case<P>> {
    vec![
        Case {
            name: "a greeting from a name",
            prepared: new,
            call: |state| greeting(state, named_info(2, 1000, "a.b"), 100),
            answer: || text(Received::<P>::Greeted(key::<P>(2))),
            requests: 5,
            // A list of one info (144), and the name; before that the copy of the frame.
            bytes: 160 + longer_info::<P>(),
        },
        Case {
            name: "a greeting from a socket",
            prepared: new,
            call: |state| greeting(state, info(1, 1000), 100),
            answer: || text(Received::<P>::Greeted(key::<P>(1))),
            requests: 4,
            // A list of one info (144), and the verification result; before that the copy of the frame.
            bytes: 160 + longer_info::<P>(),
        },
        Case {
            name: "a greeting of the own key",
            prepared: new,
            call: |state| greeting(state, info(9, 1000), 100),
            answer: || invalid::<P>(Error::ReceivedSelf),
            requests: 3,
            // The copy of the frame, with its control block.
            bytes: 144 + longer_info::<P>(),
        },
        Case {
            name: "a greeting from the future",
            prepared: new,
            call: |state| greeting(state, info(1, 130_001), 100),
            answer: || invalid::<P>(Error::SynchronyBound),
            requests: 3,
            // The copy of the frame, with its control block.
            bytes: 144 + longer_info::<P>(),
        },
        Case {
            name: "a greeting whose signature isn't right",
            prepared: new,
            call: |state| greeting(state, forged(1), 100),
            answer: || invalid::<P>(Error::InvalidSignature),
            requests: 3,
            // The copy of the frame, with its control block.
            bytes: 144 + longer_info::<P>(),
        },
        Case {
            name: "bits, which are replied to",
            prepared: known,
            call: |state| frame(state, &[2, 0, 4, 0b10]),
            answer: || {
                let reply = Payload::Peers(vec![info::<P>(1, 1000)]).encode();
                text(Received::<P>::Reply(reply))
            },
            requests: 4,
            // Space for four infos (576), and the bits.
            bytes: 584 + 4 * longer_info::<P>(),
        },
        Case {
            name: "bits of an unknown set",
            prepared: known,
            call: |state| frame(state, &[2, 7, 0]),
            answer: || text(Received::<P>::Reply(vec![3, 0])),
            requests: 2,
            // The copy of the frame, with its control block.
            bytes: 48,
        },
        Case {
            name: "bits of another number",
            prepared: known,
            call: |state| frame(state, &[2, 0, 3, 0]),
            answer: || text(Received::<P>::Malformed),
            requests: 3,
            // The copy of the frame with its control block, and the bits.
            bytes: 48,
        },
        Case {
            name: "infos, which are applied",
            prepared: known,
            call: |state| infos(state, &[info(1, 2000), info(3, 2000)], 100),
            answer: || text(Received::<P>::Applied(2)),
            requests: 4,
            // A list of two infos (288), the copy of the frame (214), its control block, the
            // verification results.
            bytes: 544 + 4 * longer_info::<P>(),
        },
        Case {
            name: "infos, which are applied in two steps",
            prepared: known,
            call: |state| {
                let payload = Payload::Peers(vec![info(1, 2000), info(3, 2000)]);
                said(state.receive_judged(&payload, 100, &[true; 2]))
            },
            answer: || text(Received::<P>::Applied(2)),
            requests: 4,
            // The same as in one step.
            bytes: 544 + 4 * longer_info::<P>(),
        },
        Case {
            name: "infos at names",
            prepared: known,
            call: |state| {
                let named = [named_info(3, 2000, "c.d"), named_info(5, 2000, "e.f")];
                infos(state, &named, 100)
            },
            answer: || text(Received::<P>::Applied(2)),
            requests: 6,
            // As before, and two names.
            bytes: 544 + 4 * longer_info::<P>(),
        },
        Case {
            name: "no infos",
            prepared: known,
            call: |state| infos(state, &[], 100),
            answer: || text(Received::<P>::Applied(0)),
            requests: 2,
            // The copy of the frame, with its control block.
            bytes: 48,
        },
        Case {
            name: "infos with one of the own key",
            prepared: known,
            call: |state| infos(state, &[info(1, 2000), info(9, 2000)], 100),
            answer: || invalid::<P>(Error::ReceivedSelf),
            requests: 4,
            // As for two infos.
            bytes: 544 + 4 * longer_info::<P>(),
        },
        Case {
            name: "infos with one from the future",
            prepared: known,
            call: |state| infos(state, &[info(1, 2000), info(3, 130_001)], 100),
            answer: || invalid::<P>(Error::SynchronyBound),
            requests: 4,
            // As for two infos.
            bytes: 544 + 4 * longer_info::<P>(),
        },
        Case {
            name: "infos with one whose signature isn't right",
            prepared: known,
            call: |state| infos(state, &[info(1, 2000), forged(3)], 100),
            answer: || invalid::<P>(Error::InvalidSignature),
            requests: 4,
            // As for two infos.
            bytes: 544 + 4 * longer_info::<P>(),
        },
        Case {
            name: "infos that are too many",
            prepared: one_at_a_time,
            call: |state| infos(state, &[info(1, 2000), info(2, 2000)], 100),
            answer: || invalid::<P>(Error::TooManyPeers(2)),
            requests: 4,
            // As for two infos.
            bytes: 544 + 4 * longer_info::<P>(),
        },
        Case {
            name: "data",
            prepared: known,
            call: |state| frame(state, b"\0\x01\x05hello"),
            answer: || {
                text(Received::<P>::Data {
                    channel: 1,
                    message: 3..8,
                })
            },
            requests: 2,
            // The copy of the frame, with its control block: the result is its channel and its length.
            bytes: 48,
        },
        Case {
            name: "a frame of another prefix",
            prepared: known,
            call: |state| frame(state, &[4, 0, 1]),
            answer: || fault::<P>(CodecError::InvalidEnum(4)),
            requests: 2,
            // The copy of the frame, with its control block.
            bytes: 48,
        },
        Case {
            name: "a frame that ends too early",
            prepared: known,
            call: |state| frame(state, &[2, 0, 9, 0]),
            answer: || fault::<P>(CodecError::EndOfBuffer),
            requests: 2,
            // The copy of the frame, with its control block.
            bytes: 48,
        },
        Case {
            name: "a frame with bytes behind its value",
            prepared: known,
            call: |state| frame(state, &[2, 0, 4, 0, 0]),
            answer: || fault::<P>(CodecError::ExtraData(1)),
            requests: 3,
            // The copy of the frame with its control block, and the bits.
            bytes: 48,
        },
        Case {
            name: "a frame of too many bits",
            prepared: known,
            call: |state| frame(state, &[2, 0, 0x81, 0x08, 0]),
            answer: || fault::<P>(CodecError::InvalidLength(1025)),
            requests: 2,
            // The copy of the frame, with its control block.
            bytes: 48,
        },
        Case {
            name: "a frame with a padded number",
            prepared: known,
            call: |state| frame(state, &[2, 0x80, 0, 0]),
            answer: || fault::<P>(CodecError::InvalidVarint(10)),
            requests: 2,
            // The copy of the frame, with its control block.
            bytes: 48,
        },
        Case {
            name: "a frame with padding bits",
            prepared: known,
            call: |state| frame(state, &[2, 0, 4, 0x10]),
            answer: || fault::<P>(CodecError::Invalid(What::Padding)),
            requests: 2,
            // The copy of the frame, with its control block.
            bytes: 48,
        },
        Case {
            name: "a greeting from no name",
            prepared: empty,
            call: |state| frame(state, &[1, 1, 1, b'-', 0, 80]),
            answer: || fault::<P>(CodecError::Invalid(What::Hostname)),
            requests: 4,
            // The copy of the frame, with its control block.
            bytes: 48,
        },
        Case {
            name: "infos of which the second ends too early",
            prepared: known,
            call: |state| {
                let two = vec![info::<P>(1, 2000), named_info(3, 2000, "c.d")];
                let whole = Payload::Peers(two).encode();
                frame(state, &whole[..whole.len() - 1])
            },
            answer: || fault::<P>(CodecError::EndOfBuffer),
            requests: 8,
            // As for two infos, with a name and without verification results.
            bytes: 544 + 4 * longer_info::<P>(),
        },
    ]
}

/// Frames with a key that begins with 4, if none can.
pub fn bad_keys<P: Pair>() -> Vec<Case<P>> {
    match P::KEY_SIZE {
        33 => vec![
            Case {
                name: "a greeting of a bad key",
                prepared: known,
                call: |state| frame(state, &spoilt(Payload::Greeting(info::<P>(1, 2000)))),
                answer: || fault::<P>(CodecError::Invalid(What::Key)),
                requests: 4,
                // The copy of the frame, with its control block.
                bytes: 144 + longer_info::<P>(),
            },
            Case {
                name: "infos of which the second has a bad key",
                prepared: known,
                call: |state| {
                    let two = vec![info::<P>(1, 2000), info(3, 2000)];
                    frame(state, &spoilt(Payload::Peers(two)))
                },
                answer: || fault::<P>(CodecError::Invalid(What::Key)),
                requests: 6,
                // As for two infos.
                bytes: 544 + 4 * longer_info::<P>(),
            },
        ],
        _ => Vec::new(),
    }
}

// The frame, with another first byte of the key at its end.
fn spoilt<P: Pair>(payload: Payload<P>) -> Vec<u8> {
    let mut frame = payload.encode();
    let place = frame.len() - P::KEY_SIZE - P::SIGNATURE_SIZE;
    frame[place] = 4;
    frame
}
