//! Queries whose results are allocated.

use super::state::{known, named_info, peers, said, seconds, set, text};
use super::{Case, longer_info, longer_key};
use p2p_directory::sized::Pair;
use p2p_directory::sized::testing::{info, key};
use p2p_directory::{BitVec, Moment};

fn bit_vec(index: u64, bits: &[bool]) -> BitVec {
    BitVec {
        index,
        bits: bits.to_vec(),
    }
}

pub fn questions<P: Pair>() -> Vec<Case<P>> {
    vec![
        Case {
            name: "infos",
            prepared: known,
            call: |state| {
                let nobody = bit_vec(0, &[false; 4]);
                said(state.directory().infos(&nobody, seconds(100)))
            },
            answer: || text(Some([info::<P>(1, 1000), named_info(2, 1000, "a.b")])),
            requests: 5,
            // Space for four infos (576), the name, and the bits.
            bytes: 592 + 4 * longer_info::<P>(),
        },
        Case {
            name: "infos of an unknown set",
            prepared: known,
            call: |state| {
                let unknown = bit_vec(7, &[false; 4]);
                said(state.directory().infos(&unknown, seconds(100)))
            },
            answer: || text(Some(Vec::<()>::new())),
            requests: 3,
            // The copy of the bits with its control block, and the bits.
            bytes: 48,
        },
        Case {
            name: "infos for another number of bits",
            prepared: known,
            call: |state| {
                let fewer = bit_vec(0, &[false; 3]);
                said(state.directory().infos(&fewer, seconds(100)))
            },
            answer: || text(None::<()>),
            requests: 3,
            // The copy of the bits with its control block, and the bits.
            bytes: 48,
        },
        Case {
            name: "dialable",
            prepared: known,
            call: |state| {
                let dialable = state.directory().dialable(seconds(100));
                said(dialable.map(|told| (told.peers, told.next_query_at)))
            },
            answer: || text((vec![key::<P>(5)], None::<Moment>)),
            requests: 1,
            // Space for four keys.
            bytes: 128 + 4 * longer_key::<P>(),
        },
        Case {
            name: "blocked_peers",
            prepared: known,
            call: |state| said(state.directory().blocked_peers(seconds(99))),
            answer: || text(set::<P>(&[4, 6])),
            requests: 1,
            // Space for four keys.
            bytes: 128 + 4 * longer_key::<P>(),
        },
        Case {
            name: "info at a socket",
            prepared: known,
            call: |state| said(state.directory().info(&key::<P>(1))),
            answer: || text(Some(info::<P>(1, 1000))),
            requests: 0,
            // It is written where it is copied.
            bytes: 0,
        },
        Case {
            name: "info at a name",
            prepared: known,
            call: |state| said(state.directory().info(&key::<P>(2))),
            answer: || text(Some(named_info::<P>(2, 1000, "a.b"))),
            requests: 1,
            // The name.
            bytes: 8,
        },
        Case {
            name: "get_peer_set",
            prepared: known,
            call: |state| said(state.directory().get_peer_set(0)),
            answer: || text(Some(peers::<P>(&[1, 2, 3, 5], &[4]))),
            requests: 2,
            // Two lists with space for four keys each.
            bytes: 256 + 8 * longer_key::<P>(),
        },
        Case {
            name: "all",
            prepared: known,
            call: |state| said(state.directory().all()),
            answer: || text(peers::<P>(&[1, 2, 3, 5], &[4])),
            requests: 2,
            // Two lists with space for four keys each.
            bytes: 256 + 8 * longer_key::<P>(),
        },
        Case {
            name: "latest_update",
            prepared: known,
            call: |state| {
                let latest = state.directory().latest_update();
                said(latest.map(|told| told.map(|told| (told.index, told.latest, told.all))))
            },
            answer: || {
                let peers = peers::<P>(&[1, 2, 3, 5], &[4]);
                text(Some((0, &peers, &peers)))
            },
            requests: 4,
            // Four lists with space for four keys each.
            bytes: 512 + 16 * longer_key::<P>(),
        },
        Case {
            name: "get_random_bit_vec",
            prepared: known,
            call: |state| said(state.directory().get_random_bit_vec(0)),
            answer: || text(Some(bit_vec(0, &[true, true, false, true]))),
            requests: 3,
            // The bits, their encoding (8), and its control block.
            bytes: 48,
        },
        Case {
            name: "ask",
            prepared: known,
            call: |state| said(state.node().ask(0)),
            answer: || text(Some([2, 0, 4, 0b1011])),
            requests: 3,
            // The bits, the frame (8), and its control block.
            bytes: 48,
        },
    ]
}
