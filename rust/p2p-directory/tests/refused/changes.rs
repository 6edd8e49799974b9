//! Calls that change something, one after the other, in the states that `state` prepares.

use super::state::{
    State, blocking, dialling, empty, introduced, known, named_info, new, peers, retaining, said,
    seconds, set, text, two_sets,
};
use super::{Case, longer_info, longer_key};
use p2p_directory::sized::testing::{info, key, setup};
use p2p_directory::sized::{Pair, Tracked};
use p2p_directory::{Ingress, OutOfMemory};
use std::net::SocketAddr;

// So many bootstrappers with sockets, with the local key among them, one with a name, and one that
// occurs twice.
fn bootstrappers<P: Pair>(count: u16) -> Vec<(P::Key, Ingress)> {
    let at = |number: u16| Ingress::from(SocketAddr::from(([1, 2, 3, 4], 8000 + number)));
    let named = named_info::<P>(20, 0, "a.b").ingress;
    let mut given: Vec<_> = (1..=count)
        .map(|number| (key::<P>(number), at(number)))
        .collect();
    given.push((key::<P>(20), named));
    given.push((key::<P>(1), at(18)));
    given
}

fn tracked<P: Pair>(
    state: &mut State<P>,
    index: u64,
    primary: &[u16],
    secondary: &[u16],
) -> Result<String, OutOfMemory> {
    let peers = peers(primary, secondary);
    said(state.directory_mut().track(index, &peers))
}

fn nobody<P: Pair>() -> String {
    text(Tracked::<P>::Accepted(set(&[])))
}

fn block<P: Pair>(state: &mut State<P>, number: u16, now: u64) -> Result<String, OutOfMemory> {
    said(state.directory_mut().block(&key::<P>(number), seconds(now)))
}

// Twenty peers, and four.
const MANY: [u16; 20] = [
    10, 11, 12, 13, 14, 15, 16, 17, 18, 19, 20, 21, 22, 23, 24, 25, 26, 27, 28, 29,
];

pub fn changes<P: Pair>() -> Vec<Case<P>> {
    vec![
        Case {
            name: "init of nobody",
            prepared: State::nothing,
            call: |state| said(state.make(setup(9))),
            answer: || text(()),
            requests: 6,
            // A node of records (3,968), the namespace, the encoding of the local info and its control
            // block.
            bytes: 4112 + 15 * longer_key::<P>() + 16 * longer_info::<P>(),
        },
        Case {
            name: "init with bootstrappers",
            prepared: State::nothing,
            call: |state| {
                let mut setup = setup(9);
                setup.bootstrappers = bootstrappers::<P>(17);
                said(state.make(setup))
            },
            answer: || text(()),
            requests: 15,
            // Two nodes of records (3,968 each) and one with edges (4,096), the list of bootstrappers
            // (2,304).
            bytes: 14_496 + 77 * longer_key::<P>() + 46 * longer_info::<P>(),
        },
        Case {
            name: "track the first set",
            prepared: empty,
            call: |state| tracked(state, 7, &[1, 2], &[3]),
            answer: nobody::<P>,
            requests: 8,
            // The window (352) and its links (128), the primary keys (64), the secondary ones that
            // aren't primary (128), their positions before (32) and now (96), bits.
            bytes: 801 + 8 * longer_key::<P>(),
        },
        Case {
            name: "track a set for which another goes",
            prepared: known,
            call: |state| tracked(state, 1, &[1, 7], &[11]),
            answer: || text(Tracked::<P>::Accepted(set(&[2, 3]))),
            requests: 7,
            // The lists of keys (192), the list of peers that must be disconnected (160), their
            // positions before (32), the positions of five peers (240), bits.
            bytes: 625 + 16 * longer_key::<P>(),
        },
        Case {
            name: "track a set of many peers",
            prepared: new,
            call: |state| tracked(state, 1, &MANY, &[30, 31, 32, 33]),
            answer: nobody::<P>,
            requests: 10,
            // Two nodes of records (3,968 each) and one with edges (4,096), the lists of keys (768),
            // the positions of each before (16), and those of all (48 each).
            bytes: 13_603 + 95 * longer_key::<P>() + 45 * longer_info::<P>(),
        },
        Case {
            name: "track a third set of three",
            prepared: two_sets,
            call: |state| tracked(state, 2, &[1, 2, 3, 10, 11, 12, 13, 14], &[]),
            answer: nobody::<P>,
            requests: 4,
            // The keys (256), their positions before (128), the positions of eight peers (384), the
            // bits.
            bytes: 769 + 16 * longer_key::<P>(),
        },
        Case {
            name: "track a fourth set, for which the window grows",
            prepared: || (0..4).fold(retaining(8), |state, index| state.tracks(index, &[1], &[])),
            call: |state| tracked(state, 4, &[1], &[]),
            answer: nobody::<P>,
            requests: 5,
            // A window with space for eight sets (704), and the key. No peer is new, so there are no
            // new positions.
            bytes: 737 + longer_key::<P>(),
        },
        Case {
            name: "track a set that isn't above the latest",
            prepared: known,
            call: |state| tracked(state, 0, &[1], &[]),
            answer: || text(Tracked::<P>::Stale),
            requests: 1,
            // Its key.
            bytes: 32 + longer_key::<P>(),
        },
        Case {
            name: "track a set of nobody that isn't above the latest",
            prepared: known,
            call: |state| tracked(state, 0, &[], &[]),
            answer: || text(Tracked::<P>::Stale),
            requests: 0,
            bytes: 0,
        },
        Case {
            name: "listen to the first",
            prepared: new,
            call: |state| said(state.listen(1, seconds(100))),
            answer: || text(true),
            requests: 2,
            // A node of slots (1,808), and one of times (968).
            bytes: 2784 + 45 * longer_key::<P>(),
        },
        Case {
            name: "listen where there is room",
            prepared: known,
            call: |state| said(state.listen(5, seconds(100))),
            answer: || text(true),
            requests: 0,
            bytes: 0,
        },
        Case {
            name: "listen to a sixteenth",
            prepared: || {
                (1..16).fold(empty().tracks(0, &MANY, &[]), |state, number| {
                    state.listened(9 + number)
                })
            },
            call: |state| said(state.listen(29, seconds(100))),
            answer: || text(true),
            requests: 4,
            // A second node of slots (1,808) and one with edges (1,936), and of times (968 and 1,096).
            bytes: 5808 + 90 * longer_key::<P>(),
        },
        Case {
            name: "dial the first, at a socket",
            prepared: introduced,
            call: |state| said(state.dial(1, seconds(100))),
            answer: || text(true),
            requests: 2,
            // As for an inbound peer.
            bytes: 2784 + 45 * longer_key::<P>(),
        },
        Case {
            name: "dial the first, at a name",
            prepared: introduced,
            call: |state| said(state.dial(2, seconds(100))),
            answer: || text(true),
            requests: 3,
            // As for an inbound peer, and the name.
            bytes: 2784 + 45 * longer_key::<P>(),
        },
        Case {
            name: "dial a second, at a name",
            prepared: dialling,
            call: |state| said(state.dial(2, seconds(100))),
            answer: || text(true),
            requests: 1,
            // The name.
            bytes: 16,
        },
        Case {
            name: "dial where there is room",
            prepared: known,
            call: |state| said(state.dial(5, seconds(100))),
            answer: || text(true),
            requests: 0,
            bytes: 0,
        },
        Case {
            name: "listen to a stranger, for whom there is no room yet",
            prepared: new,
            call: |state| said(state.listen(7, seconds(100))),
            answer: || text(false),
            requests: 1,
            // A node of slots, which is emptied again.
            bytes: 1808 + 30 * longer_key::<P>(),
        },
        Case {
            name: "listen to a stranger where there is room",
            prepared: known,
            call: |state| said(state.listen(7, seconds(100))),
            answer: || text(false),
            requests: 0,
            bytes: 0,
        },
        Case {
            name: "dial a stranger, for whom there is no room yet",
            prepared: new,
            call: |state| said(state.dial(7, seconds(100))),
            answer: || text(false),
            requests: 1,
            // A node of slots, which is emptied again.
            bytes: 1808 + 30 * longer_key::<P>(),
        },
        Case {
            name: "dial a stranger where there is room",
            prepared: known,
            call: |state| said(state.dial(7, seconds(100))),
            answer: || text(false),
            requests: 0,
            bytes: 0,
        },
        Case {
            name: "block the first",
            prepared: new,
            call: |state| block(state, 1, 100),
            answer: || text(true),
            requests: 2,
            // A node of blocks (728), and one of their ends (736).
            bytes: 1472 + 30 * longer_key::<P>(),
        },
        Case {
            name: "block a sixteenth",
            prepared: || blocking(15),
            call: |state| block(state, 25, 100),
            answer: || text(true),
            requests: 4,
            // A second node of blocks (728) and one with edges (856), and the same of their ends (736,
            // 864).
            bytes: 3184 + 60 * longer_key::<P>(),
        },
        Case {
            name: "block one that is blocked",
            prepared: known,
            call: |state| block(state, 6, 100),
            answer: || text(false),
            requests: 0,
            bytes: 0,
        },
        Case {
            name: "block one whose block is over, where there is room",
            prepared: known,
            call: |state| block(state, 4, 100),
            answer: || text(true),
            requests: 0,
            bytes: 0,
        },
        Case {
            name: "block one whose block is over, where there is no room for another end",
            prepared: || blocking(15),
            call: |state| block(state, 10, 200),
            answer: || text(true),
            requests: 2,
            // Two more nodes of ends, the new one in addition to the old.
            bytes: 1600 + 30 * longer_key::<P>(),
        },
        Case {
            name: "update_peers at a socket and at a name",
            prepared: known,
            call: |state| {
                let infos = [info(3, 2000), named_info(5, 2000, "c.d"), info(1, 2000)];
                said(state.directory_mut().update_peers(&infos))
            },
            answer: || text(()),
            requests: 4,
            // The copy of the list (318), three infos (432), the name.
            bytes: 800 + 6 * longer_info::<P>(),
        },
        Case {
            name: "update_peers with no infos",
            prepared: known,
            call: |state| said(state.directory_mut().update_peers(&[])),
            answer: || text(()),
            requests: 2,
            // The copy of the list, with its control block.
            bytes: 48,
        },
    ]
}
