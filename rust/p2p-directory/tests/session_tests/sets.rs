//! Calls about sets, and queries of them, with enough memory.

use super::given::{asked, infos, key, keys, session, tracking};
use super::{Exported, Session};
use p2p_directory_sys::NONE;

tests_of_each_pair! {
    no_set_is_told_yet,
    a_set_is_told,
    all_peers_are_told,
    the_latest_set_is_told,
    what_is_wanted_is_told_as_bits,
    infos_that_may_be_shared_are_told,
}

fn numbers(numbers: &[u64]) -> Vec<u8> {
    let bytes = numbers.iter().flat_map(|number| number.to_be_bytes());
    bytes.collect()
}

fn no_set_is_told_yet<P: Exported>() {
    let session = session::<P>(9);
    let mut room = [0; 64];
    assert_eq!(session.latest_update(&mut room), NONE);
    assert_eq!(session.latest_set_index(&mut room), NONE);
    assert_eq!(session.get_peer_set(4, &mut room), NONE);
    assert_eq!(session.get_random_bit_vec(0, &mut room), NONE);
    assert_eq!(session.ask(0, &mut room), NONE);
}

fn a_set_is_told<P: Exported>() {
    let session = session::<P>(9);
    let primary = keys::<P>(&[2, 1, 2]);
    assert_eq!(session.track(5, &primary, &key::<P>(3), &mut [0; 128]), 0);
    let told = [numbers(&[2]), keys::<P>(&[1, 2, 3])].concat();
    assert_eq!(asked(|room| session.get_peer_set(5, room)), told);
    assert_eq!(session.get_peer_set(4, &mut [0; 128]), NONE);
}

fn all_peers_are_told<P: Exported>() {
    let session = tracking::<P>(9, &[1, 2]);
    assert_eq!(session.all(&mut []), 8 + 2 * P::KEY_SIZE as u64);
    let told = [numbers(&[2]), keys::<P>(&[1, 2])].concat();
    assert_eq!(asked(|room| session.all(room)), told);
    assert_eq!(asked(|room| session.latest_set_index(room)), numbers(&[0]));
}

fn the_latest_set_is_told<P: Exported>() {
    let session = session::<P>(9);
    assert_eq!(session.track(5, &key::<P>(1), &[], &mut [0; 128]), 0);
    let told = [numbers(&[5, 1, 0, 1]), keys::<P>(&[1, 1])].concat();
    assert_eq!(asked(|room| session.latest_update(room)), told);
}

fn what_is_wanted_is_told_as_bits<P: Exported>() {
    let session = tracking::<P>(9, &[1, 2]);
    assert_eq!(session.update_peers(&infos::<P>(&[(1, 100)])), 1);
    let bits = asked(|room| session.get_random_bit_vec(0, room));
    assert_eq!(bits, [0, 2, 1]);
    assert_eq!(asked(|room| session.ask(0, room)), [2, 0, 2, 1]);
}

// The infos for a peer that doesn't know the only primary peer, at 100 seconds.
fn infos_for_all<P: Exported>(session: &Session<P>) -> Vec<u8> {
    asked(|room| session.infos(&[0, 1, 0], 100, 0, room))
}

fn infos_that_may_be_shared_are_told<P: Exported>() {
    let session = tracking::<P>(9, &[1]);
    let told = infos::<P>(&[(1, 100)]);
    assert_eq!(session.update_peers(&told), 1);
    assert_eq!(infos_for_all::<P>(&session), [0]);
    assert_eq!(session.listen(&key::<P>(1), 100, 0, 0, 0), 1);
    assert_eq!(session.connect(&key::<P>(1), false), 1);
    assert_eq!(infos_for_all::<P>(&session), told);
    let two_bits = [0, 2, 0];
    assert_eq!(session.infos(&two_bits, 100, 0, &mut [0; 256]), NONE);
}
