//! Calls about one peer, and queries of what they changed, with enough memory.

use super::Exported;
use super::given::{asked, info, infos, key, keys, session, tracking};
use p2p_directory_sys::NONE;

tests_of_each_pair! {
    a_set_is_taken_once,
    a_reserved_peer_is_torn_down,
    a_record_goes_with_its_reservation,
    an_info_is_told,
    a_reservation_is_told,
    a_draw_is_waited_for,
    a_block_is_told,
    a_block_ends,
    who_may_be_dialled_or_come_is_told,
    who_may_listen_is_told,
    an_address_is_told,
    who_can_be_dialled_is_told,
    a_cooldown_is_forgotten,
}

fn a_set_is_taken_once<P: Exported>() {
    let session = session::<P>(9);
    let mut room = vec![0; P::KEY_SIZE];
    assert_eq!(session.track(0, &key::<P>(1), &[], &mut room), 0);
    assert_eq!(session.track(0, &key::<P>(2), &[], &mut room), NONE);
    assert_eq!(session.tracked(), 1);
    assert_eq!(session.track_room(), P::KEY_SIZE as u64);
}

fn a_reserved_peer_is_torn_down<P: Exported>() {
    let session = tracking::<P>(9, &[1]);
    assert_eq!(session.listen(&key::<P>(1), 100, 0, 0, 0), 1);
    let torn = asked(|room| session.track(1, &key::<P>(2), &[], room));
    assert_eq!(torn, key::<P>(1));
}

fn a_record_goes_with_its_reservation<P: Exported>() {
    let session = tracking::<P>(9, &[1]);
    assert_eq!(session.listen(&key::<P>(1), 100, 0, 0, 0), 1);
    assert_eq!(
        session.track(1, &key::<P>(2), &[], &mut vec![0; P::KEY_SIZE]),
        P::KEY_SIZE as u64
    );
    assert_eq!(session.status(&key::<P>(1)), 1);
    assert_eq!(session.release(&key::<P>(1)), 1);
    assert_eq!(session.status(&key::<P>(1)), NONE);
}

fn an_info_is_told<P: Exported>() {
    let session = tracking::<P>(9, &[1]);
    assert_eq!(session.update_peers(&infos::<P>(&[(1, 100)])), 1);
    assert_eq!(session.info(&key::<P>(1), &mut [0; 256]), NONE);
    assert_eq!(session.listen(&key::<P>(1), 100, 0, 0, 0), 1);
    assert_eq!(session.connect(&key::<P>(1), false), 1);
    assert_eq!(session.status(&key::<P>(1)), 2);
    assert_eq!(
        asked(|room| session.info(&key::<P>(1), room)),
        info::<P>(1, 100)
    );
}

fn a_reservation_is_told<P: Exported>() {
    let session = tracking::<P>(9, &[1, 2]);
    assert_eq!(session.update_peers(&infos::<P>(&[(1, 100)])), 1);
    assert_eq!(session.dial(&key::<P>(1), 100, 0, 0, 0), 1);
    let dialled = asked(|room| session.reservation(&key::<P>(1), room));
    assert_eq!(dialled, [1, 0, 4, 1, 2, 3, 4, 31, 65]);
    assert_eq!(session.reservation(&key::<P>(2), &mut [0; 64]), NONE);
    assert_eq!(session.listen(&key::<P>(2), 100, 0, 0, 0), 1);
    assert_eq!(asked(|room| session.reservation(&key::<P>(2), room)), [0]);
}

// The dial time is the end of the cooldown, plus the draw of one second.
fn a_draw_is_waited_for<P: Exported>() {
    let session = tracking::<P>(9, &[1]);
    assert_eq!(session.update_peers(&infos::<P>(&[(1, 100)])), 1);
    assert_eq!(session.dial(&key::<P>(1), 100, 0, 1, 7), 1);
    assert_eq!(session.release(&key::<P>(1)), 1);
    let waits = [1, 0, 0, 0, 0, 0, 0, 0, 111, 0, 0, 0, 7];
    assert_eq!(asked(|room| session.dialable(111, 6, room)), waits);
    let now = [&[0][..], &key::<P>(1)].concat();
    assert_eq!(asked(|room| session.dialable(111, 7, room)), now);
}

fn a_block_is_told<P: Exported>() {
    let session = tracking::<P>(9, &[2]);
    assert_eq!(session.next_unblock(&mut [0; 64]), NONE);
    assert_eq!(session.block(&key::<P>(2), 100, 5), 1);
    assert_eq!(session.block(&key::<P>(2), 100, 5), 0);
    let moment = [0, 0, 0, 0, 0, 0, 0, 160, 0, 0, 0, 5];
    assert_eq!(asked(|room| session.next_unblock(room)), moment);
}

fn a_block_ends<P: Exported>() {
    let session = tracking::<P>(9, &[2]);
    assert_eq!(session.block(&key::<P>(2), 100, 5), 1);
    assert_eq!(
        asked(|room| session.blocked_peers(100, 5, room)),
        key::<P>(2)
    );
    assert_eq!(session.unblock_expired(160, 4), 0);
    assert_eq!(session.unblock_expired(160, 5), 1);
    assert_eq!(session.blocked_peers(160, 5, &mut [0; 64]), 0);
}

fn who_may_be_dialled_or_come_is_told<P: Exported>() {
    let session = tracking::<P>(9, &[1]);
    assert_eq!(session.eligible(&key::<P>(1), 100, 5), 1);
    assert_eq!(session.eligible(&key::<P>(2), 100, 5), 0);
    assert_eq!(session.acceptable(&key::<P>(1), 100, 5), 1);
    assert_eq!(session.acceptable(&key::<P>(2), 100, 5), 0);
    assert_eq!(session.listen(&key::<P>(1), 100, 5, 0, 0), 1);
    assert_eq!(session.eligible(&key::<P>(1), 100, 5), 1);
    assert_eq!(session.acceptable(&key::<P>(1), 100, 5), 0);
}

fn who_may_listen_is_told<P: Exported>() {
    let session = tracking::<P>(9, &[1]);
    assert_eq!(session.may_listen(&key::<P>(1), 100, 5), 1);
    assert_eq!(session.may_listen(&key::<P>(2), 100, 5), 0);
    assert_eq!(session.listen(&key::<P>(1), 100, 5, 0, 0), 1);
    assert_eq!(session.may_listen(&key::<P>(1), 200, 5), 0);
}

// The own address, that of a peer's newest info, and none.
fn an_address_is_told<P: Exported>() {
    let session = tracking::<P>(9, &[1]);
    assert_eq!(session.ingress(&key::<P>(1), &mut [0; 64]), NONE);
    assert_eq!(session.ingress(&key::<P>(2), &mut [0; 64]), NONE);
    assert_eq!(session.update_peers(&infos::<P>(&[(1, 100)])), 1);
    let held = asked(|room| session.ingress(&key::<P>(1), room));
    assert_eq!(held, [0, 4, 1, 2, 3, 4, 31, 65]);
    let own = asked(|room| session.ingress(&key::<P>(9), room));
    assert_eq!(own.len(), 8);
}

fn who_can_be_dialled_is_told<P: Exported>() {
    let session = tracking::<P>(9, &[1]);
    assert_eq!(asked(|room| session.dialable(100, 5, room)), [0]);
    assert_eq!(session.update_peers(&infos::<P>(&[(1, 100)])), 1);
    let now = [&[0][..], &keys::<P>(&[1])].concat();
    assert_eq!(asked(|room| session.dialable(100, 5, room)), now);
}

fn a_cooldown_is_forgotten<P: Exported>() {
    let session = tracking::<P>(9, &[1]);
    assert_eq!(session.listen(&key::<P>(1), 100, 5, 0, 0), 1);
    assert_eq!(session.listen(&key::<P>(1), 100, 5, 0, 0), 0);
    assert_eq!(session.forget_cooled(110, 4), 0);
    assert_eq!(session.forget_cooled(110, 5), 1);
}
