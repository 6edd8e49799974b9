//! The original's tests of its directory, under their names, and worked examples of this
//! repository.

#[macro_use]
mod each_pair;

use p2p_directory::sized::testing::{self, config, directory, info, info_at, key};
use p2p_directory::sized::{Directory, Metadata, OrderedSet, Pair, Reservation, TrackedPeers};
use p2p_directory::{BitVec, Config, Ingress, Moment, NotReservedError, Status};
use std::net::SocketAddr;
use std::num::NonZeroUsize;
use std::time::Duration;

tests_of_each_pair! {
    test_track_kills_connected_peer_removed_from_sets,
    test_block_myself_no_panic_on_expiry,
    test_secondary_sets_remain_until_eviction,
    test_track_primary_secondary_overlap_deduplicates,
    test_demotion_from_primary_to_secondary,
    test_all_cross_index_primary_wins_for_overlap_peer,
    test_block_nonexistent_peer_then_add_to_set,
    a_record_lives_as_long_as_something_keeps_it,
    an_info_is_kept_while_a_new_set_names_its_peer,
    a_peer_is_dialable_later_than_reservable,
    a_block_outlives_the_record,
    a_block_of_no_duration_is_taken_and_blocks_nobody,
    the_first_of_the_greatest_timestamp_is_kept,
    infos_are_those_that_may_be_shared,
    edges_of_indices_and_of_what_is_refused,
    secondary_peers_come_but_are_not_dialled,
    who_may_listen_is_granted,
    the_address_that_is_held_is_told,
    a_blocked_peer_is_asked_for_again_at_its_end,
    a_later_bootstrapper_replaces_an_earlier_one,
    answers_longer_than_their_room_come_whole,
    many_are_torn_down_at_once,
    a_directory_goes_to_another_thread,
    settings_below_a_second_count,
}

fn set<P: Pair>(numbers: &[u16]) -> OrderedSet<P> {
    OrderedSet::from_iter_dedup(numbers.iter().map(|number| key::<P>(*number)))
}

fn peers<P: Pair>(primary: &[u16], secondary: &[u16]) -> TrackedPeers<P> {
    TrackedPeers::new(set(primary), set(secondary))
}

fn seconds(seconds: u64) -> Moment {
    Moment::from_secs(seconds)
}

fn nanos(seconds: u64, nanos: u32) -> Moment {
    Duration::new(seconds, nanos).into()
}

fn with_sets<P: Pair>(max_sets: usize) -> Directory<P> {
    let max_sets = NonZeroUsize::new(max_sets).unwrap();
    let cfg = Config {
        max_sets,
        ..config()
    };
    Directory::init(&[], &info(9, 0), cfg).unwrap()
}

// Registers the set, and returns the peers that must be disconnected.
fn track<P: Pair>(
    directory: &mut Directory<P>,
    index: u64,
    primary: &[u16],
) -> Option<OrderedSet<P>> {
    let tracked = directory.track(index, &set(primary).into()).unwrap();
    tracked.accepted()
}

fn listen<P: Pair>(
    directory: &mut Directory<P>,
    number: u16,
    now: Moment,
) -> Option<Reservation<P>> {
    directory
        .listen(&key::<P>(number), now, Duration::ZERO)
        .unwrap()
}

fn dial<P: Pair>(directory: &mut Directory<P>, number: u16, now: Moment) -> Option<Reservation<P>> {
    directory
        .dial(&key::<P>(number), now, Duration::ZERO)
        .unwrap()
}

fn test_track_kills_connected_peer_removed_from_sets<P: Pair>() {
    let mut directory = directory::<P>();
    track(&mut directory, 0, &[1]);
    let reservation = listen(&mut directory, 1, seconds(100)).unwrap();
    directory.connect(&key::<P>(1), false).unwrap();
    assert_eq!(track(&mut directory, 1, &[2]), Some(set(&[1])));
    assert_eq!(directory.status(&key::<P>(1)), Some(Status::Active));
    assert_eq!(reservation.public_key(), &key::<P>(1));
    directory.release(reservation).unwrap();
    assert_eq!(directory.status(&key::<P>(1)), None);
}

fn test_block_myself_no_panic_on_expiry<P: Pair>() {
    let mut directory = directory::<P>();
    assert!(!directory.block(&key::<P>(9), seconds(100)).unwrap());
    assert!(directory.blocked_peers(seconds(100)).unwrap().is_empty());
    assert_eq!(directory.next_unblock(), None);
    assert!(!directory.unblock_expired(seconds(200)));
}

fn test_secondary_sets_remain_until_eviction<P: Pair>() {
    let mut directory = with_sets::<P>(2);
    let now = seconds(100);
    directory
        .track(0, &peers(&[1], &[4]))
        .unwrap()
        .accepted()
        .unwrap();
    assert!(directory.eligible(&key::<P>(4), now));
    directory
        .track(1, &peers(&[2], &[5]))
        .unwrap()
        .accepted()
        .unwrap();
    assert!(directory.eligible(&key::<P>(4), now) && directory.eligible(&key::<P>(5), now));
    directory
        .track(2, &peers(&[3], &[]))
        .unwrap()
        .accepted()
        .unwrap();
    assert_eq!(directory.status(&key::<P>(4)), None);
    assert!(directory.eligible(&key::<P>(5), now));
}

fn test_track_primary_secondary_overlap_deduplicates<P: Pair>() {
    let mut directory = with_sets::<P>(3);
    directory
        .track(0, &peers(&[1, 2], &[2, 3]))
        .unwrap()
        .accepted()
        .unwrap();
    assert_eq!(
        directory.get_peer_set(0).unwrap(),
        Some(peers(&[1, 2], &[3]))
    );
    let update = directory.latest_update().unwrap().unwrap();
    assert_eq!(update.latest, peers(&[1, 2], &[3]));
    assert_eq!(directory.all().unwrap(), peers(&[1, 2], &[3]));
    assert_eq!(counts(&directory, 1, 2), (1, 0));
    assert_eq!(counts(&directory, 1, 3), (0, 1));
}

// In how many sets of the indices below this one a peer is primary, and secondary.
fn counts<P: Pair>(directory: &Directory<P>, end: u64, number: u16) -> (usize, usize) {
    let sets = (0..end).filter_map(|index| directory.get_peer_set(index).unwrap());
    let roles = sets.map(|set| {
        let is_in = |peers: &OrderedSet<P>| peers.position(&key::<P>(number)).is_some();
        (
            usize::from(is_in(&set.primary)),
            usize::from(is_in(&set.secondary)),
        )
    });
    roles.fold((0, 0), |sum, (primary, secondary)| {
        (sum.0 + primary, sum.1 + secondary)
    })
}

fn test_demotion_from_primary_to_secondary<P: Pair>() {
    let mut directory = with_sets::<P>(2);
    directory
        .track(0, &peers(&[1], &[2]))
        .unwrap()
        .accepted()
        .unwrap();
    assert_eq!(
        [1, 2].map(|number| counts(&directory, 3, number)),
        [(1, 0), (0, 1)]
    );
    directory
        .track(1, &peers(&[2], &[1]))
        .unwrap()
        .accepted()
        .unwrap();
    assert_eq!(
        [1, 2].map(|number| counts(&directory, 3, number)),
        [(1, 1), (1, 1)]
    );
    // A peer that is primary in some set is primary.
    assert_eq!(directory.all().unwrap(), peers(&[1, 2], &[]));
    directory
        .track(2, &peers(&[2], &[1]))
        .unwrap()
        .accepted()
        .unwrap();
    // The only set in which peer 1 was primary was dropped.
    assert_eq!(
        [1, 2].map(|number| counts(&directory, 3, number)),
        [(0, 2), (2, 0)]
    );
    assert_eq!(directory.all().unwrap(), peers(&[2], &[1]));
    // Its record counts both: it stays until the second of these sets is dropped, too.
    for (index, status) in [(3, Some(Status::Inert)), (4, None)] {
        directory
            .track(index, &peers(&[3], &[]))
            .unwrap()
            .accepted()
            .unwrap();
        assert_eq!(directory.status(&key::<P>(1)), status);
        assert_eq!(directory.status(&key::<P>(2)), status);
    }
}

fn test_all_cross_index_primary_wins_for_overlap_peer<P: Pair>() {
    let mut directory = with_sets::<P>(3);
    directory
        .track(0, &peers(&[31, 33], &[]))
        .unwrap()
        .accepted()
        .unwrap();
    directory
        .track(1, &peers(&[32], &[33, 34]))
        .unwrap()
        .accepted()
        .unwrap();
    assert_eq!(directory.all().unwrap(), peers(&[31, 32, 33], &[34]));
}

fn test_block_nonexistent_peer_then_add_to_set<P: Pair>() {
    let mut directory = directory::<P>();
    assert!(directory.block(&key::<P>(99), seconds(100)).unwrap());
    assert_eq!(directory.status(&key::<P>(99)), None);
    track(&mut directory, 0, &[99]);
    assert!(!directory.eligible(&key::<P>(99), seconds(159)));
    assert!(directory.eligible(&key::<P>(99), seconds(160)));
    assert!(directory.unblock_expired(seconds(160)));
    assert!(!directory.unblock_expired(seconds(160)));
}

fn a_record_lives_as_long_as_something_keeps_it<P: Pair>() {
    let mut directory = directory::<P>();
    assert_eq!(track(&mut directory, 0, &[1]), Some(set(&[])));
    let reservation = listen(&mut directory, 1, seconds(100)).unwrap();
    assert_eq!(track(&mut directory, 0, &[2]), None);
    assert_eq!(track(&mut directory, 1, &[2]), Some(set(&[1])));
    assert_eq!(directory.status(&key::<P>(1)), Some(Status::Reserved));
    directory.release(reservation).unwrap();
    assert_eq!(directory.status(&key::<P>(1)), None);
    // The cooldown outlasts the record, until it is forgotten.
    track(&mut directory, 2, &[1]);
    assert!(listen(&mut directory, 1, seconds(105)).is_none());
    assert_eq!(directory.forget_cooled(seconds(109)), 0);
    assert_eq!(directory.forget_cooled(seconds(110)), 1);
    let reservation = listen(&mut directory, 1, seconds(105)).unwrap();
    directory.release(reservation).unwrap();
}

fn an_info_is_kept_while_a_new_set_names_its_peer<P: Pair>() {
    let mut directory = directory::<P>();
    track(&mut directory, 0, &[1]);
    directory.update_peers(&[info(1, 1000)]).unwrap();
    track(&mut directory, 1, &[1, 2]);
    let bits = BitVec {
        index: 1,
        bits: vec![true, false],
    };
    assert_eq!(directory.get_random_bit_vec(0).unwrap(), Some(bits));
    assert_eq!(directory.get_random_bit_vec(1).unwrap(), None);
    assert_eq!(directory.tracked(), 2);
}

fn a_peer_is_dialable_later_than_reservable<P: Pair>() {
    let mut directory = directory::<P>();
    track(&mut directory, 0, &[1]);
    directory.update_peers(&[info(1, 1000)]).unwrap();
    let draw = Duration::from_secs(10);
    let granted = directory.dial(&key::<P>(1), seconds(100), draw).unwrap();
    directory.release(granted.unwrap()).unwrap();
    let told = directory.dialable(seconds(115)).unwrap();
    assert_eq!(told.peers, []);
    assert_eq!(told.next_query_at, Some(seconds(120)));
    let early = dial(&mut directory, 1, seconds(115)).unwrap();
    let address = Ingress::from(SocketAddr::from(([1, 2, 3, 4], 8001)));
    assert_eq!(early.metadata(), &Metadata::Dialer(key::<P>(1), address));
    directory.release(early).unwrap();
}

fn a_block_outlives_the_record<P: Pair>() {
    let mut directory = directory::<P>();
    track(&mut directory, 0, &[1]);
    assert!(directory.block(&key::<P>(1), seconds(100)).unwrap());
    track(&mut directory, 1, &[2]);
    assert_eq!(directory.status(&key::<P>(1)), None);
    track(&mut directory, 2, &[1]);
    assert!(listen(&mut directory, 1, nanos(159, 999_999_999)).is_none());
    let reservation = listen(&mut directory, 1, seconds(160)).unwrap();
    directory.connect(&key::<P>(1), false).unwrap();
    assert!(directory.block(&key::<P>(1), seconds(161)).unwrap());
    assert_eq!(track(&mut directory, 3, &[2]), Some(set(&[1])));
    directory.release(reservation).unwrap();
    assert_eq!(directory.blocked_peers(seconds(170)).unwrap(), set(&[1]));
}

fn a_block_of_no_duration_is_taken_and_blocks_nobody<P: Pair>() {
    let cfg = Config {
        block_duration: Duration::ZERO,
        ..config()
    };
    let mut directory = Directory::<P>::init(&[], &info(9, 0), cfg).unwrap();
    track(&mut directory, 0, &[1]);
    assert!(directory.block(&key::<P>(1), seconds(100)).unwrap());
    assert!(directory.eligible(&key::<P>(1), seconds(100)));
    assert!(directory.blocked_peers(seconds(100)).unwrap().is_empty());
    assert_eq!(directory.next_unblock(), Some(seconds(100)));
    assert!(directory.unblock_expired(seconds(100)));
    assert!(!directory.unblock_expired(seconds(100)));
}

fn the_first_of_the_greatest_timestamp_is_kept<P: Pair>() {
    let mut directory = directory::<P>();
    track(&mut directory, 0, &[1]);
    let reservation = listen(&mut directory, 1, seconds(100)).unwrap();
    directory.connect(&key::<P>(1), false).unwrap();
    let offers = [
        (vec![info_at(1, 1000, 8001), info_at(1, 1000, 8002)], 8001),
        (vec![info_at(1, 999, 8003)], 8001),
        (vec![info_at(1, 1001, 8004)], 8004),
    ];
    for (infos, port) in offers {
        directory.update_peers(&infos).unwrap();
        let info = directory.info(&key::<P>(1)).unwrap().unwrap();
        assert_eq!(info.ingress.port(), port);
    }
    directory.release(reservation).unwrap();
}

fn infos_are_those_that_may_be_shared<P: Pair>() {
    let mut directory = directory();
    track(&mut directory, 5, &[1, 2, 3, 9]);
    let held: Vec<Reservation<P>> = (1..=3)
        .map(|number| listen(&mut directory, number, seconds(50)).unwrap())
        .collect();
    directory.connect(&key::<P>(1), false).unwrap();
    directory.connect(&key::<P>(2), false).unwrap();
    let infos = [info(1, 100_000), info(2, 100_001), info(3, 50_000)];
    directory.update_peers(&infos).unwrap();
    let asked = |index, bits: &[bool], now| {
        let bits = bits.to_vec();
        directory.infos(&BitVec { index, bits }, now).unwrap()
    };
    assert_eq!(asked(4, &[false; 4], seconds(100)), Some(Vec::new()));
    assert_eq!(asked(5, &[false; 3], seconds(100)), None);
    assert_eq!(
        asked(5, &[false; 4], seconds(100)),
        Some(vec![info(1, 100_000), info(9, 0)])
    );
    let others = [true, false, false, true];
    assert_eq!(asked(5, &others, nanos(100, 999_999)), Some(Vec::new()));
    assert_eq!(
        asked(5, &others, nanos(100, 1_000_000)),
        Some(vec![info(2, 100_001)])
    );
    for reservation in held {
        directory.release(reservation).unwrap();
    }
}

fn edges_of_indices_and_of_what_is_refused<P: Pair>() {
    let mut directory = directory::<P>();
    assert_eq!(track(&mut directory, u64::MAX, &[1]), Some(set(&[])));
    assert_eq!(track(&mut directory, 0, &[2]), None);
    assert_eq!(track(&mut directory, u64::MAX, &[2]), None);
    assert_eq!(directory.connect(&key::<P>(1), true), Err(NotReservedError));
    for number in [9, 2] {
        assert!(listen(&mut directory, number, seconds(100)).is_none());
    }
    assert!(dial(&mut directory, 1, seconds(100)).is_none());
    assert_eq!(directory.latest_set_index(), Some(u64::MAX));
}

fn secondary_peers_come_but_are_not_dialled<P: Pair>() {
    let mut directory = with_sets::<P>(2);
    directory
        .track(0, &peers(&[1], &[1, 2]))
        .unwrap()
        .accepted()
        .unwrap();
    directory.update_peers(&[info(2, 1000)]).unwrap();
    assert!(dial(&mut directory, 2, seconds(100)).is_none());
    let reservation = listen(&mut directory, 2, seconds(100)).unwrap();
    assert_eq!(track(&mut directory, 1, &[2]), Some(set(&[])));
    assert_eq!(directory.all().unwrap(), peers(&[1, 2], &[]));
    let update = directory.latest_update().unwrap().unwrap();
    assert_eq!(update.index, 1);
    assert_eq!(update.latest, peers(&[2], &[]));
    assert_eq!(update.all, peers(&[1, 2], &[]));
    assert_eq!(track(&mut directory, 2, &[]), Some(set(&[])));
    assert_eq!(track(&mut directory, 3, &[]), Some(set(&[2])));
    directory.release(reservation).unwrap();
}

fn who_may_listen_is_granted<P: Pair>() {
    let mut directory = directory::<P>();
    track(&mut directory, 0, &[1]);
    for number in [2, 9] {
        assert!(!directory.may_listen(&key::<P>(number), seconds(100)));
        assert!(listen(&mut directory, number, seconds(100)).is_none());
    }
    let may_listen = |directory: &Directory<P>, now| directory.may_listen(&key::<P>(1), now);
    assert!(may_listen(&directory, seconds(100)));
    let held = listen(&mut directory, 1, seconds(100)).unwrap();
    assert!(!may_listen(&directory, seconds(200)));
    directory.release(held).unwrap();
    assert!(!may_listen(&directory, nanos(109, 999_999_999)));
    assert!(may_listen(&directory, seconds(110)));
    assert!(directory.block(&key::<P>(1), seconds(110)).unwrap());
    assert!(!may_listen(&directory, nanos(169, 999_999_999)));
    assert!(may_listen(&directory, seconds(170)));
    let granted = listen(&mut directory, 1, seconds(170));
    directory.release(granted.expect("it may listen")).unwrap();
}

fn the_address_that_is_held_is_told<P: Pair>() {
    let mut directory = directory::<P>();
    let told = |directory: &Directory<P>, number| directory.ingress(&key::<P>(number)).unwrap();
    assert_eq!(told(&directory, 1), None);
    track(&mut directory, 0, &[1]);
    assert_eq!(told(&directory, 1), None);
    let older = info::<P>(1, 1000);
    directory
        .update_peers(std::slice::from_ref(&older))
        .unwrap();
    let held = listen(&mut directory, 1, seconds(100)).unwrap();
    assert_eq!(told(&directory, 1), Some(older.ingress));
    let mut newer = info::<P>(1, 1001);
    newer.ingress = "peer.example:80".parse().unwrap();
    directory
        .update_peers(std::slice::from_ref(&newer))
        .unwrap();
    assert_eq!(told(&directory, 1), Some(newer.ingress));
    directory.release(held).unwrap();
    let own = directory.info(&key::<P>(9)).unwrap();
    assert_eq!(told(&directory, 9), own.map(|own| own.ingress));
}

fn a_blocked_peer_is_asked_for_again_at_its_end<P: Pair>() {
    let mut directory = directory::<P>();
    directory
        .track(0, &peers(&[1], &[2]))
        .unwrap()
        .accepted()
        .unwrap();
    directory.update_peers(&[info(1, 1000)]).unwrap();
    assert!(directory.block(&key::<P>(2), seconds(100)).unwrap());
    let dialable = |now| directory.dialable(now).unwrap();
    let one = vec![key::<P>(1)];
    assert_eq!(dialable(seconds(100)).peers, one);
    assert_eq!(dialable(seconds(100)).next_query_at, Some(seconds(160)));
    assert_eq!(dialable(seconds(160)).next_query_at, None);
    assert_eq!(directory.next_unblock(), Some(seconds(160)));
}

fn a_later_bootstrapper_replaces_an_earlier_one<P: Pair>() {
    let at = |port| Ingress::from(SocketAddr::from(([1, 2, 3, 4], port)));
    let bootstrappers = vec![
        (key::<P>(1), at(80)),
        (key::<P>(1), at(81)),
        (key::<P>(9), at(82)),
    ];
    let mut directory = Directory::<P>::init(&bootstrappers, &info(9, 0), config()).unwrap();
    assert_eq!(directory.tracked(), 1);
    let granted = dial(&mut directory, 1, seconds(1)).unwrap();
    assert_eq!(granted.metadata(), &Metadata::Dialer(key::<P>(1), at(81)));
    directory.release(granted).unwrap();
}

fn answers_longer_than_their_room_come_whole<P: Pair>() {
    let mut directory = with_sets::<P>(4);
    let many: Vec<P::Key> = (1..=5000).map(key::<P>).collect();
    let many = OrderedSet::try_from(many).unwrap();
    directory
        .track(0, &many.clone().into())
        .unwrap()
        .accepted()
        .unwrap();
    assert_eq!(directory.tracked(), 4999);
    assert_eq!(directory.all().unwrap().primary, many);
    let bits = directory.get_random_bit_vec(0).unwrap().unwrap();
    assert_eq!(bits.bits.iter().filter(|bit| **bit).count(), 1);
    assert!(directory.dialable(seconds(1)).unwrap().peers.is_empty());
    let infos: Vec<_> = (1..=5000).map(|number| info(number, 1)).collect();
    directory.update_peers(&infos).unwrap();
    assert_eq!(directory.dialable(seconds(1)).unwrap().peers.len(), 4999);
}

fn many_are_torn_down_at_once<P: Pair>() {
    let mut directory = directory();
    let many: Vec<u16> = (1..=1000).filter(|number| *number != 9).collect();
    track(&mut directory, 0, &many);
    let held: Vec<Reservation<P>> = many
        .iter()
        .map(|number| listen(&mut directory, *number, seconds(1)).unwrap())
        .collect();
    assert_eq!(track(&mut directory, 1, &[]), Some(set(&many)));
    for reservation in held {
        directory.release(reservation).unwrap();
    }
    assert_eq!(directory.tracked(), 0);
}

fn a_directory_goes_to_another_thread<P: Pair>() {
    let mut directory = testing::directory::<P>();
    track(&mut directory, 0, &[1, 2]);
    let moved = std::thread::spawn(move || {
        let listened = listen(&mut directory, 1, seconds(1));
        (directory, listened)
    });
    let (mut directory, listened) = moved.join().unwrap();
    directory.release(listened.unwrap()).unwrap();
    assert_eq!(directory.tracked(), 2);
}

// A cooldown of 10.3 and blocks of 60.7 seconds, each to the nanosecond.
fn settings_below_a_second_count<P: Pair>() {
    let cfg = Config {
        peer_connection_cooldown: Duration::new(10, 300_000_000),
        block_duration: Duration::new(60, 700_000_000),
        ..config()
    };
    let mut directory = Directory::<P>::init(&[], &info(9, 0), cfg).unwrap();
    track(&mut directory, 0, &[1]);
    let held = listen(&mut directory, 1, seconds(100)).unwrap();
    directory.release(held).unwrap();
    assert!(listen(&mut directory, 1, nanos(110, 299_999_999)).is_none());
    let held = listen(&mut directory, 1, nanos(110, 300_000_000)).unwrap();
    directory.release(held).unwrap();

    assert!(directory.block(&key::<P>(1), seconds(100)).unwrap());
    let end = nanos(160, 700_000_000);
    assert_eq!(directory.next_unblock(), Some(end));
    assert!(!directory.eligible(&key::<P>(1), nanos(160, 699_999_999)));
    assert!(directory.eligible(&key::<P>(1), end));
}
