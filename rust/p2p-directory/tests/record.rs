//! The original's tests of its record, under their names, as far as calls of a directory can
//! express them.

#[macro_use]
mod each_pair;

use p2p_directory::sized::testing::{config, directory, info, info_at, key};
use p2p_directory::sized::{Directory, Metadata, OrderedSet, Pair, Reservation};
use p2p_directory::{Config, Ingress, Moment, NotReservedError, Status};
use std::net::SocketAddr;
use std::time::Duration;

tests_of_each_pair! {
    test_unknown_initial_state,
    test_myself_initial_state,
    test_bootstrapper_initial_state,
    test_unknown_to_discovered,
    test_bootstrapper_to_discovered,
    test_discovered_update_newer_timestamp,
    test_discovered_no_update_older_or_equal_timestamp,
    test_update_myself,
    test_increment_decrement_and_deletable,
    test_is_blockable,
    test_status_transitions_reserve_connect_release,
    test_needs_teardown_after_losing_eligibility,
    test_connect_when_not_reserved_panics_from_inert,
    test_connect_when_active_panics,
    test_sharable_logic,
    test_reserved_status_check,
    test_dial_failure_and_dial_success,
    a_dial_that_succeeds_takes_back_the_failures_before,
    a_dial_of_an_address_that_was_replaced_is_no_failure,
    test_want_logic_with_min_fails,
    test_deletable_logic_detailed,
    test_eligible_logic,
    test_reserve_with_unbounded_cooldown_does_not_panic,
}

const NOW: Moment = Moment::from_secs(100);

fn track<P: Pair>(directory: &mut Directory<P>, index: u64, numbers: &[u16]) {
    let keys = numbers.iter().map(|number| key::<P>(*number));
    let peers = OrderedSet::from_iter_dedup(keys).into();
    directory.track(index, &peers).unwrap().accepted().unwrap();
}

fn listen<P: Pair>(
    directory: &mut Directory<P>,
    number: u16,
    now: Moment,
) -> Option<Reservation<P>> {
    directory
        .listen(&key::<P>(number), now, Duration::ZERO)
        .unwrap()
}

fn dial<P: Pair>(directory: &mut Directory<P>, number: u16, now: Moment) -> Option<Reservation<P>> {
    directory
        .dial(&key::<P>(number), now, Duration::ZERO)
        .unwrap()
}

// The bits of the oldest set, as digits.
fn bits<P: Pair>(directory: &Directory<P>) -> String {
    let known = directory.get_random_bit_vec(0).unwrap().unwrap().bits;
    known
        .iter()
        .map(|bit| if *bit { '1' } else { '0' })
        .collect()
}

fn bootstrapped<P: Pair>() -> Directory<P> {
    let at = Ingress::from(SocketAddr::from(([127, 0, 0, 1], 8080)));
    Directory::init(&[(key::<P>(1), at)], &info(9, 0), config()).unwrap()
}

// Without a cooldown.
fn quick<P: Pair>() -> Directory<P> {
    let cfg = Config {
        peer_connection_cooldown: Duration::ZERO,
        ..config()
    };
    Directory::init(&[], &info(9, 0), cfg).unwrap()
}

fn test_unknown_initial_state<P: Pair>() {
    let mut directory = directory::<P>();
    assert_eq!(directory.status(&key::<P>(1)), None);
    assert!(!directory.eligible(&key::<P>(1), NOW));
    track(&mut directory, 0, &[1]);
    assert_eq!(directory.status(&key::<P>(1)), Some(Status::Inert));
    assert_eq!(directory.info(&key::<P>(1)).unwrap(), None);
    assert!(directory.dialable(NOW).unwrap().peers.is_empty());
    assert_eq!(bits(&directory), "0");
}

fn test_myself_initial_state<P: Pair>() {
    let mut directory = directory::<P>();
    track(&mut directory, 0, &[9]);
    assert_eq!(directory.status(&key::<P>(9)), Some(Status::Inert));
    assert_eq!(directory.info(&key::<P>(9)).unwrap(), Some(info(9, 0)));
    assert_eq!(bits(&directory), "1");
    assert!(!directory.eligible(&key::<P>(9), NOW));
    assert!(listen(&mut directory, 9, NOW).is_none());
    assert_eq!(directory.tracked(), 0);
}

fn test_bootstrapper_initial_state<P: Pair>() {
    let mut directory = bootstrapped::<P>();
    assert_eq!(directory.status(&key::<P>(1)), Some(Status::Inert));
    assert_eq!(directory.info(&key::<P>(1)).unwrap(), None);
    assert!(directory.eligible(&key::<P>(1), NOW));
    assert_eq!(directory.dialable(NOW).unwrap().peers, [key::<P>(1)]);
    track(&mut directory, 0, &[1]);
    assert_eq!(bits(&directory), "0");
}

fn test_unknown_to_discovered<P: Pair>() {
    let mut directory = directory::<P>();
    track(&mut directory, 0, &[1]);
    directory.update_peers(&[info(1, 1000)]).unwrap();
    assert_eq!(bits(&directory), "1");
    assert_eq!(directory.info(&key::<P>(1)).unwrap(), None);
    assert_eq!(directory.dialable(NOW).unwrap().peers, [key::<P>(1)]);
}

fn test_bootstrapper_to_discovered<P: Pair>() {
    let mut directory = bootstrapped::<P>();
    directory.update_peers(&[info(1, 1000)]).unwrap();
    let granted = dial(&mut directory, 1, NOW).unwrap();
    let at = info::<P>(1, 1000).ingress;
    assert_eq!(granted.metadata(), &Metadata::Dialer(key::<P>(1), at));
    directory.release(granted).unwrap();
    // It stays persistent.
    assert_eq!(directory.status(&key::<P>(1)), Some(Status::Inert));
}

fn test_discovered_update_newer_timestamp<P: Pair>() {
    let mut directory = directory::<P>();
    track(&mut directory, 0, &[1]);
    let infos = [info_at(1, 1000, 80), info_at(1, 2000, 81)];
    directory.update_peers(&infos).unwrap();
    let held = listen(&mut directory, 1, NOW).unwrap();
    directory.connect(&key::<P>(1), false).unwrap();
    let told = directory.info(&key::<P>(1)).unwrap();
    assert_eq!(told, Some(info_at(1, 2000, 81)));
    directory.release(held).unwrap();
}

fn test_discovered_no_update_older_or_equal_timestamp<P: Pair>() {
    let mut directory = directory::<P>();
    track(&mut directory, 0, &[1]);
    let held = listen(&mut directory, 1, NOW).unwrap();
    directory.connect(&key::<P>(1), false).unwrap();
    for offered in [info(1, 1000), info_at(1, 500, 80), info_at(1, 1000, 81)] {
        directory.update_peers(&[offered]).unwrap();
        assert_eq!(directory.info(&key::<P>(1)).unwrap(), Some(info(1, 1000)));
    }
    directory.release(held).unwrap();
}

fn test_update_myself<P: Pair>() {
    let mut directory = directory::<P>();
    directory.update_peers(&[info_at(9, 300, 80)]).unwrap();
    assert_eq!(directory.info(&key::<P>(9)).unwrap(), Some(info(9, 0)));
}

fn test_increment_decrement_and_deletable<P: Pair>() {
    let mut directory = bootstrapped::<P>();
    track(&mut directory, 0, &[1, 2]);
    directory.update_peers(&[info(2, 1000)]).unwrap();
    track(&mut directory, 1, &[2]);
    assert_eq!(directory.status(&key::<P>(2)), Some(Status::Inert));
    assert_eq!(bits(&directory), "1");
    track(&mut directory, 2, &[9]);
    // Unknown and discovered peers are removed with the last set that names them, others stay.
    assert_eq!(directory.status(&key::<P>(2)), None);
    assert_eq!(directory.status(&key::<P>(1)), Some(Status::Inert));
    track(&mut directory, 3, &[]);
    assert_eq!(directory.status(&key::<P>(9)), Some(Status::Inert));
    // An unknown peer comes and goes with its set.
    track(&mut directory, 4, &[3]);
    assert_eq!(directory.status(&key::<P>(3)), Some(Status::Inert));
    track(&mut directory, 5, &[]);
    assert_eq!(directory.status(&key::<P>(3)), None);
    assert_eq!(directory.status(&key::<P>(1)), Some(Status::Inert));
}

fn test_is_blockable<P: Pair>() {
    let mut directory = bootstrapped::<P>();
    track(&mut directory, 0, &[2, 3]);
    directory.update_peers(&[info(3, 1000)]).unwrap();
    for number in [1, 2, 3, 4] {
        assert!(directory.block(&key::<P>(number), NOW).unwrap());
    }
    assert!(!directory.block(&key::<P>(9), NOW).unwrap());
}

fn test_status_transitions_reserve_connect_release<P: Pair>() {
    let mut directory = quick::<P>();
    track(&mut directory, 0, &[1]);
    for _ in 0..2 {
        assert_eq!(directory.status(&key::<P>(1)), Some(Status::Inert));
        let held = listen(&mut directory, 1, NOW).unwrap();
        assert_eq!(directory.status(&key::<P>(1)), Some(Status::Reserved));
        assert!(listen(&mut directory, 1, NOW).is_none());
        directory.connect(&key::<P>(1), false).unwrap();
        assert_eq!(directory.status(&key::<P>(1)), Some(Status::Active));
        assert!(listen(&mut directory, 1, NOW).is_none());
        directory.release(held).unwrap();
    }
    assert_eq!(directory.status(&key::<P>(1)), Some(Status::Inert));
}

fn test_needs_teardown_after_losing_eligibility<P: Pair>() {
    let mut directory = directory::<P>();
    track(&mut directory, 0, &[1, 2]);
    let reserved = listen(&mut directory, 1, NOW).unwrap();
    let connected = listen(&mut directory, 2, NOW).unwrap();
    directory.connect(&key::<P>(2), false).unwrap();
    let peers = OrderedSet::from_iter_dedup([key::<P>(3)]).into();
    let torn = directory.track(1, &peers).unwrap().accepted().unwrap();
    assert_eq!(torn.to_vec(), [key::<P>(1), key::<P>(2)]);
    for held in [reserved, connected] {
        directory.release(held).unwrap();
    }
    assert_eq!(directory.tracked(), 1);
}

fn test_connect_when_not_reserved_panics_from_inert<P: Pair>() {
    let mut directory = directory::<P>();
    track(&mut directory, 0, &[1]);
    assert_eq!(
        directory.connect(&key::<P>(1), false),
        Err(NotReservedError)
    );
    assert_eq!(directory.status(&key::<P>(1)), Some(Status::Inert));
}

fn test_connect_when_active_panics<P: Pair>() {
    let mut directory = directory::<P>();
    track(&mut directory, 0, &[1]);
    let held = listen(&mut directory, 1, NOW).unwrap();
    directory.connect(&key::<P>(1), false).unwrap();
    assert_eq!(directory.connect(&key::<P>(1), true), Err(NotReservedError));
    directory.release(held).unwrap();
}

fn test_sharable_logic<P: Pair>() {
    let mut directory = directory::<P>();
    track(&mut directory, 0, &[1]);
    assert_eq!(directory.info(&key::<P>(1)).unwrap(), None);
    directory.update_peers(&[info(1, 1000)]).unwrap();
    assert_eq!(directory.info(&key::<P>(1)).unwrap(), None);
    let held = listen(&mut directory, 1, NOW).unwrap();
    assert_eq!(directory.info(&key::<P>(1)).unwrap(), None);
    directory.connect(&key::<P>(1), false).unwrap();
    assert_eq!(directory.info(&key::<P>(1)).unwrap(), Some(info(1, 1000)));
    directory.release(held).unwrap();
    assert_eq!(directory.info(&key::<P>(1)).unwrap(), None);
}

fn test_reserved_status_check<P: Pair>() {
    let mut directory = directory::<P>();
    track(&mut directory, 0, &[1]);
    assert!(directory.acceptable(&key::<P>(1), NOW));
    let held = listen(&mut directory, 1, NOW).unwrap();
    assert!(!directory.acceptable(&key::<P>(1), NOW));
    assert!(directory.eligible(&key::<P>(1), NOW));
    directory.release(held).unwrap();
    assert!(directory.acceptable(&key::<P>(1), NOW));
}

fn test_dial_failure_and_dial_success<P: Pair>() {
    failures_are_counted_of_the_address_of_the_info::<P>();
    let mut directory = quick::<P>();
    track(&mut directory, 0, &[1]);
    directory.update_peers(&[info(1, 1000)]).unwrap();
    let failed = dial(&mut directory, 1, NOW).unwrap();
    directory.release(failed).unwrap();
    assert_eq!(bits(&directory), "0");
    let held = dial(&mut directory, 1, NOW).unwrap();
    directory.connect(&key::<P>(1), true).unwrap();
    assert_eq!(bits(&directory), "1");
    // The release of an outbound reservation counts as a failed dial, even after it was connected.
    directory.release(held).unwrap();
    assert_eq!(bits(&directory), "0");
    // That of an inbound one doesn't.
    directory.update_peers(&[info(1, 1001)]).unwrap();
    let held = listen(&mut directory, 1, NOW).unwrap();
    directory.release(held).unwrap();
    assert_eq!(bits(&directory), "1");
}

// Dials of a bootstrapper before its info comes are no failures of it. Of its address two are too
// few, three are enough; a dial of another address counts none, and one that succeeds begins anew.
fn failures_are_counted_of_the_address_of_the_info<P: Pair>() {
    let cfg = Config {
        dial_fail_limit: 3,
        peer_connection_cooldown: Duration::ZERO,
        ..config()
    };
    let at = Ingress::from(SocketAddr::from(([127, 0, 0, 1], 8080)));
    let mut directory = Directory::init(&[(key::<P>(1), at)], &info(9, 0), cfg).unwrap();
    track(&mut directory, 0, &[1]);
    let fail = |directory: &mut Directory<P>| {
        let failed = dial(directory, 1, NOW).unwrap();
        directory.release(failed).unwrap();
        bits(directory)
    };
    for _ in 0..3 {
        assert_eq!(fail(&mut directory), "0");
    }
    directory.update_peers(&[info(1, 1000)]).unwrap();
    assert_eq!(bits(&directory), "1");
    assert_eq!(fail(&mut directory), "1");
    assert_eq!(fail(&mut directory), "1");
    // Its reservation is of the address before the info that comes meanwhile.
    let held = dial(&mut directory, 1, NOW).unwrap();
    directory.update_peers(&[info_at(1, 1001, 80)]).unwrap();
    directory.release(held).unwrap();
    assert_eq!(bits(&directory), "1");
    assert_eq!([fail(&mut directory), fail(&mut directory)], ["1", "1"]);
    // It succeeds, and its release is the first failure again.
    let held = dial(&mut directory, 1, NOW).unwrap();
    directory.connect(&key::<P>(1), true).unwrap();
    directory.release(held).unwrap();
    assert_eq!(bits(&directory), "1");
    assert_eq!([fail(&mut directory), fail(&mut directory)], ["1", "0"]);
}

// The release of a dialled connection is a failure: the first one again after a dial that
// succeeded, otherwise the second.
fn a_dial_that_succeeds_takes_back_the_failures_before<P: Pair>() {
    for (is_dialer, known) in [(true, "1"), (false, "0")] {
        let cfg = Config {
            dial_fail_limit: 2,
            peer_connection_cooldown: Duration::ZERO,
            ..config()
        };
        let mut directory = Directory::<P>::init(&[], &info(9, 0), cfg).unwrap();
        track(&mut directory, 0, &[1]);
        directory.update_peers(&[info(1, 1000)]).unwrap();
        let failed = dial(&mut directory, 1, NOW).unwrap();
        directory.release(failed).unwrap();
        let held = dial(&mut directory, 1, NOW).unwrap();
        directory.connect(&key::<P>(1), is_dialer).unwrap();
        directory.release(held).unwrap();
        assert_eq!(bits(&directory), known);
    }
}

fn a_dial_of_an_address_that_was_replaced_is_no_failure<P: Pair>() {
    for (port, known) in [(8001, "0"), (8002, "1")] {
        let mut directory = quick::<P>();
        track(&mut directory, 0, &[1]);
        directory.update_peers(&[info(1, 1000)]).unwrap();
        let held = dial(&mut directory, 1, NOW).unwrap();
        directory.update_peers(&[info_at(1, 1001, port)]).unwrap();
        directory.release(held).unwrap();
        assert_eq!(bits(&directory), known);
    }
}

fn test_want_logic_with_min_fails<P: Pair>() {
    let cfg = Config {
        dial_fail_limit: 2,
        peer_connection_cooldown: Duration::ZERO,
        ..config()
    };
    let mut directory = Directory::<P>::init(&[], &info(9, 0), cfg).unwrap();
    track(&mut directory, 0, &[1, 9]);
    assert_eq!(bits(&directory), "01");
    directory.update_peers(&[info(1, 1000)]).unwrap();
    for known in ["11", "01"] {
        let held = dial(&mut directory, 1, NOW).unwrap();
        directory.release(held).unwrap();
        assert_eq!(bits(&directory), known);
    }
    // The info of an active peer isn't wanted.
    let held = listen(&mut directory, 1, NOW).unwrap();
    assert_eq!(bits(&directory), "01");
    directory.connect(&key::<P>(1), false).unwrap();
    assert_eq!(bits(&directory), "11");
    directory.release(held).unwrap();
    assert_eq!(bits(&directory), "01");
    // A newer info has no failures yet, and they count again.
    directory.update_peers(&[info(1, 1001)]).unwrap();
    assert_eq!(bits(&directory), "11");
    for known in ["11", "01"] {
        let held = dial(&mut directory, 1, NOW).unwrap();
        directory.release(held).unwrap();
        assert_eq!(bits(&directory), known);
    }
    // While it is reserved it is still wanted, and not while it is connected.
    let held = dial(&mut directory, 1, NOW).unwrap();
    assert_eq!(bits(&directory), "01");
    directory.connect(&key::<P>(1), false).unwrap();
    assert_eq!(bits(&directory), "11");
    directory.release(held).unwrap();
    assert_eq!(bits(&directory), "01");
}

fn test_deletable_logic_detailed<P: Pair>() {
    let mut directory = directory::<P>();
    track(&mut directory, 0, &[1, 2]);
    let reserved = listen(&mut directory, 1, NOW).unwrap();
    track(&mut directory, 1, &[]);
    assert_eq!(directory.status(&key::<P>(2)), None);
    assert_eq!(directory.status(&key::<P>(1)), Some(Status::Reserved));
    directory.connect(&key::<P>(1), false).unwrap();
    assert_eq!(directory.status(&key::<P>(1)), Some(Status::Active));
    directory.release(reserved).unwrap();
    assert_eq!(directory.status(&key::<P>(1)), None);
}

fn test_eligible_logic<P: Pair>() {
    let mut directory = bootstrapped::<P>();
    track(&mut directory, 0, &[2, 9]);
    assert!(directory.eligible(&key::<P>(1), NOW));
    assert!(directory.eligible(&key::<P>(2), NOW));
    assert!(!directory.eligible(&key::<P>(9), NOW));
    assert!(!directory.eligible(&key::<P>(3), NOW));
    track(&mut directory, 1, &[]);
    assert!(directory.eligible(&key::<P>(1), NOW));
    assert!(!directory.eligible(&key::<P>(2), NOW));
}

fn test_reserve_with_unbounded_cooldown_does_not_panic<P: Pair>() {
    let cfg = Config {
        peer_connection_cooldown: Duration::MAX,
        ..config()
    };
    let mut directory = Directory::<P>::init(&[], &info(9, 0), cfg).unwrap();
    track(&mut directory, 0, &[1]);
    let granted = directory.listen(&key::<P>(1), NOW, Duration::MAX).unwrap();
    directory.release(granted.unwrap()).unwrap();
    assert!(listen(&mut directory, 1, NOW).is_none());
    assert!(listen(&mut directory, 1, Duration::new(u64::MAX, 0).into()).is_none());
    let held = listen(&mut directory, 1, Moment::MAX).unwrap();
    directory.release(held).unwrap();
}
