//! Reservations that are dropped: the next call of their directory, whichever it is, returns what
//! it would after `release`.

#[macro_use]
mod each_pair;

use p2p_directory::sized::testing::{self, config, info, key, setup, verify};
use p2p_directory::sized::{
    Directory, Node, OrderedSet, Pair, Payload, Received, ReleaseError, Reservation, Tracked,
};
use p2p_directory::{BitVec, ConnectError, Moment, Status};
use std::panic::{AssertUnwindSafe, catch_unwind};
use std::thread;
use std::time::Duration;

tests_of_each_pair! {
    status_is_that_of_the_released,
    dialable_tells_the_released,
    acceptable_are_the_released,
    listen_grants_the_released_again_after_the_cooldown,
    the_cooldown_of_the_released_holds,
    track_tears_down_nobody_who_is_released,
    receive_replies_without_the_released,
    a_dial_that_is_dropped_has_failed,
    many_are_dropped_in_whatever_order,
    one_may_be_dropped_on_another_thread,
    threads_may_drop_while_calls_are_made,
    a_panic_gives_back_what_it_unwinds,
    one_may_outlive_its_directory,
    what_another_directory_refuses_goes_back_to_its_own,
    an_early_return_gives_back_what_is_held,
    one_that_is_released_is_released_once,
    a_dialer_and_a_listener_are_connected_as_such,
    connect_reserved_refuses_by_name,
    reservations_may_be_shared_by_threads,
}

const NOW: Moment = Moment::from_secs(100);

// At this time every cooldown that began at `NOW` is over.
const LATER: Moment = Moment::from_secs(110);

fn set<P: Pair>(numbers: &[u16]) -> OrderedSet<P> {
    OrderedSet::from_iter_dedup(numbers.iter().map(|number| key::<P>(*number)))
}

// Peers 1 and 2 are in its set, and the address of 1 is known.
fn directory<P: Pair>() -> Directory<P> {
    let mut directory = testing::directory();
    let taken = directory.track(0, &set(&[1, 2]).into()).unwrap();
    assert_eq!(taken, Tracked::Accepted(set(&[])));
    directory.update_peers(&[info(1, 1000)]).unwrap();
    directory
}

fn dialled<P: Pair>(directory: &mut Directory<P>) -> Reservation<P> {
    let granted = directory.dial(&key::<P>(1), NOW, Duration::ZERO).unwrap();
    granted.expect("it is dialable")
}

fn listened<P: Pair>(directory: &mut Directory<P>, number: u16) -> Reservation<P> {
    let granted = directory
        .listen(&key::<P>(number), NOW, Duration::ZERO)
        .unwrap();
    granted.expect("it may come")
}

fn bits<P: Pair>(directory: &Directory<P>) -> Vec<bool> {
    directory.get_random_bit_vec(0).unwrap().unwrap().bits
}

fn status_is_that_of_the_released<P: Pair>() {
    let mut directory = directory::<P>();
    drop(listened(&mut directory, 1));
    assert_eq!(directory.status(&key::<P>(1)), Some(Status::Inert));
}

fn dialable_tells_the_released<P: Pair>() {
    let mut directory = directory::<P>();
    drop(dialled(&mut directory));
    let told = directory.dialable(LATER).unwrap();
    assert_eq!((told.peers, told.next_query_at), (vec![key::<P>(1)], None));
}

fn acceptable_are_the_released<P: Pair>() {
    let mut directory = directory::<P>();
    drop(listened(&mut directory, 1));
    assert!(directory.acceptable(&key::<P>(1), NOW));
}

fn listen_grants_the_released_again_after_the_cooldown<P: Pair>() {
    let mut directory = directory::<P>();
    drop(listened(&mut directory, 1));
    let again = directory
        .listen(&key::<P>(1), LATER, Duration::ZERO)
        .unwrap();
    assert_eq!(
        again.expect("its cooldown is over").public_key(),
        &key::<P>(1)
    );
}

fn the_cooldown_of_the_released_holds<P: Pair>() {
    let mut directory = directory::<P>();
    drop(listened(&mut directory, 1));
    let early = LATER.checked_sub(Duration::from_nanos(1)).unwrap();
    let refused = directory.listen(&key::<P>(1), early, Duration::ZERO);
    assert!(refused.unwrap().is_none());
}

fn track_tears_down_nobody_who_is_released<P: Pair>() {
    let mut directory = directory::<P>();
    let held = listened(&mut directory, 2);
    drop(listened(&mut directory, 1));
    // Both leave the only retained set, and 2 is still reserved.
    let torn = directory.track(1, &set(&[3]).into());
    assert_eq!(torn, Ok(Tracked::Accepted(set(&[2]))));
    assert_eq!(directory.status(&key::<P>(1)), None);
    directory.release(held).unwrap();
}

fn receive_replies_without_the_released<P: Pair>() {
    let mut node = Node::<P>::new(&setup(9)).unwrap();
    let directory = node.directory_mut();
    let _ = directory.track(0, &set(&[1, 2]).into()).unwrap();
    directory.update_peers(&[info(1, 1000)]).unwrap();
    let held = dialled(directory);
    directory.connect_reserved(&held).unwrap();
    let question = Payload::<P>::BitVec(BitVec {
        index: 0,
        bits: vec![false; 2],
    });
    let mut answer = || node.receive(&question.encode(), NOW, verify);
    let told = Payload::Peers(vec![info::<P>(1, 1000)]).encode();
    assert_eq!(answer(), Received::Reply(told));
    drop(held);
    let nothing = Payload::<P>::Peers(Vec::new()).encode();
    assert_eq!(answer(), Received::Reply(nothing));
}

fn a_dial_that_is_dropped_has_failed<P: Pair>() {
    let (mut dropping, mut releasing) = (directory::<P>(), directory::<P>());
    assert_eq!(bits(&dropping), [true, false]);
    drop(dialled(&mut dropping));
    let held = dialled(&mut releasing);
    releasing.release(held).unwrap();
    // The only failure that is allowed.
    assert_eq!(bits(&dropping), [false, false]);
    assert_eq!(bits(&releasing), [false, false]);
}

fn many_are_dropped_in_whatever_order<P: Pair>() {
    let numbers: Vec<u16> = (10..60).collect();
    let mut directory = testing::directory::<P>();
    let _ = directory.track(0, &set(&numbers).into()).unwrap();
    for now in [NOW, LATER, Moment::from_secs(220)] {
        let mut held: Vec<_> = numbers
            .iter()
            .map(|number| directory.listen(&key::<P>(*number), now, Duration::ZERO))
            .map(|granted| granted.unwrap().expect("it may come"))
            .collect();
        directory.release(held.remove(7)).unwrap();
        drop(held.split_off(20));
        held.reverse();
        drop(held);
        let status = |number: &u16| directory.status(&key::<P>(*number));
        assert!(
            numbers
                .iter()
                .all(|number| status(number) == Some(Status::Inert))
        );
    }
}

fn one_may_be_dropped_on_another_thread<P: Pair>() {
    let mut directory = directory::<P>();
    let held = listened(&mut directory, 1);
    thread::spawn(move || drop(held)).join().unwrap();
    assert!(directory.acceptable(&key::<P>(1), NOW));
}

fn threads_may_drop_while_calls_are_made<P: Pair>() {
    let numbers: Vec<u16> = (10..42).collect();
    let mut directory = testing::directory::<P>();
    let _ = directory.track(0, &set(&numbers).into()).unwrap();
    thread::scope(|scope| {
        for number in &numbers {
            let held = listened(&mut directory, *number);
            scope.spawn(move || drop(held));
        }
    });
    let all = numbers.iter().map(|number| key::<P>(*number));
    assert!(all.into_iter().all(|peer| directory.acceptable(&peer, NOW)));
}

fn a_panic_gives_back_what_it_unwinds<P: Pair>() {
    let mut directory = directory::<P>();
    let held = listened(&mut directory, 1);
    let caught = catch_unwind(AssertUnwindSafe(move || {
        let _held = held;
        panic!("while one is held");
    }));
    assert!(caught.is_err());
    assert_eq!(directory.status(&key::<P>(1)), Some(Status::Inert));
}

fn one_may_outlive_its_directory<P: Pair>() {
    let mut one = directory::<P>();
    let held = listened(&mut one, 1);
    drop(one);
    // The next directory uses the slot of the first, and must not take over a reservation of it.
    let mut next = directory::<P>();
    let own = listened(&mut next, 1);
    drop(held);
    assert_eq!(next.status(&key::<P>(1)), Some(Status::Reserved));
    drop(own);
    assert_eq!(next.status(&key::<P>(1)), Some(Status::Inert));
}

// The error has the reservation, which is large with keys of 96 bytes.
#[allow(clippy::result_large_err)]
fn gives_to<P: Pair>(
    other: &mut Directory<P>,
    held: Reservation<P>,
) -> Result<(), ReleaseError<P>> {
    other.release(held)?;
    Ok(())
}

fn what_another_directory_refuses_goes_back_to_its_own<P: Pair>() {
    let (mut own, mut other) = (directory::<P>(), directory());
    let (held, others) = (listened(&mut own, 1), listened(&mut other, 1));
    let refused = gives_to(&mut other, held).unwrap_err();
    assert_eq!(refused.reservation.public_key(), &key::<P>(1));
    assert_eq!(own.status(&key::<P>(1)), Some(Status::Reserved));
    drop(refused);
    assert_eq!(own.status(&key::<P>(1)), Some(Status::Inert));
    assert_eq!(other.status(&key::<P>(1)), Some(Status::Reserved));
    other.release(others).unwrap();
}

// Fails after a grant, as a handshake may.
fn greets<P: Pair>(
    directory: &mut Directory<P>,
    peer: &P::Key,
) -> Result<(), Box<dyn std::error::Error>> {
    let held = directory.listen(peer, NOW, Duration::ZERO)?;
    let _held = held.ok_or("it may not come")?;
    "no number".parse::<u16>()?;
    Ok(())
}

fn an_early_return_gives_back_what_is_held<P: Pair>() {
    let mut directory = directory::<P>();
    let failed = greets(&mut directory, &key::<P>(1)).unwrap_err();
    assert_eq!(failed.to_string(), "invalid digit found in string");
    assert_eq!(directory.status(&key::<P>(1)), Some(Status::Inert));
}

fn one_that_is_released_is_released_once<P: Pair>() {
    let mut directory = directory::<P>();
    let held = listened(&mut directory, 1);
    directory.release(held).unwrap();
    let again = directory
        .listen(&key::<P>(1), LATER, Duration::ZERO)
        .unwrap();
    assert!(again.is_some());
    assert_eq!(directory.status(&key::<P>(1)), Some(Status::Reserved));
}

fn a_dialer_and_a_listener_are_connected_as_such<P: Pair>() {
    // Two failures are allowed. There is one, then a dial that is connected, and another.
    let mut limit = config();
    limit.dial_fail_limit = 2;
    let told = [false, true].map(|is_connected| {
        let mut directory = Directory::<P>::init(&[], &info(9, 0), limit).unwrap();
        let _ = directory.track(0, &set(&[1]).into()).unwrap();
        directory.update_peers(&[info(1, 1000)]).unwrap();
        drop(dialled(&mut directory));
        let dial = directory.dial(&key::<P>(1), LATER, Duration::ZERO);
        let held = dial.unwrap().expect("it is dialable");
        if is_connected {
            directory.connect_reserved(&held).unwrap();
        }
        directory.release(held).unwrap();
        bits(&directory)
    });
    // A connection that was dialled resets the failures before it.
    assert_eq!(told, [[false], [true]]);
    // One that came resets nothing: the failure before it counts with the one after it.
    let mut directory = Directory::<P>::init(&[], &info(9, 0), limit).unwrap();
    let _ = directory.track(0, &set(&[1]).into()).unwrap();
    directory.update_peers(&[info(1, 1000)]).unwrap();
    drop(dialled(&mut directory));
    let listen = directory.listen(&key::<P>(1), LATER, Duration::ZERO);
    let held = listen.unwrap().expect("it is acceptable");
    directory.connect_reserved(&held).unwrap();
    assert_eq!(directory.status(&key::<P>(1)), Some(Status::Active));
    directory.release(held).unwrap();
    assert_eq!(bits(&directory), [true]);
    let dial = directory.dial(&key::<P>(1), Moment::from_secs(300), Duration::ZERO);
    drop(dial.unwrap().expect("it is dialable"));
    assert_eq!(bits(&directory), [false]);
}

fn connect_reserved_refuses_by_name<P: Pair>() {
    let (mut own, mut other) = (directory::<P>(), directory());
    let (held, others) = (listened(&mut own, 1), listened(&mut other, 1));
    let refused = other.connect_reserved(&held);
    assert_eq!(refused, Err(ConnectError::OfAnotherDirectory));
    assert_eq!(other.status(&key::<P>(1)), Some(Status::Reserved));
    own.connect_reserved(&held).unwrap();
    assert_eq!(own.status(&key::<P>(1)), Some(Status::Active));
    let again = own.connect_reserved(&held);
    assert_eq!(again, Err(ConnectError::NotReserved));
    own.release(held).unwrap();
    other.release(others).unwrap();
}

fn reservations_may_be_shared_by_threads<P: Pair>() {
    fn is_shared<T: Send + Sync>() {}
    is_shared::<Reservation<P>>();
}
