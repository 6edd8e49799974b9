//! The original's tests of its bit set, under their names, as far as the bits of a retained set can
//! express them.

#[macro_use]
mod each_pair;

use p2p_directory::sized::testing::{config, info, key};
use p2p_directory::sized::{Directory, OrderedSet, Pair};
use p2p_directory::{Config, Moment};
use std::num::NonZeroUsize;
use std::panic::{AssertUnwindSafe, catch_unwind};
use std::time::Duration;

tests_of_each_pair! {
    test_into_iterator,
    test_index,
    test_index_out_of_bounds_positive,
    test_set_initialization_and_sorting,
    test_update_knowledge_single_peer,
    test_update_multiple_peers,
    test_len,
    test_knowledge_reflects_updates_and_cloning,
    test_empty_set_behavior,
    test_single_peer_set,
}

fn tracked<P: Pair>(sets: &[&[u16]]) -> Directory<P> {
    let cfg = Config {
        max_sets: NonZeroUsize::new(4).unwrap(),
        dial_fail_limit: 1,
        peer_connection_cooldown: Duration::ZERO,
        ..config()
    };
    let mut directory = Directory::init(&[], &info(99, 0), cfg).unwrap();
    for (index, numbers) in (0..).zip(sets) {
        let keys = numbers.iter().map(|number| key::<P>(*number));
        let peers = OrderedSet::from_iter_dedup(keys).into();
        directory.track(index, &peers).unwrap().accepted().unwrap();
    }
    directory
}

fn bits<P: Pair>(directory: &Directory<P>, place: usize) -> Vec<bool> {
    directory.get_random_bit_vec(place).unwrap().unwrap().bits
}

// Sets the bit of a peer, by a newer info of it.
fn know<P: Pair>(directory: &mut Directory<P>, number: u16, timestamp: u64) {
    directory.update_peers(&[info(number, timestamp)]).unwrap();
}

// Clears the bit of a peer, by a dial that fails: one is enough.
fn forget<P: Pair>(directory: &mut Directory<P>, number: u16) {
    let dial = directory.dial(&key::<P>(number), Moment::from_secs(1), Duration::ZERO);
    drop(dial.unwrap().expect("it is dialable"));
}

fn test_into_iterator<P: Pair>() {
    let set: OrderedSet<P> = [3, 1, 2, 3].map(key::<P>).into_iter().collect();
    let walked: Vec<P::Key> = set.into_iter().collect();
    assert_eq!(walked, [1, 2, 3].map(key::<P>));
}

fn test_index<P: Pair>() {
    let set: OrderedSet<P> = [2, 1].map(key::<P>).into_iter().collect();
    assert_eq!((set[0], set[1]), (key::<P>(1), key::<P>(2)));
    assert_eq!(set.position(&set[1]), Some(1));
    let three: OrderedSet<P> = [3, 1, 2].map(key::<P>).into_iter().collect();
    assert_eq!([three[0], three[1], three[2]], [1, 2, 3].map(key::<P>));
}

fn test_index_out_of_bounds_positive<P: Pair>() {
    let set: OrderedSet<P> = [2, 1].map(key::<P>).into_iter().collect();
    assert_eq!(set.get(2), None);
    assert_eq!(set.position(&key::<P>(3)), None);
    assert!(catch_unwind(AssertUnwindSafe(|| set[2])).is_err());
    let one: OrderedSet<P> = [key::<P>(1)].into_iter().collect();
    assert!(catch_unwind(AssertUnwindSafe(|| one[1])).is_err());
}

fn test_set_initialization_and_sorting<P: Pair>() {
    let mut directory = tracked::<P>(&[&[3, 1, 2, 1]]);
    let peers = directory.get_peer_set(0).unwrap().unwrap().primary;
    assert_eq!(peers.to_vec(), [key::<P>(1), key::<P>(2), key::<P>(3)]);
    assert_eq!(peers.len(), 3);
    for (place, peer) in peers.iter().enumerate() {
        assert_eq!(peers.position(peer), Some(place));
    }
    assert_eq!(bits(&directory, 0), [false; 3]);
    // Bits are in the order of keys.
    directory.update_peers(&[info(3, 1)]).unwrap();
    assert_eq!(bits(&directory, 0), [false, false, true]);
}

fn test_update_knowledge_single_peer<P: Pair>() {
    let mut directory = tracked::<P>(&[&[1, 2, 3]]);
    assert_eq!(bits(&directory, 0), [false; 3]);
    for _ in 0..2 {
        know(&mut directory, 3, 1);
        assert_eq!(bits(&directory, 0), [false, false, true]);
    }
    forget(&mut directory, 3);
    assert_eq!(bits(&directory, 0), [false; 3]);
    // A peer that isn't in the set changes no bit.
    know(&mut directory, 4, 1);
    assert_eq!(bits(&directory, 0), [false; 3]);
    know(&mut directory, 3, 2);
    assert_eq!(bits(&directory, 0), [false, false, true]);
}

fn test_update_multiple_peers<P: Pair>() {
    let mut directory = tracked::<P>(&[&[1, 2, 3], &[2, 3, 4]]);
    let infos: Vec<_> = [4, 2].map(|number| info(number, 1)).into();
    directory.update_peers(&infos).unwrap();
    assert_eq!(bits(&directory, 0), [false, true, false]);
    assert_eq!(bits(&directory, 1), [true, false, true]);
    for number in [1, 3] {
        know(&mut directory, number, 1);
    }
    assert_eq!(bits(&directory, 0), [true; 3]);
    assert_eq!(bits(&directory, 1), [true; 3]);
    for number in [2, 1] {
        forget(&mut directory, number);
    }
    assert_eq!(bits(&directory, 0), [false, false, true]);
    assert_eq!(bits(&directory, 1), [false, true, true]);
}

fn test_len<P: Pair>() {
    for count in [0, 1, 7, 8, 9, 1000] {
        let numbers: Vec<u16> = (1..).filter(|number| *number != 99).take(count).collect();
        let directory = tracked::<P>(&[&numbers]);
        assert_eq!(bits(&directory, 0).len(), count);
        let peers = directory.get_peer_set(0).unwrap().unwrap().primary;
        assert_eq!(peers.len(), count);
    }
}

fn test_knowledge_reflects_updates_and_cloning<P: Pair>() {
    let mut directory = tracked::<P>(&[&[1, 2, 3]]);
    let before = bits(&directory, 0);
    know(&mut directory, 2, 1);
    let after_first = bits(&directory, 0);
    assert_eq!(after_first, [false, true, false]);
    know(&mut directory, 3, 1);
    assert_eq!(bits(&directory, 0), [false, true, true]);
    // What was returned before doesn't change.
    assert_eq!(before, [false; 3]);
    assert_eq!(after_first, [false, true, false]);
}

fn test_empty_set_behavior<P: Pair>() {
    let mut directory = tracked::<P>(&[&[]]);
    let peers = directory.get_peer_set(0).unwrap().unwrap().primary;
    assert_eq!((peers.len(), peers.iter().count()), (0, 0));
    assert!(bits(&directory, 0).is_empty());
    know(&mut directory, 1, 1);
    assert!(bits(&directory, 0).is_empty());
    assert_eq!(directory.get_random_bit_vec(1).unwrap(), None);
}

fn test_single_peer_set<P: Pair>() {
    let mut directory = tracked::<P>(&[&[42]]);
    let peers = directory.get_peer_set(0).unwrap().unwrap().primary;
    assert_eq!(peers.to_vec(), [key::<P>(42)]);
    assert_eq!(peers.position(&key::<P>(42)), Some(0));
    assert_eq!(bits(&directory, 0), [false]);
    know(&mut directory, 42, 1);
    assert_eq!(bits(&directory, 0), [true]);
    forget(&mut directory, 42);
    assert_eq!(bits(&directory, 0), [false]);
}
