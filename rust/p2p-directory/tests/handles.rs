//! No memory is leaked, and none is accessed outside of a session's: checked by valgrind, if it is
//! installed.

#[macro_use]
mod each_pair;
mod valgrind;

use p2p_directory::Moment;
use p2p_directory::sized::testing::{config, info, key, setup, verify};
use p2p_directory::sized::{Directory, Node, OrderedSet, Pair, Payload, Received};
use std::time::Duration;

tests_of_each_pair! {
    directories_live_beside_each_other,
    nodes_answer_frames_of_each_other,
    valgrind_finds_nothing,
}

const NOW: Moment = Moment::from_secs(100);

fn directories_live_beside_each_other<P: Pair>() {
    let mut directories: Vec<Directory<P>> = (1..=20)
        .map(|number| Directory::init(&[], &info(number, 0), config()).unwrap())
        .collect();
    for (index, directory) in (0..).zip(&mut directories) {
        let peers = OrderedSet::from_iter_dedup((1..=30).map(key::<P>)).into();
        directory.track(index, &peers).unwrap().accepted().unwrap();
        assert_eq!(directory.tracked(), 29);
        let granted = directory
            .listen(&key::<P>(30), NOW, Duration::ZERO)
            .unwrap();
        let reservation = granted.unwrap();
        assert_eq!(reservation.public_key(), &key::<P>(30));
        if index % 2 == 0 {
            directory.release(reservation).unwrap();
        }
    }
    directories.truncate(7);
    let moved = std::thread::spawn(move || directories.len());
    assert_eq!(moved.join().unwrap(), 7);
}

fn nodes_answer_frames_of_each_other<P: Pair>() {
    let mut nodes = [1, 2].map(|number| Node::<P>::new(&setup(number)).unwrap());
    for node in &mut nodes {
        let peers = OrderedSet::from_iter_dedup((1..=30).map(key::<P>)).into();
        node.directory_mut()
            .track(0, &peers)
            .unwrap()
            .accepted()
            .unwrap();
    }
    let [asker, replier] = &mut nodes;
    let question = asker.ask(0).unwrap().unwrap();
    let Received::Reply(reply) = replier.receive(&question, NOW, verify) else {
        panic!("no reply");
    };
    assert_eq!(asker.receive(&reply, NOW, verify), Received::Applied(1));
    let greeting = Payload::Greeting(info::<P>(3, 0)).encode();
    assert_eq!(
        asker.receive(&greeting, NOW, verify),
        Received::Greeted(key::<P>(3))
    );
    let none = asker.receive(&[9, 9], NOW, verify);
    assert!(matches!(none, Received::Codec(_)));
}

fn valgrind_finds_nothing<P: Pair>() {
    valgrind::finds_nothing::<P>(&[
        "directories_live_beside_each_other",
        "nodes_answer_frames_of_each_other",
    ]);
}
