//! Frames in two steps: the node returns the signatures to verify, and later processes the frame
//! with the results.

#[macro_use]
mod each_pair;

use p2p_directory::sized::testing::{self, info, key, setup, verify};
use p2p_directory::sized::{Judged, Node, OrderedSet, Pair, Payload, Questions, Received};
use p2p_directory::{BitVec, Data, Error, Moment, WrongVerdictsError};
use std::sync::Mutex;
use std::thread;
use std::time::Duration;

tests_of_each_pair! {
    the_questions_are_those_of_the_frame,
    both_steps_answer_as_one,
    an_info_from_the_future_is_never_applied_unverified,
    a_verdict_that_is_false_ends_them,
    verdicts_are_counted,
    what_another_node_checked_is_refused_and_given_back,
    a_node_may_change_between_the_steps,
    threads_verify_while_the_node_is_used,
}

const NOW: Moment = Moment::from_secs(100);

fn node<P: Pair>(number: u16) -> Node<P> {
    let mut node = Node::new(&setup(number)).unwrap();
    let peers = OrderedSet::from_iter_dedup((1..=3).map(key::<P>)).into();
    node.directory_mut()
        .track(0, &peers)
        .unwrap()
        .accepted()
        .unwrap();
    node
}

fn peers<P: Pair>(infos: &[(u16, u64)]) -> Vec<u8> {
    let infos = infos
        .iter()
        .map(|(number, timestamp)| info::<P>(*number, *timestamp));
    Payload::Peers(infos.collect()).encode()
}

fn bits<P: Pair>(node: &Node<P>) -> Vec<bool> {
    let bits = node.directory().get_random_bit_vec(0).unwrap();
    bits.unwrap().bits
}

fn verdicts<P: Pair>(questions: &Questions<'_, P>) -> Vec<bool> {
    let verdicts = questions.iter().map(verify);
    verdicts.collect()
}

fn taken<P: Pair>(node: &mut Node<P>, judged: Judged<'_, P>) -> Received<P> {
    node.receive_judged(judged).expect("this node checked it")
}

fn the_questions_are_those_of_the_frame<P: Pair>() {
    let node = node::<P>(9);
    let frame = peers::<P>(&[(1, 5), (2, 7)]);
    let questions = node.check(&frame, NOW).unwrap();
    assert_eq!(questions.namespace(), testing::NAMESPACE);
    assert_eq!((questions.len(), questions.iter().len()), (2, 2));
    let told = [info::<P>(1, 5), info(2, 7)];
    for (asked, told) in questions.iter().zip(&told) {
        assert_eq!(asked.public_key, told.public_key);
        assert_eq!(asked.message, told.signed_bytes());
        assert_eq!(asked.signature, told.signature);
    }
}

fn both_steps_answer_as_one<P: Pair>() {
    let greeting = Payload::Greeting(info::<P>(1, 5)).encode();
    let message = Payload::<P>::Data(Data {
        channel: 1,
        message: vec![7; 9],
    });
    let question = Payload::<P>::BitVec(BitVec {
        index: 0,
        bits: vec![false; 2],
    });
    let frames = [
        greeting,
        message.encode(),
        question.encode(),
        peers::<P>(&[(1, 5), (2, 7)]),
        peers::<P>(&[(1, 5), (9, 7), (2, 7)]),
        peers::<P>(&[(1, 200_000)]),
        vec![4],
        vec![],
    ];
    for frame in frames {
        let (mut at_once, mut in_steps) = (node::<P>(9), node(9));
        let questions = in_steps.check(&frame, NOW).unwrap();
        let verdicts = verdicts(&questions);
        let judged = questions.judged(verdicts).unwrap();
        let received = taken(&mut in_steps, judged);
        assert_eq!(received, at_once.receive(&frame, NOW, verify), "{frame:?}");
        assert_eq!(bits(&in_steps), bits(&at_once), "{frame:?}");
    }
}

fn an_info_from_the_future_is_never_applied_unverified<P: Pair>() {
    let mut node = node::<P>(9);
    // The second timestamp is 30 seconds and a millisecond ahead at `NOW`, and within the bound a
    // second later.
    let frame = peers::<P>(&[(1, 1000), (2, 130_001)]);
    let later = NOW.saturating_add(Duration::from_secs(1));
    let questions = node.check(&frame, NOW).unwrap();
    let keys: Vec<_> = questions.iter().map(|asked| asked.public_key).collect();
    assert_eq!(keys, [key::<P>(1)]);
    assert_eq!(node.check(&frame, later).unwrap().len(), 2);

    // However much later, the frame is validated at the time at which it was checked.
    let early = Received::Invalid(Error::SynchronyBound);
    assert_eq!(
        node.directory().status(&key::<P>(2)),
        Some(p2p_directory::Status::Inert)
    );
    let judged = questions.judged([true]).unwrap();
    assert_eq!(taken(&mut node, judged), early);
    assert_eq!(bits(&node), [false; 3]);

    let received = node.receive(&frame, later, |asked| asked.public_key == key::<P>(1));
    assert_eq!(received, Received::Invalid(Error::InvalidSignature));
    assert_eq!(bits(&node), [false; 3]);
}

fn a_verdict_that_is_false_ends_them<P: Pair>() {
    let frame = peers::<P>(&[(1, 5), (2, 5), (3, 5)]);
    let mut node = node::<P>(9);
    let refused = Received::Invalid(Error::InvalidSignature);
    for verdicts in [
        &[false][..],
        &[true, false],
        &[true, false, true],
        &[true, true, false],
    ] {
        let questions = node.check(&frame, NOW).unwrap();
        let judged = questions.judged(verdicts.iter().copied()).unwrap();
        assert_eq!(taken(&mut node, judged), refused, "{verdicts:?}");
        assert_eq!(bits(&node), [false; 3]);
    }
    let judged = node.check(&frame, NOW).unwrap().judged([true; 3]).unwrap();
    assert_eq!(taken(&mut node, judged), Received::Applied(3));
    assert_eq!(bits(&node), [true; 3]);
}

fn verdicts_are_counted<P: Pair>() {
    let frame = peers::<P>(&[(1, 5), (2, 5), (3, 5)]);
    let node = node::<P>(9);
    for verdicts in [&[][..], &[true], &[true, true], &[true; 4], &[false; 4]] {
        let questions = node.check(&frame, NOW).unwrap();
        let judged = questions.judged(verdicts.iter().copied());
        assert_eq!(judged.err(), Some(WrongVerdictsError), "{verdicts:?}");
    }
    // The iterator ends, too.
    let questions = node.check(&frame, NOW).unwrap();
    let judged = questions.judged(std::iter::repeat(false));
    assert_eq!(judged.err(), Some(WrongVerdictsError));
}

fn what_another_node_checked_is_refused_and_given_back<P: Pair>() {
    let (mut one, mut other) = (node::<P>(9), node(8));
    let frame = peers::<P>(&[(1, 5)]);
    let judged = one.check(&frame, NOW).unwrap().judged([true]).unwrap();
    let refused = other.receive_judged(judged).unwrap_err();
    assert_eq!(refused.to_string(), "the frame was checked by another node");
    assert_eq!(bits(&other), [false; 3]);
    assert_eq!(taken(&mut one, refused.judged), Received::Applied(1));
    assert_eq!(bits(&one), [true, false, false]);
}

fn a_node_may_change_between_the_steps<P: Pair>() {
    let mut node = node::<P>(9);
    let frame = peers::<P>(&[(1, 5), (2, 5)]);
    let judged = node.check(&frame, NOW).unwrap().judged([true; 2]).unwrap();
    let others = OrderedSet::from_iter_dedup([key::<P>(2), key::<P>(3)]).into();
    node.directory_mut()
        .track(1, &others)
        .unwrap()
        .accepted()
        .unwrap();
    // 1 has no record any more.
    assert_eq!(taken(&mut node, judged), Received::Applied(2));
    assert_eq!(bits(&node), [true, false]);
}

fn threads_verify_while_the_node_is_used<P: Pair>() {
    fn is_shared<T: Send + Sync>(_: &T) {}
    let node = Mutex::new(node::<P>(9));
    let frame = peers::<P>(&[(1, 5), (2, 5), (3, 5)]);
    let questions = node.lock().unwrap().check(&frame, NOW).unwrap();
    is_shared(&questions);
    let verdicts: Vec<bool> = thread::scope(|scope| {
        let threads: Vec<_> = questions
            .iter()
            .map(|asked| {
                let node = &node;
                scope.spawn(move || {
                    assert_eq!(node.lock().unwrap().directory().tracked(), 3);
                    verify(asked)
                })
            })
            .collect();
        let joined = threads.into_iter().map(|thread| thread.join().unwrap());
        joined.collect()
    });
    let judged = questions.judged(verdicts).unwrap();
    let received = taken(&mut node.lock().unwrap(), judged);
    assert_eq!(received, Received::Applied(3));
}
