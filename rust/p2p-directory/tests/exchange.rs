//! Two nodes that exchange infos over frames.

#[macro_use]
mod each_pair;

use p2p_directory::sized::testing::{self, info, key, setup, verify};
use p2p_directory::sized::{
    Bytes, Info, Node, OrderedSet, Pair, Payload, Received, Reservation, Setup, Tracked,
    TrackedPeers,
};
use p2p_directory::{BitVec, CodecError, Data, Error, Moment, TrackError};
use std::mem;
use std::num::NonZeroUsize;
use std::panic::{AssertUnwindSafe, catch_unwind};
use std::time::Duration;

tests_of_each_pair! {
    an_exchange_brings_what_is_wanted_and_may_be_shared,
    bits_of_another_number_are_malformed,
    an_unknown_index_has_no_infos,
    a_message_is_handed_on,
    a_long_reply_comes_whole,
    signatures_are_asked_for_in_order_and_no_more_than_decide,
    no_signature_is_asked_for_behind_one_that_is_not_right,
    what_is_refused_changes_nothing,
    a_scheme_of_ones_own_judges,
    bits_beyond_the_limit_of_frames_may_be_asked_for,
    a_set_about_which_a_node_could_not_be_asked_is_refused,
    a_set_above_the_limit_makes_a_correct_node_look_like_a_hostile_one,
    a_node_takes_no_frame_for_another_directory,
    a_closure_that_panics_changes_nothing,
    a_bound_below_a_second_counts,
    a_reply_is_cut_by_a_draw,
    a_reply_that_is_not_cut_is_that_of_a_frame,
    a_greeting_says_who_greets,
    sets_are_counted_while_they_are_retained,
    few_connections_of_many_peers_are_all_that_is_shared,
}

fn node<P: Pair>(number: u16, numbers: &[u16]) -> Node<P> {
    let mut node = Node::new(&setup(number)).unwrap();
    let keys = numbers.iter().map(|number| key::<P>(*number));
    let peers = OrderedSet::from_iter_dedup(keys).into();
    node.directory_mut()
        .track(0, &peers)
        .unwrap()
        .accepted()
        .unwrap();
    node
}

fn seconds(seconds: u64) -> Moment {
    Moment::from_secs(seconds)
}

// Accepts a peer, and connects it.
fn connected<P: Pair>(node: &mut Node<P>, number: u16) -> Reservation<P> {
    let directory = node.directory_mut();
    let granted = directory.listen(&key::<P>(number), seconds(50), Duration::ZERO);
    let held = granted.unwrap().unwrap();
    directory.connect(&key::<P>(number), false).unwrap();
    held
}

fn bits<P: Pair>(node: &Node<P>) -> Vec<bool> {
    let bits = node.directory().get_random_bit_vec(0).unwrap();
    bits.unwrap().bits
}

// The asker's question, the replier's reply, and the result of the asker for it.
fn exchange<P: Pair>(
    asker: &mut Node<P>,
    replier: &mut Node<P>,
    asked: Moment,
    told: Moment,
) -> Received<P> {
    let question = asker.ask(0).unwrap().unwrap();
    match replier.receive(&question, told, verify) {
        Received::Reply(reply) => asker.receive(&reply, asked, verify),
        refused => refused,
    }
}

fn an_exchange_brings_what_is_wanted_and_may_be_shared<P: Pair>() {
    let (mut asker, mut replier) = (node::<P>(9, &[1, 2]), node(8, &[1, 2]));
    replier
        .directory_mut()
        .update_peers(&[info(1, 100_000)])
        .unwrap();
    let held = connected(&mut replier, 1);
    assert_eq!(asker.ask(0).unwrap().unwrap(), [2, 0, 2, 0]);

    // The timestamp of the info is ahead of the asker's time by more than its bound.
    let early = Received::Invalid(Error::SynchronyBound);
    let almost = Moment::from(Duration::new(69, 999_999_999));
    assert_eq!(
        exchange(&mut asker, &mut replier, almost, seconds(100)),
        early
    );
    assert_eq!(bits(&asker), [false, false]);

    let done = exchange(&mut asker, &mut replier, seconds(70), seconds(100));
    assert_eq!(done, Received::Applied(1));
    assert_eq!(bits(&asker), [true, false]);
    let again = exchange(&mut asker, &mut replier, seconds(70), seconds(100));
    assert_eq!(again, Received::Applied(0));
    replier.directory_mut().release(held).unwrap();
}

fn bits_of_another_number_are_malformed<P: Pair>() {
    let (mut asker, mut replier) = (node::<P>(9, &[1, 2]), node(8, &[1]));
    let answer = exchange(&mut asker, &mut replier, seconds(100), seconds(100));
    assert_eq!(answer, Received::Malformed);
}

fn an_unknown_index_has_no_infos<P: Pair>() {
    let (mut asker, mut replier) = (node::<P>(9, &[1, 2]), Node::new(&setup(8)).unwrap());
    let answer = exchange(&mut asker, &mut replier, seconds(100), seconds(100));
    assert_eq!(answer, Received::Applied(0));
}

fn a_message_is_handed_on<P: Pair>() {
    let mut node = node::<P>(9, &[1]);
    let data = Data {
        channel: 7,
        message: vec![1; 4000],
    };
    let frame = Payload::<P>::Data(data).encode();
    let answer = node.receive(&frame, seconds(1), |_| unreachable!());
    let message = Received::Data {
        channel: 7,
        message: 4..4004,
    };
    assert_eq!(answer, message);
}

fn a_long_reply_comes_whole<P: Pair>() {
    let numbers: Vec<u16> = (1..=200).collect();
    let (mut asker, mut replier) = (node::<P>(1, &numbers), node(2, &numbers));
    let infos: Vec<_> = numbers.iter().map(|number| info(*number, 1)).collect();
    replier.directory_mut().update_peers(&infos).unwrap();
    let others = numbers.iter().filter(|number| **number != 2);
    let held: Vec<_> = others
        .map(|number| connected(&mut replier, *number))
        .collect();
    let done = exchange(&mut asker, &mut replier, seconds(100), seconds(100));
    // All but the asker itself, which doesn't want its own info.
    assert_eq!(done, Received::Applied(199));
    assert_eq!(bits(&asker), [true; 200]);
    for reservation in held {
        replier.directory_mut().release(reservation).unwrap();
    }
}

fn signatures_are_asked_for_in_order_and_no_more_than_decide<P: Pair>() {
    let mut node = node::<P>(9, &[1, 2, 3]);
    let infos = vec![info::<P>(1, 0), info(2, 0), info(9, 0), info(3, 0)];
    let frame = Payload::Peers(infos).encode();
    let mut asked = Vec::new();
    let answer = node.receive(&frame, seconds(1), |question| {
        assert_eq!(question.namespace, testing::NAMESPACE);
        asked.push(question.public_key);
        verify(question)
    });
    assert_eq!(answer, Received::Invalid(Error::ReceivedSelf));
    assert_eq!(asked, [key::<P>(1), key::<P>(2)]);
}

fn no_signature_is_asked_for_behind_one_that_is_not_right<P: Pair>() {
    let mut node = node::<P>(9, &[1, 2, 3]);
    let frame = Payload::Peers(vec![info::<P>(1, 0), info::<P>(2, 0), info(3, 0)]).encode();
    let mut asked = Vec::new();
    let answer = node.receive(&frame, seconds(1), |question| {
        asked.push(question.public_key);
        false
    });
    assert_eq!(answer, Received::Invalid(Error::InvalidSignature));
    assert_eq!(asked, [key::<P>(1)]);
    assert_eq!(bits(&node), [false, false, false]);
}

fn what_is_refused_changes_nothing<P: Pair>() {
    let mut node = node::<P>(9, &[1, 2]);
    let frame = Payload::Peers(vec![info::<P>(1, 0), info(2, 0)]).encode();
    let refused = node.receive(&frame, seconds(1), |asked| asked.public_key == key::<P>(1));
    assert_eq!(refused, Received::Invalid(Error::InvalidSignature));
    assert_eq!(bits(&node), [false, false]);
    assert_eq!(
        node.receive(&frame, seconds(1), verify),
        Received::Applied(2)
    );
    assert_eq!(bits(&node), [true, true]);
}

fn a_scheme_of_ones_own_judges<P: Pair>() {
    // A signature is the key again and again, as far as it has room.
    let repeated = |key: &P::Key| -> Vec<u8> {
        let bytes = key.as_ref().iter().cycle();
        bytes.take(P::SIGNATURE_SIZE).copied().collect()
    };
    let signed = |number: u16| {
        let mut info = info::<P>(number, 5);
        info.signature = P::Signature::of_bytes(&repeated(&info.public_key)).unwrap();
        info
    };
    let mut node = node::<P>(9, &[1]);
    let greeting = Payload::Greeting(signed(1)).encode();
    let answer = node.receive(&greeting, seconds(1), |question| {
        question.signature.as_ref() == repeated(&question.public_key)
    });
    assert_eq!(answer, Received::Greeted(key::<P>(1)));
    assert_eq!(bits(&node), [true]);
}

fn bits_beyond_the_limit_of_frames_may_be_asked_for<P: Pair>() {
    let mut setup = setup::<P>(9);
    setup.payload.max_bit_vec = 1;
    let mut node = Node::new(&setup).unwrap();
    let numbers = [key::<P>(1), key::<P>(2)];
    let peers = OrderedSet::try_from(numbers).unwrap().into();
    node.directory_mut()
        .track(0, &peers)
        .unwrap()
        .accepted()
        .unwrap();
    let bits = BitVec {
        index: 0,
        bits: vec![false, false],
    };
    let infos = node.directory().infos(&bits, seconds(1));
    assert_eq!(infos.unwrap(), Some(Vec::new()));
}

// The set has this many primary peers, and frames may have three bits.
fn track_of_three<P: Pair>(
    primary: u16,
    index: u64,
    node: &mut Node<P>,
) -> Result<Tracked<P>, TrackError> {
    let primary = OrderedSet::from_iter_dedup((1..=primary).map(key::<P>));
    let secondary = OrderedSet::from_iter_dedup((11..=20).map(key::<P>));
    node.track(index, &TrackedPeers::new(primary, secondary))
}

fn a_set_about_which_a_node_could_not_be_asked_is_refused<P: Pair>() {
    let mut setup = setup::<P>(9);
    setup.payload.max_bit_vec = 3;
    let mut node = Node::new(&setup).unwrap();
    let too_large = Err(TrackError::TooLarge {
        primary: 4,
        limit: 3,
    });
    let nobody = Tracked::Accepted(OrderedSet::default());
    assert_eq!(track_of_three(4, 0, &mut node), too_large);
    assert_eq!(node.directory().latest_set_index(), None);
    assert_eq!(node.directory().tracked(), 0);
    assert_eq!(track_of_three(3, 7, &mut node), Ok(nobody));
    assert_eq!(track_of_three(2, 7, &mut node), Ok(Tracked::Stale));
    // It is refused for its size also where its index isn't above.
    assert_eq!(track_of_three(4, 7, &mut node), too_large);
    assert_eq!(node.directory().latest_set_index(), Some(7));
    assert_eq!(bits(&node).len(), 3);
}

// What happens without that refusal: the question of a correct node is no frame within the limits.
fn a_set_above_the_limit_makes_a_correct_node_look_like_a_hostile_one<P: Pair>() {
    let asker = node::<P>(8, &[1, 2, 3, 4]);
    let mut setup = setup::<P>(9);
    setup.payload.max_bit_vec = 3;
    let mut replier = Node::new(&setup).unwrap();
    let peers = OrderedSet::from_iter_dedup((1..=4).map(key::<P>)).into();
    let tracked = replier.directory_mut().track(0, &peers).unwrap();
    assert_eq!(tracked, Tracked::Accepted(OrderedSet::default()));
    let question = asker.ask(0).unwrap().unwrap();
    let refused = Received::Codec(CodecError::InvalidLength(4));
    assert_eq!(replier.receive(&question, seconds(1), verify), refused);
}

fn a_node_takes_no_frame_for_another_directory<P: Pair>() {
    let (mut one, mut other) = (node::<P>(9, &[1, 2]), testing::directory());
    let greeting = Payload::Greeting(info::<P>(1, 0)).encode();
    let judged = one.check(&greeting, seconds(1)).unwrap();
    let judged = judged.judged([true]).unwrap();
    mem::swap(one.directory_mut(), &mut other);
    let receives = catch_unwind(AssertUnwindSafe(|| {
        one.receive(&greeting, seconds(1), |_| true)
    }));
    let checks = catch_unwind(AssertUnwindSafe(|| {
        one.check(&greeting, seconds(1)).is_ok()
    }));
    let asks = catch_unwind(AssertUnwindSafe(|| one.ask(0)));
    let empty = TrackedPeers::default();
    let tracks = catch_unwind(AssertUnwindSafe(|| one.track(9, &empty).is_ok()));
    let nothing = nothing_known(0, 2);
    let replies = catch_unwind(AssertUnwindSafe(|| {
        one.reply_at_most(&nothing, seconds(1), 1, 0)
    }));
    assert!(receives.is_err() && checks.is_err() && asks.is_err() && replies.is_err());
    assert!(tracks.is_err());
    assert_eq!(one.directory().tracked(), 0);
    mem::swap(one.directory_mut(), &mut other);
    assert_eq!(
        one.receive_judged(judged).unwrap(),
        Received::Greeted(key::<P>(1))
    );
    assert_eq!(bits(&one), [true, false]);
}

fn a_closure_that_panics_changes_nothing<P: Pair>() {
    let mut node = node::<P>(9, &[1, 2]);
    let frame = Payload::Peers(vec![info::<P>(1, 0), info(2, 0)]).encode();
    let panicked = catch_unwind(AssertUnwindSafe(|| {
        node.receive(&frame, seconds(1), |question| {
            assert_ne!(question.public_key, key::<P>(2));
            true
        })
    }));
    assert!(panicked.is_err());
    assert_eq!(bits(&node), [false, false]);
    let again = node.receive(&frame, seconds(1), verify);
    assert_eq!(again, Received::Applied(2));
    assert_eq!(bits(&node), [true, true]);
}

// A bound of 1.002 seconds accepts a timestamp that is as far ahead, and none that is a millisecond
// later.
fn a_bound_below_a_second_counts<P: Pair>() {
    let bound = Duration::new(1, 2_000_000);
    let setup = Setup {
        synchrony_bound: bound,
        ..setup(9)
    };
    let mut node = Node::<P>::new(&setup).unwrap();
    let greeting = |timestamp| Payload::Greeting(info::<P>(1, timestamp)).encode();
    let mut received = |timestamp| node.receive(&greeting(timestamp), seconds(100), verify);
    assert_eq!(received(101_003), Received::Invalid(Error::SynchronyBound));
    assert_eq!(received(101_002), Received::Greeted(key::<P>(1)));
}

// A node that is connected with 1, 2 and 3, and knows their addresses.
fn gossiping<P: Pair>() -> (Node<P>, [Reservation<P>; 3]) {
    let mut node = node(9, &[1, 2, 3]);
    let infos = [1, 2, 3].map(|number| info(number, 0));
    node.directory_mut().update_peers(&infos).unwrap();
    let held = [1, 2, 3].map(|number| connected(&mut node, number));
    (node, held)
}

fn nothing_known(index: u64, count: usize) -> BitVec {
    BitVec {
        index,
        bits: vec![false; count],
    }
}

fn a_reply_is_cut_by_a_draw<P: Pair>() {
    let (node, _held) = gossiping::<P>();
    let told = |count, draw| -> Vec<P::Key> {
        let reply = node.reply_at_most(&nothing_known(0, 3), seconds(100), count, draw);
        let limits = setup::<P>(9).payload;
        match Payload::<P>::decode(&reply.unwrap().unwrap(), &limits) {
            Ok(Payload::Peers(infos)) => infos.into_iter().map(|info| info.public_key).collect(),
            other => panic!("{other:?}"),
        }
    };
    let keys = |numbers: &[u16]| -> Vec<P::Key> {
        numbers.iter().map(|number| key::<P>(*number)).collect()
    };
    assert_eq!(told(1, 0), keys(&[1]));
    assert_eq!(told(1, 1), keys(&[2]));
    assert_eq!(told(2, 2), keys(&[3, 1]));
    assert_eq!(told(2, 5), keys(&[3, 1]));
    assert_eq!(told(3, 1), keys(&[1, 2, 3]));
    assert_eq!(told(0, 1), keys(&[]));
}

fn a_reply_that_is_not_cut_is_that_of_a_frame<P: Pair>() {
    let (mut node, _held) = gossiping::<P>();
    for (index, count) in [(0, 3), (1, 3), (0, 2)] {
        let bits = nothing_known(index, count);
        let reply = node.reply_at_most(&bits, seconds(100), 3, 7).unwrap();
        let frame = Payload::<P>::BitVec(bits).encode();
        let received = node.receive(&frame, seconds(100), verify);
        assert_eq!(received, reply.map_or(Received::Malformed, Received::Reply));
    }
}

fn a_greeting_says_who_greets<P: Pair>() {
    let mut node = node::<P>(9, &[1]);
    let greeting = Payload::Greeting(info::<P>(2, 0)).encode();
    let received = node.receive(&greeting, seconds(1), verify);
    // The greeter is in no set, and may differ from the peer of the connection: the host must
    // compare them.
    assert_eq!(received, Received::Greeted(key::<P>(2)));
}

fn sets_are_counted_while_they_are_retained<P: Pair>() {
    let mut setup = setup::<P>(9);
    setup.cfg.max_sets = NonZeroUsize::new(2).unwrap();
    let mut node = Node::new(&setup).unwrap();
    let set = TrackedPeers::from(OrderedSet::from_iter_dedup([key::<P>(1)]));
    let counts = [0, 1, 2].map(|index| {
        node.directory_mut()
            .track(index, &set)
            .unwrap()
            .accepted()
            .unwrap();
        let retained = node.directory().retained();
        assert!(node.ask(retained - 1).unwrap().is_some());
        assert_eq!(node.ask(retained), Ok(None));
        retained
    });
    assert_eq!(counts, [1, 2, 2]);
}

// The infos that a node shares for these bits, whose connections are of these peers. The timestamp
// of a peer's info is its number in milliseconds.
fn shared<P: Pair>(own: &Info<P>, connected: &[u16], now: u64, bits: &[bool]) -> Vec<Info<P>> {
    let mut infos = Vec::new();
    for (number, known) in (1..).zip(bits) {
        let told = match number {
            _ if key::<P>(number) == own.public_key => own.clone(),
            _ if connected.contains(&number) => info(number, number.into()),
            _ => continue,
        };
        if !known && told.timestamp <= now {
            infos.push(told);
        }
    }
    infos
}

// All false, all true, one true, one false, and every other one.
fn questions(count: usize, place: usize) -> [Vec<bool>; 5] {
    let one = |known: bool| (0..count).map(move |at| (at == place) == known).collect();
    let half = (0..count).map(|at| at % 2 == 0).collect();
    [
        vec![false; count],
        vec![true; count],
        one(true),
        one(false),
        half,
    ]
}

// With few connections the node searches for these alone, with more it passes along the peers.
fn few_connections_of_many_peers_are_all_that_is_shared<P: Pair>() {
    const COUNT: u16 = 400;
    let numbers: Vec<u16> = (1..=COUNT).collect();
    let infos: Vec<_> = numbers
        .iter()
        .map(|at| info::<P>(*at, u64::from(*at)))
        .collect();
    // The local node is the first of the peers, one of them, the last, and none.
    for own in [1, 200, COUNT, COUNT + 1] {
        let mine = setup(own).myself;
        let mut node = node(own, &numbers);
        node.directory_mut().update_peers(&infos).unwrap();
        let mut peers = Vec::new();
        let mut held = Vec::new();
        for peer in (0..60)
            .map(|at| 3 + at * 397 % COUNT)
            .filter(|at| *at != own)
        {
            for now in [0, 199, 200, 1_000] {
                for bits in questions(COUNT.into(), usize::from(peer) - 1) {
                    let answer = shared(&mine, &peers, now, &bits);
                    let bits = BitVec { index: 0, bits };
                    let now = Moment::from(Duration::from_millis(now));
                    let told = node.directory().infos(&bits, now).unwrap();
                    assert_eq!(told, Some(answer), "{own} {peers:?}");
                }
            }
            held.push(connected(&mut node, peer));
            peers.push(peer);
        }
        // Who is reserved alone shares nothing.
        let directory = node.directory_mut();
        let reserved = directory.listen(&key::<P>(2), seconds(50), Duration::ZERO);
        held.push(reserved.unwrap().unwrap());
        let bits = vec![false; COUNT.into()];
        let answer = shared(&mine, &peers, 1_000, &bits);
        let told = directory.infos(&BitVec { index: 0, bits }, seconds(1));
        assert_eq!(told.unwrap(), Some(answer));
        // Bits of another number, and of a set that isn't retained.
        let bits = vec![false; usize::from(COUNT) - 1];
        assert_eq!(
            directory
                .infos(
                    &BitVec {
                        index: 0,
                        bits: bits.clone()
                    },
                    seconds(1)
                )
                .unwrap(),
            None
        );
        assert_eq!(
            directory
                .infos(&BitVec { index: 1, bits }, seconds(1))
                .unwrap(),
            Some(vec![])
        );
        for reservation in held {
            directory.release(reservation).unwrap();
        }
    }
}
