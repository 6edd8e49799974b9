//! The same small run with keys and signatures of each pair of sizes, and the names of the crate for
//! each pair.

#[macro_use]
mod each_pair;

use p2p_directory::sized::{
    Bytes, Directory, Info, Metadata, Node, OrderedSet, Pair, Payload, Questions, Received,
    Reservation, Tracked, TrackedPeers, testing,
};
use p2p_directory::{CodecError, Error, KeyError, Moment, ParseError, Status};
use std::time::Duration;

tests_of_each_pair! {
    what_holds_a_key_is_sent,
    keys_have_a_text,
    infos_have_the_bytes_of_the_formats,
    frames_of_nodes_have_the_bytes_of_the_formats,
    a_peer_is_reserved_connected_and_released,
    a_peer_is_dialled_at_its_address,
    infos_go_from_node_to_node,
}

const NOW: Moment = Moment::from_secs(100);

// The first byte of a key here. Keys of 33 bytes begin with 2 or 3.
fn first<P: Pair>() -> u8 {
    if P::KEY_SIZE == 33 { 2 } else { 0 }
}

// The key of a number, and the bytes that it has.
fn key<P: Pair>(number: u8) -> P::Key {
    P::Key::of_bytes(&key_bytes::<P>(number)).expect("a key")
}

fn key_bytes<P: Pair>(number: u8) -> Vec<u8> {
    let mut bytes = vec![0; P::KEY_SIZE];
    bytes[0] = first::<P>();
    bytes[P::KEY_SIZE - 1] = number;
    bytes
}

fn set<P: Pair>(numbers: &[u8]) -> TrackedPeers<P> {
    OrderedSet::from_iter_dedup(numbers.iter().map(|number| key::<P>(*number))).into()
}

fn what_holds_a_key_is_sent<P: Pair>() {
    fn is_sent<T: Send>() {}
    is_sent::<Directory<P>>();
    is_sent::<Node<P>>();
    is_sent::<Reservation<P>>();
    is_sent::<Questions<'_, P>>();
}

fn keys_have_a_text<P: Pair>() {
    let text = key::<P>(0xab).to_string();
    assert_eq!(text.len(), 2 * P::KEY_SIZE);
    assert!(text.starts_with(&format!("{:02x}", first::<P>())) && text.ends_with("ab"));
    assert_eq!(text.parse(), Ok(key::<P>(0xab)));
    assert_eq!(text.to_uppercase().parse(), Ok(key::<P>(0xab)));
    assert_eq!(
        text[2..].parse::<P::Key>(),
        Err(ParseError::Length(2 * P::KEY_SIZE - 2))
    );
}

fn infos_have_the_bytes_of_the_formats<P: Pair>() {
    let info = Info {
        ingress: testing::info::<P>(1, 0).ingress,
        timestamp: 1000,
        public_key: key::<P>(5),
        signature: P::Signature::of_bytes(&vec![7; P::SIGNATURE_SIZE]).expect("bytes"),
    };
    let mut bytes = vec![0, 4, 1, 2, 3, 4, 0x1f, 0x41, 0xe8, 0x07];
    bytes.extend(key_bytes::<P>(5));
    bytes.extend(vec![7; P::SIGNATURE_SIZE]);
    assert_eq!(info.encode(), bytes);
    assert_eq!(info.encode_size(), 10 + P::KEY_SIZE + P::SIGNATURE_SIZE);
    assert_eq!(Info::<P>::decode(&bytes).as_ref(), Ok(&info));
    for length in 0..bytes.len() {
        assert_eq!(
            Info::<P>::decode(&bytes[..length]),
            Err(CodecError::EndOfBuffer)
        );
    }
    let greeting = Payload::Greeting(info.clone());
    assert_eq!(greeting.encode(), [&[1][..], &bytes].concat());
    let peers = Payload::Peers(vec![info.clone(), info]);
    let frame = [&[3, 2][..], &bytes, &bytes].concat();
    assert_eq!(peers.encode(), frame);
    assert_eq!(
        Payload::decode(&frame, &testing::setup::<P>(9).payload),
        Ok(peers)
    );
}

fn frames_of_nodes_have_the_bytes_of_the_formats<P: Pair>() {
    // The info of 2 at 1.2.3.4:8002 with the timestamp 0, and what is signed of it.
    let ingress = [0, 4, 1, 2, 3, 4, 0x1f, 0x42];
    let message = [ingress, [0; 8]].concat();
    let signature = testing::sign::<P>(&key::<P>(2), testing::NAMESPACE, &message);
    let info = [&ingress[..], &[0], &key_bytes::<P>(2), signature.as_ref()].concat();
    let greeting = [&[1][..], &info].concat();
    let reply = [&[3, 1][..], &info].concat();

    let mut nodes = [1, 2].map(|number| Node::<P>::new(&testing::setup(number)).unwrap());
    for node in &mut nodes {
        let _ = node.track(0, &set(&[1, 2])).unwrap();
    }
    let [asker, replier] = &mut nodes;
    // Each knows itself: the bit of 1 is the lowest.
    let question = [2, 0, 2, 0b01];
    assert_eq!(asker.ask(0), Ok(Some(question.to_vec())));
    let replied = replier.receive(&question, NOW, testing::verify);
    assert_eq!(replied, Received::Reply(reply.clone()));
    assert_eq!(replier.greeting(), greeting);
    let mut received = |frame: &[u8]| asker.receive(frame, NOW, testing::verify);
    assert_eq!(received(&reply), Received::Applied(1));
    assert_eq!(received(&greeting), Received::Greeted(key::<P>(2)));
    let data = Received::Data {
        channel: 1,
        message: 3..8,
    };
    assert_eq!(received(b"\0\x01\x05hello"), data);
}

fn a_peer_is_reserved_connected_and_released<P: Pair>() {
    let mut directory = testing::directory::<P>();
    let peer = key::<P>(1);
    assert_eq!(directory.status(&peer), None);
    let torn = directory.track(0, &set(&[1, 2])).unwrap();
    assert_eq!(torn, Tracked::Accepted(OrderedSet::default()));
    assert_eq!(directory.get_peer_set(0).unwrap(), Some(set(&[2, 1])));
    assert_eq!(directory.all().unwrap(), set(&[1, 2]));
    let update = directory.latest_update().unwrap().expect("a set");
    assert_eq!((update.index, update.latest), (0, set(&[1, 2])));
    assert_eq!(directory.status(&peer), Some(Status::Inert));
    assert!(directory.acceptable(&peer, NOW));

    let reservation = directory.listen(&peer, NOW, Duration::ZERO).unwrap();
    let reservation = reservation.expect("it is acceptable");
    assert_eq!(reservation.metadata(), &Metadata::Listener(peer));
    assert_eq!(directory.status(&peer), Some(Status::Reserved));
    assert_eq!(directory.connect_reserved(&reservation), Ok(()));
    assert_eq!(directory.status(&peer), Some(Status::Active));
    let torn = directory.track(1, &set(&[2])).unwrap();
    assert_eq!(torn, Tracked::Accepted(OrderedSet::from_iter_dedup([peer])));
    assert_eq!(directory.track(1, &set(&[1])).unwrap(), Tracked::Stale);
    assert!(directory.release(reservation).is_ok());
    assert_eq!(directory.status(&peer), None);

    // One that is dropped is released, too.
    drop(
        directory
            .listen(&key::<P>(2), NOW, Duration::ZERO)
            .unwrap()
            .expect("acceptable"),
    );
    assert_eq!(directory.status(&key::<P>(2)), Some(Status::Inert));
    assert!(directory.block(&key::<P>(2), NOW).unwrap());
    assert_eq!(
        directory.blocked_peers(NOW).unwrap().to_vec(),
        [key::<P>(2)]
    );
}

fn a_peer_is_dialled_at_its_address<P: Pair>() {
    let mut directory = testing::directory::<P>();
    let (peer, info) = (testing::key::<P>(1), testing::info(1, 1000));
    let peers = OrderedSet::from_iter_dedup([peer]).into();
    let _ = directory.track(0, &peers).unwrap();
    directory.update_peers(std::slice::from_ref(&info)).unwrap();
    assert_eq!(directory.dialable(NOW).unwrap().peers, [peer]);
    let reservation = directory.dial(&peer, NOW, Duration::ZERO).unwrap();
    let reservation = reservation.expect("its address is known");
    assert_eq!(
        reservation.metadata(),
        &Metadata::Dialer(peer, info.ingress.clone())
    );
    directory.connect_reserved(&reservation).unwrap();
    assert_eq!(directory.info(&peer).unwrap(), Some(info));
    assert!(directory.release(reservation).is_ok());
}

fn infos_go_from_node_to_node<P: Pair>() {
    let (one, two) = (testing::key::<P>(1), testing::key::<P>(2));
    let mut asker = Node::<P>::new(&testing::setup(1)).unwrap();
    let mut replier = Node::new(&testing::setup(2)).unwrap();
    for node in [&mut asker, &mut replier] {
        let peers = OrderedSet::from_iter_dedup([one, two]).into();
        let _ = node.track(0, &peers).unwrap();
    }
    let question = asker.ask(0).unwrap().expect("a set");
    let reply = replier.receive(&question, NOW, testing::verify);
    let own = testing::info::<P>(2, 0);
    let Received::Reply(frame) = reply else {
        panic!("{reply:?}");
    };
    assert_eq!(frame, Payload::Peers(vec![own.clone()]).encode());

    let questions = asker.check(&frame, NOW).unwrap();
    let asked: Vec<_> = questions.iter().collect();
    assert_eq!(asked.len(), 1);
    assert_eq!(asked[0].public_key, two);
    assert_eq!(asked[0].message, own.signed_bytes());
    assert_eq!(asked[0].signature, own.signature);
    let refused = questions.judged([false]).unwrap();
    let refused = asker.receive_judged(refused).unwrap();
    assert_eq!(refused, Received::Invalid(Error::InvalidSignature));
    let judged = asker.check(&frame, NOW).unwrap().judged_by(testing::verify);
    assert_eq!(asker.receive_judged(judged).unwrap(), Received::Applied(1));
    assert_eq!(asker.directory().dialable(NOW).unwrap().peers, [two]);

    let greeting = replier.receive(asker.greeting(), NOW, testing::verify);
    assert_eq!(greeting, Received::Greeted(one));
    let of_itself = asker.greeting().to_vec();
    let me = asker.receive(&of_itself, NOW, testing::verify);
    assert_eq!(me, Received::Invalid(Error::ReceivedSelf));

    let verifier = Info::verifier(one, 8, Duration::ZERO, testing::NAMESPACE).unwrap();
    assert_eq!(verifier.validate_info(NOW, &own, testing::verify), Ok(()));
}

// The names of a pair of sizes: the module that has them, the sizes, and the first byte of its keys
// here.
macro_rules! names {
    ($name:ident: $pair:ty, $($module:ident)::+, $key_size:literal, $signature_size:literal, $first:literal) => {
        mod $name {
            // The names of the root, each of which the module has.
            #[allow(unused_imports)]
            use $($module)::+::{
                BeforeEpochError, BitVec, CodecError, Config, ConnectError, Data, Dialable,
                Directory, DuplicateKeyError, EncodedData, Error, Hostname, Info, InfoVerifier,
                Ingress, Judged, KEY_SIZE, Key, KeyError, MAX_PAYLOAD_OVERHEAD, Metadata, Moment,
                Node, NotReservedError, OrderedSet, OutOfMemory, ParseError, Payload,
                PayloadConfig, PeerSetUpdate, Question, Questions, QuestionsIter, ReceiveError,
                Received, RefusedError, ReleaseError, Reservation, SIGNATURE_SIZE, Setup,
                SetupError, Signature, Status, TrackError, Tracked, TrackedPeers, ValidateError,
                What, WrongVerdictsError, is_global, max_gossip_size, max_size, testing,
            };
            use super::{key, key_bytes};
            use p2p_directory::sized;
            use std::any::TypeId;

            #[test]
            fn sizes_are_those_of_the_pair() {
                assert_eq!((KEY_SIZE, SIGNATURE_SIZE), ($key_size, $signature_size));
                assert_eq!(key::<$pair>(1).as_bytes()[..], key_bytes::<$pair>(1));
                assert_eq!(key::<$pair>(1).as_ref(), key_bytes::<$pair>(1));
                assert_eq!(Key::from_slice(&[$first; $key_size - 1]), None);
                assert_eq!(Key::from_slice(&[$first; $key_size + 1]), None);
                assert!(Signature::from_slice(&[0; $signature_size - 1]).is_none());
                let largest = 261 + 10 + $key_size + $signature_size;
                assert_eq!(Info::max_encode_size(), largest);
                assert_eq!(max_gossip_size(0, 0), Some(1 + largest));
                assert_eq!(max_gossip_size(0, 100), Some(1 + 5 + 100 * largest));
                assert_eq!(max_gossip_size(100_000, 0), Some(1 + 10 + 3 + 12_500));
                assert_eq!(max_gossip_size(0, usize::MAX), None);
            }

            #[test]
            fn names_are_those_of_the_pair() {
                fn are_same<A: 'static, B: 'static>() {
                    assert_eq!(TypeId::of::<A>(), TypeId::of::<B>());
                }
                are_same::<Key, <$pair as sized::Pair>::Key>();
                are_same::<Signature, <$pair as sized::Pair>::Signature>();
                are_same::<Dialable, sized::Dialable<$pair>>();
                are_same::<Directory, sized::Directory<$pair>>();
                are_same::<Info, sized::Info<$pair>>();
                are_same::<InfoVerifier, sized::InfoVerifier<$pair>>();
                are_same::<Judged<'static>, sized::Judged<'static, $pair>>();
                are_same::<Metadata, sized::Metadata<$pair>>();
                are_same::<Node, sized::Node<$pair>>();
                are_same::<OrderedSet, sized::OrderedSet<$pair>>();
                are_same::<Payload, sized::Payload<$pair>>();
                are_same::<PeerSetUpdate, sized::PeerSetUpdate<$pair>>();
                are_same::<Question<'static>, sized::Question<'static, $pair>>();
                are_same::<Questions<'static>, sized::Questions<'static, $pair>>();
                are_same::<QuestionsIter<'static>, sized::QuestionsIter<'static, $pair>>();
                are_same::<ReceiveError<'static>, sized::ReceiveError<'static, $pair>>();
                are_same::<Received, sized::Received<$pair>>();
                are_same::<ReleaseError, sized::ReleaseError<$pair>>();
                are_same::<Reservation, sized::Reservation<$pair>>();
                are_same::<Setup, sized::Setup<$pair>>();
                are_same::<Tracked, sized::Tracked<$pair>>();
                are_same::<TrackedPeers, sized::TrackedPeers<$pair>>();

                let key = testing::key(1);
                assert_eq!(key, sized::testing::key::<$pair>(1));
                let signature = testing::sign(&key, b"net", b"hello");
                assert_eq!(signature, sized::testing::sign::<$pair>(&key, b"net", b"hello"));
                assert_eq!(testing::info(1, 7), sized::testing::info::<$pair>(1, 7));
                assert_eq!(testing::info_at(1, 7, 80), sized::testing::info_at::<$pair>(1, 7, 80));
                assert!(testing::info(1, 7).verify(testing::NAMESPACE, testing::verify));
                assert_eq!(testing::setup(3).myself, sized::testing::setup::<$pair>(3).myself);
                assert_eq!(testing::directory().tracked(), 0);
            }
        }
    };
}

names!(names_32_64: p2p_directory::Keys32_64, p2p_directory, 32, 64, 0);
names!(names_33_64: p2p_directory::keys33_64::Keys33_64, p2p_directory::keys33_64, 33, 64, 2);
names!(names_48_96: p2p_directory::keys48_96::Keys48_96, p2p_directory::keys48_96, 48, 96, 0);
names!(names_96_48: p2p_directory::keys96_48::Keys96_48, p2p_directory::keys96_48, 96, 48, 0);

#[test]
fn keys_of_33_bytes_begin_with_2_or_3() {
    use p2p_directory::keys33_64::Key;
    for first in 0..=255 {
        let bytes = [first; 33];
        let key = Key::new(bytes);
        assert_eq!(key.is_ok(), first == 2 || first == 3);
        assert_eq!(Key::try_from(bytes), key);
        assert_eq!(Key::try_from(&bytes[..]), key);
        assert_eq!(Key::from_slice(&bytes), key.ok());
        match key {
            Ok(key) => assert_eq!(key.as_bytes(), &bytes),
            Err(error) => assert_eq!(error, KeyError::First(first)),
        }
    }
    assert_eq!(Key::try_from(&[2; 34][..]), Err(KeyError::Length(34)));
    assert_eq!("04".repeat(33).parse::<Key>(), Err(ParseError::Key(4)));
    assert_eq!("4".repeat(65).parse::<Key>(), Err(ParseError::Length(65)));
    assert_eq!("x".repeat(66).parse::<Key>(), Err(ParseError::Digit));
}

#[test]
fn any_bytes_are_a_key_of_another_size() {
    use p2p_directory::{Key, keys48_96, keys96_48};
    for first in 0..=255 {
        assert_eq!(Key::from([first; 32]).as_bytes(), &[first; 32]);
        assert_eq!(keys48_96::Key::from([first; 48]).as_bytes(), &[first; 48]);
        assert_eq!(keys96_48::Key::from([first; 96]).as_bytes(), &[first; 96]);
    }
}

#[test]
fn types_without_keys_are_those_of_the_root() {
    let config: p2p_directory::Config = p2p_directory::keys33_64::testing::config();
    assert_eq!(config, p2p_directory::testing::config());
    let other: p2p_directory::PayloadConfig = p2p_directory::keys96_48::testing::setup(1).payload;
    assert_eq!(other, p2p_directory::testing::setup(1).payload);
    assert_ne!(
        p2p_directory::Received::Malformed,
        p2p_directory::Received::Memory
    );
}
