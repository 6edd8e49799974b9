//! The original's tests of its addresses, infos and payloads, under their names.

#[macro_use]
mod each_pair;

use p2p_directory::sized::testing::{NAMESPACE, config, info, key, setup, sign, verify};
use p2p_directory::sized::{
    Directory, Info, Node, OrderedSet, Pair, Payload, Received, max_gossip_size,
};
use p2p_directory::{
    BitVec, CodecError, Config, Data, EncodedData, Error, Hostname, Ingress, MAX_PAYLOAD_OVERHEAD,
    Moment, PayloadConfig, ValidateError, What, max_size,
};
use std::net::{IpAddr, Ipv4Addr, Ipv6Addr, SocketAddr};
use std::time::Duration;

tests_of_each_pair! {
    test_ingress_is_allowed,
    test_data_codec,
    test_data_prefix_value,
    test_max_payload_data_overhead,
    test_max_size_bounds,
    test_max_gossip_size_bounds_payloads,
    test_encoded_data_new_matches_data_encode,
    test_decode_invalid,
    test_bit_vec_codec,
    test_signed_peer_info_codec,
    test_payload_codec,
    test_payload_decode_invalid_type,
    test_payload_bitvec_respects_limit,
    test_payload_peers_respects_limit,
    test_payload_data_respects_limit,
    info_verifier_accepts_valid_peer,
    info_verifier_rejects_too_many_peers,
    info_verifier_rejects_self,
    info_verifier_rejects_future_timestamp,
    info_verifier_allows_past_timestamp,
    info_verifier_rejects_invalid_signature,
    the_first_refusal_in_list_order_is_answered,
    info_with_dns_ingress_sign_and_verify,
    info_with_dns_ingress_codec,
    info_verifier_accepts_dns_ingress,
    info_verifier_accepts_dns_ingress_with_internal_hostname,
    info_verifier_validates_greeting_without_gossip_limit,
    a_set_with_a_repeat_is_refused,
}

const LIMITS: PayloadConfig = PayloadConfig {
    max_bit_vec: 1024,
    max_peers: 16,
    max_data_length: 64,
};

const BOUND: Duration = Duration::from_secs(30);

fn socket(address: [u8; 4], port: u16) -> Ingress {
    SocketAddr::from((address, port)).into()
}

fn name(host: &str, port: u16) -> Ingress {
    let host = Hostname::new(host).unwrap();
    Ingress::Dns { host, port }
}

fn widest() -> String {
    [("a", 63), ("b", 63), ("c", 63), ("d", 61)]
        .map(|(letter, count)| letter.repeat(count))
        .join(".")
}

#[test]
fn test_ingress_socket_roundtrip() {
    let vectors: [(Ingress, &[u8]); 3] = [
        (
            socket([127, 0, 0, 1], 8080),
            &[0, 4, 127, 0, 0, 1, 0x1f, 0x90],
        ),
        (
            SocketAddr::from((Ipv6Addr::LOCALHOST, 443)).into(),
            &[
                0, 6, 0, 0, 0, 0, 0, 0, 0, 0, 0, 0, 0, 0, 0, 0, 0, 1, 1, 0xbb,
            ],
        ),
        (
            socket([192, 168, 1, 1], 65535),
            &[0, 4, 192, 168, 1, 1, 255, 255],
        ),
    ];
    for (ingress, bytes) in vectors {
        assert_eq!(ingress.encode(), bytes);
        assert_eq!(Ingress::decode(bytes), Ok(ingress));
    }
}

#[test]
fn test_ingress_dns_roundtrip() {
    let localhost = [&[1, 9][..], b"localhost", &[0x1f, 0x90]].concat();
    assert_eq!(name("localhost", 8080).encode(), localhost);
    for ingress in [
        name("localhost", 8080),
        name("example.com", 443),
        name("a.b.c.d.e.f.g", 1234),
    ] {
        assert_eq!(Ingress::decode(&ingress.encode()), Ok(ingress));
    }
}

#[test]
fn test_ingress_dns_max_len_exceeded() {
    let long = [&[1, 0xac, 2][..], &[b'a'; 300], &[0x1f, 0x90]].concat();
    assert_eq!(Ingress::decode(&long), Err(CodecError::InvalidLength(300)));
    assert_eq!(
        Hostname::new(&"a".repeat(254)),
        Err(CodecError::InvalidLength(254))
    );
    assert_eq!(Ingress::decode(&[1, 0]), Err(CodecError::InvalidLength(0)));
    assert_eq!(
        Ingress::decode(&[1, 1, b'-', 0, 80]),
        Err(CodecError::Invalid(What::Hostname))
    );
    assert_eq!(
        Hostname::new(&"a".repeat(64)),
        Err(CodecError::Invalid(What::Hostname))
    );
}

#[test]
fn test_ingress_max_encode_size() {
    assert_eq!(Ingress::MAX_ENCODE_SIZE, 261);
    assert_eq!(Hostname::MAX_ENCODE_SIZE, 258);
    // The length of the longest name takes two of the five bytes that are allowed.
    let widest = name(&widest(), u16::MAX).encode();
    assert_eq!(widest.len() + 3, Ingress::MAX_ENCODE_SIZE);
    let socket = Ingress::from(SocketAddr::from((Ipv6Addr::LOCALHOST, u16::MAX)));
    assert!(socket.encode().len() < Ingress::MAX_ENCODE_SIZE);
}

#[test]
fn test_ingress_port() {
    assert_eq!(socket([127, 0, 0, 1], 8080).port(), 8080);
    assert_eq!(name("example.com", 443).port(), 443);
}

#[test]
fn test_ingress_ip() {
    let ip = IpAddr::from(Ipv4Addr::LOCALHOST);
    assert_eq!(socket([127, 0, 0, 1], 8080).ip(), Some(ip));
    assert_eq!(name("example.com", 443).ip(), None);
}

#[test]
fn test_from_socket_addr() {
    let at = SocketAddr::from(([127, 0, 0, 1], 8080));
    assert_eq!(Ingress::from(at), Ingress::Socket(at));
}

// An ingress is allowed if a peer there is dialable.
fn is_allowed<P: Pair>(ingress: &Ingress, allow_private_ips: bool, allow_dns: bool) -> bool {
    let cfg = Config {
        allow_private_ips,
        allow_dns,
        ..config()
    };
    let bootstrappers = vec![(key::<P>(1), ingress.clone())];
    let directory = Directory::<P>::init(&bootstrappers, &info(9, 0), cfg).unwrap();
    directory.dialable(Moment::EPOCH).unwrap().peers == [key::<P>(1)]
}

fn test_ingress_is_allowed<P: Pair>() {
    let cases = [
        (socket([8, 8, 8, 8], 8080), [true; 4]),
        (socket([100, 128, 0, 0], 8080), [true; 4]),
        (socket([10, 0, 0, 1], 8080), [false, false, true, true]),
        (
            socket([100, 127, 255, 255], 8080),
            [false, false, true, true],
        ),
        (name("example.com", 8080), [false, true, false, true]),
    ];
    for (ingress, allowed) in cases {
        let settings = [(false, false), (false, true), (true, false), (true, true)];
        for ((private, dns), allowed) in settings.into_iter().zip(allowed) {
            assert_eq!(
                is_allowed::<P>(&ingress, private, dns),
                allowed,
                "{ingress}"
            );
        }
    }
}

fn test_data_codec<P: Pair>() {
    let data = Data {
        channel: 12345,
        message: b"Hello, world!".to_vec(),
    };
    let frame = Payload::<P>::Data(data.clone()).encode();
    let spelled = [&[0, 0xb9, 0x60, 0x0d][..], b"Hello, world!"].concat();
    assert_eq!(frame, spelled);
    let limits = |max_data_length| PayloadConfig {
        max_data_length,
        ..LIMITS
    };
    let read = Payload::<P>::decode(&frame, &limits(13));
    assert_eq!(read, Ok(Payload::Data(data)));
    assert_eq!(
        Payload::<P>::decode(&frame, &limits(12)),
        Err(CodecError::InvalidLength(13))
    );
}

fn test_data_prefix_value<P: Pair>() {
    let message = Data {
        channel: 7,
        message: Vec::new(),
    };
    assert_eq!(Payload::<P>::Data(message).encode(), [0, 7, 0]);
}

fn test_max_payload_data_overhead<P: Pair>() {
    for length in [0, 1, 127, 128, 16_384] {
        let frame = Payload::<P>::Data(Data {
            channel: u64::MAX,
            message: vec![7; length],
        });
        let overhead = frame.encode_size() - length;
        assert!(overhead <= MAX_PAYLOAD_OVERHEAD as usize, "{length}");
    }
    // The greatest channel, and the greatest length of a message, one byte for each seven bits.
    assert_eq!(MAX_PAYLOAD_OVERHEAD, 1 + 10 + 5);
}

fn test_max_size_bounds<P: Pair>() {
    let overhead = MAX_PAYLOAD_OVERHEAD;
    assert_eq!(max_size(overhead), Some(0));
    assert_eq!(max_size(u32::MAX), Some(u32::MAX - overhead));
    let most = max_size(overhead + 128).unwrap();
    let frame = Payload::<P>::Data(Data {
        channel: u64::MAX,
        message: vec![7; most as usize],
    });
    assert!(frame.encode_size() <= (overhead + 128) as usize);
}

fn test_max_gossip_size_bounds_payloads<P: Pair>() {
    let host = Hostname::new(&widest()).unwrap();
    let ingress = Ingress::from((host, 65_535));
    let longest = Info::<P>::sign(
        key::<P>(1),
        NAMESPACE,
        ingress,
        u64::MAX,
        |namespace, message| sign::<P>(&key::<P>(1), namespace, message),
    );
    for (bits, peers) in [(0, 0), (1, 1), (8, 1), (100_000, 3), (127, 200)] {
        let most = max_gossip_size::<P>(bits, peers).unwrap();
        let payloads = [
            Payload::Greeting(longest.clone()),
            Payload::BitVec(BitVec {
                index: u64::MAX,
                bits: vec![true; bits as usize],
            }),
            Payload::Peers(vec![longest.clone(); peers]),
        ];
        for payload in payloads {
            assert!(payload.encode_size() <= most, "{bits} {peers}");
        }
    }
}

fn test_encoded_data_new_matches_data_encode<P: Pair>() {
    for chunks in [
        &[b"hello".as_slice()][..],
        &[b"hello ", b"world", b"!"],
        &[],
    ] {
        let (channel, message) = (12345, chunks.concat());
        let header = EncodedData::new(channel, message.len() as u32);
        // The chunks are sent behind the header as they are.
        let mut frame = header.as_bytes().to_vec();
        chunks
            .iter()
            .for_each(|chunk| frame.extend_from_slice(chunk));
        assert_eq!(
            frame,
            Payload::<P>::Data(Data { channel, message }).encode()
        );
    }
}

fn test_decode_invalid<P: Pair>() {
    let frame = [0, 3, 0, 1, 2, 3, 4, 5, 6, 7, 8, 9];
    assert_eq!(
        Payload::<P>::decode(&frame, &LIMITS),
        Err(CodecError::ExtraData(9))
    );
}

fn test_bit_vec_codec<P: Pair>() {
    let bits = BitVec {
        index: 1234,
        bits: (0..71).map(|place| place % 3 == 0).collect(),
    };
    let frame = Payload::<P>::BitVec(bits.clone()).encode();
    assert_eq!(frame.len(), 1 + 2 + 1 + 9);
    assert_eq!(
        Payload::<P>::decode(&frame, &LIMITS),
        Ok(Payload::BitVec(bits))
    );
}

fn test_signed_peer_info_codec<P: Pair>() {
    for info in [info::<P>(1, 0), info::<P>(2, 1000), info(3, u64::MAX)] {
        let read = Info::decode(&info.encode()).unwrap();
        assert_eq!(read, info);
        assert!(read.verify(NAMESPACE, verify));
    }
}

fn test_payload_codec<P: Pair>() {
    let payloads = [
        Payload::<P>::Data(Data {
            channel: 1,
            message: b"hello".to_vec(),
        }),
        Payload::Greeting(info(1, 1000)),
        Payload::BitVec(BitVec {
            index: 5,
            bits: vec![true; 9],
        }),
        Payload::Peers(vec![info(1, 1000), info(2, 1000)]),
        Payload::Peers(Vec::new()),
    ];
    for payload in payloads {
        let frame = payload.encode();
        for end in 0..frame.len() {
            let fault = Payload::<P>::decode(&frame[..end], &LIMITS);
            assert_eq!(fault, Err(CodecError::EndOfBuffer));
        }
        assert_eq!(Payload::decode(&frame, &LIMITS), Ok(payload));
    }
}

fn test_payload_decode_invalid_type<P: Pair>() {
    for prefix in 4..=u8::MAX {
        assert_eq!(
            Payload::<P>::decode(&[prefix, 0, 1], &LIMITS),
            Err(CodecError::InvalidEnum(prefix))
        );
    }
}

fn test_payload_bitvec_respects_limit<P: Pair>() {
    let frame = [2, 5, 9, 0xff, 1];
    let limits = |max_bit_vec| PayloadConfig {
        max_bit_vec,
        ..LIMITS
    };
    assert_eq!(
        Payload::<P>::decode(&frame, &limits(8)),
        Err(CodecError::InvalidLength(9))
    );
    assert!(Payload::<P>::decode(&frame, &limits(9)).is_ok());
    assert_eq!(
        Payload::<P>::decode(&[2, 5, 9, 0xff, 3], &limits(9)),
        Err(CodecError::Invalid(What::Padding))
    );
}

fn test_payload_peers_respects_limit<P: Pair>() {
    let frame = Payload::Peers(vec![info::<P>(1, 1), info(2, 1)]).encode();
    let limits = PayloadConfig {
        max_peers: 1,
        ..LIMITS
    };
    assert_eq!(
        Payload::<P>::decode(&frame, &limits),
        Err(CodecError::InvalidLength(2))
    );
}

fn test_payload_data_respects_limit<P: Pair>() {
    let frame = [0, 1, 5, b'h', b'e', b'l', b'l', b'o'];
    let limits = PayloadConfig {
        max_data_length: 4,
        ..LIMITS
    };
    assert_eq!(
        Payload::<P>::decode(&frame, &limits),
        Err(CodecError::InvalidLength(5))
    );
}

// The result of a node with the key of number 9 for a list of infos at a time. A verifier returns
// the same.
fn judged<P: Pair>(infos: Vec<Info<P>>, now: Moment, greatest_count: usize) -> Received<P> {
    let mut setup = setup(9);
    setup.peer_gossip_max_count = greatest_count;
    setup.synchrony_bound = BOUND;
    let mut node = Node::new(&setup).unwrap();
    let verifier = Info::verifier(key::<P>(9), greatest_count, BOUND, NAMESPACE).unwrap();
    let validated = verifier.validate(now, &infos, verify);
    let received = node.receive(&Payload::Peers(infos).encode(), now, verify);
    let refused = match received {
        Received::Invalid(error) => Err(ValidateError::Invalid(error)),
        _ => Ok(()),
    };
    assert_eq!(validated, refused);
    received
}

const NOW: Moment = Moment::from_secs(1000);

fn info_verifier_accepts_valid_peer<P: Pair>() {
    let answer = judged(vec![info::<P>(1, 1_000_000)], NOW, 4);
    assert_eq!(answer, Received::Applied(1));
}

fn info_verifier_rejects_too_many_peers<P: Pair>() {
    let answer = judged(vec![info::<P>(1, 0), info(2, 0)], NOW, 1);
    assert_eq!(answer, Received::Invalid(Error::TooManyPeers(2)));
}

fn info_verifier_rejects_self<P: Pair>() {
    let answer = judged(vec![info::<P>(9, 0)], NOW, 4);
    assert_eq!(answer, Received::Invalid(Error::ReceivedSelf));
}

fn info_verifier_rejects_future_timestamp<P: Pair>() {
    let late = 1_030_000;
    assert_eq!(
        judged(vec![info::<P>(1, late)], NOW, 4),
        Received::Applied(1)
    );
    assert_eq!(
        judged(vec![info::<P>(1, late + 1)], NOW, 4),
        Received::Invalid(Error::SynchronyBound)
    );
}

fn info_verifier_allows_past_timestamp<P: Pair>() {
    assert_eq!(judged(vec![info::<P>(1, 0)], NOW, 4), Received::Applied(1));
}

fn signed_elsewhere<P: Pair>() -> Info<P> {
    let key = key::<P>(1);
    Info::sign(
        key,
        b"wrong-namespace",
        socket([8, 8, 4, 4], 8080),
        0,
        |namespace, message| sign::<P>(&key, namespace, message),
    )
}

fn info_verifier_rejects_invalid_signature<P: Pair>() {
    assert_eq!(
        judged(vec![signed_elsewhere::<P>()], NOW, 4),
        Received::Invalid(Error::InvalidSignature)
    );
}

fn the_first_refusal_in_list_order_is_answered<P: Pair>() {
    let (own, future) = (info::<P>(9, 0), info(2, u64::MAX));
    let cases = [
        (
            vec![signed_elsewhere(), own.clone()],
            Error::InvalidSignature,
        ),
        (vec![own.clone(), signed_elsewhere()], Error::ReceivedSelf),
        (vec![info(3, 0), future.clone(), own], Error::SynchronyBound),
        (
            vec![info(3, 0), signed_elsewhere(), future],
            Error::InvalidSignature,
        ),
    ];
    for (infos, error) in cases {
        assert_eq!(judged(infos, NOW, 4), Received::Invalid(error));
    }
}

fn named<P: Pair>(host: &str) -> Info<P> {
    let key = key::<P>(1);
    Info::sign(key, NAMESPACE, name(host, 8080), 7, |namespace, message| {
        sign::<P>(&key, namespace, message)
    })
}

fn info_with_dns_ingress_sign_and_verify<P: Pair>() {
    let info = named::<P>("node.example.com");
    assert_eq!(info.ingress, name("node.example.com", 8080));
    assert_eq!((info.timestamp, info.public_key), (7, key::<P>(1)));
    assert!(info.verify(NAMESPACE, verify));
}

fn info_with_dns_ingress_codec<P: Pair>() {
    let info = named::<P>("validator-1.network.io");
    assert_eq!(Info::decode(&info.encode()), Ok(info));
}

fn info_verifier_accepts_dns_ingress<P: Pair>() {
    let answer = judged(vec![named::<P>("peer.network.com")], NOW, 4);
    assert_eq!(answer, Received::Applied(1));
}

fn info_verifier_accepts_dns_ingress_with_internal_hostname<P: Pair>() {
    let answer = judged(vec![named::<P>("internal.local")], NOW, 4);
    assert_eq!(answer, Received::Applied(1));
}

fn info_verifier_validates_greeting_without_gossip_limit<P: Pair>() {
    let mut setup = setup::<P>(9);
    setup.peer_gossip_max_count = 0;
    let mut node = Node::new(&setup).unwrap();
    let greeting = Payload::Greeting(info::<P>(1, 0)).encode();
    let greeted = node.receive(&greeting, NOW, verify);
    assert_eq!(greeted, Received::Greeted(key::<P>(1)));
    let list = Payload::Peers(vec![info::<P>(1, 0)]).encode();
    assert_eq!(
        node.receive(&list, NOW, verify),
        Received::Invalid(Error::TooManyPeers(1))
    );
}

fn a_set_with_a_repeat_is_refused<P: Pair>() {
    assert!(OrderedSet::<P>::try_from([key::<P>(1), key::<P>(1)]).is_err());
    assert!(OrderedSet::<P>::try_from([key::<P>(2), key::<P>(1)]).is_ok());
}
