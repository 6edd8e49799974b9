//! The types of the interface apart from the results of a directory: times, texts and conversions.

#[macro_use]
mod each_pair;

use p2p_directory::sized::testing::{self, config, directory, info, key};
use p2p_directory::sized::{
    Bytes, Directory, Info, Metadata, Node, OrderedSet, Pair, Payload, Received, max_gossip_size,
};
use p2p_directory::{
    BeforeEpochError, BitVec, CodecError, Config, ConnectError, Data, EncodedData, Hostname,
    Ingress, MAX_PAYLOAD_OVERHEAD, Moment, ParseError, PayloadConfig, RefusedError, SetupError,
    Status, TrackError, ValidateError, What, max_size,
};
use std::cmp::Ordering;
use std::collections::HashSet;
use std::error::Error;
use std::fmt::{Debug, LowerHex, UpperHex};
use std::iter::successors;
use std::net::{Ipv6Addr, SocketAddr, SocketAddrV6};
use std::time::{Duration, SystemTime, UNIX_EPOCH};

tests_of_each_pair! {
    draws_are_taken_up_to_the_end_of_their_range,
    a_directory_is_formatted_without_a_call,
    keys_and_signatures_are_read_from_their_text,
    texts_that_are_no_keys_are_refused,
    sets_are_ordered_as_lists_and_given_back_as_such,
    answers_have_a_text_of_one_line,
    answers_are_hashed,
    refusals_name_their_causes,
    what_is_accepted_is_handed_on,
    an_error_of_a_reservation_names_its_peer,
    sizes_are_those_of_what_is_spelled,
    what_a_transport_carries_is_told,
    a_node_tells_its_key_and_greets,
}

const NANO: Duration = Duration::from_nanos(1);

/// The first byte of the keys of `testing`, and another with which a key may begin. Keys of 33 bytes
/// begin with 2 or 3.
fn first_bytes<P: Pair>() -> (u8, u8) {
    match P::KEY_SIZE {
        33 => (2, 3),
        _ => (0, 0xcd),
    }
}

#[test]
fn moments_are_times_since_the_epoch() {
    let time = UNIX_EPOCH + Duration::new(100, 5);
    let moment = Moment::try_from(time).unwrap();
    assert_eq!(moment, Moment::from(Duration::new(100, 5)));
    assert_eq!(moment.as_duration(), Duration::new(100, 5));
    assert_eq!(moment.to_system_time(), Some(time));
    assert_eq!(moment.to_string(), "100.000000005");
    assert_eq!(Moment::default(), Moment::EPOCH);
    assert_eq!(Moment::try_from(UNIX_EPOCH), Ok(Moment::EPOCH));
    let before: Result<Moment, _> = (UNIX_EPOCH - NANO).try_into();
    assert_eq!(before, Err(BeforeEpochError));
    assert!(Moment::try_from(SystemTime::now()).unwrap() > moment);
}

#[test]
fn moments_end_at_both_ends() {
    let late = Moment::MAX.checked_sub(NANO).unwrap();
    assert!(late < Moment::MAX);
    assert_eq!(late.checked_add(NANO), Some(Moment::MAX));
    assert_eq!(late.checked_add(2 * NANO), None);
    assert_eq!(late.saturating_add(2 * NANO), Moment::MAX);
    assert_eq!(Moment::EPOCH.checked_sub(NANO), None);
    assert_eq!(Moment::MAX.duration_since(late), NANO);
    assert_eq!(late.duration_since(Moment::MAX), Duration::ZERO);
}

// The dial time of a peer that was reserved at 100 s, under a cooldown of 5 ns, with this draw.
fn dial_moment<P: Pair>(draw: Duration) -> Option<Moment> {
    let cfg = Config {
        peer_connection_cooldown: 5 * NANO,
        ..config()
    };
    let mut directory = Directory::<P>::init(&[], &info(9, 0), cfg).unwrap();
    let peers = OrderedSet::from_iter_dedup([key::<P>(1)]);
    let _ = directory.track(0, &peers.into()).unwrap();
    directory.update_peers(&[info(1, 1000)]).unwrap();
    let granted = directory.listen(&key::<P>(1), Moment::from_secs(100), draw);
    directory.release(granted.unwrap().unwrap()).unwrap();
    let told = directory.dialable(Moment::from_secs(100)).unwrap();
    told.next_query_at
}

// Worked example 10: a jitter is at most twice the half of the cooldown, rounded down, and may be
// equal to it.
fn draws_are_taken_up_to_the_end_of_their_range<P: Pair>() {
    let after = |nanos| Some(Moment::from(Duration::new(100, nanos)));
    assert_eq!(dial_moment::<P>(Duration::ZERO), after(5));
    assert_eq!(dial_moment::<P>(3 * NANO), after(8));
    assert_eq!(dial_moment::<P>(4 * NANO), after(9));
    assert_eq!(dial_moment::<P>(5 * NANO), after(9));
    assert_eq!(dial_moment::<P>(9 * NANO), after(9));
}

// A draw from this word under a cooldown of so many nanoseconds.
fn drawn(cooldown: u64, random: u64) -> Duration {
    let peer_connection_cooldown = Duration::from_nanos(cooldown);
    let cfg = Config {
        peer_connection_cooldown,
        ..config()
    };
    cfg.draw(random)
}

// A draw is the word modulo (twice the half of the cooldown in nanoseconds, plus one).
#[test]
fn a_draw_has_each_jitter_up_to_twice_the_half_of_the_cooldown() {
    let all = |cooldown| (0..12).map(move |random| drawn(cooldown, random).as_nanos());
    assert!(all(0).eq([0; 12]));
    assert!(all(1).eq([0; 12]));
    assert!(all(2).eq([0, 1, 2].into_iter().cycle().take(12)));
    assert!(all(5).eq([0, 1, 2, 3, 4].into_iter().cycle().take(12)));
    assert_eq!(drawn(u64::MAX, u64::MAX), Duration::ZERO);
    assert_eq!(
        drawn(u64::MAX, u64::MAX - 1),
        Duration::from_nanos(u64::MAX - 1)
    );
    let longest = Config {
        peer_connection_cooldown: Duration::MAX,
        ..config()
    };
    assert_eq!(longest.draw(u64::MAX), Duration::from_nanos(u64::MAX));
}

fn a_directory_is_formatted_without_a_call<P: Pair>() {
    let mut directory = directory::<P>();
    let peers = OrderedSet::from_iter_dedup([key::<P>(1), key::<P>(2)]).into();
    let _ = directory.track(0, &peers).unwrap();
    let granted = directory.listen(&key::<P>(1), Moment::from_secs(1), Duration::ZERO);
    drop(granted.unwrap().unwrap());
    let (key_size, signature_size) = (P::KEY_SIZE, P::SIGNATURE_SIZE);
    let wanted = format!(
        "Directory {{ key_size: {key_size}, signature_size: {signature_size}, reservations: 1, .. }}"
    );
    assert_eq!(format!("{directory:?}"), wanted);
    // The dropped reservation is still out, until the next call.
    assert_eq!(format!("{directory:?}"), wanted);
    assert_eq!(directory.status(&key::<P>(1)), Some(Status::Inert));
    let released = wanted.replace("reservations: 1", "reservations: 0");
    assert_eq!(format!("{directory:?}"), released);
}

fn keys_and_signatures_are_read_from_their_text<P: Pair>()
where
    P::Key: LowerHex + UpperHex + for<'b> TryFrom<&'b [u8], Error: Debug>,
    P::Signature: UpperHex + for<'b> TryFrom<&'b [u8], Error: Debug>,
{
    let (_, first) = first_bytes::<P>();
    let mut bytes = vec![0; P::KEY_SIZE];
    bytes[0] = first;
    bytes[1] = 0xab;
    bytes[P::KEY_SIZE - 1] = 0x0f;
    let middle = "0".repeat(2 * P::KEY_SIZE - 6);
    let (lower, upper) = (
        format!("{first:02x}ab{middle}0f"),
        format!("{first:02X}AB{middle}0F"),
    );
    let key = P::Key::of_bytes(&bytes).unwrap();
    assert_eq!(key.to_string(), lower);
    assert_eq!(
        (format!("{key:x}"), format!("{key:X}")),
        (lower.clone(), upper.clone())
    );
    assert_eq!(
        (format!("{key:#x}"), format!("{key:#X}")),
        (format!("0x{lower}"), format!("0x{upper}"))
    );
    assert_eq!((lower.parse(), upper.parse()), (Ok(key), Ok(key)));
    assert_eq!(P::Key::try_from(&bytes[..]).unwrap(), key);
    assert!(P::Key::try_from(&bytes[1..]).is_err());

    let signature = P::Signature::of_bytes(&vec![0x5c; P::SIGNATURE_SIZE]).unwrap();
    assert_eq!("5c".repeat(P::SIGNATURE_SIZE).parse(), Ok(signature));
    assert_eq!(format!("{signature:X}"), "5C".repeat(P::SIGNATURE_SIZE));
    assert_eq!(
        P::Signature::try_from(signature.as_ref()).unwrap(),
        signature
    );
}

fn texts_that_are_no_keys_are_refused<P: Pair>() {
    let refused = |text: &str| text.parse::<P::Key>().unwrap_err();
    assert_eq!(refused(""), ParseError::Length(0));
    let digits = 2 * P::KEY_SIZE;
    for other in [digits - 1, digits + 1, digits + 2] {
        assert_eq!(refused(&"0".repeat(other)), ParseError::Length(other));
    }
    for other in ["g0", "0g", "+1", "\u{e9}"] {
        assert_eq!(
            refused(&format!("{other}{}", "0".repeat(digits - 2))),
            ParseError::Digit
        );
    }
}

#[test]
fn an_ingress_is_read_from_its_text() {
    let name = Hostname::new("node-1.example.com").unwrap();
    let version_6 = Ipv6Addr::new(0x2600, 0, 0, 0, 0, 0, 0, 1);
    let ingresses = [
        ("1.2.3.4:80", SocketAddr::from(([1, 2, 3, 4], 80)).into()),
        ("[::1]:0", SocketAddr::from((Ipv6Addr::LOCALHOST, 0)).into()),
        (
            "[2600::1]:65535",
            SocketAddr::from((version_6, u16::MAX)).into(),
        ),
        ("node-1.example.com:443", Ingress::from((name, 443))),
        ("1a:80", Ingress::from((Hostname::new("1a").unwrap(), 80))),
    ];
    for (text, ingress) in ingresses {
        assert_eq!(text.parse(), Ok(ingress.clone()));
        assert_eq!(ingress.to_string(), text);
    }
}

#[test]
fn texts_that_are_no_ingress_are_refused() {
    let refused = |text: &str| text.parse::<Ingress>().unwrap_err();
    for text in [
        "", "a", "a:", "a:b", "a:+80", "a:-0", "a:65536", "1.2.3.4", "[::1]",
    ] {
        assert_eq!(refused(text), ParseError::Port, "{text}");
    }
    for text in [
        "[::1:80",
        "[a]:80",
        "1.2.3.400:80",
        "1.2.3:80",
        "7:80",
        "a.1:80",
    ] {
        assert_eq!(refused(text), ParseError::Address, "{text}");
    }
    assert_eq!(
        refused(":80"),
        ParseError::Hostname(CodecError::InvalidLength(0))
    );
    let no_name = CodecError::Invalid(What::Hostname);
    for text in ["a..b:80", "-:80", "::1:80", "1.2.3.4.:80"] {
        assert_eq!(refused(text), ParseError::Hostname(no_name), "{text}");
    }
}

#[test]
fn a_hostname_is_a_text() {
    let name: Hostname = "example.com".parse().unwrap();
    assert_eq!(Hostname::try_from("example.com"), Ok(name.clone()));
    assert_eq!(AsRef::<str>::as_ref(&name), "example.com");
    let refused = Err(CodecError::Invalid(What::Hostname));
    assert_eq!("a_b".parse::<Hostname>(), refused);
    assert_eq!(Hostname::try_from("a_b"), refused);
}

fn sets_are_ordered_as_lists_and_given_back_as_such<P: Pair>() {
    let set =
        |numbers: &[u16]| OrderedSet::<P>::from_iter_dedup(numbers.iter().copied().map(key::<P>));
    let ascending = [set(&[]), set(&[1]), set(&[1, 2]), set(&[1, 3]), set(&[2])];
    assert!(ascending.is_sorted_by(|low, high| low < high));
    assert_eq!(
        AsRef::<[P::Key]>::as_ref(&set(&[2, 1])),
        [key::<P>(1), key::<P>(2)]
    );
    assert_eq!(Vec::from(set(&[3, 1, 3])), [key::<P>(1), key::<P>(3)]);
}

fn answers_have_a_text_of_one_line<P: Pair>() {
    let (first, _) = first_bytes::<P>();
    let one = format!("{first:02x}{}01", "0".repeat(2 * P::KEY_SIZE - 4));
    let known = info::<P>(1, 1000);
    assert_eq!(
        known.to_string(),
        format!("{one} at 1.2.3.4:8001 since 1000 ms")
    );
    let dialer = Metadata::<P>::Dialer(key::<P>(1), known.ingress);
    assert_eq!(
        dialer.to_string(),
        format!("dialer of {one} at 1.2.3.4:8001")
    );
    assert_eq!(
        Metadata::<P>::Listener(key::<P>(1)).to_string(),
        format!("listener for {one}")
    );
    let texts = [Status::Inert, Status::Reserved, Status::Active].map(|status| status.to_string());
    assert_eq!(texts, ["inert", "reserved", "active"]);
}

fn answers_are_hashed<P: Pair>() {
    let infos = [info::<P>(1, 1000), info::<P>(1, 1000), info::<P>(1, 1001)];
    assert_eq!(HashSet::from(infos).len(), 2);
    let held = [
        Metadata::<P>::Listener(key::<P>(1)),
        Metadata::Listener(key::<P>(1)),
    ];
    assert_eq!(HashSet::from(held).len(), 1);
}

// The text of an error, and those of its sources.
fn texts(error: &dyn Error) -> Vec<String> {
    let causes = successors(Some(error), |error| (*error).source());
    causes.map(|error| error.to_string()).collect()
}

#[test]
fn errors_name_their_causes() {
    let refused = texts(&SetupError::OutOfMemory);
    assert_eq!(refused, ["nothing could be set up", "memory was refused"]);
    assert_eq!(texts(&SetupError::Setting), ["a setting is out of range"]);
    let not_registered = texts(&TrackError::OutOfMemory);
    let said = ["the set could not be registered", "memory was refused"];
    assert_eq!(not_registered, said);
    let connected = texts(&ConnectError::NotReserved);
    assert_eq!(
        connected,
        [
            "the reservation is connected already",
            "the peer is not reserved"
        ]
    );
    assert_eq!(texts(&ConnectError::OfAnotherDirectory).len(), 1);
    let host = texts(&"-:80".parse::<Ingress>().unwrap_err());
    assert_eq!(host, ["the host is no name", "invalid hostname"]);
}

fn refusals_name_their_causes<P: Pair>() {
    let mut node = Node::<P>::new(&testing::setup(9)).unwrap();
    let mut refused = |frame: &[u8]| {
        let received = node.receive(frame, Moment::EPOCH, testing::verify);
        texts(&received.accepted().unwrap_err())
    };
    let no_payload = ["the frame encodes no payload", "invalid prefix: 9"];
    assert_eq!(refused(&[9]), no_payload);
    let of_itself = Payload::Greeting(info::<P>(9, 0)).encode();
    let invalid = ["the infos of the frame are invalid", "received self"];
    assert_eq!(refused(&of_itself), invalid);
    let out_of_memory = Received::<P>::Memory.accepted().unwrap_err();
    let why = ["the frame could not be processed", "memory was refused"];
    assert_eq!(texts(&out_of_memory), why);
    assert_eq!(
        texts(&RefusedError::Malformed),
        ["the frame has another number of bits"]
    );
    let invalid = ValidateError::Invalid(p2p_directory::Error::SynchronyBound);
    let why = ["the infos are invalid", "synchrony bound violated"];
    assert_eq!(texts(&invalid), why);
    let why = ["the infos could not be validated", "memory was refused"];
    assert_eq!(texts(&ValidateError::OutOfMemory), why);
}

fn what_is_accepted_is_handed_on<P: Pair>() {
    let accepted = [
        Received::<P>::Data {
            channel: 1,
            message: 3..5,
        },
        Received::Greeted(key::<P>(1)),
        Received::Reply(vec![3, 0]),
        Received::Applied(2),
    ];
    for received in accepted {
        assert_eq!(received.clone().accepted(), Ok(received));
    }
}

fn an_error_of_a_reservation_names_its_peer<P: Pair>() {
    let mut directory = directory::<P>();
    let peers = OrderedSet::from_iter_dedup([key::<P>(1)]);
    let _ = directory.track(0, &peers.into()).unwrap();
    let granted = directory.listen(&key::<P>(1), Moment::from_secs(1), Duration::ZERO);
    let refused = testing::directory()
        .release(granted.unwrap().unwrap())
        .unwrap_err();
    assert_eq!(
        refused.to_string(),
        format!("the reservation of {} is of another directory", key::<P>(1))
    );
}

#[test]
fn an_ingress_is_what_is_told_of_it() {
    let at = |address, port, flow, scope| {
        SocketAddr::from(SocketAddrV6::new(address, port, flow, scope))
    };
    let link_local = Ipv6Addr::new(0xfe80, 0, 0, 0, 0, 0, 0, 1);
    let plain = Ingress::Socket(at(link_local, 80, 0, 0));
    for (flow, scope) in [(7, 0), (0, 2), (7, 2)] {
        let socket = at(link_local, 80, flow, scope);
        let Ingress::Socket(kept) = Ingress::from(socket) else {
            panic!("{socket} is no name");
        };
        assert_eq!(kept, at(link_local, 80, 0, 0));
        let ingress = Ingress::Socket(socket);
        assert_eq!(Ingress::decode(&ingress.encode()).unwrap(), ingress);
        assert_eq!(ingress.cmp(&plain), Ordering::Equal);
        assert_eq!(ingress.to_string(), "[fe80::1]:80");
        assert_eq!(HashSet::from([ingress, plain.clone()]).len(), 1);
    }
    assert_eq!("[fe80::1%2]:80".parse(), Ok(plain.clone()));
    assert_ne!(plain, Ingress::Socket(at(link_local, 81, 0, 0)));
    assert_ne!(plain, Ingress::Socket(at(Ipv6Addr::LOCALHOST, 80, 0, 0)));
}

#[test]
fn ingresses_are_ordered_by_kind_then_host_then_port() {
    let ascending = [
        "9.9.9.9:80",
        "9.9.9.9:81",
        "10.0.0.1:1",
        "[::1]:1",
        "[fe80::1]:1",
        "a.example:2",
        "b.example:1",
    ];
    let read: Vec<Ingress> = ascending.iter().map(|text| text.parse().unwrap()).collect();
    assert!(read.is_sorted_by(|low, high| low < high));
}

// An info with a name of so many bytes, and a timestamp of so many groups of seven bits.
fn long_info<P: Pair>(host: usize, groups: u32) -> Info<P> {
    let host = [&"a".repeat(63)[..]; 4].join(".")[..host].to_owned();
    let ingress = match Hostname::new(&host) {
        Ok(host) => Ingress::Dns { host, port: 8000 },
        Err(_) => SocketAddr::from(([1, 2, 3, 4], 8000)).into(),
    };
    let timestamp = 1 << (7 * (groups - 1));
    Info::sign(key::<P>(1), b"", ingress, timestamp, |_, _| {
        P::Signature::of_bytes(&vec![0; P::SIGNATURE_SIZE]).unwrap()
    })
}

fn sizes_are_those_of_what_is_spelled<P: Pair>() {
    let infos = [(0, 1), (1, 2), (127, 9), (128, 9), (253, 10)]
        .map(|(host, groups)| long_info::<P>(host, groups));
    for info in &infos {
        assert_eq!(info.encode_size(), info.encode().len());
        assert_eq!(info.ingress.encode_size(), info.ingress.encode().len());
    }
    let v6 = Ingress::from(SocketAddr::from((Ipv6Addr::LOCALHOST, 1)));
    assert_eq!(v6.encode_size(), v6.encode().len());
    let bits = |count: usize| {
        Payload::<P>::BitVec(BitVec {
            index: u64::MAX,
            bits: vec![true; count],
        })
    };
    let data = |channel, count| {
        Payload::<P>::Data(Data {
            channel,
            message: vec![0; count],
        })
    };
    let payloads = [
        bits(0),
        bits(8),
        bits(1017),
        data(0, 0),
        data(127, 127),
        data(128, 128),
        data(u64::MAX, 20_000),
        Payload::Greeting(infos[4].clone()),
        Payload::Peers(infos.to_vec()),
        Payload::Peers(vec![infos[0].clone(); 128]),
    ];
    for payload in payloads {
        assert_eq!(payload.encode_size(), payload.encode().len());
    }
}

fn what_a_transport_carries_is_told<P: Pair>() {
    // Worked example 17: an info has at most 261 + 10 bytes, its key and its signature.
    let longest = match (P::KEY_SIZE, P::SIGNATURE_SIZE) {
        (32, 64) => 367,
        (33, 64) => 368,
        (48, 96) | (96, 48) => 415,
        other => panic!("{other:?}"),
    };
    assert_eq!(max_gossip_size::<P>(1000, 32), Some(1 + 32 * longest + 5));
    assert_eq!(max_gossip_size::<P>(100_000, 0), Some(12_514));
    assert_eq!(max_gossip_size::<P>(0, 0), Some(1 + longest));
    assert_eq!(
        max_gossip_size::<P>(u64::MAX, 0),
        Some(1 + 10 + 10 + (1 << 61))
    );
    assert_eq!(max_gossip_size::<P>(0, usize::MAX / longest + 1), None);
    assert_eq!(max_size(MAX_PAYLOAD_OVERHEAD), Some(0));
    assert_eq!(max_size(MAX_PAYLOAD_OVERHEAD - 1), None);
    for (channel, size) in [(0, 0), (1, 5), (127, 127), (128, 128), (u64::MAX, 16_384)] {
        let message = vec![7; size];
        let header = EncodedData::new(channel, size as u32);
        let frame = [header.as_bytes(), &message].concat();
        assert_eq!(
            frame,
            Payload::<P>::Data(Data { channel, message }).encode()
        );
    }
    let longest = EncodedData::new(u64::MAX, u32::MAX);
    assert_eq!(longest.as_bytes().len(), MAX_PAYLOAD_OVERHEAD as usize);
}

fn a_node_tells_its_key_and_greets<P: Pair>() {
    let setup = testing::setup::<P>(9);
    let node = Node::new(&setup).unwrap();
    assert_eq!(node.public_key(), &key::<P>(9));
    let limits = PayloadConfig {
        max_bit_vec: 0,
        max_peers: 0,
        max_data_length: 0,
    };
    let greeting = Payload::decode(node.greeting(), &limits);
    assert_eq!(greeting, Ok(Payload::Greeting(setup.myself)));
}
