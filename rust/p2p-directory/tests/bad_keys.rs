//! Keys of 33 bytes that begin with neither 2 nor 3, before and behind each other fault of a frame.
//! `docs/FORMATS.md` says which of two faults is answered: the first, from left to right, with a
//! key judged where it is whole, the rest of a frame once its value was read, and infos afterwards.

use p2p_directory::keys33_64::{
    CodecError, Directory, Error, Info, KEY_SIZE, Moment, Node, OrderedSet, Payload, Received,
    SIGNATURE_SIZE, Setup, What, testing,
};

const NOW: Moment = Moment::from_secs(100);

const BAD_KEY: CodecError = CodecError::Invalid(What::Key);

/// 1.2.3.4:8000, as an ingress.
const INGRESS: [u8; 8] = [0, 4, 1, 2, 3, 4, 0x1f, 0x40];

/// First bytes of no key: those next to 2 and 3, and with the top bit.
const BAD_FIRST: [u8; 5] = [0, 1, 4, 0x82, 0xff];

/// A node with the key of 9, and a set with the key of 1. It takes 2 infos at a time, and reads 256.
fn node() -> Node {
    let setup = Setup {
        peer_gossip_max_count: 2,
        ..testing::setup(9)
    };
    let mut node = Node::new(&setup).expect("memory for a node");
    let peers = OrderedSet::from_iter_dedup([testing::key(1)]).into();
    let _ = node.directory_mut().track(0, &peers).expect("memory");
    node
}

fn has_info(directory: &Directory) -> bool {
    directory.info(&testing::key(1)).expect("memory").is_some()
}

/// What a node answers to a frame, in one step and in two, which is the same.
#[track_caller]
fn answer(frame: &[u8]) -> Received {
    let [mut once, mut twice] = [node(), node()];
    let received = once.receive(frame, NOW, testing::verify);
    let judged = twice.check(frame, NOW).expect("memory");
    let judged = judged.judged_by(testing::verify);
    let judged = twice.receive_judged(judged).expect("its own");
    assert_eq!(judged, received, "{frame:?}");
    if !matches!(received, Received::Applied(_) | Received::Greeted(_)) {
        assert!(!has_info(once.directory()) && !has_info(twice.directory()));
    }
    received
}

/// The fault of a frame, which is the same of a node, of this crate's decoder and of a check, which
/// has nothing to verify of it.
#[track_caller]
fn fault(frame: &[u8]) -> CodecError {
    let decoded = Payload::decode(frame, &testing::setup(9).payload).expect_err("no payload");
    assert_eq!(answer(frame), Received::Codec(decoded), "{frame:?}");
    let node = node();
    let questions = node.check(frame, NOW).expect("memory");
    assert!(questions.is_empty(), "{frame:?}");
    decoded
}

/// The info of the key of 1, with this first byte in place of the key's.
fn info_with(first: u8) -> Vec<u8> {
    spoilt(&testing::info(1, 0), first)
}

fn good() -> Vec<u8> {
    testing::info(1, 0).encode()
}

fn bad() -> Vec<u8> {
    info_with(4)
}

/// The bytes of an info, with this first byte in place of its key's.
fn spoilt(info: &Info, first: u8) -> Vec<u8> {
    let mut bytes = info.encode();
    let place = bytes.len() - KEY_SIZE - SIGNATURE_SIZE;
    assert_eq!(bytes[place], 2);
    bytes[place] = first;
    bytes
}

fn greeting(info: &[u8]) -> Vec<u8> {
    [&[1], info].concat()
}

/// A frame of these infos, which may be cut.
fn list(infos: &[&[u8]]) -> Vec<u8> {
    [&[3, infos.len() as u8], &infos.concat()[..]].concat()
}

/// A fault before the key of an info.
struct Fault {
    what: &'static str,
    /// The bytes of the info up to the fault, and those of the fields that follow before the key.
    /// If the fault is that bytes are missing, no other bytes follow.
    front: Vec<u8>,
    error: CodecError,
}

impl Fault {
    fn is_cut(&self) -> bool {
        self.error == CodecError::EndOfBuffer
    }

    /// The info: behind the fault is a bad key, unless the info is cut before it.
    fn info(&self) -> Vec<u8> {
        let bad = bad();
        let tail = match self.is_cut() {
            true => &[],
            false => &bad[bad.len() - KEY_SIZE - SIGNATURE_SIZE..],
        };
        [&self.front[..], tail].concat()
    }
}

fn of(what: &'static str, error: CodecError, front: &[&[u8]]) -> Fault {
    let front = front.concat();
    Fault { what, front, error }
}

fn cut(what: &'static str, front: &[&[u8]]) -> Fault {
    of(what, CodecError::EndOfBuffer, front)
}

/// The faults of a socket address, and of the prefix before it.
fn faults_of_sockets() -> Vec<Fault> {
    let (prefix, version) = (CodecError::InvalidEnum(2), CodecError::InvalidEnum(5));
    let address = &INGRESS[2..];
    vec![
        cut("no prefix", &[]),
        of("a prefix", prefix, &[&[2, 4], address, &[0]]),
        cut("no version", &[&[0]]),
        of("a version", version, &[&[0, 5], address, &[0]]),
        cut("no address of version 4", &[&[0, 4]]),
        cut("an address of version 4", &[&[0, 4, 1, 2, 3]]),
        cut("no port", &[&[0, 4, 1, 2, 3, 4]]),
        cut("a port", &[&[0, 4, 1, 2, 3, 4, 0x1f]]),
        cut("an address of version 6", &[&[0, 6], &[1; 15]]),
        cut("a port of version 6", &[&[0, 6], &[1; 17]]),
    ]
}

/// The faults of a name. Each but those of its bytes is refused before these are read.
fn faults_of_names() -> Vec<Fault> {
    let length = CodecError::InvalidLength;
    let (number, name) = (CodecError::InvalidVarint(5), What::Hostname);
    let form = CodecError::Invalid(name);
    let rest = &[b'a', 0, 80, 0][..];
    let label = [b'a'; 64];
    vec![
        cut("no length", &[&[1]]),
        cut("a length", &[&[1, 0x83]]),
        of("a padded length", number, &[&[1, 0x81, 0], rest]),
        of("a great length", number, &[&[1], &[0xff; 4], &[0x10], rest]),
        of("a long length", number, &[&[1], &[0x80; 5], rest]),
        of("no letters", length(0), &[&[1, 0, 0, 80, 0]]),
        of("254 letters", length(254), &[&[1, 0xfe, 1], rest]),
        of(
            "all letters",
            length(u32::MAX.into()),
            &[&[1], &[0xff; 4], &[0x0f], rest],
        ),
        cut("all but a letter", &[&[1, 3], b"ab"]),
        of("a hyphen", form, &[&[1, 1, b'-', 0, 80, 0]]),
        of("two dots", form, &[&[1, 4], b"a..b", &[0, 80, 0]]),
        of("a long label", form, &[&[1, 64], &label, &[0, 80, 0]]),
        of("no letter of ASCII", form, &[&[1, 1, 0x80, 0, 80, 0]]),
        cut("no port of a name", &[&[1, 1, b'a']]),
        cut("a port of a name", &[&[1, 1, b'a', 0]]),
    ]
}

/// The faults of a timestamp, and of a key that isn't whole.
fn faults_of_timestamps_and_cut_keys() -> Vec<Fault> {
    let number = CodecError::InvalidVarint(10);
    let mut faults = vec![
        cut("no timestamp", &[&INGRESS]),
        cut("a timestamp", &[&INGRESS, &[0x80]]),
        of("a padded timestamp", number, &[&INGRESS, &[0x80, 0]]),
        of("a great one", number, &[&INGRESS, &[0xff; 9], &[2]]),
        of("a long one", number, &[&INGRESS, &[0x80; 10]]),
    ];
    // A key is judged where it is whole alone, even if it begins with another byte.
    faults.extend((0..KEY_SIZE).map(|length| {
        let key = [4; KEY_SIZE];
        cut("a key", &[&INGRESS, &[0], &key[..length]])
    }));
    faults
}

fn faults() -> Vec<Fault> {
    let mut faults = faults_of_sockets();
    faults.extend(faults_of_names());
    faults.extend(faults_of_timestamps_and_cut_keys());
    faults
}

#[test]
fn a_key_that_begins_otherwise_is_refused() {
    for first in BAD_FIRST {
        let bad = info_with(first);
        assert_eq!(fault(&greeting(&bad)), BAD_KEY);
        assert_eq!(fault(&list(&[&bad])), BAD_KEY);
        assert_eq!(fault(&list(&[&good(), &bad])), BAD_KEY);
        assert_eq!(fault(&list(&[&bad, &good()])), BAD_KEY);
    }
    assert_eq!(
        answer(&greeting(&good())),
        Received::Greeted(testing::key(1))
    );
    assert_eq!(answer(&list(&[&good(), &good()])), Received::Applied(2));
}

#[test]
fn each_fault_before_a_bad_key_is_answered() {
    for each in faults() {
        let info = each.info();
        let (what, error) = (each.what, each.error);
        assert_eq!(fault(&greeting(&info)), error, "{what}");
        assert_eq!(fault(&list(&[&info])), error, "{what}");
        assert_eq!(fault(&list(&[&good(), &info])), error, "{what}");
        // Behind missing bytes there is nothing.
        if !each.is_cut() {
            assert_eq!(fault(&list(&[&info, &bad()])), error, "{what}");
        }
    }
    let cut_signature = &good()[..good().len() - 1];
    assert_eq!(fault(&greeting(cut_signature)), CodecError::EndOfBuffer);
}

#[test]
fn a_bad_key_before_each_fault_is_answered() {
    for each in faults() {
        let (what, info) = (each.what, each.info());
        assert_eq!(fault(&list(&[&bad(), &info])), BAD_KEY, "{what}");
        assert_eq!(fault(&list(&[&good(), &bad(), &info])), BAD_KEY, "{what}");
    }
    // A signature of each length but its own, behind the key of the same info and of another.
    let whole = bad();
    for length in whole.len() - SIGNATURE_SIZE..whole.len() {
        assert_eq!(fault(&greeting(&whole[..length])), BAD_KEY, "{length}");
        assert_eq!(fault(&list(&[&whole[..length]])), BAD_KEY, "{length}");
        let cut = &good()[..length];
        assert_eq!(fault(&list(&[&good(), cut])), CodecError::EndOfBuffer);
        assert_eq!(fault(&list(&[&bad(), cut])), BAD_KEY, "{length}");
    }
}

#[test]
fn prefixes_and_counts_come_before_keys() {
    let bad = bad();
    let of = |front: &[u8]| fault(&[front, &bad].concat());
    assert_eq!(of(&[4]), CodecError::InvalidEnum(4));
    assert_eq!(of(&[0xff]), CodecError::InvalidEnum(0xff));
    // Padded, above 32 bits, and with a sixth byte.
    let number = CodecError::InvalidVarint(5);
    assert_eq!(of(&[3, 0x81, 0]), number);
    assert_eq!(of(&[3, 0xff, 0xff, 0xff, 0xff, 0x10]), number);
    assert_eq!(of(&[3, 0x80, 0x80, 0x80, 0x80, 0x80]), number);
    let most = u32::MAX.into();
    assert_eq!(of(&[3, 0x81, 0x02]), CodecError::InvalidLength(257));
    assert_eq!(
        of(&[3, 0xff, 0xff, 0xff, 0xff, 0x0f]),
        CodecError::InvalidLength(most)
    );
    // As many infos as are allowed, of which there is one.
    assert_eq!(of(&[3, 0x80, 0x02]), BAD_KEY);
    // Nothing is read of a count that is cut.
    assert_eq!(fault(&[3]), CodecError::EndOfBuffer);
    assert_eq!(fault(&[3, 0x81]), CodecError::EndOfBuffer);
}

#[test]
fn a_rest_comes_after_keys() {
    for rest in [&[0][..], &[0xff; 7], &good(), &bad()] {
        let behind = |frame: Vec<u8>| fault(&[&frame, rest].concat());
        let extra = CodecError::ExtraData(rest.len() as u64);
        assert_eq!(behind(greeting(&bad())), BAD_KEY);
        assert_eq!(behind(list(&[&bad()])), BAD_KEY);
        assert_eq!(behind(list(&[&good(), &bad()])), BAD_KEY);
        assert_eq!(behind(greeting(&good())), extra);
        assert_eq!(behind(list(&[&good()])), extra);
        assert_eq!(behind(list(&[])), extra);
    }
}

/// An info of the key of a number, whose signature is another's.
fn forged(number: u16) -> Info {
    let signature = testing::info(number + 1, 0).signature;
    Info {
        signature,
        ..testing::info(number, 0)
    }
}

#[test]
fn infos_are_judged_after_keys() {
    // 30 seconds ahead of the node's time are allowed.
    let late = testing::info(1, 130_001);
    let (own, forged, good) = (testing::info(9, 0), forged(1), testing::info(1, 0));
    let lists = [
        (vec![&own], Error::ReceivedSelf),
        (vec![&late], Error::SynchronyBound),
        (vec![&forged], Error::InvalidSignature),
        (vec![&good, &good, &good], Error::TooManyPeers(3)),
    ];
    for (infos, error) in lists {
        let spelled: Vec<Vec<u8>> = infos.iter().map(|info| info.encode()).collect();
        let spelled: Vec<&[u8]> = spelled.iter().map(Vec::as_slice).collect();
        assert_eq!(answer(&list(&spelled)), Received::Invalid(error));
        let bad = bad();
        let before = [&[&bad[..]], &spelled[..]].concat();
        let behind = [&spelled[..], &[&bad[..]]].concat();
        assert_eq!(fault(&list(&before)), BAD_KEY, "{error:?}");
        assert_eq!(fault(&list(&behind)), BAD_KEY, "{error:?}");
    }
    // A list of two may be taken, but not of three.
    let three = [&bad()[..], &good.encode(), &good.encode()];
    assert_eq!(fault(&list(&three)), BAD_KEY);
}

#[test]
fn greetings_are_judged_after_their_key() {
    let refused = [
        (testing::info(9, 0), Error::ReceivedSelf),
        (testing::info(1, 130_001), Error::SynchronyBound),
        (forged(1), Error::InvalidSignature),
    ];
    for (info, error) in refused {
        assert_eq!(answer(&greeting(&info.encode())), Received::Invalid(error));
        // Of another key, and otherwise the same.
        assert_eq!(fault(&greeting(&spoilt(&info, 4))), BAD_KEY, "{error:?}");
    }
}
