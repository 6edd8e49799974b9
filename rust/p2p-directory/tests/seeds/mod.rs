//! Initial frames: one of each kind and each kind of address, the vectors of `docs/FORMATS.md`,
//! lengths at their limits and beyond, and the frames of the scripts of `play`.

use super::frames::{INDEX, LIMITS, PEERS};
use super::widened::{bytes_of, widened_frame};
use p2p_directory::sized::testing::{NAMESPACE, info, key, sign};
use p2p_directory::sized::{Info, Pair, Payload};
use p2p_directory::{BitVec, Data, Hostname, Ingress, PayloadConfig};
use std::fs;
use std::net::{Ipv6Addr, SocketAddr};
use std::path::Path;

/// Vectors of payloads. Then encodings of numbers and addresses that are refused, after the prefix
/// of a payload. Then the greatest numbers and greater ones, as the index of bits, their number,
/// and the length of a message.
const VECTORS: [&str; 16] = [
    "020509ff01",
    "020000",
    "0300",
    "00010568656c6c6f",
    "",
    "0280",
    "028000",
    "010005",
    "010100",
    "0101012d0050",
    "02ffffffffffffffffff0100",
    "02ffffffffffffffffff0200",
    "0200ffffffffffffffffff01",
    "0200ffffffffffffffffff02",
    "0000ffffffff0f",
    "0000ffffffff10",
];

/// The lengths of the labels of names. A label has at most 63 bytes, and a name at most 253.
const LABELS: [&[usize]; 5] = [&[63], &[64], &[63, 63, 63, 61], &[63, 63, 63, 62], &[1, 0]];

/// Vectors of addresses, from which infos are made.
const ADDRESSES: [&str; 3] = [
    "00047f0000011f90",
    "00060000000000000000000000000000000101bb",
    "01096c6f63616c686f73741f90",
];

/// Vectors of numbers.
const NUMBERS: [u64; 9] = [0, 127, 128, 253, 300, 1000, 12_345, 100_000, u64::MAX];

/// All of them, without duplicates.
pub fn frames<P: Pair>() -> Vec<Vec<u8>> {
    let payloads = [kinds::<P>(), numbered::<P>(), at_limits()].concat();
    let spelled = payloads.iter().map(Payload::encode);
    let raw = VECTORS.map(bytes).into_iter().chain(LABELS.map(named::<P>));
    let mut frames: Vec<Vec<u8>> = spelled.chain(raw).chain(of_scripts::<P>()).collect();
    frames.sort();
    frames.dedup();
    frames
}

fn bytes(digits: &str) -> Vec<u8> {
    bytes_of(digits).expect("a vector has digits")
}

fn info_at<P: Pair>(number: u16, ingress: Ingress, timestamp: u64) -> Info<P> {
    let key = key::<P>(number);
    Info::sign(key, NAMESPACE, ingress, timestamp, |namespace, message| {
        sign::<P>(&key, namespace, message)
    })
}

fn kinds<P: Pair>() -> Vec<Payload<P>> {
    let version_6 = Ingress::from(SocketAddr::from((Ipv6Addr::LOCALHOST, 80)));
    let host = Hostname::new("node-1.a.example").expect("a name");
    let at_name = |number| {
        let host = host.clone();
        info_at(number, Ingress::Dns { host, port: 80 }, 300)
    };
    let bits = |bits: Vec<bool>| BitVec { index: INDEX, bits };
    vec![
        Payload::Greeting(info(1, 1000)),
        Payload::Greeting(at_name(3)),
        Payload::Greeting(info_at(4, version_6.clone(), 300)),
        Payload::Peers([1, 2].map(|number| info(number, 7)).to_vec()),
        Payload::Peers(vec![at_name(3), info_at(5, version_6, 300), at_name(9)]),
        Payload::BitVec(bits(vec![true; usize::from(PEERS)])),
        Payload::BitVec(bits((0..PEERS).map(|place| place % 3 == 0).collect())),
        Payload::Data(Data {
            channel: 300,
            message: b"twelve bytes".to_vec(),
        }),
    ]
}

// Infos with each address, and data, bits and infos with each number.
fn numbered<P: Pair>() -> Vec<Payload<P>> {
    let ingress = |digits| Ingress::decode(&bytes(digits)).expect("a vector of addresses");
    let greetings = ADDRESSES.map(|digits| Payload::Greeting(info_at(1, ingress(digits), 1000)));
    let mut payloads = greetings.to_vec();
    for number in NUMBERS {
        payloads.push(Payload::Greeting(info(2, number)));
        let bits = vec![true, false, true];
        let index = number;
        payloads.push(Payload::BitVec(BitVec { index, bits }));
        let (channel, message) = (number, Vec::new());
        payloads.push(Payload::Data(Data { channel, message }));
    }
    payloads
}

// As much as the limits allow, and one more.
fn at_limits<P: Pair>() -> Vec<Payload<P>> {
    let payloads = |limits: PayloadConfig, more: usize| {
        let infos = (1..).take(limits.max_peers + more);
        let bits = vec![true; limits.max_bit_vec as usize + more];
        let message = vec![7; limits.max_data_length + more];
        [
            Payload::Peers(infos.map(|number| info(number, 7)).collect()),
            Payload::BitVec(BitVec { index: 1, bits }),
            Payload::Data(Data {
                channel: 1,
                message,
            }),
        ]
    };
    let all = LIMITS.map(|limits| [payloads(limits, 0), payloads(limits, 1)]);
    all.into_iter().flatten().flatten().collect()
}

// A greeting with a name of labels of these lengths. No key signed it.
fn named<P: Pair>(labels: &[usize]) -> Vec<u8> {
    let labels: Vec<String> = labels.iter().map(|length| "a".repeat(*length)).collect();
    let name = labels.join(".");
    let length = match name.len() as u8 {
        short @ ..128 => vec![short],
        long => vec![long, 1],
    };
    let tail = vec![0; 3 + P::KEY_SIZE + P::SIGNATURE_SIZE];
    [&[1, 1], &length[..], name.as_bytes(), &tail].concat()
}

// The frames of the scripts: texts that encode three bytes or more, the first of which is a prefix.
// There are none if this package is not in a clone of the repository.
fn of_scripts<P: Pair>() -> Vec<Vec<u8>> {
    let root = concat!(env!("CARGO_MANIFEST_DIR"), "/../..");
    if !Path::new(root).join("crates.txt").is_file() {
        return Vec::new();
    }
    let folders = ["examples", "crates/play/data"].map(|name| format!("{root}/{name}"));
    let entries = folders
        .iter()
        .flat_map(|folder| fs::read_dir(folder).expect("a folder of scripts"));
    let paths = entries.map(|entry| entry.expect("a script").path());
    let scripts = paths.filter(|path| path.extension().is_some_and(|end| end == "txt"));
    let mut frames = Vec::new();
    for script in scripts {
        let text = fs::read_to_string(script).expect("a script");
        let words = text.split(|letter: char| !letter.is_ascii_alphanumeric());
        let frame = |word: &&str| word.len() >= 6 && word.starts_with('0');
        for frame in words.filter(frame).filter_map(bytes_of) {
            frames.push(widened_frame::<P>(&frame).unwrap_or(frame));
        }
    }
    frames
}
