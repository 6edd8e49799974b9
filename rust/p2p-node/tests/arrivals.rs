//! Dialers that prove no key, and those that have to get in all the same.

mod common;

use common::{Folder, NAMESPACE, Running, identity, key, own, timed};
use p2p_node::handshake::NONCE_SIZE;
use p2p_node::wire::Timed;
use std::io::{self, ErrorKind, Read, Write};
use std::net::{Ipv4Addr, SocketAddr, TcpStream};
use std::os::fd::{FromRawFd, OwnedFd};
use std::thread;
use std::time::{Duration, Instant};

const LATE: &str = "--tick 60 --silence 120 --cooldown 1";

/// No handshake ends in the time of a test by its deadline.
const SLOW: &str = "--tick 60 --silence 120 --cooldown 1 --handshake 120";

fn start(words: &str, peers: u8) -> (Folder, Running) {
    let folder = Folder::new();
    folder.set(0, &(1..=peers).collect::<Vec<u8>>());
    let node = Running::start(&folder, 1, words);
    (folder, node)
}

/// An address and a port, as the system takes them.
#[repr(C)]
struct Address {
    family: u16,
    port: [u8; 2],
    host: [u8; 4],
    zero: [u8; 8],
}

impl Address {
    fn new(host: Ipv4Addr, port: u16) -> Address {
        Address {
            family: 2,
            port: port.to_be_bytes(),
            host: host.octets(),
            zero: [0; 8],
        }
    }
}

unsafe extern "C" {
    fn socket(family: i32, kind: i32, protocol: i32) -> i32;
    fn bind(socket: i32, address: *const Address, length: u32) -> i32;
    fn connect(socket: i32, address: *const Address, length: u32) -> i32;
}

/// Opens a stream to a node from an address of this machine.
fn stream_from(host: Ipv4Addr, node: &Running) -> TcpStream {
    let SocketAddr::V4(to) = node.address else {
        panic!("{}", node.address);
    };
    let length = size_of::<Address>() as u32;
    let (from, to) = (Address::new(host, 0), Address::new(*to.ip(), to.port()));
    // SAFETY: the addresses are those of IPv4 on Linux, and live as long as the calls. The
    // descriptor is one that the system has just given.
    unsafe {
        let stream = socket(2, 1, 0);
        assert!(stream >= 0, "{}", io::Error::last_os_error());
        let owned = OwnedFd::from_raw_fd(stream);
        let done = bind(stream, &from, length) == 0 && connect(stream, &to, length) == 0;
        assert!(done, "{}", io::Error::last_os_error());
        owned.into()
    }
}

/// Claims a key that is accepted, and doesn't prove it.
fn claimed(mut stream: TcpStream) -> TcpStream {
    let claim = [&[7; NONCE_SIZE], key(2).as_ref()].concat();
    // The node may have closed the stream.
    let _ = stream.write_all(&claim);
    stream
}

/// Reads what the node sends until it closes the stream, however it does.
fn until_closed(stream: &TcpStream) {
    let ended = timed(stream).read_to_end(&mut Vec::new());
    let kind = ended.err().map(|error| error.kind());
    assert!(
        matches!(kind, None | Some(ErrorKind::ConnectionReset)),
        "{kind:?}"
    );
}

#[test]
fn streams_of_one_address_that_prove_no_key_keep_no_newcomer_out() {
    let (_folder, node) = start(SLOW, 2);
    let other = Ipv4Addr::new(127, 0, 0, 2);
    let streams = (0..80).map(|_| claimed(stream_from(other, &node)));
    let streams: Vec<TcpStream> = streams.collect();
    // It is accepted behind them.
    let _newcomer = node.dial(2);
    node.until_event("connected", &key(2));
    node.until_count("address_limit", 72);
    node.until_count("handshakes", 8);
    node.until_count("handshake_limit", 0);
    streams[8..].iter().for_each(until_closed);
}

#[test]
fn streams_of_several_addresses_that_prove_no_key_give_way_to_a_newcomer() {
    let (_folder, node) = start(SLOW, 2);
    let hosts = (2..10).map(|last| Ipv4Addr::new(127, 0, 0, last));
    let hosts = hosts.flat_map(|host| [host; 8]);
    let streams = hosts.map(|host| claimed(stream_from(host, &node)));
    let streams: Vec<TcpStream> = streams.collect();
    node.until_count("handshakes", 64);
    let _newcomer = node.dial(2);
    node.until_event("connected", &key(2));
    node.until_count("handshake_limit", 1);
    node.until_count("address_limit", 0);
    until_closed(&streams[0]);
}

#[test]
fn the_oldest_handshake_gives_way() {
    let (_folder, node) = start(&format!("{SLOW} --max-handshakes 2"), 3);
    let claimed = [node.claim(2), node.claim(2)];
    node.until_count("handshakes", 2);
    let _third = node.claim(3);
    node.until_count("handshake_limit", 1);
    node.until_count("handshakes", 2);
    until_closed(&claimed[0]);
    let _second = node.dial(2);
    node.until_event("connected", &key(2));
}

#[test]
fn many_dialers_of_one_address_get_in() {
    const PEERS: u8 = 60;
    let (_folder, node) = start(LATE, PEERS);
    let end = Instant::now() + common::PATIENCE;
    let dial = |number| {
        loop {
            match node.try_dial(number) {
                Ok(stream) => return stream,
                Err(error) => assert!(Instant::now() < end, "{error}"),
            }
            thread::sleep(Duration::from_millis(50));
        }
    };
    thread::scope(|scope| {
        let dial = &dial;
        let dialers = (2..=PEERS).map(|number| scope.spawn(move || dial(number)));
        let dialers: Vec<_> = dialers.collect();
        let streams = dialers.into_iter().map(|dialer| dialer.join().unwrap());
        let _streams: Vec<TcpStream> = streams.collect();
        node.until_count("connected", u64::from(PEERS) - 1);
    });
}

#[test]
fn a_dialer_that_claims_no_key_is_closed_soon() {
    let (_folder, node) = start(SLOW, 2);
    until_closed(&node.stream());
    node.until_count("handshake_stream", 1);
    node.until_count("handshakes", 0);
}

/// A stream on which each write but the first comes late.
struct Late<'s> {
    stream: Timed<'s>,
    has_written: bool,
}

impl Read for Late<'_> {
    fn read(&mut self, bytes: &mut [u8]) -> io::Result<usize> {
        self.stream.read(bytes)
    }
}

impl Write for Late<'_> {
    fn write(&mut self, bytes: &[u8]) -> io::Result<usize> {
        if std::mem::replace(&mut self.has_written, true) {
            thread::sleep(Duration::from_secs(3));
        }
        self.stream.write(bytes)
    }

    fn flush(&mut self) -> io::Result<()> {
        self.stream.flush()
    }
}

#[test]
fn a_dialer_that_has_claimed_a_key_has_the_time_of_a_handshake() {
    let (_folder, node) = start(SLOW, 2);
    let (stream, identity) = (node.stream(), identity(2));
    let mut late = Late {
        stream: timed(&stream),
        has_written: false,
    };
    let own = own(&identity, NAMESPACE);
    own.dial(&mut late, &node.key).unwrap();
    node.until_event("connected", &key(2));
}
