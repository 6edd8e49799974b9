//! Three nodes over TCP on this machine, two of which know only the first one. They learn of each
//! other, connect, exchange a message, and end. `docs/GUIDE.md` explains the parts.
//!
//! `cargo run --example tracker`

mod host;

use host::{Event, Failure, Host, Settings};
use p2p_directory::testing::key;
use p2p_directory::{Data, Ingress, OrderedSet, Status};
use std::net::{Ipv4Addr, SocketAddr};
use std::sync::mpsc::{Sender, channel, sync_channel};
use std::thread;
use std::time::{Duration, Instant};

/// How long the example waits until two peers know each other.
const PATIENCE: Duration = Duration::from_secs(20);

/// A host with the key of a number, which prints what happens and passes messages on. Its intervals
/// are short, so that the example ends within a second.
fn start(
    number: u16,
    known: Option<(u16, SocketAddr)>,
    messages: Sender<Data>,
) -> Result<Host, Failure> {
    let listen_at = SocketAddr::from((Ipv4Addr::LOCALHOST, 0));
    let mut settings = Settings::recommended(key(number), listen_at, 16);
    settings.cfg.allow_private_ips = true;
    settings.cfg.dial_fail_limit = 1;
    settings.cfg.peer_connection_cooldown = Duration::from_millis(300);
    settings.gossip = Duration::from_millis(200);
    if let Some((number, address)) = known {
        settings.bootstrappers = vec![(key(number), Ingress::from(address))];
    }
    let (events, happened) = sync_channel(1024);
    thread::spawn(move || {
        for event in happened {
            println!("node {number}: {event}");
            if let Event::Message(_, data) = event {
                // Only one message is received.
                let _ = messages.send(data);
            }
        }
    });
    Host::start(settings, events)
}

fn is_connected(host: &Host, number: u16) -> bool {
    let status = host.ask(|directory, _now| directory.status(&key(number)));
    status == Some(Status::Active)
}

fn main() -> Result<(), Failure> {
    let (messages, received) = channel();
    let first = start(1, None, messages.clone())?;
    let known = Some((1, first.address()));
    let second = start(2, known, messages.clone())?;
    let third = start(3, known, messages)?;
    let set = OrderedSet::from_iter_dedup([1, 2, 3].map(key)).into();
    for host in [&first, &second, &third] {
        host.track(0, &set)?;
    }
    let start = Instant::now();
    while !(is_connected(&second, 3) && is_connected(&third, 2)) {
        if start.elapsed() > PATIENCE {
            return Err("two nodes didn't find each other".into());
        }
        thread::sleep(Duration::from_millis(10));
    }
    if !second.send(&key(3), 7, b"hello".to_vec()) {
        return Err("the third node is gone".into());
    }
    let data = received.recv_timeout(PATIENCE)?;
    assert_eq!(data.message, b"hello");
    for host in [second, third, first] {
        host.end();
    }
    Ok(())
}
