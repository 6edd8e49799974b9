//! Two threads with a node each, joined by channels. Each sends the infos that the other wants and
//! that may be shared. The program prints whose infos each knows.
//!
//! `cargo run --example two_nodes`

use p2p_directory::testing::{config, info, key, setup, verify};
use p2p_directory::{Key, Moment, Node, OrderedSet, Received, Reservation, Tracked};
use std::collections::hash_map::RandomState;
use std::error::Error;
use std::hash::{BuildHasher, Hasher};
use std::sync::mpsc::{Receiver, Sender, channel};
use std::thread;

/// The time of everything that happens here.
const NOW: Moment = Moment::from_secs(100);

/// The peers of the set that both track.
const PEERS: std::ops::RangeInclusive<u16> = 1..=5;

/// A node, and the reservations of its connections.
struct Connected {
    node: Node,
    held: Vec<Reservation>,
}

/// A random number. Use your generator.
fn random() -> u64 {
    RandomState::new().build_hasher().finish()
}

/// A node with the key of a number. It is connected with the other node, and with another peer
/// whose info it knows.
fn connected(number: u16, other: u16, known: u16) -> Result<Connected, Box<dyn Error>> {
    let mut node = Node::new(&setup(number))?;
    let mut held = Vec::new();
    let peers = OrderedSet::from_iter_dedup(PEERS.map(key)).into();
    let Tracked::Accepted(to_disconnect) = node.track(0, &peers)? else {
        return Err("a later set is registered".into());
    };
    assert!(to_disconnect.is_empty(), "nobody is connected yet");
    let directory = node.directory_mut();
    directory.update_peers(&[info(known, 1000)])?;
    for peer in [other, known] {
        let granted = directory.listen(&key(peer), NOW, config().draw(random()))?;
        let reservation = granted.ok_or("the peer may not come")?;
        // If an error drops the reservation, it is released, and so are those before it.
        directory.connect_reserved(&reservation)?;
        held.push(reservation);
    }
    Ok(Connected { node, held })
}

/// Greets, asks once, replies, ends its connections, and returns whose infos it knows. If it fails,
/// its connections end all the same, since dropped reservations are released.
fn talk(
    connected: Connected,
    frames: &Receiver<Vec<u8>>,
    other: &Sender<Vec<u8>>,
) -> Result<Vec<Key>, Box<dyn Error>> {
    let Connected { mut node, held } = connected;
    other.send(node.greeting().to_vec())?;
    other.send(node.ask(0)?.ok_or("no set")?)?;
    // A greeting, a question, and the reply to the node's own question.
    for _ in 0..3 {
        match node.receive(&frames.recv()?, NOW, verify) {
            Received::Reply(reply) => other.send(reply)?,
            Received::Greeted(_) | Received::Applied(_) => {}
            refused => return Err(format!("{refused:?}").into()),
        }
    }
    for reservation in held {
        node.directory_mut().release(reservation)?;
    }
    let bits = node.directory().get_random_bit_vec(0)?.ok_or("no set")?;
    let known = PEERS.map(key).zip(bits.bits);
    Ok(known
        .filter(|(_, known)| *known)
        .map(|(peer, _)| peer)
        .collect())
}

fn main() -> Result<(), Box<dyn Error>> {
    let (to_one, of_one) = channel();
    let (to_two, of_two) = channel();
    let (one, two) = (connected(1, 2, 3)?, connected(2, 1, 4)?);
    let one = thread::spawn(move || talk(one, &of_one, &to_two).map_err(|e| e.to_string()));
    let two = thread::spawn(move || talk(two, &of_two, &to_one).map_err(|e| e.to_string()));
    for (name, node) in [("one", one), ("two", two)] {
        let known = node.join().map_err(|_| "a thread panicked")??;
        println!(
            "node {name} knows the infos of {} of {} peers:",
            known.len(),
            PEERS.len()
        );
        for peer in known {
            println!("  {peer}");
        }
    }
    Ok(())
}
