//! What the recording of its calls adds to a node that receives 100 infos: nanoseconds of a
//! `receive`, with no verification, the least and the mean of many turns.

use p2p_directory::record::Recorder;
use p2p_directory::testing::{info, key, setup};
use p2p_directory::{Moment, Node, OrderedSet, Payload, PayloadConfig, Setup};
use std::error::Error;
use std::fs::{self, File};
use std::io::BufWriter;
use std::time::Instant;
use std::{env, process};

const INFOS: u16 = 100;
const TURNS: usize = 2_000;

fn given() -> Setup {
    let mut setup = setup(999);
    setup.payload = PayloadConfig {
        max_bit_vec: 1_000,
        max_peers: 1_000,
        max_data_length: 1_000,
    };
    setup.peer_gossip_max_count = 1_000;
    setup
}

// The least and the mean time of a `receive`.
fn measured(node: &mut Node) -> Result<(u128, u128), Box<dyn Error>> {
    let peers = OrderedSet::from_iter_dedup((1..=INFOS).map(key));
    let _ = node.directory_mut().track(0, &peers.into())?;
    let frame = Payload::Peers((1..=INFOS).map(|number| info(number, 1_000)).collect()).encode();
    let (mut least, mut all) = (u128::MAX, 0);
    for _ in 0..TURNS {
        let begun = Instant::now();
        let received = node.receive(&frame, Moment::from_secs(100), |_| true);
        let taken = begun.elapsed().as_nanos();
        let _ = received.accepted()?;
        (least, all) = (least.min(taken), all + taken);
    }
    Ok((least, all / TURNS as u128))
}

fn main() -> Result<(), Box<dyn Error>> {
    let path = env::temp_dir().join(format!("p2p-recording-{}.log", process::id()));
    let sink = BufWriter::with_capacity(256 << 10, File::create(&path)?);
    let mut recorded = Node::new_recorded(&given(), Recorder::new(sink, u64::MAX))?;
    let mut plain = Node::new(&given())?;
    let (without, with) = (measured(&mut plain)?, measured(&mut recorded)?);
    drop(recorded);
    fs::remove_file(&path)?;
    println!("receive of {INFOS} infos, ns: least, mean");
    println!("not recorded: {}, {}", without.0, without.1);
    println!("recorded: {}, {}", with.0, with.1);
    Ok(())
}
