//! A frame of 256 infos, whose signatures four threads verify while the node is not locked.
//!
//! `cargo run --release --example verify_on_threads`

use p2p_directory::testing::{info, key, setup, verify};
use p2p_directory::{Moment, Node, OrderedSet, Payload, Question, Questions, Received};
use std::error::Error;
use std::sync::Mutex;
use std::thread;
use std::time::{Duration, Instant};

/// How many infos the frame has.
const INFOS: u16 = 256;

const THREADS: usize = 4;

/// When the frame is received.
const NOW: Moment = Moment::from_secs(100);

/// How long the verification of a real signature takes, unlike one of `testing`.
const ONE_SIGNATURE: Duration = Duration::from_micros(50);

fn is_right(question: Question<'_>) -> bool {
    let start = Instant::now();
    let is_right = verify(question);
    while start.elapsed() < ONE_SIGNATURE {
        std::hint::spin_loop();
    }
    is_right
}

/// A verification result for each question, from four threads. Meanwhile the node isn't locked.
fn verdicts(questions: &Questions<'_>, node: &Mutex<Node>) -> Vec<bool> {
    let asked: Vec<_> = questions.iter().collect();
    let mut verdicts = vec![false; asked.len()];
    let share = asked.len().div_ceil(THREADS).max(1);
    thread::scope(|scope| {
        for (asked, verdicts) in asked.chunks(share).zip(verdicts.chunks_mut(share)) {
            scope.spawn(move || {
                for (asked, verdict) in asked.iter().zip(verdicts) {
                    *verdict = is_right(*asked);
                }
            });
        }
        let is_free = node.try_lock().is_ok();
        assert!(is_free, "the node is locked while signatures are verified");
    });
    verdicts
}

/// A node whose set has the peers of all infos.
fn node() -> Result<Node, Box<dyn Error>> {
    let mut node = Node::new(&setup(INFOS + 1))?;
    let peers = OrderedSet::from_iter_dedup((1..=INFOS).map(key));
    let to_disconnect = node.track(0, &peers.into())?.accepted();
    assert_eq!(to_disconnect, Some(OrderedSet::default()));
    Ok(node)
}

fn main() -> Result<(), Box<dyn Error>> {
    let infos = (1..=INFOS).map(|number| info(number, 1000)).collect();
    let frame = Payload::Peers(infos).encode();

    let mut alone = node()?;
    let start = Instant::now();
    let received = alone.receive(&frame, NOW, is_right);
    let at_once = start.elapsed();
    assert_eq!(received, Received::Applied(INFOS.into()));

    let node = Mutex::new(node()?);
    let start = Instant::now();
    let questions = node.lock().unwrap().check(&frame, NOW)?;
    let checked = start.elapsed();
    let verdicts = verdicts(&questions, &node);
    let judged = questions.judged(verdicts)?;
    let before = start.elapsed();
    let received = node.lock().unwrap().receive_judged(judged);
    let in_steps = start.elapsed();
    assert_eq!(
        received.map_err(|e| e.to_string())?,
        Received::Applied(INFOS.into())
    );

    let locked = checked + (in_steps - before);
    println!("at once: {at_once:?}, in which the node is locked");
    println!("by {THREADS} threads: {in_steps:?}, of which the node is locked for {locked:?}");
    Ok(())
}
