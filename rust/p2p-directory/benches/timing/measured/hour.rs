//! An hour of a tracker.

use super::made::{info, keys, node_of, tracked, verify};
use crate::Outcome;
use crate::times::Times;
use p2p_directory::sized::{Node, Pair, Payload, Received, Reservation, TrackedPeers};
use p2p_directory::{BitVec, Moment};
use std::time::{Duration, Instant};

/// The maximum number of connections.
const CONNECTIONS: usize = 64;

/// How many infos a peer sends at a time.
const INFOS: usize = 32;

/// How many ticks of ten seconds an hour has, and how many a minute.
const TICKS: usize = 360;
const TICKS_A_MINUTE: usize = 6;

/// SplitMix64: pseudo-random numbers that depend on the seed alone.
struct Random(u64);

impl Random {
    fn next(&mut self) -> u64 {
        self.0 = self.0.wrapping_add(0x9e37_79b9_7f4a_7c15);
        let z = (self.0 ^ (self.0 >> 30)).wrapping_mul(0xbf58_476d_1ce4_e5b9);
        let z = (z ^ (z >> 27)).wrapping_mul(0x94d0_49bb_1331_11eb);
        z ^ (z >> 31)
    }

    fn below(&mut self, end: u64) -> u64 {
        self.next() % end
    }
}

/// The times of calls, of frames with infos, of questions and of asking.
#[derive(Default)]
pub(crate) struct Parts(pub(crate) [Duration; 4]);

/// A tracker, and how much it did.
struct Tracker<P: Pair> {
    node: Node<P>,
    slots: Vec<Option<Reservation<P>>>,
    done: usize,
}

/// What happens in a tick, chosen before the time is measured.
struct Tick<P: Pair> {
    now: Moment,
    new_set: Option<(u64, TrackedPeers<P>)>,
    first_slot: usize,
    dials: Vec<(u64, Duration)>,
    inbound: Vec<(P::Key, Duration)>,
    asked: Vec<P::Key>,
    bad: P::Key,
}

/// The frames of a connection in a tick: infos and a question, and the position of the set that the
/// node asks about.
struct Frames {
    infos: Vec<u8>,
    question: Vec<u8>,
    place: usize,
}

impl<P: Pair> Tracker<P> {
    fn release(&mut self, place: usize) -> Outcome<bool> {
        match self.slots[place].take() {
            Some(held) => {
                self.node.directory_mut().release(held)?;
                Ok(true)
            }
            None => Ok(false),
        }
    }

    // Releases the reservations of chosen peers, and returns how many there were.
    fn release_each(&mut self, is_meant: impl Fn(&P::Key) -> bool) -> Outcome<usize> {
        let mut count = 0;
        for place in 0..CONNECTIONS {
            let held = self.slots[place].as_ref();
            if held.is_some_and(|held| is_meant(held.public_key())) {
                count += usize::from(self.release(place)?);
            }
        }
        Ok(count)
    }

    // Connects a reservation if there is a free slot and it is allowed, and releases it otherwise.
    fn keep(&mut self, held: Reservation<P>, may_stay: bool) -> Outcome<()> {
        self.done += 1;
        let free = self.slots.iter().position(Option::is_none);
        let directory = self.node.directory_mut();
        match free {
            Some(place) if may_stay => {
                directory.connect_reserved(&held)?;
                self.slots[place] = Some(held);
            }
            _ => directory.release(held)?,
        }
        Ok(())
    }

    fn track(&mut self, index: u64, peers: &TrackedPeers<P>, now: Moment) -> Outcome<()> {
        let directory = self.node.directory_mut();
        let torn = directory.track(index, peers)?.accepted();
        let torn = torn.ok_or("the index is above")?;
        directory.forget_cooled(now);
        self.done += self.release_each(|peer| torn.binary_search(peer).is_ok())?;
        Ok(())
    }

    fn dial(&mut self, dials: &[(u64, Duration)], now: Moment) -> Outcome<()> {
        let dialable = self.node.directory().dialable(now)?.peers;
        self.done += dialable.len();
        for (how, draw) in dials {
            if dialable.is_empty() {
                break;
            }
            let peer = dialable[(how / 2 % dialable.len() as u64) as usize];
            if let Some(held) = self.node.directory_mut().dial(&peer, now, *draw)? {
                self.keep(held, how % 2 == 0)?;
            }
        }
        Ok(())
    }

    fn listen(&mut self, inbound: &[(P::Key, Duration)], now: Moment) -> Outcome<()> {
        for (peer, draw) in inbound {
            let directory = self.node.directory_mut();
            if !directory.acceptable(peer, now) {
                continue;
            }
            if let Some(held) = directory.listen(peer, now, *draw)? {
                self.keep(held, true)?;
            }
        }
        Ok(())
    }

    fn call(&mut self, tick: &Tick<P>) -> Outcome<()> {
        if let Some((index, peers)) = &tick.new_set {
            self.track(*index, peers, tick.now)?;
        }
        self.done += usize::from(self.node.directory_mut().unblock_expired(tick.now));
        for place in 0..8 {
            self.release((tick.first_slot + place) % CONNECTIONS)?;
        }
        self.dial(&tick.dials, tick.now)?;
        self.listen(&tick.inbound, tick.now)?;
        let directory = self.node.directory();
        let eligible = tick.asked.iter();
        let eligible = eligible.filter(|peer| directory.eligible(peer, tick.now));
        self.done += eligible.count();
        self.node.directory_mut().block(&tick.bad, tick.now)?;
        self.release_each(|peer| *peer == tick.bad)?;
        Ok(())
    }

    fn gossip(&mut self, frames: &Frames, now: Moment, parts: &mut Parts) -> Outcome<()> {
        let begin = Instant::now();
        match self.node.receive(&frames.infos, now, verify) {
            Received::Applied(count) => self.done += count,
            other => return Err(format!("infos are answered {other:?}").into()),
        }
        let infos = Instant::now();
        match self.node.receive(&frames.question, now, verify) {
            Received::Reply(reply) => self.done += reply.len(),
            other => return Err(format!("a question is answered {other:?}").into()),
        }
        let question = Instant::now();
        self.done += self.node.ask(frames.place)?.ok_or("no set")?.len();
        let asked = Instant::now();
        parts.0[1] += infos - begin;
        parts.0[2] += question - infos;
        parts.0[3] += asked - question;
        Ok(())
    }
}

// Chooses what happens in a tick among the peers of the set.
fn tick_of<P: Pair>(tick: usize, here: &[P::Key], random: &mut Random) -> Tick<P> {
    let mut some = |count: usize| -> Vec<P::Key> {
        (0..count)
            .map(|_| here[random.below(here.len() as u64) as usize])
            .collect()
    };
    let (inbound, asked, bad) = (some(8), some(8), some(1)[0]);
    let mut chance = || {
        let how = random.next();
        (how, Duration::from_nanos(random.below(5_000_000_000)))
    };
    let dials: Vec<_> = (0..4).map(|_| chance()).collect();
    let minute = tick / TICKS_A_MINUTE;
    Tick {
        now: Moment::from_secs(1_000_000 + 10 * tick as u64),
        new_set: tick
            .is_multiple_of(TICKS_A_MINUTE)
            .then(|| (minute as u64, tracked::<P>(here))),
        first_slot: 8 * tick,
        dials,
        inbound: inbound.into_iter().map(|peer| (peer, chance().1)).collect(),
        asked,
        bad,
    }
}

// The frames of a connection. One in ten of the infos, all of peers in the set, is newer than
// before.
fn frames_of<P: Pair>(
    minute: usize,
    (here, seen): (&[P::Key], &mut [u64]),
    random: &mut Random,
) -> Frames {
    let count = here.len();
    let infos = (0..INFOS).map(|_| {
        let place = random.below(count as u64) as usize;
        if random.below(10) == 0 {
            seen[place] += 1;
        }
        info::<P>(&here[place], seen[place])
    });
    let infos = Payload::Peers(infos.collect()).encode();
    let question = BitVec {
        index: minute as u64,
        bits: (0..count).map(|_| random.below(2) == 0).collect(),
    };
    Frames {
        infos,
        question: Payload::<P>::BitVec(question).encode(),
        place: (random.below(4) as usize).min(minute),
    }
}

// Runs the hour with so many peers in a set, and returns how much was done.
fn hour<P: Pair>(count: usize, parts: &mut Parts) -> Outcome<usize> {
    let mut random = Random(count as u64);
    let all = keys::<P>(0, 2 * count);
    let mut seen = vec![1000; 2 * count];
    let mut tracker = Tracker {
        node: node_of::<P>(count.max(INFOS))?,
        slots: (0..CONNECTIONS).map(|_| None).collect(),
        done: 0,
    };
    for tick in 0..TICKS {
        let minute = tick / TICKS_A_MINUTE;
        let from = minute * (count / 16) % count;
        let here = from..from + count;
        let now = tick_of::<P>(tick, &all[here.clone()], &mut random);
        let begin = Instant::now();
        tracker.call(&now)?;
        parts.0[0] += begin.elapsed();
        let connected = tracker.slots.iter().flatten().count();
        let mut frames = Vec::new();
        for _ in 0..connected {
            let seen = &mut seen[here.clone()];
            frames.push(frames_of::<P>(
                minute,
                (&all[here.clone()], seen),
                &mut random,
            ));
        }
        for frames in &frames {
            tracker.gossip(frames, now.now, parts)?;
        }
    }
    Ok(tracker.done)
}

/// Runs so many hours with so many peers in a set, and prints the parts to standard error.
///
/// Each minute has a set a sixteenth of which is new. In each tick of ten seconds blocks end, eight
/// connections end, four peers are dialled of which half fail, eight are inbound, eight are
/// queried, and one is blocked. Each connection has a frame of infos, a question, and a question to
/// its peer.
pub(crate) fn hours<P: Pair>(count: usize, samples: usize) -> Outcome<Times> {
    let mut times = Times::default();
    let mut sum = Parts::default();
    for _ in 0..samples {
        let mut parts = Parts::default();
        let done = hour::<P>(count, &mut parts)?;
        times.add(parts.0.iter().sum(), done);
        for (sum, part) in sum.0.iter_mut().zip(parts.0) {
            *sum += part;
        }
    }
    let [calls, infos, questions, asked] = sum.0.map(|part| part / samples.max(1) as u32);
    eprintln!("calls {calls:?}, infos {infos:?}, questions {questions:?}, asks {asked:?}");
    Ok(times)
}
