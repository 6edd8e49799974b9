//! Single measurements, each with a name.

use super::hour::hours;
use super::made::{
    SETS, config, directory, frame, full, infos, ingress, keys, known, no_bits, node, own_info,
    tracked, verify,
};
use crate::Outcome;
use crate::times::Times;
use p2p_directory::sized::{Directory, Pair, Payload, Received};
use p2p_directory::{Data, Moment};
use std::hint::black_box;
use std::time::{Duration, Instant};

// How many calls with a time as argument are measured as one.
const REPEATS: usize = 100;

// The time of queries.
const NOW: Moment = Moment::from_secs(1000);

const NAMES: [&str; 34] = [
    "init",
    "track",
    "status",
    "listen",
    "dial",
    "connect",
    "connect_dialer",
    "update_1",
    "update_100",
    "update_1000",
    "block",
    "next_unblock",
    "blocked_peers",
    "unblock_expired",
    "unblock_idle",
    "forget_cooled",
    "info",
    "infos",
    "bits",
    "all",
    "get_peer_set",
    "latest_set_index",
    "latest_update",
    "tracked",
    "eligible",
    "acceptable",
    "dialable",
    "receive",
    "data",
    "copy",
    "keys",
    "fill",
    "fill_known",
    "day",
];

/// The times of a scenario with so many peers. A dot before its name is ignored.
pub(crate) fn times_of<P: Pair>(name: &str, count: usize, samples: usize) -> Outcome<Times> {
    let name = name.strip_prefix('.').unwrap_or(name);
    let all = keys::<P>(0, count);
    match name {
        "init" => inits::<P>(&all, samples),
        "track" => tracks::<P>(count, samples),
        "listen" | "dial" | "connect" | "connect_dialer" => cycles::<P>(&all, samples, name),
        "update_1" => updates::<P>(&all, samples, 1),
        "update_100" => updates::<P>(&all, samples, 100),
        "update_1000" => updates::<P>(&all, samples, 1000),
        "block" | "next_unblock" | "blocked_peers" | "unblock_expired" | "unblock_idle" => {
            blocks::<P>(&all, samples, name)
        }
        "forget_cooled" => forgets::<P>(&all, samples),
        "receive" => receives::<P>(&all, samples),
        "data" | "copy" => messages::<P>(count, samples, name),
        "day" => hours::<P>(count, samples),
        "keys" => Ok(once(all.len())),
        "fill" => Ok(once(full::<P>(&all)?.tracked())),
        "fill_known" => Ok(once(known::<P>(&all)?.tracked())),
        _ => questions::<P>(&all, samples, name),
    }
}

/// Makes the calls of each scenario with few peers, and prints what was done.
pub(crate) fn measure_few<P: Pair>() -> Outcome<()> {
    for name in NAMES {
        println!(
            "{name}, 10 peers: {} done",
            times_of::<P>(name, 10, 2)?.done
        );
    }
    Ok(())
}

// The result of a scenario without a time. It creates something whose memory is measured from
// outside.
fn once(done: usize) -> Times {
    let mut times = Times::default();
    times.add(Duration::ZERO, done);
    times
}

// New directories with these peers as bootstrappers.
fn inits<P: Pair>(all: &[P::Key], samples: usize) -> Outcome<Times> {
    let mut times = Times::default();
    for _ in 0..samples {
        let bootstrappers: Vec<_> = all.iter().map(|key| (*key, ingress::<P>(key))).collect();
        let config = config(1);
        let own = own_info::<P>();
        let start = Instant::now();
        let directory = Directory::<P>::init(&bootstrappers, &own, config)?;
        times.add(start.elapsed(), directory.tracked());
    }
    Ok(times)
}

// Sets a quarter of which is new.
fn tracks<P: Pair>(count: usize, samples: usize) -> Outcome<Times> {
    let all = keys::<P>(0, count * 64);
    let span = (all.len() - count).max(1);
    let mut directory = directory::<P>(SETS)?;
    let mut times = Times::default();
    for index in 0..samples {
        let from = (index * count / 4) % span;
        let peers = tracked::<P>(&all[from..from + count]);
        let start = Instant::now();
        let torn = directory.track(index as u64, &peers)?;
        times.add(start.elapsed(), torn.accepted().is_some().into());
    }
    Ok(times)
}

// Reserves the peer and releases it, with the rest of the scenario in between. Returns whether it
// was granted.
fn cycle<P: Pair>(
    directory: &mut Directory<P>,
    key: &P::Key,
    now: Moment,
    name: &str,
) -> Outcome<bool> {
    let granted = match name {
        "dial" => directory.dial(key, now, Duration::ZERO)?,
        _ => directory.listen(key, now, Duration::ZERO)?,
    };
    let Some(reservation) = granted else {
        return Ok(false);
    };
    match name {
        "connect" => directory.connect(key, false)?,
        "connect_dialer" => directory.connect(key, true)?,
        _ => {}
    }
    directory.release(reservation)?;
    Ok(true)
}

// Reserves all peers, connects them if asked to, and releases them.
fn cycles<P: Pair>(all: &[P::Key], samples: usize, name: &str) -> Outcome<Times> {
    let mut directory = known::<P>(all)?;
    let mut times = Times::default();
    for sample in 1..=samples as u64 {
        let now = Moment::from_secs(100 + 11 * sample);
        let mut done = 0;
        let start = Instant::now();
        for key in all {
            done += usize::from(cycle(&mut directory, key, now, name)?);
        }
        times.add(start.elapsed(), done);
    }
    Ok(times)
}

// Updates the infos of all peers, in lists of at most so many.
fn updates<P: Pair>(all: &[P::Key], samples: usize, size: usize) -> Outcome<Times> {
    let mut directory = full::<P>(all)?;
    let mut times = Times::default();
    for sample in 0..samples as u64 {
        let lists: Vec<_> = all
            .chunks(size)
            .map(|keys| infos::<P>(keys, sample))
            .collect();
        let start = Instant::now();
        for list in &lists {
            directory.update_peers(list)?;
        }
        times.add(start.elapsed(), 1);
    }
    Ok(times)
}

// Blocks all peers, each a nanosecond later than the one before, and ends the blocks. One of both
// parts is measured.
fn blocks<P: Pair>(all: &[P::Key], samples: usize, timed: &str) -> Outcome<Times> {
    let mut directory = known::<P>(all)?;
    let mut times = Times::default();
    for sample in 1..=samples as u64 {
        let now = NOW.saturating_add(Duration::from_secs(1000 * sample));
        for phase in [
            "block",
            "next_unblock",
            "blocked_peers",
            "unblock_expired",
            "unblock_idle",
        ] {
            let start = Instant::now();
            let done = block_phase(&mut directory, all, now, phase)?;
            let time = start.elapsed();
            if phase == timed {
                times.add(time, done);
            }
        }
    }
    Ok(times)
}

fn block_phase<P: Pair>(
    directory: &mut Directory<P>,
    all: &[P::Key],
    now: Moment,
    phase: &str,
) -> Outcome<usize> {
    match phase {
        "block" => {
            let mut done = 0;
            for (key, nanos) in all.iter().zip(1..) {
                done += usize::from(
                    directory.block(key, now.saturating_add(Duration::from_nanos(nanos)))?,
                );
            }
            Ok(done)
        }
        "next_unblock" => Ok(repeated(|| directory.next_unblock().is_some())),
        "blocked_peers" => Ok(directory.blocked_peers(now)?.len()),
        _ => Ok(directory
            .unblock_expired(now.saturating_add(Duration::from_secs(100)))
            .into()),
    }
}

// How many times the call returned true, out of so many.
fn repeated(ask: impl Fn() -> bool) -> usize {
    (0..REPEATS).filter(|_| ask()).count()
}

// Forgets the cooldowns of all peers, each of which was released before.
fn forgets<P: Pair>(all: &[P::Key], samples: usize) -> Outcome<Times> {
    let mut directory = known::<P>(all)?;
    let mut times = Times::default();
    for sample in 0..samples as u64 {
        let now = Moment::from_secs(sample * 100);
        for key in all {
            cycle(&mut directory, key, now, "listen")?;
        }
        let start = Instant::now();
        let forgotten = directory.forget_cooled(now.saturating_add(Duration::from_secs(50)));
        times.add(start.elapsed(), forgotten);
    }
    Ok(times)
}

// A node receives frames with the infos of all peers, each time newer ones.
fn receives<P: Pair>(all: &[P::Key], samples: usize) -> Outcome<Times> {
    let mut node = node::<P>(all)?;
    let mut times = Times::default();
    for sample in 0..samples as u64 {
        let frame = frame::<P>(all, sample);
        let start = Instant::now();
        let answer = node.receive(&frame, Moment::from_secs(100), verify);
        let time = start.elapsed();
        times.add(time, matches!(answer, Received::Applied(_)).into());
    }
    Ok(times)
}

// A node receives a message of so many bytes, or its frame is copied.
fn messages<P: Pair>(count: usize, samples: usize, name: &str) -> Outcome<Times> {
    let mut node = node::<P>(&[])?;
    let message = vec![7; count];
    let frame = Payload::<P>::Data(Data {
        channel: 1,
        message,
    })
    .encode();
    let mut times = Times::default();
    for _ in 0..samples {
        let start = Instant::now();
        let done = if name == "copy" {
            black_box(frame.clone()).len()
        } else {
            match node.receive(&frame, NOW, verify) {
                Received::Data { message, .. } => message.len(),
                _ => 0,
            }
        };
        times.add(start.elapsed(), done);
    }
    Ok(times)
}

// A query of a directory that knows all peers. If infos are shared, all are connected.
fn questions<P: Pair>(all: &[P::Key], samples: usize, name: &str) -> Outcome<Times> {
    let mut directory = known::<P>(all)?;
    let mut held = Vec::new();
    if let "info" | "infos" = name {
        for key in all {
            held.extend(directory.listen(key, Moment::from_secs(100), Duration::ZERO)?);
            directory.connect(key, false)?;
        }
    }
    let mut times = Times::default();
    for _ in 0..samples {
        let start = Instant::now();
        let done = ask(&directory, all, name)?;
        times.add(start.elapsed(), done);
    }
    for reservation in held {
        directory.release(reservation)?;
    }
    Ok(times)
}

// Makes the query, and returns the length of its result.
fn ask<P: Pair>(directory: &Directory<P>, all: &[P::Key], name: &str) -> Outcome<usize> {
    let of_each = |ask: &dyn Fn(&P::Key) -> bool| all.iter().filter(|key| ask(key)).count();
    Ok(match name {
        "status" => of_each(&|key| directory.status(key).is_some()),
        "eligible" => of_each(&|key| directory.eligible(key, NOW)),
        "acceptable" => of_each(&|key| directory.acceptable(key, NOW)),
        "info" => of_each(&|key| matches!(directory.info(key), Ok(Some(_)))),
        "infos" => directory
            .infos(&no_bits(all.len()), NOW)?
            .map_or(0, |infos| infos.len()),
        "bits" => directory
            .get_random_bit_vec(2)?
            .map_or(0, |bit_vec| bit_vec.bits.len()),
        "all" => directory.all()?.primary.len(),
        "get_peer_set" => directory
            .get_peer_set(2)?
            .map_or(0, |peers| peers.primary.len()),
        "latest_update" => directory
            .latest_update()?
            .map_or(0, |update| update.all.primary.len()),
        "latest_set_index" => repeated(|| directory.latest_set_index().is_some()),
        "tracked" => repeated(|| directory.tracked() > 0),
        "dialable" => directory.dialable(NOW)?.peers.len(),
        _ => return Err(format!("no scenario is called {name}").into()),
    })
}
