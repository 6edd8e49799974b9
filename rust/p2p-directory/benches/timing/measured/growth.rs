//! How the times of some calls grow with the retained sets and with the blocks.

use super::made::{directory, infos, keys, tracked};
use crate::Outcome;
use crate::times::Times;
use p2p_directory::sized::{Directory, Pair};
use std::time::{Duration, Instant};

// How often each call is made.
const SAMPLES: usize = 9;

// How many calls of `next_unblock` are measured as one.
const QUESTIONS: u128 = 100;

// A directory that retains so many sets of so many peers, a quarter of which are new in each.
fn full<P: Pair>(sets: usize, count: usize) -> Outcome<Directory<P>> {
    let mut directory = directory::<P>(sets)?;
    for index in 0..sets {
        let tracked = directory.track(
            index as u64,
            &tracked::<P>(&keys::<P>(index * count / 4, count)),
        )?;
        tracked.accepted().ok_or("the index is above")?;
    }
    Ok(directory)
}

// Registers sets while the maximum number is retained.
fn tracks<P: Pair>(sets: usize, count: usize) -> Outcome<Times> {
    let mut directory = full::<P>(sets, count)?;
    let mut times = Times::default();
    for index in sets..sets + SAMPLES {
        let peers = tracked::<P>(&keys::<P>(index * count / 4, count));
        let start = Instant::now();
        let torn = directory.track(index as u64, &peers)?;
        times.add(start.elapsed(), torn.accepted().is_some().into());
    }
    Ok(times)
}

// Updates the infos of a tenth of the peers of the last set, which are in no other.
fn updates<P: Pair>(sets: usize, count: usize) -> Outcome<Times> {
    let mut directory = full::<P>(sets, count)?;
    let from = (sets - 1) * count / 4 + count - count / 4;
    let newest = keys::<P>(from, count / 10);
    let mut times = Times::default();
    for timestamp in 0..SAMPLES as u64 {
        let infos = infos::<P>(&newest, timestamp);
        let start = Instant::now();
        directory.update_peers(&infos)?;
        times.add(start.elapsed(), 1);
    }
    Ok(times)
}

// A directory with so many blocks, each a nanosecond later than the one before.
fn blocked<P: Pair>(count: usize) -> Outcome<Directory<P>> {
    let mut directory = directory::<P>(1)?;
    for (key, nanos) in keys::<P>(0, count).iter().zip(0..) {
        directory.block(key, Duration::from_nanos(nanos).into())?;
    }
    Ok(directory)
}

// Queries many times when the next block ends.
fn questions<P: Pair>(count: usize) -> Outcome<Times> {
    let directory = blocked::<P>(count)?;
    let mut times = Times::default();
    for _ in 0..SAMPLES {
        let start = Instant::now();
        let answers = (0..QUESTIONS).filter_map(|_| directory.next_unblock());
        let done = answers.count();
        times.add(start.elapsed(), done);
    }
    Ok(times)
}

// Ends the first of the blocks.
fn ends<P: Pair>(count: usize) -> Outcome<Times> {
    let mut directory = blocked::<P>(count)?;
    let mut times = Times::default();
    for _ in 0..SAMPLES {
        if let Some(moment) = directory.next_unblock() {
            let start = Instant::now();
            let ended = directory.unblock_expired(moment);
            times.add(start.elapsed(), ended.into());
        }
    }
    Ok(times)
}

fn print(what: &str, times: &Times, calls: u128) {
    let (_, median) = times.least_and_median();
    println!("{what}: {} ns", median / calls);
}

/// Prints the median of the times of each call.
pub(crate) fn measure<P: Pair>() -> Outcome<()> {
    for count in [1_000, 10_000] {
        for sets in [1, 4, 16] {
            let of = format!("{sets} sets of {count} peers");
            print(&format!("track, {of}"), &tracks::<P>(sets, count)?, 1);
            print(
                &format!("update_peers, {of}"),
                &updates::<P>(sets, count)?,
                1,
            );
        }
    }
    for count in [100, 1_000, 10_000, 100_000] {
        let of = format!("{count} blocks");
        print(
            &format!("next_unblock, {of}"),
            &questions::<P>(count)?,
            QUESTIONS,
        );
        print(&format!("unblock_expired, {of}"), &ends::<P>(count)?, 1);
    }
    Ok(())
}
