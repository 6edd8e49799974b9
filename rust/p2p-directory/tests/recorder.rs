//! Sinks of logs that panic, fail or drop reservations: what is recorded may end, and nothing else.

mod kept;

use kept::Kept;
use p2p_directory::record::{Log, Recorder, Recording};
use p2p_directory::{Directory, Moment, OrderedSet, Reservation, Status, testing};
use std::io::{self, ErrorKind, Write};
use std::sync::atomic::{AtomicUsize, Ordering};
use std::sync::mpsc::channel;
use std::sync::{Arc, Mutex};
use std::thread;
use std::time::Duration;

const NOW: Moment = Moment::from_secs(100);

/// How long a test waits for a call that would never return.
const LONG: Duration = Duration::from_secs(120);

/// A sink that makes a call of its own at each write.
struct Sink<F>(F);

impl<F: FnMut() -> io::Result<()>> Write for Sink<F> {
    fn write(&mut self, bytes: &[u8]) -> io::Result<usize> {
        (self.0)()?;
        Ok(bytes.len())
    }

    fn flush(&mut self) -> io::Result<()> {
        Ok(())
    }
}

/// A recorded directory whose set has the peers 1 to 5, all of known address.
fn directory(sink: impl Write + Send + 'static) -> Directory {
    let setup = testing::setup(9);
    let recorder = Recorder::new(sink, 1 << 20);
    let directory = Directory::init_recorded(&[], &setup.myself, setup.cfg, recorder);
    let mut directory = directory.expect("a directory");
    let peers = OrderedSet::from_iter_dedup((1..=5).map(testing::key)).into();
    let tracked = directory.track(0, &peers).expect("memory");
    assert!(tracked.accepted().is_some());
    let infos = [1, 2, 3, 4, 5].map(|number| testing::info(number, 0));
    directory.update_peers(&infos).expect("memory");
    directory
}

fn status(directory: &Directory, number: u16) -> Option<Status> {
    directory.status(&testing::key(number))
}

fn listened(directory: &mut Directory, number: u16) -> Reservation {
    let granted = directory.listen(&testing::key(number), NOW, Duration::ZERO);
    granted.expect("memory").expect("it is acceptable")
}

/// A sink that panics at each write after it is told to, and how often it was called then.
fn panicking() -> (impl Write + Send, Arc<AtomicUsize>) {
    // Zero until it is told to.
    let calls = Arc::new(AtomicUsize::new(0));
    let counted = Arc::clone(&calls);
    let sink = Sink(move || {
        if counted.load(Ordering::Relaxed) > 0 {
            counted.fetch_add(1, Ordering::Relaxed);
            panic!("this sink panics");
        }
        Ok(())
    });
    (sink, calls)
}

const FAILED: Option<Recording> = Some(Recording::Failed(ErrorKind::Other));

#[test]
fn a_sink_that_panics_takes_no_grant_away() {
    for dials in [false, true] {
        let (sink, calls) = panicking();
        let mut directory = directory(sink);
        assert_eq!(directory.recording(), Some(Recording::Going));
        calls.store(1, Ordering::Relaxed);
        let peer = testing::key(1);
        let granted = match dials {
            true => directory.dial(&peer, NOW, Duration::ZERO),
            false => directory.listen(&peer, NOW, Duration::ZERO),
        };
        let reservation = granted.expect("memory").expect("it may be reserved");
        assert_eq!(status(&directory, 1), Some(Status::Reserved));
        assert_eq!(directory.recording(), FAILED);
        assert!(directory.release(reservation).is_ok());
        assert_eq!(status(&directory, 1), Some(Status::Inert));
        // It was called once, and not again.
        drop(directory);
        assert_eq!(calls.load(Ordering::Relaxed), 2);
    }
}

#[test]
fn a_sink_that_panics_leaves_no_dropped_reservation_held() {
    let (sink, calls) = panicking();
    let mut directory = directory(sink);
    let held = [1, 2, 3].map(|number| listened(&mut directory, number));
    calls.store(1, Ordering::Relaxed);
    drop(held);
    let released = [1, 2, 3].map(|number| status(&directory, number));
    assert_eq!(released, [Some(Status::Inert); 3]);
    assert_eq!(directory.recording(), FAILED);
}

#[test]
fn a_sink_may_panic_while_it_is_flushed_or_dropped() {
    struct Last;
    impl Write for Last {
        fn write(&mut self, bytes: &[u8]) -> io::Result<usize> {
            Ok(bytes.len())
        }
        fn flush(&mut self) -> io::Result<()> {
            panic!("this sink panics when it is flushed");
        }
    }
    impl Drop for Last {
        fn drop(&mut self) {
            panic!("this sink panics when it is dropped");
        }
    }
    let directory = directory(Last);
    assert_eq!(directory.recording(), Some(Recording::Going));
    directory.flush_record();
    assert_eq!(directory.recording(), FAILED);
    assert_eq!(status(&directory, 1), Some(Status::Inert));
    drop(directory);
}

// Runs a test on another thread, and fails if it doesn't end.
fn ends(test: impl FnOnce() + Send + 'static) {
    let (done, is_done) = channel();
    let running = thread::spawn(move || {
        test();
        done.send(()).ok();
    });
    let ended = is_done.recv_timeout(LONG);
    assert!(ended.is_ok(), "it waits for ever, or it failed");
    running.join().expect("it has ended");
}

// A directory with three reservations of which one is dropped, while the sink gets rid of the others
// in this way.
fn drops_while_released(drops: impl Fn(Vec<Reservation>) + Send + 'static) {
    let kept = Arc::new(Mutex::new(Vec::new()));
    let taken = Arc::clone(&kept);
    let mut directory = directory(Sink(move || {
        let all = taken
            .lock()
            .map_or_else(|_| Vec::new(), |mut all| all.split_off(0));
        drops(all);
        Ok(())
    }));
    let held = [1, 2, 3].map(|number| listened(&mut directory, number));
    let [one, two, three] = held;
    kept.lock().expect("no panic").extend([two, three]);
    drop(one);
    let released = [1, 2, 3].map(|number| status(&directory, number));
    assert_eq!(released, [Some(Status::Inert); 3]);
    assert_eq!(directory.recording(), Some(Recording::Going));
    // All were released, so the places are free again after the cooldown.
    let later = Moment::from_secs(200);
    for number in [1, 2, 3] {
        let granted = directory.listen(&testing::key(number), later, Duration::ZERO);
        drop(granted.expect("memory").expect("it is acceptable"));
    }
}

#[test]
fn a_sink_may_drop_reservations() {
    ends(|| drops_while_released(drop));
}

#[test]
fn a_sink_may_wait_for_a_thread_that_drops_reservations() {
    ends(|| {
        drops_while_released(|all| {
            thread::spawn(move || drop(all)).join().expect("no panic");
        });
    });
}

#[test]
fn a_directory_is_formatted_without_a_record() {
    let kept = Kept::default();
    let mut directory = directory(kept.clone());
    drop(listened(&mut directory, 1));
    let formatted = format!("{directory:?}");
    assert!(formatted.contains("reservations: 1"), "{formatted}");
    drop(directory);
    let log = Log::read(kept.bytes()).expect("a log");
    let names: Vec<&str> = log.calls().map(|call| call.name()).collect();
    assert_eq!(
        names,
        ["init", "track_room", "track", "update_peers", "listen"]
    );
}

#[test]
fn a_recording_that_is_ended_is_whole() {
    let kept = Kept::default();
    let mut directory = directory(kept.clone());
    directory.end_record();
    let whole = kept.bytes();
    assert_eq!(directory.recording(), Some(Recording::Ended));
    assert_eq!(directory.block(&testing::key(1), NOW), Ok(true));
    directory.end_record();
    drop(directory);
    assert_eq!(kept.bytes(), whole);
    let log = Log::read(whole).expect("a log");
    assert!(!log.is_cut() && !log.is_full());
    assert_eq!(
        log.calls().last().map(|call| call.name()),
        Some("update_peers")
    );
}
