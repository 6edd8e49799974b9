//! Files that a thread of their own writes, so that nobody else waits for a disk.

use std::io::{self, ErrorKind, Write};
use std::sync::atomic::{AtomicUsize, Ordering};
use std::sync::mpsc::{Receiver, Sender, channel};
use std::sync::{Arc, OnceLock};
use std::thread;
use std::time::{Duration, Instant};

/// The stack of the thread, in bytes.
const STACK: usize = 128 << 10;

/// How long a wait lasts between two looks at what is left to write.
const POLL: Duration = Duration::from_millis(5);

/// A queue of bytes, which a thread of its own writes in their order.
///
/// No call waits for the thread but [`Writer::finish`]. What waits for it is bounded.
#[derive(Clone, Debug)]
pub struct Writer {
    pieces: Sender<Vec<u8>>,
    progress: Arc<Progress>,
    room: usize,
}

/// How far the thread has come.
#[derive(Debug, Default)]
struct Progress {
    // How many bytes are queued or being written.
    left: AtomicUsize,
    failure: OnceLock<ErrorKind>,
}

impl Writer {
    /// Starts a thread that writes to `sink`, each piece by one call, while at most `room` bytes
    /// wait for it. After an error of the sink, `goes_on` says whether later pieces are written.
    ///
    /// # Errors
    ///
    /// That of the system if there is no thread.
    pub fn start(
        sink: impl Write + Send + 'static,
        room: usize,
        goes_on: impl FnMut(&io::Error) -> bool + Send + 'static,
    ) -> io::Result<Writer> {
        let (pieces, queued) = channel();
        let progress = Arc::new(Progress::default());
        let of_thread = Arc::clone(&progress);
        let thread = thread::Builder::new().stack_size(STACK);
        thread.spawn(move || write(sink, &queued, &of_thread, goes_on))?;
        Ok(Writer {
            pieces,
            progress,
            room,
        })
    }

    /// Queues a piece. One that is longer than the room is accepted if nothing else waits.
    ///
    /// # Errors
    ///
    /// [`ErrorKind::TimedOut`] if there is no room, since the sink is slower than what comes. The
    /// error of the sink if it ended the thread. Then the piece is dropped.
    pub fn push(&self, piece: Vec<u8>) -> io::Result<()> {
        if let Some(kind) = self.progress.failure.get() {
            return Err((*kind).into());
        }
        let more = |left: usize| {
            let sum = left.checked_add(piece.len())?;
            (left == 0 || sum <= self.room).then_some(sum)
        };
        let left = &self.progress.left;
        let reserved = left.fetch_update(Ordering::AcqRel, Ordering::Acquire, more);
        reserved.map_err(|_| ErrorKind::TimedOut)?;
        let sent = self.pieces.send(piece);
        sent.map_err(|_| ErrorKind::BrokenPipe.into())
    }

    /// Waits until all that was queued is written, at most so long. Returns whether it is.
    #[must_use]
    pub fn finish(&self, within: Duration) -> bool {
        let begin = Instant::now();
        loop {
            if self.progress.failure.get().is_some() {
                return false;
            }
            if self.progress.left.load(Ordering::Acquire) == 0 {
                return true;
            }
            if begin.elapsed() >= within {
                return false;
            }
            thread::sleep(POLL);
        }
    }
}

/// Writes each piece, until nobody is left who may queue one.
fn write(
    mut sink: impl Write,
    queued: &Receiver<Vec<u8>>,
    progress: &Progress,
    mut goes_on: impl FnMut(&io::Error) -> bool,
) {
    for piece in queued {
        let written = sink.write_all(&piece).and_then(|()| sink.flush());
        if let Err(error) = written
            && !goes_on(&error)
        {
            // It is set once.
            let _ = progress.failure.set(error.kind());
            return;
        }
        progress.left.fetch_sub(piece.len(), Ordering::AcqRel);
    }
}

/// A sink that never waits. It fails if the writer behind it is too slow, or has failed.
#[derive(Debug)]
pub struct Queued(pub Writer);

impl Write for Queued {
    fn write(&mut self, bytes: &[u8]) -> io::Result<usize> {
        let mut piece = Vec::new();
        let reserved = piece.try_reserve_exact(bytes.len());
        reserved.map_err(|_| ErrorKind::OutOfMemory)?;
        piece.extend_from_slice(bytes);
        self.0.push(piece)?;
        Ok(bytes.len())
    }

    fn flush(&mut self) -> io::Result<()> {
        match self.0.progress.failure.get() {
            Some(kind) => Err((*kind).into()),
            None => Ok(()),
        }
    }
}

#[cfg(test)]
mod tests {
    use super::*;
    use p2p_directory::record::{Log, Recorder, Recording};
    use p2p_directory::{Moment, Node, testing};
    use std::sync::Mutex;
    use std::sync::mpsc::{SyncSender, sync_channel};

    const LONG: Duration = Duration::from_secs(60);

    /// A disk that writes once for each message, and fails when nobody is left to send one.
    struct Disk {
        permits: Receiver<()>,
        written: Arc<Mutex<Vec<u8>>>,
    }

    impl Write for Disk {
        fn write(&mut self, bytes: &[u8]) -> io::Result<usize> {
            let permit = self.permits.recv();
            permit.map_err(|_| io::Error::from(ErrorKind::StorageFull))?;
            self.written.lock().unwrap().extend_from_slice(bytes);
            Ok(bytes.len())
        }

        fn flush(&mut self) -> io::Result<()> {
            Ok(())
        }
    }

    fn disk() -> (Disk, SyncSender<()>, Arc<Mutex<Vec<u8>>>) {
        let (sender, permits) = sync_channel(4096);
        let written = Arc::default();
        let disk = Disk {
            permits,
            written: Arc::clone(&written),
        };
        (disk, sender, written)
    }

    fn kind(result: io::Result<()>) -> Option<ErrorKind> {
        result.err().map(|error| error.kind())
    }

    #[test]
    fn what_waits_is_bounded_and_comes_in_order() {
        let (disk, permits, written) = disk();
        let writer = Writer::start(disk, 6, |_| true).unwrap();
        writer.push(b"abc".to_vec()).unwrap();
        writer.push(b"def".to_vec()).unwrap();
        let refused = writer.push(b"g".to_vec());
        assert_eq!(kind(refused), Some(ErrorKind::TimedOut));
        assert!(!writer.finish(Duration::from_millis(20)));
        (0..2).for_each(|_| permits.send(()).unwrap());
        assert!(writer.finish(LONG));
        // More than the room, when nothing waits.
        writer.push(b"0123456789".to_vec()).unwrap();
        permits.send(()).unwrap();
        assert!(writer.finish(LONG));
        assert_eq!(*written.lock().unwrap(), b"abcdef0123456789");
    }

    #[test]
    fn an_error_ends_the_thread_or_the_piece_alone() {
        let (broken, permits, _) = disk();
        drop(permits);
        let writer = Writer::start(broken, 100, |_| false).unwrap();
        let mut sink = Queued(writer.clone());
        sink.write_all(b"abc").unwrap();
        assert!(!writer.finish(LONG));
        assert_eq!(kind(sink.flush()), Some(ErrorKind::StorageFull));
        assert_eq!(kind(sink.write_all(b"d")), Some(ErrorKind::StorageFull));
        let (broken, permits, _) = disk();
        drop(permits);
        let (tell, told) = sync_channel(10);
        let goes_on = move |error: &io::Error| tell.send(error.kind()).is_ok();
        let writer = Writer::start(broken, 100, goes_on).unwrap();
        (0..2).for_each(|_| writer.push(b"abc".to_vec()).unwrap());
        assert!(writer.finish(LONG));
        assert_eq!(told.iter().take(2).count(), 2);
    }

    #[test]
    fn a_record_that_can_not_be_written_in_time_ends_and_has_the_calls_before() {
        let (disk, permits, written) = disk();
        let writer = Writer::start(disk, 4096, |_| false).unwrap();
        let recorder = Recorder::new(Queued(writer.clone()), 1 << 20);
        let mut node = Node::new_recorded(&testing::setup(9), recorder).unwrap();
        let mut calls = 0;
        while node.directory().recording() == Some(Recording::Going) {
            let _ = node.directory_mut().unblock_expired(Moment::EPOCH);
            calls += 1;
            assert!(calls < 4096);
        }
        let failed = Recording::Failed(ErrorKind::TimedOut);
        assert_eq!(node.directory().recording(), Some(failed));
        // The node goes on, and what was queued is written once the disk is there again.
        assert!(!node.directory_mut().unblock_expired(Moment::EPOCH));
        // The header, and each call but the last.
        (0..=calls).for_each(|_| permits.send(()).unwrap());
        assert!(writer.finish(LONG));
        let log = Log::read(written.lock().unwrap().clone()).unwrap();
        let names: Vec<_> = log.calls().map(|call| call.name()).collect();
        // The call whose record found no room isn't in it.
        assert_eq!(names.len(), calls);
        assert_eq!((names[0], names[calls - 1]), ("init", "unblock_expired"));
    }
}
