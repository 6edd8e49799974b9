//! The library, with the recorder of its calls.

use super::pair::{Pair, Sealed};
use crate::record::{Recorder, Recording};
use p2p_directory_sys::sized::{Caller, Library};
use std::cell::RefCell;

/// Makes the calls of a session, and records them.
pub(crate) struct Recorded<P: Pair> {
    library: Library<<P as Sealed>::Exports>,
    recorder: RefCell<Option<Recorder>>,
}

impl<P: Pair> Recorded<P> {
    /// A session whose calls aren't recorded yet, or `None` if the allocation fails.
    pub(crate) fn new() -> Option<Recorded<P>> {
        Some(Recorded {
            library: Library::new()?,
            recorder: RefCell::new(None),
        })
    }

    /// Records each call from now on.
    pub(crate) fn record(&self, mut recorder: Recorder) {
        recorder.begin(P::KEY_SIZE, P::SIGNATURE_SIZE);
        self.recorder.replace(Some(recorder));
    }

    /// How the recording stands, if there is one.
    pub(crate) fn recording(&self) -> Option<Recording> {
        self.recorder.borrow().as_ref().map(Recorder::recording)
    }

    /// Hands what was recorded so far to the operating system.
    pub(crate) fn flush_record(&self) {
        if let Some(recorder) = self.recorder.borrow_mut().as_mut() {
            recorder.flush();
        }
    }

    /// Ends the recording, whose log is whole then.
    pub(crate) fn end_record(&self) {
        if let Some(recorder) = self.recorder.borrow_mut().as_mut() {
            recorder.end();
        }
    }
}

impl<P: Pair> Caller for Recorded<P> {
    #[inline]
    fn call(&self, number: u64, numbers: &[u64], bytes: [&[u8]; 3], out: &mut [u8]) -> u64 {
        let answer = self.library.call(number, numbers, bytes, out);
        if let Some(recorder) = self.recorder.borrow_mut().as_mut() {
            recorder.call(number, numbers, bytes, answer, out);
        }
        answer
    }

    #[inline]
    fn call_peer(&self, number: u64, numbers: &[u64], peer: &[u8]) -> u64 {
        let answer = self.library.call_peer(number, numbers, peer);
        if let Some(recorder) = self.recorder.borrow_mut().as_mut() {
            recorder.call(number, numbers, [peer, &[], &[]], answer, &[]);
        }
        answer
    }
}
