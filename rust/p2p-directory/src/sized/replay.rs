//! Makes recorded calls anew, on another session.

use super::pair::{Pair, Sealed};
use crate::record::{Answer, Arguments, Call, MOST_ROOM, ReplayError};
use p2p_directory_sys::sized::{Caller, Library};

/// A session on which the calls of a log are made anew.
///
/// # Examples
///
/// ```
/// assert!(p2p_directory::Replay::new().is_some());
/// ```
pub struct Replay<P: Pair> {
    library: Library<<P as Sealed>::Exports>,
    // How many bytes a call may ask for.
    most: u64,
}

impl<P: Pair> Replay<P> {
    /// A session with no node, or `None` if the allocation fails. It refuses a call that asks for
    /// more than [`MOST_ROOM`] bytes.
    ///
    /// # Examples
    ///
    /// ```
    /// assert!(p2p_directory::Replay::new().is_some());
    /// ```
    pub fn new() -> Option<Replay<P>> {
        Replay::with_room(MOST_ROOM)
    }

    /// A session with no node, or `None` if the allocation fails. It refuses a call that asks for
    /// more than so many bytes, for the buffer that it writes or for a message: a log may ask for
    /// any number.
    ///
    /// # Examples
    ///
    /// ```
    /// assert!(p2p_directory::Replay::with_room(1 << 30).is_some());
    /// ```
    pub fn with_room(most: u64) -> Option<Replay<P>> {
        Some(Replay {
            library: Library::new()?,
            most,
        })
    }

    /// Makes a recorded call, and returns what it answers now, with the bytes that it writes.
    ///
    /// # Errors
    ///
    /// [`ReplayError`] if the arguments aren't those of the call, or it asks for more bytes than are
    /// allowed or there are.
    ///
    /// # Examples
    ///
    /// `p2p-replay` compares each answer with the one of the log:
    ///
    /// ```no_run
    /// use p2p_directory::{Replay, record::Log};
    ///
    /// let log = Log::read(std::fs::read("log")?)?;
    /// let mut replay = Replay::new().ok_or("no memory")?;
    /// for call in log.calls() {
    ///     assert_eq!(replay.make(&call)?, call.answer);
    /// }
    /// # Ok::<(), Box<dyn std::error::Error>>(())
    /// ```
    pub fn make(&mut self, call: &Call<'_>) -> Result<Answer, ReplayError> {
        let mut given = Arguments::of(call, self.most)?;
        let [first, second, third] = &given.bytes;
        let bytes: [&[u8]; 3] = [first, second, third];
        let number = call.number();
        let answer = self
            .library
            .call(number, &given.numbers, bytes, &mut given.out);
        Ok(Answer::of(answer, given.out))
    }
}
