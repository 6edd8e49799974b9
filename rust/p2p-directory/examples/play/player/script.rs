//! Serves lines, and compares the replies with those that are expected.

use super::Player;
use super::fault::Fault;
use p2p_directory::SetupError;
use p2p_directory::sized::Pair;
use std::fmt;
use std::io::{self, BufRead, Read, Write};

// The maximum length of a line, in bytes.
const LONGEST: usize = 1 << 20;

/// What is printed.
#[derive(Clone, Copy, Debug, PartialEq, Eq)]
pub enum Mode {
    /// The replies, and those that are not as expected.
    Replies,
    /// Only those that are not as expected.
    Checks,
}

/// How many lines had a reply, and how many replies are as expected.
#[derive(Clone, Copy, Debug, Default, PartialEq, Eq)]
pub struct Tally {
    /// Replies, including those to lines that could not be parsed.
    pub replies: u64,
    /// Replies that are as expected.
    pub expected: u64,
    /// Replies that are not.
    pub otherwise: u64,
    /// Lines that could not be parsed, unexpectedly.
    pub unreadable: u64,
}

impl Tally {
    /// Whether all replies were as expected, and each line could be parsed.
    pub fn is_good(&self) -> bool {
        self.otherwise == 0 && self.unreadable == 0
    }
}

impl fmt::Display for Tally {
    fn fmt(&self, f: &mut fmt::Formatter<'_>) -> fmt::Result {
        let Tally {
            replies,
            expected,
            otherwise,
            ..
        } = self;
        write!(
            f,
            "{replies} replies, {expected} as expected, {otherwise} otherwise"
        )
    }
}

// The state after the lines so far.
struct Record<'w, W> {
    out: &'w mut W,
    mode: Mode,
    tally: Tally,
    // The reply to the last line that has one.
    last: Option<String>,
    // It is an error that was not expected so far.
    is_open: bool,
}

/// Serves the lines of the input from one node without a name, with default settings, and writes
/// the replies.
///
/// # Errors
///
/// Those of input and output, and `OutOfMemory` if an allocation for the first node fails.
pub fn play<P: Pair>(
    mut input: impl BufRead,
    out: &mut impl Write,
    mode: Mode,
) -> io::Result<Tally> {
    let mut player = Player::<P>::new().map_err(|error| match error {
        SetupError::OutOfMemory => io::ErrorKind::OutOfMemory.into(),
        other => io::Error::other(other),
    })?;
    let mut record = Record {
        out,
        mode,
        tally: Tally::default(),
        last: None,
        is_open: false,
    };
    let mut bytes = Vec::new();
    for number in 1_u64.. {
        bytes.clear();
        let mut line = input.by_ref().take(LONGEST as u64 + 1);
        if line.read_until(b'\n', &mut bytes)? == 0 {
            break;
        }
        if bytes.pop_if(|byte| *byte == b'\n').is_none() && bytes.len() > LONGEST {
            input.skip_until(b'\n')?;
            let expected = format!("line too long, expected at most {LONGEST} bytes");
            record.reply(number, Err(Fault::new(expected)))?;
        } else {
            record.take_line(&mut player, number, &bytes)?;
        }
    }
    record.settle()?;
    Ok(record.tally)
}

impl<W: Write> Record<'_, W> {
    // Serves one line, or compares the last reply with what is expected.
    fn take_line<P: Pair>(
        &mut self,
        player: &mut Player<P>,
        number: u64,
        bytes: &[u8],
    ) -> io::Result<()> {
        let Ok(text) = str::from_utf8(bytes) else {
            let fault = Fault::new("bytes that are no text, expected UTF-8");
            return self.reply(number, Err(fault));
        };
        let text = text.split('#').next().unwrap_or("").trim();
        match text.strip_prefix('=') {
            _ if text.is_empty() => Ok(()),
            Some(expected) => self.compare(number, expected.trim()),
            None => self.reply(number, player.answer(text)),
        }
    }

    // Counts and prints a reply, and keeps it for comparison.
    fn reply(&mut self, number: u64, answer: Result<String, Fault>) -> io::Result<()> {
        self.settle()?;
        self.is_open = answer.is_err();
        let said = match answer {
            Ok(reply) => reply,
            Err(Fault::Memory) => "OutOfMemory".to_owned(),
            Err(Fault::Line(fault)) => format!("error: line {number}: {fault}"),
        };
        if self.mode == Mode::Replies {
            writeln!(self.out, "{said}")?;
        }
        self.tally.replies += 1;
        self.last = Some(said);
        Ok(())
    }

    // Counts the last reply if it is an error that was not expected.
    fn settle(&mut self) -> io::Result<()> {
        if !self.is_open {
            return Ok(());
        }
        self.is_open = false;
        self.tally.unreadable += 1;
        match (&self.last, self.mode) {
            (Some(said), Mode::Checks) => writeln!(self.out, "{said}"),
            _ => Ok(()),
        }
    }

    // Compares the last reply with what is expected of it.
    fn compare(&mut self, number: u64, expected: &str) -> io::Result<()> {
        let said = self.last.as_deref().unwrap_or("nothing");
        if self.last.as_deref() == Some(expected) {
            self.tally.expected += 1;
            self.is_open = false;
            return Ok(());
        }
        self.tally.otherwise += 1;
        writeln!(self.out, "line {number}: expected {expected}, was {said}")
    }
}
