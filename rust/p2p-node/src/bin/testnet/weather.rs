//! What a proxy does to connections.

use crate::loss::Loss;
use crate::scan::HANDSHAKE;
use p2p_directory::Key;
use std::collections::BTreeSet;
use std::time::Duration;

/// How many bytes after the handshake a connection may be cut at: a greeting, a question, a reply
/// and more.
const CUTS: u64 = 400;

/// The state of the whole network.
#[derive(Clone, Debug, Default)]
pub enum Weather {
    /// All connections work.
    #[default]
    Clear,
    /// Nothing passes between these nodes and the others.
    Halves(BTreeSet<Key>),
    /// Connections are refused, slow, half-open, or break in the handshake.
    Rough,
    /// Each connection breaks at a byte after its handshake, one later than the one before.
    Cuts,
    /// Segments are lost on all connections, those that are open included.
    Lossy(Loss),
}

/// A side of a connection, which sends.
#[derive(Clone, Copy, Debug, PartialEq, Eq)]
pub enum Side {
    /// The side that opened it.
    Dialer,
    /// The other one.
    Listener,
}

/// What happens to one connection.
#[derive(Clone, Copy, Debug, PartialEq, Eq)]
pub enum Fault {
    /// Nothing.
    None,
    /// It is closed at once.
    Refused,
    /// Each piece of bytes takes so long.
    Slow(Duration),
    /// After so many bytes of a side nothing of that side arrives, and the connection stays open.
    Held(Side, usize),
    /// After so many bytes of a side the connection ends.
    Cut(Side, usize),
}

/// What happens to the next piece of bytes.
#[derive(Clone, Copy, Debug, PartialEq, Eq)]
pub enum Passage {
    /// So many bytes pass.
    Pass(usize),
    /// So many pass, and the connection ends.
    End(usize),
}

impl Weather {
    /// What happens to the connection of this number.
    pub fn fault(&self, number: u64) -> Fault {
        let side = match number % 2 {
            0 => Side::Dialer,
            _ => Side::Listener,
        };
        match self {
            Weather::Clear | Weather::Halves(_) | Weather::Lossy(_) => Fault::None,
            Weather::Cuts => Fault::Cut(side, HANDSHAKE + (number / 2 % CUTS) as usize),
            Weather::Rough => match number % 5 {
                0 => Fault::Refused,
                1 => Fault::Slow(Duration::from_millis(50 + number % 150)),
                2 => Fault::Held(side, (number % 300) as usize),
                3 => Fault::Cut(side, number as usize % HANDSHAKE),
                _ => Fault::None,
            },
        }
    }

    /// Whether nothing passes between these nodes.
    pub fn parts(&self, one: &Key, other: &Key) -> bool {
        match self {
            Weather::Halves(half) => half.contains(one) != half.contains(other),
            Weather::Clear | Weather::Rough | Weather::Cuts | Weather::Lossy(_) => false,
        }
    }

    /// How segments are lost, if they are.
    pub fn loss(&self) -> Option<Loss> {
        match self {
            Weather::Lossy(loss) => Some(*loss),
            Weather::Clear | Weather::Halves(_) | Weather::Rough | Weather::Cuts => None,
        }
    }
}

impl Fault {
    /// What happens to so many bytes of a side, after so many that came before.
    pub fn passage(self, side: Side, before: usize, count: usize) -> Passage {
        match self {
            Fault::Held(held, after) if held == side => {
                Passage::Pass(after.saturating_sub(before).min(count))
            }
            Fault::Cut(cut, after) if cut == side && before + count > after => {
                Passage::End(after.saturating_sub(before))
            }
            _ => Passage::Pass(count),
        }
    }
}

#[cfg(test)]
mod tests {
    use super::*;

    #[test]
    fn a_cut_lets_no_more_bytes_pass() {
        let cut = Fault::Cut(Side::Dialer, 130);
        assert_eq!(cut.passage(Side::Dialer, 0, 130), Passage::Pass(130));
        assert_eq!(cut.passage(Side::Dialer, 128, 10), Passage::End(2));
        assert_eq!(cut.passage(Side::Dialer, 130, 1), Passage::End(0));
        assert_eq!(cut.passage(Side::Listener, 500, 9), Passage::Pass(9));
        let held = Fault::Held(Side::Listener, 10);
        assert_eq!(held.passage(Side::Listener, 8, 9), Passage::Pass(2));
        assert_eq!(held.passage(Side::Listener, 17, 9), Passage::Pass(0));
    }

    #[test]
    fn cuts_come_at_each_byte_of_both_sides() {
        let cuts: BTreeSet<(bool, usize)> = (0..2 * CUTS)
            .map(|number| match Weather::Cuts.fault(number) {
                Fault::Cut(side, after) => (side == Side::Dialer, after),
                other => panic!("{other:?}"),
            })
            .collect();
        assert_eq!(cuts.len(), 800);
        assert_eq!(cuts.first(), Some(&(false, 128)));
        assert_eq!(cuts.last(), Some(&(true, 527)));
    }
}
