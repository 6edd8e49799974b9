//! What a directory tells of a peer.

use std::fmt;

/// Whether a peer is reserved or connected.
///
/// # Examples
///
/// ```
/// # use p2p_directory::Status;
/// assert_eq!(Status::Inert.to_string(), "inert");
/// ```
#[derive(Clone, Copy, Debug, PartialEq, Eq, Hash)]
#[non_exhaustive]
pub enum Status {
    /// There is neither a reservation nor a connection.
    Inert,
    /// The peer is reserved, and not connected.
    Reserved,
    /// The peer is connected.
    Active,
}

impl fmt::Display for Status {
    fn fmt(&self, f: &mut fmt::Formatter<'_>) -> fmt::Result {
        f.write_str(match self {
            Status::Inert => "inert",
            Status::Reserved => "reserved",
            Status::Active => "active",
        })
    }
}
