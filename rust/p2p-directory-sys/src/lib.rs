//! The calls of a proved peer directory over numbers and bytes, and the library that implements
//! them.
//!
//! A [`Session`] is a node in its own memory. Each of its calls is one call of the library, which
//! is proved in Rattle. Arguments and results are numbers, and slices of bytes in the forms of
//! `docs/C.md` of the repository.
//!
//! A call returns a count, a bool as 0 or 1, a length, or one of the numbers from [`BAD_CALL`]
//! on. With these nothing has changed and nothing was written. The crate `p2p-directory` has the
//! same calls with types.
//!
//! # What is linked
//!
//! The first of these that the environment sets when the crate is built:
//!
//! | Set | Linked |
//! |---|---|
//! | `P2P_SESSION_LIB` to an absolute path | `libp2p_session.a` there |
//! | `P2P_SESSION_PROVE=1`, in a clone with the toolchain | the present sources, proved first in an hour or so |
//! | `P2P_SESSION_PKG_CONFIG=1` | the `p2p_session` of this version that pkg-config finds |
//! | none of them | the archive within this package, for `x86_64-unknown-linux-gnu` or `aarch64-unknown-linux-gnu`; `PROVED` says what was proved |
//!
//! With `DOCS_RS` set nothing is linked, which is enough to build the documentation.
//!
//! # Examples
//!
//! ```
//! use p2p_directory_sys::{MEMORY, NO_NODE, Session};
//!
//! let session = Session::new().ok_or("no memory")?;
//! // No node was made by `init` yet.
//! assert_eq!(session.tracked(), NO_NODE);
//! assert_ne!(session.tracked(), MEMORY);
//! # Ok::<(), &str>(())
//! ```

#![deny(unsafe_code)]

#[cfg(not(target_pointer_width = "64"))]
compile_error!("the library is built for targets whose `usize` has 64 bits");

#[allow(unsafe_code)]
#[rustfmt::skip]
mod exports;
#[allow(unsafe_code)]
mod library;
mod session;

pub use exports::*;

/// A session of any pair of sizes, and what makes its calls. The names at the root of the crate, and
/// those of the modules of other pairs, are aliases of these.
pub mod sized {
    pub use crate::library::{Library, Pair};
    pub use crate::session::{Caller, Session};
}

/// The SHA-256 of the archive that is linked. It is all zeros if none is.
pub const ARCHIVE: [u8; 32] = match option_env!("P2P_SESSION_ARCHIVE") {
    Some(digits) => read_hash(digits.as_bytes()),
    None => [0; 32],
};

// The bytes of the hexadecimal digits that the build script writes.
const fn read_hash(digits: &[u8]) -> [u8; 32] {
    assert!(digits.len() == 64, "the build script writes a hash");
    let mut hash = [0; 32];
    let mut place = 0;
    while place < 64 {
        let digit = match digits[place] {
            digit @ b'0'..=b'9' => digit - b'0',
            digit @ b'a'..=b'f' => digit - b'a' + 10,
            _ => panic!("the build script writes a hash"),
        };
        hash[place / 2] = 16 * hash[place / 2] + digit;
        place += 1;
    }
    hash
}
