//! The types of keys and signatures, one for each pair of sizes.

mod first;
mod plain;
mod signature;

pub(crate) use first::first_key;
pub(crate) use plain::plain_key;
pub(crate) use signature::signature;

/// What code for any pair of sizes knows of a key or a signature.
macro_rules! bytes {
    ($type:ident, $size:ident) => {
        impl $crate::sized::Bytes for $type {
            #[inline]
            fn of_bytes(bytes: &[u8]) -> Option<$type> {
                $type::from_slice(bytes)
            }
        }

        impl $crate::sized::Private for $type {
            #[inline]
            fn of_library(bytes: &[u8]) -> $type {
                $type(bytes.try_into().expect("as many bytes as it has"))
            }

            fn filled(fill: impl FnOnce(&mut [u8])) -> $type {
                let mut bytes = [0; $size];
                fill(&mut bytes);
                $type(bytes)
            }
        }
    };
}

/// A pair of sizes, with the names of the crate for it: `$name` is its name, and `$module` where its
/// names stand. The module has its key, its signature and their sizes, and `$exports` what the library
/// has for them.
macro_rules! pair {
    ($module:ident, $name:ident, $exports:ident) => {
        /// The sizes of the keys and signatures of this module, for the types of
        /// [`sized`](crate::sized).
        ///
        /// # Examples
        ///
        /// ```
        /// use p2p_directory::sized::Pair;
        ///
        #[doc = concat!("assert_eq!(p2p_directory::", stringify!($module), "::", stringify!($name), "::KEY_SIZE, p2p_directory::", stringify!($module), "::KEY_SIZE);")]
        /// ```
        #[derive(Clone, Copy, PartialEq, Eq, PartialOrd, Ord, Hash, Debug)]
        pub struct $name;

        impl $crate::sized::Pair for $name {
            type Key = Key;
            type Signature = Signature;
            const KEY_SIZE: usize = KEY_SIZE;
            const SIGNATURE_SIZE: usize = SIGNATURE_SIZE;
        }

        impl $crate::sized::Sealed for $name {
            type Exports = $exports::$name;
            const LEAST_FIRST: u8 = LEAST_FIRST;

            fn spare() -> &'static std::sync::Mutex<$crate::sized::Spare<$name>> {
                static SPARE: std::sync::Mutex<$crate::sized::Spare<$name>> =
                    std::sync::Mutex::new($crate::sized::Spare::none());
                &SPARE
            }
        }

        $crate::keys::names!($name);
    };
}

/// The names of the crate for a pair of sizes, each an alias of the generic one.
macro_rules! names {
    ($pair:ident) => {
        $crate::keys::names! { $pair:
            Directory, Dialable, PeerSetUpdate, Metadata, Reservation, ReleaseError, Info,
            InfoVerifier, Node, Setup, Received, OrderedSet, Tracked, TrackedPeers, Payload,
        }

        /// [`sized::Judged`](crate::sized::Judged) with these sizes.
        pub type Judged<'f> = $crate::sized::Judged<'f, $pair>;

        /// [`sized::Question`](crate::sized::Question) with these sizes.
        pub type Question<'q> = $crate::sized::Question<'q, $pair>;

        /// [`sized::Questions`](crate::sized::Questions) with these sizes.
        pub type Questions<'f> = $crate::sized::Questions<'f, $pair>;

        /// [`sized::QuestionsIter`](crate::sized::QuestionsIter) with these sizes.
        pub type QuestionsIter<'q> = $crate::sized::QuestionsIter<'q, $pair>;

        /// [`sized::ReceiveError`](crate::sized::ReceiveError) with these sizes.
        pub type ReceiveError<'f> = $crate::sized::ReceiveError<'f, $pair>;

        /// [`sized::Replay`](crate::sized::Replay) with these sizes.
        #[cfg(feature = "record")]
        pub type Replay = $crate::sized::Replay<$pair>;

        /// Keys, infos and a signature scheme without any security, for tests and examples, with the
        /// feature `testing`: [`sized::testing`](crate::sized::testing) with these sizes.
        #[cfg(any(test, feature = "testing"))]
        pub mod testing {
            use super::{Directory, Info, Key, Question, Setup, Signature};
            #[doc(inline)]
            pub use $crate::sized::testing::{NAMESPACE, config};
            use $crate::sized::testing;

            /// [`sized::testing::key`](crate::sized::testing::key()) with these sizes.
            #[must_use]
            pub fn key(number: u16) -> Key {
                testing::key::<super::$pair>(number)
            }

            /// [`sized::testing::sign`](crate::sized::testing::sign) with these sizes.
            #[must_use]
            pub fn sign(key: &Key, namespace: &[u8], message: &[u8]) -> Signature {
                testing::sign::<super::$pair>(key, namespace, message)
            }

            /// [`sized::testing::verify`](crate::sized::testing::verify) with these sizes.
            #[must_use]
            pub fn verify(question: Question<'_>) -> bool {
                testing::verify(question)
            }

            /// [`sized::testing::info`](crate::sized::testing::info()) with these sizes.
            #[must_use]
            pub fn info(number: u16, timestamp: u64) -> Info {
                testing::info(number, timestamp)
            }

            /// [`sized::testing::info_at`](crate::sized::testing::info_at) with these sizes.
            #[must_use]
            pub fn info_at(number: u16, timestamp: u64, port: u16) -> Info {
                testing::info_at(number, timestamp, port)
            }

            /// [`sized::testing::directory`](crate::sized::testing::directory()) with these sizes.
            ///
            /// # Panics
            ///
            /// Panics if an allocation fails.
            #[must_use]
            pub fn directory() -> Directory {
                testing::directory()
            }

            /// [`sized::testing::setup`](crate::sized::testing::setup) with these sizes.
            #[must_use]
            pub fn setup(number: u16) -> Setup {
                testing::setup(number)
            }
        }

        /// [`sized::max_gossip_size`](crate::sized::max_gossip_size) with these sizes.
        #[must_use]
        pub const fn max_gossip_size(max_bit_vec: u64, max_peers: usize) -> Option<usize> {
            $crate::sized::max_gossip_size::<$pair>(max_bit_vec, max_peers)
        }
    };
    ($pair:ident: $($type:ident),* $(,)?) => {
        $(
            #[doc = concat!("[`sized::", stringify!($type), "`](crate::sized::", stringify!($type), ") with these sizes.")]
            pub type $type = $crate::sized::$type<$pair>;
        )*
    };
}

pub(crate) use {bytes, names, pair};
