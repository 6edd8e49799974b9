//! Public keys of which any bytes are one.

/// The key of a pair of sizes, of so many bytes, for the module of this name.
macro_rules! plain_key {
    ($module:ident, $size:literal, $exports:path) => {
        /// The length of a [`Key`], in bytes.
        ///
        /// # Examples
        ///
        /// ```
        #[doc = concat!("assert_eq!(p2p_directory::", stringify!($module), "::KEY_SIZE, ", $size, ");")]
        /// ```
        pub const KEY_SIZE: usize = $size;

        /// The public key of a peer. Keys are ordered by their bytes.
        ///
        /// Its text has two hexadecimal digits for each byte. It is written in lower case, and parsed
        /// in either case.
        ///
        /// # Examples
        ///
        /// ```
        #[doc = concat!("use p2p_directory::", stringify!($module), "::{KEY_SIZE, Key};")]
        ///
        /// let low = Key([1; KEY_SIZE]);
        /// let high = Key([2; KEY_SIZE]);
        /// assert!(low < high);
        /// assert!(low.to_string().starts_with("0101"));
        /// assert_eq!(low.to_string().parse(), Ok(low));
        /// ```
        #[derive(Clone, Copy, PartialEq, Eq, PartialOrd, Ord, Hash)]
        pub struct Key(pub [u8; KEY_SIZE]);

        impl Key {
            /// Creates a key from its bytes, or returns `None` if there aren't [`KEY_SIZE`] of them.
            ///
            /// # Examples
            ///
            /// ```
            #[doc = concat!("use p2p_directory::", stringify!($module), "::{KEY_SIZE, Key};")]
            ///
            /// assert_eq!(Key::from_slice(&[3; KEY_SIZE]), Some(Key([3; KEY_SIZE])));
            /// assert_eq!(Key::from_slice(&[3; KEY_SIZE - 1]), None);
            /// ```
            #[must_use]
            #[inline]
            pub fn from_slice(bytes: &[u8]) -> Option<Key> {
                bytes.try_into().ok().map(Key)
            }

            /// The bytes of the key.
            ///
            /// # Examples
            ///
            /// ```
            #[doc = concat!("use p2p_directory::", stringify!($module), "::{KEY_SIZE, Key};")]
            ///
            /// assert_eq!(Key([3; KEY_SIZE]).as_bytes(), &[3; KEY_SIZE]);
            /// ```
            #[must_use]
            #[inline]
            pub const fn as_bytes(&self) -> &[u8; KEY_SIZE] {
                &self.0
            }
        }

        $crate::text::made_of_any_bytes!(Key, KEY_SIZE);
        $crate::text::shown_in_hexadecimal!(Key);
        $crate::keys::bytes!(Key, KEY_SIZE);

        /// The least byte with which a key begins.
        const LEAST_FIRST: u8 = 0;
    };
}

pub(crate) use plain_key;
