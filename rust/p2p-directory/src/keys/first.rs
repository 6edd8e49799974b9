//! Public keys that begin with one of certain bytes.

/// The key of a pair of sizes, of so many bytes, for the module of this name. `$exports` has the
/// bytes with which it may begin.
macro_rules! first_key {
    ($module:ident, $size:literal, $exports:ident) => {
        /// The length of a [`Key`], in bytes.
        ///
        /// # Examples
        ///
        /// ```
        #[doc = concat!("assert_eq!(p2p_directory::", stringify!($module), "::KEY_SIZE, ", $size, ");")]
        /// ```
        pub const KEY_SIZE: usize = $size;

        /// The public key of a peer, which begins with one of certain bytes. Keys are ordered by their
        /// bytes.
        ///
        /// Whether the bytes are a key of the signature scheme in other respects, as a point of its curve,
        /// is for the function that verifies signatures.
        ///
        /// Its text has two hexadecimal digits for each byte. It is written in lower case, and parsed in
        /// either case.
        ///
        /// # Examples
        ///
        /// ```
        /// use p2p_directory::KeyError;
        /// use p2p_directory::keys33_64::{KEY_SIZE, Key};
        ///
        /// let low = Key::new([2; KEY_SIZE])?;
        /// let high = Key::new([3; KEY_SIZE])?;
        /// assert!(low < high);
        /// assert!(low.to_string().starts_with("0202"));
        /// assert_eq!(low.to_string().parse(), Ok(low));
        /// # Ok::<(), KeyError>(())
        /// ```
        ///
        /// It isn't made from bytes without a check:
        ///
        /// ```compile_fail,E0277
        /// let key = p2p_directory::keys33_64::Key::from([2; 33]);
        /// ```
        ///
        /// ```compile_fail,E0423
        /// let key = p2p_directory::keys33_64::Key([2; 33]);
        /// ```
        #[derive(Clone, Copy, PartialEq, Eq, PartialOrd, Ord, Hash)]
        pub struct Key([u8; KEY_SIZE]);

        impl Key {
            /// Creates a key from its bytes.
            ///
            /// # Errors
            ///
            /// [`KeyError::First`](crate::KeyError::First) if no key begins with the first byte.
            ///
            /// # Examples
            ///
            /// ```
            /// use p2p_directory::{KeyError, keys33_64::Key};
            ///
            /// assert!(Key::new([3; 33]).is_ok());
            /// assert_eq!(Key::new([4; 33]), Err(KeyError::First(4)));
            /// ```
            #[inline]
            pub fn new(bytes: [u8; KEY_SIZE]) -> Result<Key, $crate::error::KeyError> {
                if $exports::FIRST_BYTES.contains(&bytes[0]) {
                    Ok(Key(bytes))
                } else {
                    Err($crate::error::KeyError::First(bytes[0]))
                }
            }

            /// Creates a key from its bytes, or returns `None` if there aren't [`KEY_SIZE`] of them or no
            /// key begins with the first.
            ///
            /// # Examples
            ///
            /// ```
            /// use p2p_directory::keys33_64::Key;
            ///
            /// assert_eq!(Key::from_slice(&[3; 33]), Key::new([3; 33]).ok());
            /// assert_eq!(Key::from_slice(&[3; 32]), None);
            /// assert_eq!(Key::from_slice(&[4; 33]), None);
            /// ```
            #[must_use]
            pub fn from_slice(bytes: &[u8]) -> Option<Key> {
                bytes.try_into().ok()
            }

            /// The bytes of the key.
            ///
            /// # Examples
            ///
            /// ```
            /// use p2p_directory::keys33_64::Key;
            ///
            /// assert_eq!(Key::new([3; 33]).unwrap().as_bytes(), &[3; 33]);
            /// ```
            #[must_use]
            #[inline]
            pub const fn as_bytes(&self) -> &[u8; KEY_SIZE] {
                &self.0
            }
        }

        impl TryFrom<[u8; KEY_SIZE]> for Key {
            type Error = $crate::error::KeyError;

            /// Creates a key as [`Key::new`] does.
            fn try_from(bytes: [u8; KEY_SIZE]) -> Result<Key, $crate::error::KeyError> {
                Key::new(bytes)
            }
        }

        impl TryFrom<&[u8]> for Key {
            type Error = $crate::error::KeyError;

            /// Converts a slice of exactly that length, and fails for another length or another first byte.
            fn try_from(bytes: &[u8]) -> Result<Key, $crate::error::KeyError> {
                let array = bytes.try_into();
                Key::new(array.map_err(|_length| $crate::error::KeyError::Length(bytes.len()))?)
            }
        }

        impl std::str::FromStr for Key {
            type Err = $crate::error::ParseError;

            /// Parses two hexadecimal digits for each byte, in either case. Fails with
            /// [`Length`](crate::ParseError::Length) for another number of digits, with [`Digit`](crate::ParseError::Digit) for another
            /// character, and otherwise with [`Key`](crate::ParseError::Key).
            fn from_str(text: &str) -> Result<Key, $crate::error::ParseError> {
                let bytes: [u8; KEY_SIZE] = $crate::text::read_hexadecimal(text)?;
                Key::new(bytes).map_err(|_first| $crate::error::ParseError::Key(bytes[0]))
            }
        }

        $crate::text::shown_in_hexadecimal!(Key);
        $crate::keys::bytes!(Key, KEY_SIZE);

        /// The least byte with which a key begins.
        const LEAST_FIRST: u8 = $exports::FIRST_BYTES[0];
    };
}

pub(crate) use first_key;
