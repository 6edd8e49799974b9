//! Signatures, of which any bytes are one.

/// The signature of a pair of sizes, of so many bytes, for the module of this name.
macro_rules! signature {
    ($module:ident, $size:literal) => {
        /// The length of a [`Signature`], in bytes.
        ///
        /// # Examples
        ///
        /// ```
        #[doc = concat!("assert_eq!(p2p_directory::", stringify!($module), "::SIGNATURE_SIZE, ", $size, ");")]
        /// ```
        pub const SIGNATURE_SIZE: usize = $size;

        /// A signature of a key over a namespace and a message. The function that the caller passes to
        /// [`Node::receive`](crate::sized::Node::receive) verifies it. Its text is that of a [`Key`].
        ///
        /// # Examples
        ///
        /// ```
        #[doc = concat!("use p2p_directory::", stringify!($module), "::{SIGNATURE_SIZE, Signature};")]
        ///
        /// assert_eq!(Signature([7; SIGNATURE_SIZE]).as_ref().len(), SIGNATURE_SIZE);
        /// ```
        #[derive(Clone, Copy, PartialEq, Eq, PartialOrd, Ord, Hash)]
        pub struct Signature(pub [u8; SIGNATURE_SIZE]);

        impl Signature {
            /// Creates a signature from its bytes, or returns `None` if there aren't
            /// [`SIGNATURE_SIZE`] of them.
            ///
            /// # Examples
            ///
            /// ```
            #[doc = concat!("use p2p_directory::", stringify!($module), "::{SIGNATURE_SIZE, Signature};")]
            ///
            /// assert!(Signature::from_slice(&[3; SIGNATURE_SIZE]).is_some());
            /// assert!(Signature::from_slice(&[3; SIGNATURE_SIZE - 1]).is_none());
            /// ```
            #[must_use]
            pub fn from_slice(bytes: &[u8]) -> Option<Signature> {
                bytes.try_into().ok().map(Signature)
            }
        }

        $crate::text::made_of_any_bytes!(Signature, SIGNATURE_SIZE);
        $crate::text::shown_in_hexadecimal!(Signature);
        $crate::keys::bytes!(Signature, SIGNATURE_SIZE);
    };
}

pub(crate) use signature;
