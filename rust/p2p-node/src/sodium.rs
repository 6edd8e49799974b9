//! Signatures and random numbers of libsodium, and the signals that end the process: the one file
//! with `unsafe`.

#![allow(unsafe_code)]

use std::error;
use std::ffi::{c_int, c_uchar, c_ulonglong, c_void};
use std::fmt;
use std::io;
use std::ptr;
use std::sync::atomic::{AtomicBool, Ordering};

/// The length of a seed, from which a pair of keys is computed, in bytes.
pub const SEED_SIZE: usize = 32;

/// The length of a public key, in bytes.
pub const PUBLIC_KEY_SIZE: usize = 32;

/// The length of a signature, in bytes.
pub const SIGNATURE_SIZE: usize = 64;

const SECRET_KEY_SIZE: usize = 64;

const SIGINT: c_int = 2;
const SIGTERM: c_int = 15;
const SIG_ERR: usize = usize::MAX;

unsafe extern "C" {
    fn sodium_init() -> c_int;
    fn sodium_memzero(bytes: *mut c_void, length: usize);
    fn randombytes_buf(bytes: *mut c_void, length: usize);
    fn crypto_sign_seed_keypair(
        public: *mut c_uchar,
        secret: *mut c_uchar,
        seed: *const c_uchar,
    ) -> c_int;
    fn crypto_sign_detached(
        signature: *mut c_uchar,
        signature_length: *mut c_ulonglong,
        message: *const c_uchar,
        message_length: c_ulonglong,
        secret: *const c_uchar,
    ) -> c_int;
    fn crypto_sign_verify_detached(
        signature: *const c_uchar,
        message: *const c_uchar,
        message_length: c_ulonglong,
        public: *const c_uchar,
    ) -> c_int;
    fn signal(number: c_int, handler: usize) -> usize;
}

/// libsodium could not be initialized.
#[derive(Clone, Copy, Debug, PartialEq, Eq)]
pub struct SodiumError;

impl fmt::Display for SodiumError {
    fn fmt(&self, f: &mut fmt::Formatter<'_>) -> fmt::Result {
        f.write_str("libsodium could not be initialized")
    }
}

impl error::Error for SodiumError {}

/// Shows that libsodium is initialized. The functions that need it take this value.
#[derive(Clone, Copy, Debug)]
pub struct Sodium(());

impl Sodium {
    /// Initializes libsodium. It may be called again, and from any thread.
    ///
    /// # Errors
    ///
    /// [`SodiumError`] if libsodium refuses, for example because there is no source of random
    /// numbers.
    pub fn new() -> Result<Sodium, SodiumError> {
        // SAFETY: it has no arguments, and may be called at any time.
        match unsafe { sodium_init() } {
            0 | 1 => Ok(Sodium(())),
            _ => Err(SodiumError),
        }
    }

    /// Fills the bytes with random ones that nobody can predict.
    pub fn fill(self, bytes: &mut [u8]) {
        // SAFETY: so many bytes may be written there.
        unsafe { randombytes_buf(bytes.as_mut_ptr().cast(), bytes.len()) }
    }

    /// Random bytes that nobody can predict.
    #[must_use]
    pub fn bytes<const N: usize>(self) -> [u8; N] {
        let mut bytes = [0; N];
        self.fill(&mut bytes);
        bytes
    }

    /// A random number, uniform from all numbers of 64 bits.
    #[must_use]
    pub fn number(self) -> u64 {
        u64::from_ne_bytes(self.bytes())
    }
}

/// A secret key of ed25519. Its bytes are erased when it is dropped.
pub struct SecretKey([u8; SECRET_KEY_SIZE]);

impl SecretKey {
    /// The pair of keys that this seed determines: the secret one, and the bytes of the public one.
    #[must_use]
    pub fn from_seed(_: Sodium, seed: &[u8; SEED_SIZE]) -> (SecretKey, [u8; PUBLIC_KEY_SIZE]) {
        let mut secret = SecretKey([0; SECRET_KEY_SIZE]);
        let mut public = [0; PUBLIC_KEY_SIZE];
        // SAFETY: the arrays have the lengths that libsodium documents. It always returns 0.
        unsafe {
            crypto_sign_seed_keypair(public.as_mut_ptr(), secret.0.as_mut_ptr(), seed.as_ptr());
        }
        (secret, public)
    }

    /// The detached signature of a message.
    #[must_use]
    pub fn sign(&self, message: &[u8]) -> [u8; SIGNATURE_SIZE] {
        let mut signature = [0; SIGNATURE_SIZE];
        // SAFETY: the arrays have the lengths that libsodium documents, and the length may be null.
        // It always returns 0.
        unsafe {
            crypto_sign_detached(
                signature.as_mut_ptr(),
                ptr::null_mut(),
                message.as_ptr(),
                message.len() as c_ulonglong,
                self.0.as_ptr(),
            );
        }
        signature
    }
}

impl Drop for SecretKey {
    fn drop(&mut self) {
        erase(&mut self.0);
    }
}

impl fmt::Debug for SecretKey {
    fn fmt(&self, f: &mut fmt::Formatter<'_>) -> fmt::Result {
        f.write_str("SecretKey(..)")
    }
}

/// Overwrites secret bytes with zeros, also if they are not used any more.
pub fn erase(bytes: &mut [u8]) {
    // SAFETY: so many bytes may be written there.
    unsafe { sodium_memzero(bytes.as_mut_ptr().cast(), bytes.len()) }
}

/// Whether this is a signature of the public key over the message. Signatures that are not
/// canonical and keys of small order are refused.
#[must_use]
pub fn verify(
    public: &[u8; PUBLIC_KEY_SIZE],
    message: &[u8],
    signature: &[u8; SIGNATURE_SIZE],
) -> bool {
    // SAFETY: the arrays have the lengths that libsodium documents.
    let result = unsafe {
        crypto_sign_verify_detached(
            signature.as_ptr(),
            message.as_ptr(),
            message.len() as c_ulonglong,
            public.as_ptr(),
        )
    };
    result == 0
}

static STOP: AtomicBool = AtomicBool::new(false);

extern "C" fn stop(_signal: c_int) {
    STOP.store(true, Ordering::Relaxed);
}

/// Lets SIGTERM and SIGINT set a flag in place of ending the process, and returns the flag.
///
/// # Errors
///
/// That of the system if it refuses the handler.
pub fn stop_on_signals() -> io::Result<&'static AtomicBool> {
    for number in [SIGTERM, SIGINT] {
        let handler: extern "C" fn(c_int) = stop;
        // SAFETY: the handler stores one atomic value, which is allowed in a signal handler.
        if unsafe { signal(number, handler as usize) } == SIG_ERR {
            return Err(io::Error::last_os_error());
        }
    }
    Ok(&STOP)
}

#[cfg(test)]
mod tests {
    use super::*;

    fn bytes<const N: usize>(text: &str) -> [u8; N] {
        let digits = |place: usize| u8::from_str_radix(&text[2 * place..2 * place + 2], 16);
        std::array::from_fn(|place| digits(place).unwrap())
    }

    /// The first two examples of RFC 8032, section 7.1: seed, public key, message, signature.
    const EXAMPLES: [(&str, &str, &[u8], &str); 2] = [
        (
            "9d61b19deffd5a60ba844af492ec2cc44449c5697b326919703bac031cae7f60",
            "d75a980182b10ab7d54bfed3c964073a0ee172f3daa62325af021a68f707511a",
            b"",
            "e5564300c360ac729086e2cc806e828a84877f1eb8e5d974d873e065224901555fb8821590a33bacc61e\
             39701cf9b46bd25bf5f0595bbe24655141438e7a100b",
        ),
        (
            "4ccd089b28ff96da9db6c346ec114e0f5b8a319f35aba624da8cf6ed4fb8a6fb",
            "3d4017c3e843895a92b70aa74d1b7ebc9c982ccf2ec4968cc0cd55f12af4660c",
            &[0x72],
            "92a009a9f0d4cab8720e820b5f642540a2b27b5416503f8fb3762223ebdb69da085ac1e43e15996e458f\
             3613d0f11d8c387b2eaeb4302aeeb00d291612bb0c00",
        ),
    ];

    #[test]
    fn signs_as_rfc_8032_says() {
        let sodium = Sodium::new().unwrap();
        for (seed, public, message, signature) in EXAMPLES {
            let (secret, own) = SecretKey::from_seed(sodium, &bytes(seed));
            assert_eq!(own, bytes(public));
            assert_eq!(secret.sign(message), bytes(signature));
            assert!(verify(&own, message, &bytes(signature)));
        }
    }

    #[test]
    fn refuses_another_message_key_or_signature() {
        let [(_, first, message, signature), (_, second, ..)] = EXAMPLES;
        let (public, signature) = (bytes(first), bytes(signature));
        assert!(!verify(&public, b"x", &signature));
        assert!(!verify(&bytes(second), message, &signature));
        for place in [0, 31, 32, 63] {
            let mut other = signature;
            other[place] ^= 1;
            assert!(!verify(&public, message, &other), "byte {place}");
        }
    }

    #[test]
    fn random_bytes_differ() {
        let sodium = Sodium::new().unwrap();
        assert_ne!(sodium.bytes::<32>(), sodium.bytes::<32>());
        assert_ne!(sodium.number(), sodium.number());
    }

    #[test]
    fn secrets_are_erased_and_not_shown() {
        let mut secret = [7; 32];
        erase(&mut secret);
        assert_eq!(secret, [0; 32]);
        let (secret, _) = SecretKey::from_seed(Sodium::new().unwrap(), &[7; 32]);
        assert_eq!(format!("{secret:?}"), "SecretKey(..)");
    }
}
