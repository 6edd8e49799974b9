//! The keys of a node, the file that keeps them, and signatures that bind a namespace.

use crate::sodium::{self, SEED_SIZE, SecretKey, Sodium};
use p2p_directory::{Key, Question, Signature};
use std::fs::{File, OpenOptions};
use std::io::{ErrorKind, Read, Write};
use std::os::unix::fs::{MetadataExt, OpenOptionsExt};
use std::path::Path;

/// The bits of a file's mode that let its group or others do anything with it.
const OTHERS: u32 = 0o077;

/// The maximum length of a key file, in bytes.
const LONGEST_FILE: u64 = 1024;

/// The keys of a node.
#[derive(Debug)]
pub struct Identity {
    public_key: Key,
    secret_key: SecretKey,
}

impl Identity {
    /// The keys that a seed determines.
    #[must_use]
    pub fn from_seed(sodium: Sodium, seed: &[u8; SEED_SIZE]) -> Identity {
        let (secret_key, public_key) = SecretKey::from_seed(sodium, seed);
        Identity {
            public_key: Key(public_key),
            secret_key,
        }
    }

    /// The public key.
    #[must_use]
    pub fn public_key(&self) -> Key {
        self.public_key
    }

    /// The signature over a message in a namespace.
    #[must_use]
    pub fn sign(&self, namespace: &[u8], message: &[u8]) -> Signature {
        Signature(self.secret_key.sign(&bound(namespace, message)))
    }

    /// Creates a key file with a random seed, which its owner alone may read, and returns the keys.
    ///
    /// # Errors
    ///
    /// Says why no file was created, for example because there is one already.
    pub fn create(sodium: Sodium, path: &Path) -> Result<Identity, String> {
        let said = |what: &dyn std::fmt::Display| format!("key file {}: {what}", path.display());
        let mut file = OpenOptions::new()
            .write(true)
            .create_new(true)
            .mode(0o600)
            .open(path)
            .map_err(|error| match error.kind() {
                ErrorKind::AlreadyExists => said(&"there is a file already; it is left as it is"),
                _ => said(&error),
            })?;
        let mut seed: [u8; SEED_SIZE] = sodium.bytes();
        let mut text = format!("{}\n", Key(seed)).into_bytes();
        let written = file.write_all(&text).and_then(|()| file.sync_all());
        sodium::erase(&mut text);
        let identity = Identity::from_seed(sodium, &seed);
        sodium::erase(&mut seed);
        written.map_err(|error| said(&error))?;
        Ok(identity)
    }

    /// Reads a key file: the 64 hexadecimal digits of a seed.
    ///
    /// # Errors
    ///
    /// Says why the file is refused: it can't be read, its group or others may use it, or it has no
    /// seed.
    pub fn read(sodium: Sodium, path: &Path) -> Result<Identity, String> {
        let said = |what: &dyn std::fmt::Display| format!("key file {}: {what}", path.display());
        let file = File::open(path).map_err(|error| said(&error))?;
        let mode = file.metadata().map_err(|error| said(&error))?.mode();
        if mode & OTHERS != 0 {
            let mode = mode & 0o777;
            return Err(said(&format_args!(
                "its mode is {mode:03o}, so others than its owner may use it: set it to 600"
            )));
        }
        let mut text = String::new();
        let read = file.take(LONGEST_FILE).read_to_string(&mut text);
        read.map_err(|error| said(&error))?;
        let seed: Result<Key, _> = text.trim_end().parse();
        let mut text = text.into_bytes();
        sodium::erase(&mut text);
        let Key(mut seed) =
            seed.map_err(|error| said(&format_args!("not 64 hexadecimal digits: {error}")))?;
        let identity = Identity::from_seed(sodium, &seed);
        sodium::erase(&mut seed);
        Ok(identity)
    }
}

/// Whether the signature of a question is the key's over the message in the namespace.
#[must_use]
pub fn verify(question: Question<'_>) -> bool {
    let Question {
        public_key,
        namespace,
        message,
        signature,
    } = question;
    let signed = bound(namespace, message);
    sodium::verify(public_key.as_bytes(), &signed, &signature.0)
}

/// The bytes that are signed: the length of the namespace in eight bytes, the namespace, and the
/// message. So no two pairs of a namespace and a message have the same bytes.
fn bound(namespace: &[u8], message: &[u8]) -> Vec<u8> {
    let length = namespace.len() as u64;
    [&length.to_be_bytes(), namespace, message].concat()
}

#[cfg(test)]
mod tests {
    use super::*;

    fn identity(number: u8) -> Identity {
        Identity::from_seed(Sodium::new().unwrap(), &[number; SEED_SIZE])
    }

    #[test]
    fn a_signature_is_of_one_key_namespace_and_message() {
        let (one, two) = (identity(1), identity(2));
        let signature = one.sign(b"net", b"hello");
        let is_of = |identity: &Identity, namespace: &[u8], message: &[u8]| {
            verify(Question {
                public_key: identity.public_key(),
                namespace,
                message,
                signature,
            })
        };
        assert!(is_of(&one, b"net", b"hello"));
        assert!(!is_of(&two, b"net", b"hello"));
        assert!(!is_of(&one, b"met", b"hello"));
        assert!(!is_of(&one, b"net", b"hullo"));
        // The same bytes, cut at another place.
        assert!(!is_of(&one, b"neth", b"ello"));
    }

    #[test]
    fn the_signed_bytes_are_those_that_the_documentation_says() {
        assert_eq!(bound(b"net", b"hi"), *b"\0\0\0\0\0\0\0\x03nethi");
        let signature = Signature(identity(1).secret_key.sign(b"\0\0\0\0\0\0\0\x03nethi"));
        assert!(verify(Question {
            public_key: identity(1).public_key(),
            namespace: b"net",
            message: b"hi",
            signature,
        }));
    }
}
