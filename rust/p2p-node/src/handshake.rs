//! The handshake, in which both sides prove that they have their keys.
//!
//! | From | Bytes |
//! |---|---|
//! | dialer | its nonce, its key |
//! | listener | its nonce, its key, its signature |
//! | dialer | its signature |
//!
//! A nonce and a key have 32 bytes, a signature 64. A signature is over [`signed_bytes`] in the
//! namespace of the network with a suffix. The listener sends nothing to a dialer whose key isn't
//! accepted: it is of no set, is blocked, is connected, or its cooldown isn't over. Nothing is
//! encrypted, and what follows the handshake isn't authenticated.

use crate::identity::{Identity, verify};
use crate::sodium::Sodium;
use p2p_directory::{KEY_SIZE, Key, Question, SIGNATURE_SIZE, Signature};
use std::error;
use std::fmt;
use std::io::{self, Read, Write};

/// The length of a nonce, in bytes.
pub const NONCE_SIZE: usize = 32;

/// What the signed bytes begin with.
const LABEL: &[u8] = b"p2p-node handshake 1";

/// What follows the namespace of the network in that of the handshake.
const SUFFIX: &[u8] = b" handshake";

/// A random number that is used once.
pub type Nonce = [u8; NONCE_SIZE];

/// The side of a connection.
#[derive(Clone, Copy, Debug, PartialEq, Eq)]
pub enum Role {
    /// The side that opened the connection.
    Dialer,
    /// The side that accepted it.
    Listener,
}

/// The nonces and keys of a handshake.
#[derive(Clone, Copy, Debug, PartialEq, Eq)]
pub struct Parties {
    /// The nonce of the dialer.
    pub dialer_nonce: Nonce,
    /// The key of the dialer.
    pub dialer_key: Key,
    /// The nonce of the listener.
    pub listener_nonce: Nonce,
    /// The key of the listener.
    pub listener_key: Key,
}

/// Why a handshake failed.
#[derive(Debug)]
pub enum HandshakeError {
    /// The stream failed, ended, or took too long.
    Stream(io::Error),
    /// The listener doesn't accept the key of the dialer.
    NotAcceptable(Key),
    /// The listener has another key than the one that was dialled.
    WrongKey(Key),
    /// The other side sent the nonce of this one, or its key.
    Reflected,
    /// The signature of the other side is wrong.
    Signature(Key),
}

impl fmt::Display for HandshakeError {
    fn fmt(&self, f: &mut fmt::Formatter<'_>) -> fmt::Result {
        match self {
            HandshakeError::Stream(error) => write!(f, "handshake: {error}"),
            HandshakeError::NotAcceptable(key) => write!(f, "handshake: {key} isn't accepted now"),
            HandshakeError::WrongKey(key) => write!(f, "handshake: {key} is another peer"),
            HandshakeError::Reflected => f.write_str("handshake: the own nonce or key came back"),
            HandshakeError::Signature(key) => write!(f, "handshake: wrong signature of {key}"),
        }
    }
}

impl error::Error for HandshakeError {}

impl From<io::Error> for HandshakeError {
    fn from(error: io::Error) -> HandshakeError {
        HandshakeError::Stream(error)
    }
}

/// The bytes that the side of this role signs: a label, the role, both nonces and both keys, those
/// of the dialer first.
#[must_use]
pub fn signed_bytes(role: Role, parties: &Parties) -> Vec<u8> {
    let role: &[u8] = match role {
        Role::Dialer => b" dialer  ",
        Role::Listener => b" listener",
    };
    let Parties {
        dialer_nonce,
        dialer_key,
        listener_nonce,
        listener_key,
    } = parties;
    let (dialer_key, listener_key) = (dialer_key.as_ref(), listener_key.as_ref());
    [
        LABEL,
        role,
        dialer_nonce,
        listener_nonce,
        dialer_key,
        listener_key,
    ]
    .concat()
}

/// The namespace in which the signatures of handshakes are made.
#[must_use]
pub fn handshake_namespace(namespace: &[u8]) -> Vec<u8> {
    [namespace, SUFFIX].concat()
}

/// Who a node is in a handshake.
#[derive(Clone, Copy, Debug)]
pub struct Own<'i> {
    /// Its keys.
    pub identity: &'i Identity,
    /// The namespace of its network.
    pub namespace: &'i [u8],
    /// The source of its nonce.
    pub sodium: Sodium,
}

impl Own<'_> {
    fn sign(&self, role: Role, parties: &Parties) -> Signature {
        let message = signed_bytes(role, parties);
        let namespace = handshake_namespace(self.namespace);
        self.identity.sign(&namespace, &message)
    }

    fn judge(&self, role: Role, parties: &Parties, signature: &Signature) -> bool {
        verify(Question {
            public_key: match role {
                Role::Dialer => parties.dialer_key,
                Role::Listener => parties.listener_key,
            },
            namespace: &handshake_namespace(self.namespace),
            message: &signed_bytes(role, parties),
            signature: *signature,
        })
    }

    /// Proves the own key to a listener, which has to have the key of the peer.
    ///
    /// # Errors
    ///
    /// Says why the listener isn't that peer, or how the stream failed. The own signature is sent
    /// to that peer alone.
    pub fn dial(&self, stream: &mut (impl Read + Write), peer: &Key) -> Result<(), HandshakeError> {
        let dialer_key = self.identity.public_key();
        let dialer_nonce: Nonce = self.sodium.bytes();
        stream.write_all(&[&dialer_nonce, dialer_key.as_ref()].concat())?;
        let listener_nonce: Nonce = array(stream)?;
        let listener_key = Key(array::<KEY_SIZE>(stream)?);
        let signature = Signature(array::<SIGNATURE_SIZE>(stream)?);
        let parties = Parties {
            dialer_nonce,
            dialer_key,
            listener_nonce,
            listener_key,
        };
        if listener_nonce == dialer_nonce || listener_key == dialer_key {
            return Err(HandshakeError::Reflected);
        }
        if listener_key != *peer {
            return Err(HandshakeError::WrongKey(listener_key));
        }
        if !self.judge(Role::Listener, &parties, &signature) {
            return Err(HandshakeError::Signature(listener_key));
        }
        stream.write_all(self.sign(Role::Dialer, &parties).as_ref())?;
        Ok(())
    }

    /// Proves the own key to a dialer, and returns the key that the dialer has proved. The closure is
    /// asked once the dialer has claimed a key, and may set another deadline of the stream.
    ///
    /// # Errors
    ///
    /// Says why the dialer is refused, or how the stream failed. If the key isn't acceptable,
    /// nothing is signed or sent.
    pub fn listen<S: Read + Write>(
        &self,
        stream: &mut S,
        is_acceptable: impl FnOnce(&mut S, &Key) -> bool,
    ) -> Result<Key, HandshakeError> {
        let listener_key = self.identity.public_key();
        let dialer_nonce: Nonce = array(stream)?;
        let dialer_key = Key(array::<KEY_SIZE>(stream)?);
        if dialer_key == listener_key {
            return Err(HandshakeError::Reflected);
        }
        if !is_acceptable(stream, &dialer_key) {
            return Err(HandshakeError::NotAcceptable(dialer_key));
        }
        let listener_nonce: Nonce = self.sodium.bytes();
        let parties = Parties {
            dialer_nonce,
            dialer_key,
            listener_nonce,
            listener_key,
        };
        let signature = self.sign(Role::Listener, &parties);
        let message = [&listener_nonce, listener_key.as_ref(), signature.as_ref()].concat();
        stream.write_all(&message)?;
        let signature = Signature(array::<SIGNATURE_SIZE>(stream)?);
        if !self.judge(Role::Dialer, &parties, &signature) {
            return Err(HandshakeError::Signature(dialer_key));
        }
        Ok(dialer_key)
    }
}

fn array<const N: usize>(stream: &mut impl Read) -> io::Result<[u8; N]> {
    let mut bytes = [0; N];
    stream.read_exact(&mut bytes)?;
    Ok(bytes)
}
