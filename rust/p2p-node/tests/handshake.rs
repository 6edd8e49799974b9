//! Handshakes with a side that doesn't have the key that it claims.

mod common;

use common::{Folder, NAMESPACE, QUICK, Running, identity, info, key, milliseconds, own, timed};
use p2p_directory::{Key, Question, Signature};
use p2p_node::handshake::{
    HandshakeError, NONCE_SIZE, Nonce, Parties, Role, handshake_namespace, signed_bytes,
};
use p2p_node::identity::verify;
use std::io::{Read, Write};
use std::net::{TcpListener, TcpStream};
use std::thread;

/// A listener or dialer that signs as it likes. It returns the nonce to send, given the one that it
/// received, and then the signature.
struct Attack {
    nonce: fn(Nonce) -> Nonce,
    sign: fn(&Parties) -> Signature,
}

fn own_nonce(_: Nonce) -> Nonce {
    [7; NONCE_SIZE]
}

/// The signature of the second key, for the network of tests, in this role.
fn signed(role: Role, parties: &Parties, namespace: &[u8]) -> Signature {
    let namespace = handshake_namespace(namespace);
    identity(2).sign(&namespace, &signed_bytes(role, parties))
}

/// A correct signature over other nonces, as one that was seen before.
fn replayed(role: Role, parties: &Parties) -> Signature {
    let parties = Parties {
        dialer_nonce: [1; NONCE_SIZE],
        listener_nonce: [2; NONCE_SIZE],
        ..*parties
    };
    signed(role, &parties, NAMESPACE)
}

fn pair() -> (TcpStream, TcpStream) {
    let listener = TcpListener::bind("127.0.0.1:0").unwrap();
    let stream = TcpStream::connect(listener.local_addr().unwrap()).unwrap();
    (stream, listener.accept().unwrap().0)
}

fn read<const N: usize>(stream: &mut impl Read) -> [u8; N] {
    let mut bytes = [0; N];
    stream.read_exact(&mut bytes).unwrap();
    bytes
}

/// What a dialer says of a listener that claims the second key.
fn dial(attack: Attack) -> Result<(), HandshakeError> {
    let (dialer, listener) = pair();
    let attacker = thread::spawn(move || {
        let mut stream = timed(&listener);
        let (dialer_nonce, dialer_key) = (read(&mut stream), Key(read(&mut stream)));
        let parties = Parties {
            dialer_nonce,
            dialer_key,
            listener_nonce: (attack.nonce)(dialer_nonce),
            listener_key: key(2),
        };
        let signature = (attack.sign)(&parties);
        let message = [&parties.listener_nonce, key(2).as_ref(), signature.as_ref()].concat();
        stream.write_all(&message).unwrap();
        // Whether the dialer proved its key.
        stream.read_exact(&mut [0; 64]).is_ok()
    });
    let result = own(&identity(1), NAMESPACE).dial(&mut timed(&dialer), &key(2));
    drop(dialer);
    assert_eq!(attacker.join().unwrap(), result.is_ok());
    result
}

/// What a listener says of a dialer that claims the second key.
fn listen(attack: Attack) -> Result<Key, HandshakeError> {
    let (dialer, listener) = pair();
    let attacker = thread::spawn(move || forge(&dialer, &attack));
    let result = own(&identity(1), NAMESPACE).listen(&mut timed(&listener), |_, _| true);
    attacker.join().unwrap();
    result
}

/// Dials the first key as the second, and returns the stream's parties.
fn forge(stream: &TcpStream, attack: &Attack) {
    let mut stream = timed(stream);
    let dialer_nonce = (attack.nonce)([0; NONCE_SIZE]);
    stream
        .write_all(&[&dialer_nonce, key(2).as_ref()].concat())
        .unwrap();
    let (listener_nonce, listener_key) = (read(&mut stream), Key(read(&mut stream)));
    let parties = Parties {
        dialer_nonce,
        dialer_key: key(2),
        listener_nonce,
        listener_key,
    };
    // The listener has proved its key already.
    let signature = Signature(read(&mut stream));
    let message = signed_bytes(Role::Listener, &parties);
    assert!(verify(Question {
        public_key: listener_key,
        namespace: &handshake_namespace(NAMESPACE),
        message: &message,
        signature,
    }));
    stream.write_all((attack.sign)(&parties).as_ref()).unwrap();
}

/// Claims a key to the first one, and returns the nonce and the signature that it answers with.
fn claim(stream: &TcpStream, nonce: &Nonce, claimed: &Key) -> (Nonce, Signature) {
    let mut stream = timed(stream);
    stream
        .write_all(&[nonce, claimed.as_ref()].concat())
        .unwrap();
    let nonce = read(&mut stream);
    assert_eq!(Key(read(&mut stream)), key(1));
    (nonce, Signature(read(&mut stream)))
}

/// Sends this signature to a node, which closes the stream and sends nothing more.
fn is_closed_after(stream: &TcpStream, signature: &Signature) {
    let mut stream = timed(stream);
    stream.write_all(signature.as_ref()).unwrap();
    assert_eq!(stream.read(&mut [0]).unwrap(), 0);
}

fn is_refused_by_dialer(sign: fn(&Parties) -> Signature) {
    let result = dial(Attack {
        nonce: own_nonce,
        sign,
    });
    assert!(
        matches!(result, Err(HandshakeError::Signature(peer)) if peer == key(2)),
        "{result:?}"
    );
}

fn is_refused_by_listener(sign: fn(&Parties) -> Signature) {
    let result = listen(Attack {
        nonce: own_nonce,
        sign,
    });
    assert!(
        matches!(result, Err(HandshakeError::Signature(peer)) if peer == key(2)),
        "{result:?}"
    );
}

#[test]
fn a_correct_signature_is_accepted() {
    let as_listener = Attack {
        nonce: own_nonce,
        sign: |parties| signed(Role::Listener, parties, NAMESPACE),
    };
    assert!(dial(as_listener).is_ok());
    let as_dialer = Attack {
        nonce: own_nonce,
        sign: |parties| signed(Role::Dialer, parties, NAMESPACE),
    };
    assert_eq!(listen(as_dialer).unwrap(), key(2));
}

#[test]
fn a_reflected_nonce_is_refused() {
    let result = dial(Attack {
        nonce: |nonce| nonce,
        sign: |parties| signed(Role::Listener, parties, NAMESPACE),
    });
    assert!(
        matches!(result, Err(HandshakeError::Reflected)),
        "{result:?}"
    );
}

#[test]
fn the_signature_of_the_listener_is_refused_if_it_comes_back() {
    let (dialer, listener) = pair();
    let attacker = thread::spawn(move || {
        let (_, signature) = claim(&dialer, &[7; NONCE_SIZE], &key(2));
        (&dialer).write_all(signature.as_ref()).unwrap();
        dialer
    });
    let result = own(&identity(1), NAMESPACE).listen(&mut timed(&listener), |_, _| true);
    assert!(
        matches!(result, Err(HandshakeError::Signature(peer)) if peer == key(2)),
        "{result:?}"
    );
    attacker.join().unwrap();
}

#[test]
fn an_own_key_is_refused() {
    let (dialer, listener) = pair();
    let same = thread::spawn(move || {
        let (identity, key) = (identity(1), key(1));
        own(&identity, NAMESPACE)
            .dial(&mut timed(&dialer), &key)
            .is_err()
    });
    let result = own(&identity(1), NAMESPACE).listen(&mut timed(&listener), |_, _| true);
    assert!(
        matches!(result, Err(HandshakeError::Reflected)),
        "{result:?}"
    );
    drop(listener);
    assert!(same.join().unwrap());
}

#[test]
fn a_swapped_role_is_refused() {
    is_refused_by_dialer(|parties| signed(Role::Dialer, parties, NAMESPACE));
    is_refused_by_listener(|parties| signed(Role::Listener, parties, NAMESPACE));
}

#[test]
fn a_signature_of_another_namespace_is_refused() {
    is_refused_by_dialer(|parties| signed(Role::Listener, parties, b"other"));
    is_refused_by_listener(|parties| signed(Role::Dialer, parties, b"other"));
    // The namespace of the network itself, in which infos are signed.
    is_refused_by_listener(|parties| {
        identity(2).sign(NAMESPACE, &signed_bytes(Role::Dialer, parties))
    });
}

#[test]
fn the_signature_of_an_info_is_refused() {
    is_refused_by_dialer(|_| info(2, NAMESPACE, milliseconds()).signature);
    is_refused_by_listener(|_| info(2, NAMESPACE, milliseconds()).signature);
    is_refused_by_listener(|_| info(2, &handshake_namespace(NAMESPACE), milliseconds()).signature);
}

#[test]
fn a_signature_of_another_handshake_is_refused() {
    is_refused_by_dialer(|parties| replayed(Role::Listener, parties));
    is_refused_by_listener(|parties| replayed(Role::Dialer, parties));
}

#[test]
fn a_signature_of_another_key_is_refused() {
    is_refused_by_listener(|parties| {
        let message = signed_bytes(Role::Dialer, parties);
        identity(3).sign(&handshake_namespace(NAMESPACE), &message)
    });
    let (dialer, listener) = pair();
    let third = thread::spawn(move || {
        let identity = identity(3);
        own(&identity, NAMESPACE)
            .listen(&mut timed(&listener), |_, _| true)
            .is_err()
    });
    let result = own(&identity(1), NAMESPACE).dial(&mut timed(&dialer), &key(2));
    assert!(
        matches!(result, Err(HandshakeError::WrongKey(peer)) if peer == key(3)),
        "{result:?}"
    );
    drop(dialer);
    assert!(third.join().unwrap());
}

#[test]
fn nothing_is_sent_to_a_key_that_is_not_acceptable() {
    let (dialer, listener) = pair();
    (&dialer)
        .write_all(&[&[7; NONCE_SIZE], key(2).as_ref()].concat())
        .unwrap();
    let result = own(&identity(1), NAMESPACE).listen(&mut timed(&listener), |_, _| false);
    assert!(
        matches!(result, Err(HandshakeError::NotAcceptable(_))),
        "{result:?}"
    );
    drop(listener);
    assert_eq!(timed(&dialer).read(&mut [0]).unwrap(), 0);
}

#[test]
fn a_node_counts_the_forged_handshakes_that_it_refuses() {
    let folder = Folder::new();
    folder.set(0, &[1, 2]);
    let node = Running::start(&folder, 1, QUICK);
    let forgeries: [fn(&Parties) -> Signature; 4] = [
        |parties| signed(Role::Listener, parties, NAMESPACE),
        |parties| signed(Role::Dialer, parties, b"other"),
        |_| info(2, NAMESPACE, milliseconds()).signature,
        |parties| replayed(Role::Dialer, parties),
    ];
    for sign in forgeries {
        forge(
            &node.stream(),
            &Attack {
                nonce: own_nonce,
                sign,
            },
        );
    }
    node.until_count("handshake_signature", 4);
    // None of them used up a grant, nor is the peer whose key was claimed blocked.
    assert!(node.events("grant").is_empty());
    node.until_count("blocked", 0);
    let _stream = node.dial(2);
    node.until_event("connected", &key(2));
}

#[test]
fn a_node_refuses_what_it_sent_itself() {
    let folder = Folder::new();
    folder.set(0, &[1, 2]);
    let node = Running::start(&folder, 1, QUICK);
    // The nonce of the node in one handshake is that of the dialer in another, and each gets the
    // signature that the node made in the other one.
    let (one, other) = (node.stream(), node.stream());
    let (nonce, first) = claim(&one, &[7; NONCE_SIZE], &key(2));
    let (_, second) = claim(&other, &nonce, &key(2));
    is_closed_after(&one, &second);
    is_closed_after(&other, &first);
    // The signature of the same handshake.
    let same = node.stream();
    let (nonce, signature) = claim(&same, &nonce, &key(2));
    is_closed_after(&same, &signature);
    node.until_count("handshake_signature", 3);
    // The own key gets no answer.
    let own_key = node.stream();
    (&own_key)
        .write_all(&[&nonce, key(1).as_ref()].concat())
        .unwrap();
    assert_eq!(timed(&own_key).read(&mut [0]).unwrap(), 0);
    node.until_count("reflected", 1);
    for count in ["handshakes", "connections", "connected", "blocked"] {
        node.until_count(count, 0);
    }
    assert!(node.events("grant").is_empty());
    // No reservation is left, which would refuse the peer.
    let _stream = node.dial(2);
    node.until_event("connected", &key(2));
}
