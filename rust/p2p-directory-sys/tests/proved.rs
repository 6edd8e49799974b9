//! What the build script reads of `PROVED`, and the hash that it compares.

#![allow(dead_code)]

#[path = "../build/proved.rs"]
mod proved;
#[path = "../build/sha256.rs"]
mod sha256;

// The examples of FIPS 180-2, appendix B, and the hash of nothing.
#[test]
fn hashes_are_those_of_the_standard() {
    let million = "a".repeat(1_000_000);
    for (text, hash) in [
        (
            "",
            "e3b0c44298fc1c149afbf4c8996fb92427ae41e4649b934ca495991b7852b855",
        ),
        (
            "abc",
            "ba7816bf8f01cfea414140de5dae2223b00361a396177a9cb410ff61f20015ad",
        ),
        (
            "abcdbcdecdefdefgefghfghighijhijkijkljklmklmnlmnomnopnopq",
            "248d6a61d20638b8e5c026930c3e6039a33ce45964ff2167f6ecedd419db06c1",
        ),
        (
            million.as_str(),
            "cdc76e5c9914fb9281a1c7e284d73e67f1809a48a497200e046d39ccc7112cd0",
        ),
    ] {
        assert_eq!(sha256::hex(text.as_bytes()), hash);
    }
}

#[test]
fn a_hash_is_told_by_name() {
    let text = "kit 1\np2p_session: logic=proved\n01ab  sources\n02cd  libp2p_session.a\n";
    assert_eq!(proved::told_hash(text, "sources"), Some("01ab"));
    assert_eq!(proved::told_hash(text, "libp2p_session.a"), Some("02cd"));
    assert_eq!(proved::told_hash(text, "session"), None);
}
