//! Input that a node refuses, and what it says of it.

mod common;

use common::{Folder, failure, key, program};
use std::net::TcpListener;
use std::os::unix::fs::MetadataExt;

/// The words of a node that lacks nothing.
fn words(folder: &Folder) -> Vec<String> {
    let (own, set) = (folder.key(1), folder.set(0, &[1, 2]));
    let path = |path: std::path::PathBuf| path.to_str().unwrap().to_owned();
    let words = [
        "run",
        "--namespace",
        "test",
        "--key",
        &path(own),
        "--sets",
        &path(set),
    ];
    words.map(str::to_owned).to_vec()
}

fn refused(folder: &Folder, more: &[&str]) -> String {
    let words = words(folder);
    let words: Vec<&str> = words
        .iter()
        .map(String::as_str)
        .chain(more.iter().copied())
        .collect();
    failure(&words)
}

#[test]
fn help_warns_first() {
    for words in [&["--help"][..], &["run", "--help"]] {
        let output = program(words).output().unwrap();
        assert!(output.status.success());
        let text = String::from_utf8(output.stdout).unwrap();
        let (before, _) = text
            .split_once("WARNING: frames after the handshake are neither encrypted nor")
            .unwrap();
        assert!(before.lines().count() <= 2, "{before}");
    }
    assert!(failure(&[]).contains("see p2p-node --help"));
    assert!(failure(&["fly"]).contains("unknown word fly"));
}

#[test]
fn a_key_file_is_made_for_its_owner_alone() {
    let folder = Folder::new();
    let path = folder.path("new-key");
    let words = ["key", path.to_str().unwrap()];
    let output = program(&words).output().unwrap();
    assert!(output.status.success());
    assert_eq!(path.metadata().unwrap().mode() & 0o777, 0o600);
    let public: p2p_directory::Key = String::from_utf8(output.stdout)
        .unwrap()
        .trim()
        .parse()
        .unwrap();
    let seed: p2p_directory::Key = std::fs::read_to_string(&path)
        .unwrap()
        .trim()
        .parse()
        .unwrap();
    let identity = p2p_node::identity::Identity::from_seed(common::sodium(), &seed.0);
    assert_eq!(identity.public_key(), public);
    // It is never overwritten.
    assert!(failure(&words).contains("there is a file already"));
    let other = folder.path("other-key");
    let output = program(&["key", other.to_str().unwrap()]).output().unwrap();
    assert_ne!(
        String::from_utf8(output.stdout).unwrap().trim(),
        public.to_string()
    );
}

#[test]
fn a_key_file_that_others_can_read_is_refused() {
    let folder = Folder::new();
    for mode in [0o640, 0o604, 0o660, 0o644] {
        let path = folder.write("open-key", &format!("{}\n", key(1)), mode);
        let said = refused(&folder, &["--key", path.to_str().unwrap()]);
        assert!(
            said.contains(&format!(
                "its mode is {mode:o}, so others than its owner may use it"
            )),
            "{said}"
        );
        assert!(said.contains("open-key"), "{said}");
    }
}

#[test]
fn a_key_file_without_a_key_is_refused() {
    let folder = Folder::new();
    let path = folder.write("no-key", "hello\n", 0o600);
    let said = refused(&folder, &["--key", path.to_str().unwrap()]);
    assert!(said.contains("not 64 hexadecimal digits"), "{said}");
    let said = refused(&folder, &["--key", "/nowhere/key"]);
    assert!(
        said.contains("key file /nowhere/key: No such file"),
        "{said}"
    );
}

#[test]
fn a_config_that_is_none_is_refused_by_its_line() {
    let folder = Folder::new();
    for (text, why) in [
        (
            "tick = 1\n\n# fine\nwhat is this\n",
            "line 4: not of the form NAME = VALUE",
        ),
        ("tick = soon\n", "line 1: tick: invalid float literal"),
        (
            "tick = 1\ncolour = red\n",
            "line 2: colour: unknown setting",
        ),
        ("\u{1}\u{2}\n", "line 1: not of the form"),
    ] {
        let path = folder.write("config", text, 0o644);
        let said = refused(&folder, &["--config", path.to_str().unwrap()]);
        assert!(said.contains(why) && said.contains("config"), "{said}");
    }
    let path = folder.path("binary");
    std::fs::write(&path, [0xff, 0xfe, 0]).unwrap();
    let said = refused(&folder, &["--config", path.to_str().unwrap()]);
    assert!(said.contains("valid UTF-8"), "{said}");
    let said = refused(&folder, &["--config", "/nowhere"]);
    assert!(said.contains("config /nowhere: No such file"), "{said}");
}

#[test]
fn a_config_sets_what_flags_set() {
    let folder = Folder::new();
    let own = folder.key(1);
    let text = format!(
        "# a node\nkey = {}\nnamespace = test\nsets = {}\ntick = 0.2\nallow-private-ips = true\n",
        own.display(),
        folder.set(7, &[1, 2]).display()
    );
    let path = folder.write("config", &text, 0o644);
    let words = format!("--config {}", path.display());
    let node = common::Running::start(&folder, 1, &words);
    node.until_count("latest_set", 7);
}

#[test]
fn a_port_in_use_is_refused() {
    let folder = Folder::new();
    let listener = TcpListener::bind("127.0.0.1:0").unwrap();
    let address = listener.local_addr().unwrap().to_string();
    let said = refused(&folder, &["--listen", &address]);
    assert!(
        said.contains(&format!(
            "can't listen at {address}: Address already in use"
        )),
        "{said}"
    );
}

#[test]
fn a_ledger_that_can_not_be_opened_is_refused() {
    let folder = Folder::new();
    let said = refused(&folder, &["--ledger", "/nowhere/ledger"]);
    assert!(
        said.contains("ledger /nowhere/ledger: No such file"),
        "{said}"
    );
}

#[test]
fn settings_that_the_directory_refuses_are_named() {
    let folder = Folder::new();
    let most = usize::MAX.to_string();
    let said = refused(&folder, &["--max-sets", &most]);
    assert!(
        said.contains("settings: a setting is out of range"),
        "{said}"
    );
}
