//! The scripts of `play`, all of them, run through this crate.
//!
//! A frame with infos has other bytes here: its keys and signatures are widened before it is
//! played. Left out are values that this crate doesn't decode by themselves, each kind by its name.
//! `tests/typed/edges.txt` has lines with extreme values, with the replies of `play` to them.

#[path = "../examples/play/player/mod.rs"]
mod player;
mod widened;

use p2p_directory::Keys32_64;
use player::{Mode, Tally, play};
use std::collections::BTreeMap;
use std::fs;
use std::io::{self, Write};
use std::path::{Path, PathBuf};
use widened::{bytes_of, widened_frame};

const ROOT: &str = concat!(env!("CARGO_MANIFEST_DIR"), "/../..");

/// The kinds of lines that are left out, and how many there are: values that this crate decodes
/// only within a payload, and addresses, which it doesn't have.
const LEFT_OUT: [(&str, usize); 5] = [
    ("decode address", 2),
    ("decode bits", 1),
    ("decode data", 8),
    ("recode address", 1),
    ("recode data", 1),
];

/// The minimum number of lines of each command, and of lines that can't be parsed.
const PLAYED: [(&str, usize); 33] = [
    ("acceptable", 22),
    ("all", 17),
    ("ask", 22),
    ("bits", 137),
    ("block", 44),
    ("blocked_peers", 19),
    ("connect", 71),
    ("decode", 26),
    ("dial", 79),
    ("dialable", 48),
    ("eligible", 33),
    ("error", 77),
    ("exchange", 49),
    ("forget_cooled", 11),
    ("frame", 9),
    ("get_peer_set", 20),
    ("info", 40),
    ("infos", 10),
    ("ingress", 15),
    ("latest_set_index", 12),
    ("latest_update", 12),
    ("listen", 127),
    ("may_listen", 17),
    ("next_unblock", 24),
    ("node", 138),
    ("receive", 44),
    ("recode", 3),
    ("release", 85),
    ("status", 57),
    ("track", 205),
    ("tracked", 20),
    ("unblock_expired", 25),
    ("update", 89),
];

/// The minimum number of replies that are compared.
const COMPARED: u64 = 1_453;

/// How many lines there are of each kind or command.
type Counts = BTreeMap<String, usize>;

fn count(counts: &mut Counts, name: &str) {
    *counts.entry(name.to_owned()).or_default() += 1;
}

/// The lines of a script that are played, with their replies.
fn prepared(text: &str, played: &mut Counts, left_out: &mut Counts) -> String {
    let lines: Vec<&str> = text.lines().map(code_of).collect();
    let mut prepared = String::new();
    let mut is_left_out = false;
    for (place, line) in lines.iter().enumerate() {
        if !line.starts_with('=') {
            let words = command_of(line);
            let kind = words.get(..2).unwrap_or_default().join(" ");
            is_left_out = LEFT_OUT.iter().any(|(name, _)| *name == kind);
            let reply = lines.get(place + 1).copied().unwrap_or("");
            match words.first() {
                Some(_) if is_left_out => count(left_out, &kind),
                Some(_) if reply.starts_with("= error:") => count(played, "error"),
                Some(name) => count(played, name),
                None => {}
            }
        }
        if !is_left_out {
            prepared += &widened_line(line);
        }
        prepared.push('\n');
    }
    prepared
}

// A line without its comment.
fn code_of(line: &str) -> &str {
    line.split('#').next().unwrap_or("").trim()
}

// The words of a line, without the name of its node.
fn command_of(line: &str) -> Vec<&str> {
    let mut words: Vec<&str> = line.split_whitespace().collect();
    if words.first().is_some_and(|word| word.ends_with(':')) {
        words.remove(0);
    }
    words
}

// The line, with each frame with infos replaced by the bytes of this crate.
fn widened_line(line: &str) -> String {
    let is_digit = |letter: char| letter.is_ascii_hexdigit();
    let mut widened = String::new();
    for word in line.split_inclusive(|letter| !is_digit(letter)) {
        let digits = word.trim_end_matches(|letter| !is_digit(letter));
        match bytes_of(digits)
            .as_deref()
            .and_then(widened_frame::<Keys32_64>)
        {
            Some(frame) => {
                widened.extend(frame.iter().map(|byte| format!("{byte:02x}")));
                widened += &word[digits.len()..];
            }
            None => widened += word,
        }
    }
    widened
}

// Whether this package is in a clone of the repository, which has the scripts. If it isn't, this is
// printed to standard error, since the output of a test that passes isn't shown.
fn is_in_a_clone(test: &str) -> bool {
    let is = Path::new(ROOT).join("crates.txt").is_file();
    if !is {
        let said = format!("{test} is left out: it reads files of the repository");
        writeln!(io::stderr(), "{said}").expect("standard error");
    }
    is
}

fn scripts() -> Vec<PathBuf> {
    let folders = [
        "examples",
        "crates/play/data",
        "rust/p2p-directory/tests/typed",
    ];
    let folders = folders.map(|name| Path::new(ROOT).join(name));
    let entries = folders
        .iter()
        .flat_map(|folder| fs::read_dir(folder).expect("a folder of scripts"));
    let paths = entries.map(|entry| entry.expect("a script").path());
    paths
        .filter(|path| path.extension().is_some_and(|end| end == "txt"))
        .collect()
}

fn played(text: &str, mode: Mode) -> (Tally, String) {
    let mut out = Vec::new();
    let tally = play::<Keys32_64>(text.as_bytes(), &mut out, mode).expect("output is a list");
    (tally, String::from_utf8(out).expect("output is text"))
}

#[test]
fn each_line_is_replied_as_expected() {
    if !is_in_a_clone("each_line_is_replied_as_expected") {
        return;
    }
    let (mut commands, mut left_out) = (Counts::new(), Counts::new());
    let mut compared = 0;
    for path in scripts() {
        let text = fs::read_to_string(&path).expect("a script");
        let text = prepared(&text, &mut commands, &mut left_out);
        let (tally, otherwise) = played(&text, Mode::Checks);
        assert_eq!(otherwise, "", "{}", path.display());
        assert!(tally.is_good(), "{}: {tally}", path.display());
        compared += tally.expected;
    }
    for (name, least) in PLAYED {
        let count = commands.get(name).copied().unwrap_or(0);
        assert!(count >= least, "{name}: {count}");
    }
    assert!(compared >= COMPARED, "{compared}");
    let wanted: Counts = LEFT_OUT
        .map(|(kind, count)| (kind.to_owned(), count))
        .into();
    assert_eq!(left_out, wanted);
}

// A dial that succeeds resets the failures before it, so the failure of its own release is the
// first again. If the other side dialled, it is the second, and the info is wanted again.
#[test]
fn the_flag_of_connect_decides() {
    let begin = "node a dial_fail_limit=2 cooldown=0\ntrack 0 1\nupdate 1@1000\n";
    let failed = "dial 1 100\n= granted\nrelease 1\n= done\nbits 0\n= BitVec(0, 1)\n";
    for (flag, bit) in [(true, 1), (false, 0)] {
        let connected = format!("dial 1 100\n= granted\nconnect 1 {flag}\n= done\nrelease 1\n");
        let text = format!("{begin}{failed}{connected}bits 0\n= BitVec(0, {bit})\n");
        let (tally, otherwise) = played(&text, Mode::Checks);
        assert_eq!((otherwise.as_str(), tally.expected), ("", 6));
    }
}

// A script whose expected replies are wrong.
#[test]
fn what_is_otherwise_is_told() {
    let text = "track 0 1\n= None\ndail 1 1\n";
    let (tally, out) = played(text, Mode::Checks);
    assert_eq!(
        (tally.replies, tally.otherwise, tally.unreadable),
        (2, 1, 1)
    );
    assert!(!tally.is_good());
    let fault = "error: line 3: unknown command, expected dial or another of --help";
    assert_eq!(
        out,
        format!("line 2: expected None, was Some([])\n{fault}\n")
    );
}

#[test]
fn the_transcript_of_the_document_is_replied() {
    if !is_in_a_clone("the_transcript_of_the_document_is_replied") {
        return;
    }
    let document = fs::read_to_string(Path::new(ROOT).join("docs/PLAY.md")).expect("the document");
    let (_, transcript) = document.split_once("\n> node alice").expect("a transcript");
    let (transcript, _) = transcript.split_once("```").expect("its end");
    let transcript = format!("> node alice{transcript}");
    let lines = || transcript.lines();
    let typed: Vec<&str> = lines().filter_map(|line| line.strip_prefix("> ")).collect();
    let replies: Vec<&str> = lines().filter(|line| !line.starts_with('>')).collect();
    assert_eq!(typed.len(), replies.len());
    let (_, out) = played(&typed.join("\n"), Mode::Replies);
    let out: Vec<&str> = out.lines().collect();
    assert_eq!(out, replies);
}
