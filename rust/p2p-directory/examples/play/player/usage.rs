//! How lines are written.

use std::cmp::Reverse;
use std::fmt;

/// The name of a command, and its arguments.
#[derive(Clone, Copy)]
pub struct Usage(pub &'static str, pub &'static str);

impl fmt::Display for Usage {
    fn fmt(&self, f: &mut fmt::Formatter<'_>) -> fmt::Result {
        let Usage(name, arguments) = self;
        match *arguments {
            "" => f.write_str(name),
            arguments => write!(f, "{name} {arguments}"),
        }
    }
}

const SETTINGS: [&str; 16] = [
    "max_sets",
    "dial_fail_limit",
    "cooldown",
    "block",
    "private",
    "dns",
    "own",
    "own_at",
    "own_ts",
    "boot",
    "max_bit_vec",
    "max_peers",
    "max_data_length",
    "gossip",
    "bound",
    "namespace",
];

/// The setting with the longest common prefix, and of these the one that is nearest in length.
pub fn nearest_setting(word: &str) -> &'static str {
    nearest(word, SETTINGS.into_iter())
}

/// The name with the longest common prefix, and of these the one that is nearest in length.
pub fn nearest(word: &str, names: impl Iterator<Item = &'static str>) -> &'static str {
    let likeness = |name: &&str| {
        let pairs = word.bytes().zip(name.bytes());
        let alike = pairs.take_while(|(left, right)| left == right).count();
        (alike, Reverse(word.len().abs_diff(name.len())))
    };
    names.max_by_key(likeness).expect("there are names")
}
