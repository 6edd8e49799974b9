//! Rules that a node can be told to break, with the feature `broken` alone. They show that a
//! checker of a network notices.

use std::str::FromStr;

/// A rule that a node may break.
#[derive(Clone, Copy, Debug, PartialEq, Eq)]
pub enum Rule {
    /// It grants connections before the cooldown of their peer is over.
    GrantsEarly,
    /// It keeps the connections of peers that no set names any more.
    KeepsDropped,
    /// It blocks peers that broke no rule.
    BlocksAtRandom,
    /// It bounds neither handshakes, frames, nor how often peers ask, and has no deadlines.
    NoLimit,
    /// It keeps each frame.
    Leaks,
    /// It asks no questions.
    NoRepair,
}

impl Rule {
    /// Each rule with its name.
    pub const ALL: [(&'static str, Rule); 6] = [
        ("grants-early", Rule::GrantsEarly),
        ("keeps-dropped", Rule::KeepsDropped),
        ("blocks-at-random", Rule::BlocksAtRandom),
        ("no-limit", Rule::NoLimit),
        ("leaks", Rule::Leaks),
        ("no-repair", Rule::NoRepair),
    ];
}

impl FromStr for Rule {
    type Err = String;

    fn from_str(text: &str) -> Result<Rule, String> {
        let mut rules = Rule::ALL.into_iter();
        let found = rules.find(|(name, _)| *name == text);
        found.map(|(_, rule)| rule).ok_or_else(|| {
            let names = Rule::ALL.map(|(name, _)| name).join(", ");
            format!("no rule: one of {names}")
        })
    }
}
