//! Nodes that are called by names, and lines that are typed to them.

mod calls;
mod fault;
pub mod printed;
mod script;
mod settings;
mod usage;
mod words;

use calls::{command_of, exchanged, nearest_command, parsed};
use fault::Fault;
use p2p_directory::sized::{
    Bytes, Directory, Info, Node, Pair, Payload, Reservation, Setup, testing,
};
use p2p_directory::{Ingress, PayloadConfig, SetupError};
use printed::{hexadecimal, info, ingress, payload};
pub use script::{Mode, Tally, play};
use std::collections::BTreeMap;
use words::Words;

/// The key of a number, which is in its last bytes.
pub fn key<P: Pair>(number: u64) -> P::Key {
    let mut bytes = testing::key::<P>(0).as_ref().to_vec();
    bytes[P::KEY_SIZE - 8..].copy_from_slice(&number.to_be_bytes());
    P::Key::of_bytes(&bytes).expect("it begins as a key does")
}

/// The info of these parts, signed by the key in the namespace.
pub fn signed<P: Pair>(key: P::Key, namespace: &[u8], ingress: Ingress, timestamp: u64) -> Info<P> {
    Info::sign(key, namespace, ingress, timestamp, |namespace, message| {
        testing::sign::<P>(&key, namespace, message)
    })
}

/// A node with its name, and the reservations that it granted.
struct Named<P: Pair> {
    name: String,
    namespace: Vec<u8>,
    node: Node<P>,
    held: BTreeMap<P::Key, Reservation<P>>,
}

impl<P: Pair> Named<P> {
    fn new(name: &str, setup: Setup<P>) -> Result<Named<P>, SetupError> {
        Ok(Named {
            name: name.to_owned(),
            namespace: setup.namespace.clone(),
            node: Node::new(&setup)?,
            held: BTreeMap::new(),
        })
    }

    fn directory(&mut self) -> &mut Directory<P> {
        self.node.directory_mut()
    }
}

/// Nodes with different names, one of which was created or named last.
struct Player<P: Pair> {
    nodes: Vec<Named<P>>,
    latest: usize,
}

impl<P: Pair> Player<P> {
    /// One node without a name, with default settings.
    fn new() -> Result<Player<P>, SetupError> {
        Ok(Player {
            nodes: vec![Named::new("", settings::default_setup())?],
            latest: 0,
        })
    }

    /// Replies to a line. A line that can't be parsed changes nothing.
    fn answer(&mut self, line: &str) -> Result<String, Fault> {
        let (first, rest) = first_word(line);
        let Some(name) = first.strip_suffix(':') else {
            return self.answer_to(self.latest, first, rest);
        };
        let node = self.place_of(name)?;
        let (name, rest) = first_word(rest);
        self.answer_to(node, name, rest)
    }

    fn place_of(&self, name: &str) -> Result<usize, Fault> {
        let place = self.nodes.iter().position(|named| named.name == name);
        place.ok_or_else(|| Fault::new("no such node, expected a name that was given to one"))
    }

    fn answer_to(&mut self, node: usize, name: &str, arguments: &str) -> Result<String, Fault> {
        let Some(usage) = command_of(name) else {
            let nearest = nearest_command(name);
            return Err(Fault::unknown("command", nearest));
        };
        let mut words = Words::new(arguments, usage);
        match name {
            "node" => self.put(&mut words),
            "decode" | "recode" => value::<P>(name, &mut words),
            "frame" => {
                let frame = words.payload(&self.nodes[node].namespace)?;
                words.end()?;
                Ok(hexadecimal(&frame.encode()))
            }
            "exchange" => self.exchange(node, &mut words),
            _ => {
                let call = parsed(name, &mut words, &self.nodes[node].namespace)?;
                words.end()?;
                self.latest = node;
                Ok(call(&mut self.nodes[node])?)
            }
        }
    }

    // Creates a node, which replaces that of the same name.
    fn put(&mut self, words: &mut Words<'_, P>) -> Result<String, Fault> {
        let name = words.word()?;
        if name.contains([':', '=']) {
            return Err(Fault::form("a name without : and ="));
        }
        let named = Named::new(name, settings::setup(words)?)?;
        match self.place_of(name) {
            Ok(place) => {
                self.nodes[place] = named;
                self.latest = place;
            }
            Err(_none) => {
                self.latest = self.nodes.len();
                self.nodes.push(named);
            }
        }
        Ok("ready".to_owned())
    }

    fn exchange(&mut self, asker: usize, words: &mut Words<'_, P>) -> Result<String, Fault> {
        let replier = self.place_of(words.word()?)?;
        let (place, asker_now) = (words.size()?, words.moment()?);
        let replier_now = words.moment()?;
        words.end()?;
        self.latest = asker;
        let Ok([asker, replier]) = self.nodes.get_disjoint_mut([asker, replier]) else {
            return Ok("NoNode".to_owned());
        };
        Ok(exchanged(asker, replier, place, asker_now, replier_now)?)
    }
}

// The first word, and the rest.
fn first_word(text: &str) -> (&str, &str) {
    let text = text.trim_start();
    text.split_once(char::is_whitespace).unwrap_or((text, ""))
}

// The value that bytes encode, or the bytes themselves.
fn value<P: Pair>(name: &str, words: &mut Words<'_, P>) -> Result<String, Fault> {
    let kind = words.word()?;
    let limits = match kind {
        "payload" => Some(PayloadConfig {
            max_bit_vec: words.number()?,
            max_peers: words.size()?,
            max_data_length: words.size()?,
        }),
        "info" | "ingress" => None,
        _ => return Err(Fault::form("payload, info or ingress")),
    };
    let bytes = words.bytes()?;
    words.end()?;
    let read = match limits {
        Some(limits) => {
            Payload::<P>::decode(&bytes, &limits).map(|read| (payload(&read), read.encode()))
        }
        None if kind == "info" => {
            Info::<P>::decode(&bytes).map(|read| (info(&read), read.encode()))
        }
        None => Ingress::decode(&bytes).map(|read| (ingress(&read), read.encode())),
    };
    Ok(match read {
        Ok((text, _)) if name == "decode" => text,
        Ok((_, bytes)) => hexadecimal(&bytes),
        Err(fault) => format!("{fault:?}"),
    })
}
