//! Words of a line: numbers, times, lists, addresses and infos.

use super::fault::Fault;
use super::usage::Usage;
use super::{key, signed};
use p2p_directory::sized::{Info, OrderedSet, Pair, Payload, TrackedPeers};
use p2p_directory::{BitVec, Data, Hostname, Ingress, Moment};
use std::marker::PhantomData;
use std::net::{IpAddr, Ipv4Addr, Ipv6Addr, SocketAddr};
use std::num::IntErrorKind;
use std::str::{FromStr, SplitWhitespace};
use std::time::Duration;

/// The arguments of a command, which are parsed in turn.
pub struct Words<'a, P> {
    words: SplitWhitespace<'a>,
    usage: Usage,
    sizes: PhantomData<P>,
}

impl<'a, P: Pair> Words<'a, P> {
    pub fn new(text: &'a str, usage: Usage) -> Words<'a, P> {
        Words {
            words: text.split_whitespace(),
            usage,
            sizes: PhantomData,
        }
    }

    /// The next word, if there is one.
    pub fn optional(&mut self) -> Option<&'a str> {
        self.words.next()
    }

    pub fn word(&mut self) -> Result<&'a str, Fault> {
        let usage = self.usage;
        let word = self.optional();
        word.ok_or_else(|| Fault::new(format!("missing argument, expected {usage}")))
    }

    /// Checks that there is no further word.
    pub fn end(&mut self) -> Result<(), Fault> {
        let usage = self.usage;
        match self.optional() {
            Some(_) => Err(Fault::new(format!("too many arguments, expected {usage}"))),
            None => Ok(()),
        }
    }

    pub fn number(&mut self) -> Result<u64, Fault> {
        number(self.word()?)
    }

    pub fn size(&mut self) -> Result<usize, Fault> {
        number(self.word()?)
    }

    pub fn peer(&mut self) -> Result<P::Key, Fault> {
        Ok(key::<P>(self.number()?))
    }

    pub fn truth(&mut self) -> Result<bool, Fault> {
        truth(self.word()?)
    }

    pub fn moment(&mut self) -> Result<Moment, Fault> {
        Ok(time(self.word()?)?.into())
    }

    /// The next word as a draw, or zero if there is none.
    pub fn draw(&mut self) -> Result<Duration, Fault> {
        self.optional().map_or(Ok(Duration::ZERO), time)
    }

    pub fn bytes(&mut self) -> Result<Vec<u8>, Fault> {
        bytes(self.word()?)
    }

    pub fn infos(&mut self, namespace: &[u8]) -> Result<Vec<Info<P>>, Fault> {
        list(self.word()?, |word| info(word, namespace))
    }

    /// Lists of primary and of secondary peers.
    pub fn tracked(&mut self) -> Result<TrackedPeers<P>, Fault> {
        let primary = peers(self.word()?)?;
        let secondary = match self.optional() {
            Some("/") => peers(self.word()?)?,
            Some(_) => return Err(Fault::form("/ before the secondary peers")),
            None => OrderedSet::default(),
        };
        Ok(TrackedPeers::new(primary, secondary))
    }

    pub fn bit_vec(&mut self) -> Result<BitVec, Fault> {
        let index = self.number()?;
        let word = self.word()?;
        let digits = if word == "-" { "" } else { word };
        let bits = digits.bytes().map(|digit| match digit {
            b'0' => Ok(false),
            b'1' => Ok(true),
            _ => Err(Fault::form("bits as 0101, or -")),
        });
        let bits = bits.collect::<Result<_, _>>()?;
        Ok(BitVec { index, bits })
    }

    /// A payload. Infos are signed in the namespace.
    pub fn payload(&mut self, namespace: &[u8]) -> Result<Payload<P>, Fault> {
        Ok(match self.word()? {
            "greeting" => Payload::Greeting(info(self.word()?, namespace)?),
            "peers" => Payload::Peers(self.infos(namespace)?),
            "bits" => Payload::BitVec(self.bit_vec()?),
            "data" => Payload::Data(Data {
                channel: self.number()?,
                message: self.bytes()?,
            }),
            _ => return Err(Fault::form("greeting, peers, bits or data")),
        })
    }
}

/// Parses a whole number.
pub fn number<T: TryFrom<u64>>(word: &str) -> Result<T, Fault> {
    let too_large = || Fault::too_large("number", u64::MAX);
    match word.parse::<u64>() {
        Ok(number) => T::try_from(number).map_err(|_| too_large()),
        Err(error) if *error.kind() == IntErrorKind::PosOverflow => Err(too_large()),
        Err(_) => Err(Fault::form("a whole number")),
    }
}

/// Parses a bool.
pub fn truth(word: &str) -> Result<bool, Fault> {
    parsed(word, "true or false")
}

fn parsed<T: FromStr>(word: &str, form: &str) -> Result<T, Fault> {
    word.parse().map_err(|_| Fault::form(form))
}

/// Parses a time: seconds with up to nine digits after a point, or `M`.
pub fn time(word: &str) -> Result<Duration, Fault> {
    if word == "M" {
        return Ok(Duration::MAX);
    }
    let (seconds, fraction) = word.split_once('.').unwrap_or((word, "0"));
    if fraction.len() > 9 || fraction.bytes().any(|digit| !digit.is_ascii_digit()) {
        return Err(Fault::form("up to nine digits behind the point"));
    }
    let padding = 10_u64.pow(9 - fraction.len() as u32);
    let nanos = number::<u64>(fraction)?.saturating_mul(padding);
    Ok(Duration::from_secs(number(seconds)?).saturating_add(Duration::from_nanos(nanos)))
}

fn bytes(word: &str) -> Result<Vec<u8>, Fault> {
    let digits = if word == "-" { "" } else { word };
    let values: Option<Vec<u32>> = digits.chars().map(|digit| digit.to_digit(16)).collect();
    let values = values.ok_or_else(|| Fault::form("hexadecimal digits, or -"))?;
    let (pairs, []) = values.as_chunks() else {
        return Err(Fault::new(
            "odd number of hex digits, expected two for each byte",
        ));
    };
    let bytes = pairs.iter().map(|[high, low]| (high * 16 + low) as u8);
    Ok(bytes.collect())
}

fn list<T>(word: &str, item: impl Fn(&str) -> Result<T, Fault>) -> Result<Vec<T>, Fault> {
    match word {
        "-" => Ok(Vec::new()),
        word => word.split(',').map(item).collect(),
    }
}

fn peers<P: Pair>(word: &str) -> Result<OrderedSet<P>, Fault> {
    let peers = list(word, |peer| number(peer).map(key::<P>))?;
    Ok(OrderedSet::from_iter_dedup(peers))
}

/// Parses an ingress: `1.2.3.4:80`, `[::1]:80` or `~host.name:80`.
pub fn ingress(word: &str) -> Result<Ingress, Fault> {
    const FORM: &str = "an address as 1.2.3.4:80, [::1]:80 or ~host.name:80";
    let (host, end) = word.rsplit_once(':').ok_or_else(|| Fault::form(FORM))?;
    let port = port(end)?;
    if let Some(name) = host.strip_prefix('~') {
        let host = Hostname::new(name).map_err(|_| Fault::form("a host name"))?;
        return Ok(Ingress::Dns { host, port });
    }
    let inner = host.strip_prefix('[').map(|rest| rest.strip_suffix(']'));
    let machine = match inner {
        Some(inner) => IpAddr::V6(parsed::<Ipv6Addr>(inner.unwrap_or(""), FORM)?),
        None => IpAddr::V4(parsed::<Ipv4Addr>(host, FORM)?),
    };
    Ok(Ingress::from(SocketAddr::new(machine, port)))
}

fn port(word: &str) -> Result<u16, Fault> {
    word.parse::<u16>().map_err(|error| match error.kind() {
        IntErrorKind::PosOverflow => Fault::too_large("port", u16::MAX),
        _ => Fault::form("a port"),
    })
}

/// Parses a list of bootstrappers, such as `3@1.2.3.4:8003`.
pub fn bootstrappers<P: Pair>(word: &str) -> Result<Vec<(P::Key, Ingress)>, Fault> {
    list(word, |entry| {
        let parts = entry.split_once('@');
        let (peer, at) = parts.ok_or_else(|| Fault::form("bootstrappers as 3@1.2.3.4:8003"))?;
        Ok((key::<P>(number(peer)?), ingress(at)?))
    })
}

// Parses an info, signed in the namespace unless it names another.
fn info<P: Pair>(word: &str, namespace: &[u8]) -> Result<Info<P>, Fault> {
    const FORM: &str = "an info as 1@1000, 1@1000:8001 or 1@1000@1.2.3.4:8001";
    let (word, namespace) = match word.split_once('!') {
        Some((word, other)) => (word, other.as_bytes()),
        None => (word, namespace),
    };
    let (peer, rest) = word.split_once('@').ok_or_else(|| Fault::form(FORM))?;
    let peer = number(peer)?;
    let at_port = |port| Ingress::from(SocketAddr::from(([1, 2, 3, 4], port)));
    let (timestamp, ingress) = if let Some((timestamp, at)) = rest.split_once('@') {
        (timestamp, ingress(at)?)
    } else if let Some((timestamp, end)) = rest.split_once(':') {
        (timestamp, at_port(port(end)?))
    } else {
        (rest, at_port(port_of(peer)?))
    };
    Ok(signed(
        key::<P>(peer),
        namespace,
        ingress,
        number(timestamp)?,
    ))
}

// The port of a peer that names none.
fn port_of(peer: u64) -> Result<u16, Fault> {
    u16::try_from(peer.saturating_add(8_000))
        .map_err(|_| Fault::too_large("peer without a port", u16::MAX - 8_000))
}
