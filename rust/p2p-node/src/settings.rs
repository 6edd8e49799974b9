//! The settings of a node, from flags and from a file.

use crate::broken::Rule;
use p2p_directory::{
    Config, Ingress, Key, MAX_PAYLOAD_OVERHEAD, PayloadConfig, is_global, max_gossip_size,
};
use std::fs::File;
use std::io::Read;
use std::net::{Ipv4Addr, SocketAddr};
use std::num::NonZeroUsize;
use std::path::{Path, PathBuf};
use std::str::FromStr;
use std::time::Duration;

/// The maximum length of a file of settings, in bytes.
const LONGEST_FILE: u64 = 1 << 20;

/// After how many ticks without a frame a connection ends.
const SILENT_TICKS: u32 = 3;

/// The longest duration that is accepted, in seconds: a hundred years.
const LONGEST: f64 = 100.0 * 366.0 * 86_400.0;

/// What `run --help` prints.
pub const HELP: &str = "\
p2p-node run: runs a node until SIGTERM or SIGINT

WARNING: frames after the handshake are neither encrypted nor authenticated.
Run it in networks that you trust.

It prints `listening HOST:PORT`, and then a line of JSON each second.
Each setting is a flag, as --NAME VALUE, or a line `NAME = VALUE` of the file
of --config. Of two values of a setting the later one counts.

Required:
  --key FILE                  the secret key, which `p2p-node key FILE` makes
  --namespace TEXT            the network; no other network has the same
  --sets PATH                 a file with a set of peers, or a folder of them

Addresses:
  --listen HOST:PORT          where it listens               [127.0.0.1:0]
  --address HOST:PORT         where peers reach it     [what it listens at]
  --bootstrapper KEY@IP:PORT  a peer whose address is known; may be repeated
  --allow-private-ips BOOL    whether to dial private addresses      [false]

Times, in seconds:
  --tick SECONDS              between two questions to a peer           [30]
  --silence SECONDS           without a frame, until the end       [3 ticks]
  --cooldown SECONDS          between two connections of a peer         [60]
  --block SECONDS             how long a block lasts                 [14400]
  --handshake SECONDS         for a dial and its handshake               [5]
  --synchrony SECONDS         how far ahead an info may be               [5]

Limits:
  --largest-set COUNT         peers of the largest set                 [256]
  --gossip-count COUNT        infos of a reply               [--largest-set]
  --max-data BYTES            the longest message                  [1048576]
  --max-sets COUNT            sets that are retained                     [4]
  --dial-fail-limit COUNT     failures, until an address is wanted again [2]
  --max-handshakes COUNT      inbound handshakes at a time              [64]
  --max-connections COUNT     connections at a time, dials included    [512]
  --burst COUNT               frames that a peer may send at once        [8]
  --refill COUNT              further frames of a peer in each tick      [4]

Files:
  --ledger FILE               appends a line of JSON for each event
  --record FILE               the calls of the directory, for p2p-replay
  --record-limit BYTES        the longest such file         [1073741824]
  --config FILE               settings, one in a line; # begins a comment
";

/// The settings of a node.
#[derive(Clone, Debug)]
pub struct Settings {
    /// The file with the secret key.
    pub key: PathBuf,
    /// The namespace of the network.
    pub namespace: String,
    /// The file or folder with sets of peers.
    pub sets: PathBuf,
    /// Where the node listens.
    pub listen: SocketAddr,
    /// Where peers reach it, if not where it listens.
    pub address: Option<Ingress>,
    /// Peers whose addresses are known.
    pub bootstrappers: Vec<(Key, Ingress)>,
    /// Whether addresses that aren't global may be dialled.
    pub allow_private_ips: bool,
    /// The time from one question to the next.
    pub tick: Duration,
    /// How long a peer may take to send or to read a frame, if not three ticks.
    pub silence: Option<Duration>,
    /// The time between two grants of a peer.
    pub cooldown: Duration,
    /// How long a block lasts.
    pub block: Duration,
    /// How long a dial with its handshake may last, or an inbound handshake.
    pub handshake: Duration,
    /// How far ahead the timestamp of an info may be.
    pub synchrony: Duration,
    /// The number of primary peers of the largest set.
    pub largest_set: usize,
    /// The maximum number of infos in a reply, if not that of the largest set.
    pub gossip_count: Option<usize>,
    /// The length of the longest message, in bytes.
    pub max_data: usize,
    /// How many sets are retained.
    pub max_sets: NonZeroUsize,
    /// After how many failed dials an address is wanted again.
    pub dial_fail_limit: usize,
    /// The maximum number of inbound handshakes at a time.
    pub max_handshakes: usize,
    /// The maximum number of connections at a time, with the dials that are under way.
    pub max_connections: usize,
    /// How many frames a peer may send at once.
    pub burst: u32,
    /// How many further frames a peer may send in each tick.
    pub refill: u32,
    /// The file of events.
    pub ledger: Option<PathBuf>,
    /// The file of the calls of the directory, which is written anew.
    pub record: Option<PathBuf>,
    /// The length of the longest such file, in bytes.
    pub record_limit: u64,
    /// The rule that the node breaks.
    pub broken: Option<Rule>,
}

impl Default for Settings {
    fn default() -> Settings {
        Settings {
            key: PathBuf::new(),
            namespace: String::new(),
            sets: PathBuf::new(),
            listen: SocketAddr::from((Ipv4Addr::LOCALHOST, 0)),
            address: None,
            bootstrappers: Vec::new(),
            allow_private_ips: false,
            tick: Duration::from_secs(30),
            silence: None,
            cooldown: Duration::from_secs(60),
            block: Duration::from_secs(4 * 3600),
            handshake: Duration::from_secs(5),
            synchrony: Duration::from_secs(5),
            largest_set: 256,
            gossip_count: None,
            max_data: 1 << 20,
            max_sets: NonZeroUsize::MIN.saturating_add(3),
            dial_fail_limit: 2,
            max_handshakes: 64,
            max_connections: 512,
            burst: 8,
            refill: 4,
            ledger: None,
            record: None,
            record_limit: 1 << 30,
            broken: None,
        }
    }
}

impl Settings {
    /// Reads the flags of `p2p-node run`, or returns `None` if they ask for help.
    ///
    /// # Errors
    ///
    /// Names the flag, or the line of a file, that has no value, an invalid one or no known name,
    /// and what is missing.
    pub fn parse(words: &[String]) -> Result<Option<Settings>, String> {
        let mut settings = Settings::default();
        let mut words = words.iter();
        while let Some(word) = words.next() {
            if word == "--help" || word == "-h" {
                return Ok(None);
            }
            let name = word
                .strip_prefix("--")
                .ok_or_else(|| format!("{word}: not a flag: see p2p-node run --help"))?;
            let value = words
                .next()
                .ok_or_else(|| format!("--{name}: it has no value"))?;
            match name {
                "config" => settings.read(Path::new(value))?,
                _ => settings
                    .set(name, value)
                    .map_err(|why| format!("--{name} {value}: {why}"))?,
            }
        }
        settings.judge()?;
        Ok(Some(settings))
    }

    /// Reads a file of settings.
    fn read(&mut self, path: &Path) -> Result<(), String> {
        let said = |what: &dyn std::fmt::Display| format!("config {}: {what}", path.display());
        let mut text = String::new();
        File::open(path)
            .and_then(|file| file.take(LONGEST_FILE).read_to_string(&mut text))
            .map_err(|error| said(&error))?;
        for (number, line) in (1..).zip(text.lines()) {
            let line = line.trim();
            if line.is_empty() || line.starts_with('#') {
                continue;
            }
            let set = match line.split_once('=') {
                None => Err("not of the form NAME = VALUE".to_owned()),
                Some((name, value)) => self
                    .set(name.trim(), value.trim())
                    .map_err(|why| format!("{}: {why}", name.trim())),
            };
            set.map_err(|why| said(&format_args!("line {number}: {why}")))?;
        }
        Ok(())
    }

    fn set(&mut self, name: &str, value: &str) -> Result<(), String> {
        match name {
            "key" => self.key = value.into(),
            "namespace" => value.clone_into(&mut self.namespace),
            "sets" => self.sets = value.into(),
            "listen" => self.listen = parsed(value)?,
            "address" => self.address = Some(parsed(value)?),
            "bootstrapper" => self.bootstrappers.push(bootstrapper(value)?),
            "allow-private-ips" => self.allow_private_ips = parsed(value)?,
            "tick" => self.tick = positive(value)?,
            "silence" => self.silence = Some(positive(value)?),
            "cooldown" => self.cooldown = seconds(value)?,
            "block" => self.block = seconds(value)?,
            "handshake" => self.handshake = positive(value)?,
            "synchrony" => self.synchrony = seconds(value)?,
            "largest-set" => self.largest_set = parsed::<NonZeroUsize>(value)?.get(),
            "gossip-count" => self.gossip_count = Some(parsed::<NonZeroUsize>(value)?.get()),
            "max-data" => self.max_data = parsed(value)?,
            "max-sets" => self.max_sets = parsed(value)?,
            "dial-fail-limit" => self.dial_fail_limit = parsed(value)?,
            "max-handshakes" => self.max_handshakes = parsed::<NonZeroUsize>(value)?.get(),
            "max-connections" => self.max_connections = parsed::<NonZeroUsize>(value)?.get(),
            "burst" => self.burst = parsed(value)?,
            "refill" => self.refill = parsed(value)?,
            "ledger" => self.ledger = Some(value.into()),
            "record" => self.record = Some(value.into()),
            "record-limit" => self.record_limit = parsed(value)?,
            "break" if cfg!(feature = "broken") => self.broken = Some(value.parse()?),
            _ => return Err("unknown setting: see p2p-node run --help".to_owned()),
        }
        Ok(())
    }

    /// Refuses settings that don't go together.
    fn judge(&self) -> Result<(), String> {
        let missing = [
            ("key", self.key.as_os_str().is_empty()),
            ("namespace", self.namespace.is_empty()),
            ("sets", self.sets.as_os_str().is_empty()),
        ];
        if let Some((name, _)) = missing.iter().find(|(_, is_missing)| *is_missing) {
            return Err(format!("--{name} is missing: see p2p-node run --help"));
        }
        if self.gossip_count() > self.largest_set {
            return Err("--gossip-count: more than --largest-set".to_owned());
        }
        if self.frame_limit().is_none() {
            return Err("--largest-set, --max-data: frames have at most 4 GiB".to_owned());
        }
        if self.burst == 0 || self.refill == 0 {
            return Err("--burst, --refill: at least 1".to_owned());
        }
        if self.address.is_none() && self.listen.ip().is_unspecified() {
            let listen = self.listen;
            return Err(format!(
                "--listen {listen}: peers can't dial that, so --address has to say what they can"
            ));
        }
        Ok(())
    }

    /// The maximum number of infos in a reply.
    #[must_use]
    pub fn gossip_count(&self) -> usize {
        self.gossip_count.unwrap_or(self.largest_set)
    }

    /// How long a peer may take to send or to read a frame.
    #[must_use]
    pub fn silence(&self) -> Duration {
        let silence = self.silence;
        silence.unwrap_or_else(|| self.tick.saturating_mul(SILENT_TICKS))
    }

    /// Whether the node breaks this rule. Without the feature `broken` it breaks none.
    #[must_use]
    pub fn breaks(&self, rule: Rule) -> bool {
        cfg!(feature = "broken") && self.broken == Some(rule)
    }

    /// The settings of the directory. Names are never dialled, since they may lead anywhere.
    #[must_use]
    pub fn directory(&self) -> Config {
        Config {
            allow_private_ips: self.allow_private_ips,
            allow_dns: false,
            max_sets: self.max_sets,
            dial_fail_limit: self.dial_fail_limit,
            peer_connection_cooldown: self.cooldown,
            block_duration: self.block,
        }
    }

    /// The limits under which frames are decoded.
    #[must_use]
    pub fn payload(&self) -> PayloadConfig {
        PayloadConfig {
            max_bit_vec: self.largest_set as u64,
            max_peers: self.largest_set,
            max_data_length: self.max_data,
        }
    }

    /// The maximum length of a frame, in bytes: that of gossip or of data, whichever is greater. It
    /// is `None` if the length doesn't fit the four bytes before a frame.
    #[must_use]
    pub fn frame_limit(&self) -> Option<u32> {
        let gossip = max_gossip_size(self.largest_set as u64, self.largest_set)?;
        let data = self.max_data.checked_add(MAX_PAYLOAD_OVERHEAD as usize)?;
        u32::try_from(gossip.max(data)).ok()
    }

    /// Says what is likely to be a mistake: an own address that peers don't dial.
    #[must_use]
    pub fn advice(&self, address: &Ingress) -> Option<String> {
        match address {
            Ingress::Socket(socket) if !is_global(socket.ip()) && !self.allow_private_ips => {
                Some(format!(
                    "{address} is a private address: peers dial it only with --allow-private-ips true"
                ))
            }
            Ingress::Dns { .. } => Some(format!("{address} is a name: peers dial no names")),
            Ingress::Socket(_) => None,
        }
    }
}

fn parsed<T: FromStr<Err: std::fmt::Display>>(text: &str) -> Result<T, String> {
    text.parse().map_err(|error: T::Err| error.to_string())
}

/// A duration in seconds, such as `0.2`.
fn seconds(text: &str) -> Result<Duration, String> {
    let seconds: f64 = parsed(text)?;
    if !(0.0..=LONGEST).contains(&seconds) {
        return Err(format!("not between 0 and {LONGEST} seconds"));
    }
    Duration::try_from_secs_f64(seconds).map_err(|error| error.to_string())
}

fn positive(text: &str) -> Result<Duration, String> {
    match seconds(text)? {
        Duration::ZERO => Err("it must be more than 0 seconds".to_owned()),
        duration => Ok(duration),
    }
}

/// A key and an address, as `KEY@IP:PORT`.
fn bootstrapper(text: &str) -> Result<(Key, Ingress), String> {
    let (key, ingress) = text.split_once('@').ok_or("not of the form KEY@IP:PORT")?;
    let key = parsed(key).map_err(|why| format!("the key: {why}"))?;
    match parsed(ingress).map_err(|why| format!("the address: {why}"))? {
        Ingress::Dns { .. } => Err(format!(
            "{ingress} is a name, and names aren't dialled: it takes KEY@IP:PORT"
        )),
        ingress @ Ingress::Socket(_) => Ok((key, ingress)),
    }
}

#[cfg(test)]
mod tests {
    use super::*;

    fn parse(words: &str) -> Result<Option<Settings>, String> {
        let words: Vec<String> = words.split_whitespace().map(str::to_owned).collect();
        Settings::parse(&words)
    }

    const REQUIRED: &str = "--key k --namespace n --sets s";

    #[test]
    fn the_defaults_are_those_of_the_guide() {
        let settings = parse(REQUIRED).unwrap().unwrap();
        assert_eq!(settings.tick, Duration::from_secs(30));
        assert_eq!(settings.silence(), Duration::from_secs(90));
        assert_eq!(settings.handshake, Duration::from_secs(5));
        assert_eq!(settings.synchrony, Duration::from_secs(5));
        assert_eq!(settings.max_handshakes, 64);
        let config = settings.directory();
        assert_eq!(config.peer_connection_cooldown, Duration::from_secs(60));
        assert_eq!(config.block_duration, Duration::from_secs(14_400));
        assert_eq!((config.max_sets.get(), config.dial_fail_limit), (4, 2));
        assert!(!config.allow_private_ips && !config.allow_dns);
    }

    #[test]
    fn a_later_value_counts_and_fractions_are_durations() {
        let words = format!("{REQUIRED} --tick 1 --tick 0.2 --cooldown 1 --dial-fail-limit 1");
        let settings = parse(&words).unwrap().unwrap();
        assert_eq!(settings.tick, Duration::from_millis(200));
        assert_eq!(settings.silence(), Duration::from_millis(600));
        assert_eq!(settings.cooldown, Duration::from_secs(1));
        assert_eq!(settings.dial_fail_limit, 1);
    }

    #[test]
    fn the_frame_limit_is_that_of_the_longer_kind() {
        // An info has at most 367 bytes, a prefix 1 and the length of a list 5; a message has a
        // header of at most 16.
        let of = |words: &str| {
            parse(&format!("{REQUIRED} {words}"))?
                .unwrap()
                .frame_limit()
                .ok_or("none".to_owned())
        };
        assert_eq!(of("--largest-set 10 --max-data 100"), Ok(1 + 5 + 10 * 367));
        assert_eq!(of("--largest-set 10 --max-data 10000"), Ok(10_016));
        assert!(of("--max-data 4294967296").is_err());
    }

    #[test]
    fn refuses_what_it_does_not_understand() {
        for (words, why) in [
            ("--key k --sets s", "--namespace is missing"),
            ("--namespace n --sets s", "--key is missing"),
            ("key", "key: not a flag"),
            ("--key", "--key: it has no value"),
            ("--colour red", "--colour red: unknown setting"),
            ("--tick 0", "--tick 0: it must be more than 0"),
            ("--tick -1", "--tick -1: not between"),
            ("--tick NaN", "--tick NaN: not between"),
            ("--tick soon", "--tick soon: invalid float"),
            ("--max-sets 0", "--max-sets 0: number would be zero"),
            ("--listen here", "--listen here: invalid socket address"),
            ("--bootstrapper 12", "not of the form KEY@IP:PORT"),
            (
                "--bootstrapper 12@1.2.3.4:5",
                "the key: invalid number of digits",
            ),
            (
                "--break leaks",
                if cfg!(feature = "broken") {
                    "is missing"
                } else {
                    "unknown setting"
                },
            ),
        ] {
            let error = parse(words).unwrap_err();
            assert!(error.contains(why), "{words}: {error}");
        }
        let apart = [
            ("--gossip-count 257", "more than --largest-set"),
            ("--listen 0.0.0.0:1", "--address has to say"),
            ("--burst 0", "at least 1"),
        ];
        for (words, why) in apart {
            let error = parse(&format!("{REQUIRED} {words}")).unwrap_err();
            assert!(error.contains(why), "{words}: {error}");
        }
    }

    #[test]
    fn a_bootstrapper_has_no_name() {
        let key = Key([7; 32]);
        let of = |address: &str| parse(&format!("{REQUIRED} --bootstrapper {key}@{address}"));
        for address in ["1.2.3.4:5", "[2001:db8::1]:5"] {
            let settings = of(address).unwrap().unwrap();
            assert_eq!(settings.bootstrappers.len(), 1);
        }
        let error = of("localhost:5").unwrap_err();
        let why = "localhost:5 is a name, and names aren't dialled: it takes KEY@IP:PORT";
        assert!(error.contains(why), "{error}");
    }

    #[test]
    fn help_and_the_read_me_name_each_setting() {
        let readme = include_str!("../README.md");
        let source = include_str!("settings.rs");
        let (_, arms) = source
            .split_once("match name {\n            \"key\"")
            .unwrap();
        let (arms, _) = arms.split_once("\"break\"").unwrap();
        let names = arms
            .lines()
            .filter_map(|line| line.trim().strip_prefix('"')?.split('"').next());
        let names: Vec<&str> = names.collect();
        assert_eq!(names.len(), 24);
        for name in names {
            assert!(HELP.contains(&format!("  --{name} ")), "{name}");
            assert!(readme.contains(&format!("| `--{name} ")), "{name}");
        }
    }
}
