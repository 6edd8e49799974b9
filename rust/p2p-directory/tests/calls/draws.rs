//! How a list of calls is decoded from bytes.

use super::call::Call;
use p2p_directory::sized::testing::{NAMESPACE, info, key, sign};
use p2p_directory::sized::{Bytes, Info, Pair, Payload, Setup};
use p2p_directory::{BitVec, Config, Data, Hostname, Ingress, Moment, PayloadConfig};
use std::marker::PhantomData;
use std::net::{Ipv6Addr, SocketAddr};
use std::num::NonZeroUsize;
use std::time::Duration;

/// The local key.
const OWN: u16 = 9;

/// The rest of the bytes from which calls are made. Each decision takes a byte, which is 0 after
/// the end, so any bytes describe calls.
pub struct Draws<'a, P> {
    bytes: &'a [u8],
    pair: PhantomData<P>,
}

impl<P: Pair> Draws<'_, P> {
    pub fn of(bytes: &[u8]) -> Draws<'_, P> {
        Draws {
            bytes,
            pair: PhantomData,
        }
    }

    fn byte(&mut self) -> u8 {
        self.bytes.split_off_first().copied().unwrap_or(0)
    }

    // A byte can choose among at most 256 numbers.
    fn below(&mut self, end: u64) -> u64 {
        u64::from(self.byte()) % end
    }

    fn one<T: Clone>(&mut self, choices: &[T]) -> T {
        choices[self.below(choices.len() as u64) as usize].clone()
    }

    fn truth(&mut self) -> bool {
        self.below(2) == 1
    }

    // One of few peers, so that calls concern the same peers.
    fn peer(&mut self) -> P::Key {
        key::<P>(self.one(&[1, 1, 1, 2, 2, 3, 4, 5, OWN]))
    }

    // Mostly three peers, so that their number is often that of the bits.
    fn peers(&mut self) -> Vec<P::Key> {
        let all = [1, 2, 3, 4, 5, OWN].map(key::<P>);
        let first = self.below(6) as usize;
        match self.below(4) {
            0 => all.into_iter().filter(|_| self.truth()).collect(),
            _ => all.into_iter().cycle().skip(first).take(3).collect(),
        }
    }

    // Times that mostly advance with the calls, and may go backwards.
    fn moment(&mut self, step: usize) -> Moment {
        let passed = Duration::from_millis(500) * step as u32;
        let sooner = Duration::from_secs(self.below(12));
        let nanos = Duration::from_nanos(self.one(&[0, 1, 999_999, 1_000_000, 999_999_999]));
        match self.below(60) {
            0 => Moment::MAX,
            1 => Moment::EPOCH,
            _ => Moment::from(Duration::from_secs(100) + passed - sooner + nanos),
        }
    }

    fn draw(&mut self) -> Duration {
        let seconds = self.below(12);
        self.one(&[
            Duration::ZERO,
            Duration::from_nanos(1),
            Duration::from_secs(seconds),
            Duration::MAX,
        ])
    }

    fn ingress(&mut self) -> Ingress {
        let port = self.one(&[80, 81]);
        let version_6 = |address: Ipv6Addr| SocketAddr::from((address, port)).into();
        match self.below(6) {
            0 | 1 => SocketAddr::from(([8, 8, 8, 8], port)).into(),
            2 => SocketAddr::from(([10, 0, 0, 1], port)).into(),
            3 => version_6(Ipv6Addr::LOCALHOST),
            4 => version_6(Ipv6Addr::new(0x2600, 0, 0, 0, 0, 0, 0, 1)),
            _ => Ingress::Dns {
                host: Hostname::new("a.example").expect("a name"),
                port,
            },
        }
    }

    fn info(&mut self, step: usize) -> Info<P> {
        let public_key = self.peer();
        let recent = 500 * (180 + step as u64 + self.below(120));
        let timestamp = self.one(&[0, 1, 2, 100_000, recent, recent, recent, u64::MAX]);
        let is_right = self.below(6) > 0;
        let ingress = self.ingress();
        Info::<P>::sign(
            public_key,
            NAMESPACE,
            ingress,
            timestamp,
            |namespace, message| match is_right {
                true => sign::<P>(&public_key, namespace, message),
                false => P::Signature::of_bytes(&vec![1; P::SIGNATURE_SIZE]).expect("bytes"),
            },
        )
    }

    fn infos(&mut self, step: usize) -> Vec<Info<P>> {
        let count = self.below(4);
        (0..count).map(|_| self.info(step)).collect()
    }

    // Indices that mostly rise with the calls.
    fn index(&mut self, step: usize) -> u64 {
        let tracked = step as u64 / 8;
        match self.below(100) {
            0 => u64::MAX,
            _ => tracked.saturating_sub(self.below(3)),
        }
    }

    fn bit_vec(&mut self, step: usize) -> BitVec {
        let count = self.one(&[3, 3, 3, 3, 2, 4, 0]);
        BitVec {
            index: self.index(step),
            bits: (0..count).map(|_| self.truth()).collect(),
        }
    }

    fn payload(&mut self, step: usize) -> Payload<P> {
        match self.below(8) {
            0..3 => Payload::Greeting(self.info(step)),
            3..5 => Payload::BitVec(self.bit_vec(step)),
            5..7 => Payload::Peers(self.infos(step)),
            _ => Payload::Data(Data {
                channel: u64::from_be_bytes([(); 8].map(|()| self.byte())),
                message: vec![7; self.below(6) as usize],
            }),
        }
    }

    fn place(&mut self) -> usize {
        self.one(&[0, 0, 0, 1, 2, usize::MAX])
    }

    fn change(&mut self, step: usize) -> Call<P> {
        let now = self.moment(step);
        match self.below(24) {
            0..3 => Call::Track(self.index(step), self.peers(), self.peers()),
            3..7 => Call::Dial(self.peer(), now, self.draw()),
            7..9 => Call::Listen(self.peer(), now, self.draw()),
            9..12 => Call::Connect(self.peer(), self.truth()),
            12 => Call::ConnectReserved(self.peer()),
            13..16 => Call::Release(self.peer()),
            16 => Call::Abandon(self.peer()),
            17..20 => Call::Update(self.infos(step)),
            20 => Call::Block(self.peer(), now),
            21 => Call::UnblockExpired(now),
            22 => Call::ForgetCooled(now),
            _ => Call::Receive(self.payload(step), now),
        }
    }

    fn question(&mut self, step: usize) -> Call<P> {
        let now = self.moment(step);
        match self.below(18) {
            0 => Call::NextUnblock,
            1 => Call::BlockedPeers(now),
            2 => Call::PeerSet(self.index(step)),
            3 => Call::LatestUpdate,
            4 => Call::LatestSetIndex,
            5 => Call::All,
            6 => Call::Status(self.peer()),
            7 => Call::Info(self.peer()),
            8 | 9 => Call::Infos(self.bit_vec(step), now),
            10 | 11 => Call::Bits(self.place()),
            12 => Call::Ask(self.place()),
            13 => Call::Eligible(self.peer(), now),
            14 => Call::Acceptable(self.peer(), now),
            15 | 16 => Call::Dialable(now),
            _ => Call::Tracked,
        }
    }

    /// The remaining calls, at most so many. A peer that is dialled or accepted is often connected
    /// next.
    pub fn calls(&mut self, most: usize) -> Vec<Call<P>> {
        let mut calls: Vec<Call<P>> = Vec::new();
        while calls.len() < most && !self.bytes.is_empty() {
            let step = calls.len();
            let next = match calls.last() {
                Some(Call::Dial(peer, ..) | Call::Listen(peer, ..)) if self.truth() => {
                    match self.truth() {
                        true => Call::Connect(*peer, self.truth()),
                        false => Call::ConnectReserved(*peer),
                    }
                }
                _ if self.below(5) < 3 => self.change(step),
                _ => self.question(step),
            };
            calls.push(next);
        }
        calls
    }

    /// The settings of a node.
    pub fn setup(&mut self) -> Setup<P> {
        let halves = |halves: u64| Duration::from_millis(500) * halves as u32;
        let bootstrappers = [3, 4, 3, OWN].map(|number| (key::<P>(number), self.ingress()));
        let count = self.below(5) as usize;
        Setup {
            bootstrappers: bootstrappers[..count].to_vec(),
            myself: info(OWN, self.one(&[0, 100_000, u64::MAX])),
            cfg: Config {
                allow_private_ips: self.truth(),
                allow_dns: self.truth(),
                max_sets: NonZeroUsize::new(1 + self.below(3) as usize).expect("above 0"),
                dial_fail_limit: self.below(4) as usize,
                peer_connection_cooldown: halves(self.one(&[0, 1, 3, 21]))
                    + Duration::from_nanos(self.below(10)),
                block_duration: halves(self.one(&[0, 1, 41])) + Duration::from_nanos(self.below(2)),
            },
            payload: PayloadConfig {
                max_bit_vec: 3 + self.below(4),
                max_peers: 1 + self.below(3) as usize,
                max_data_length: 4,
            },
            peer_gossip_max_count: self.below(4) as usize,
            synchrony_bound: halves(self.below(90)) + Duration::from_nanos(self.below(2)),
            namespace: NAMESPACE.to_vec(),
        }
    }
}
