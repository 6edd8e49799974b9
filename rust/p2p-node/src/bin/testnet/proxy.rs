//! Proxies: each node is reached by others through one alone.

use crate::clock::now;
use crate::loss::{Loss, Losses, SEGMENT};
use crate::scan::{CLAIM, Scanner};
use crate::traffic::Traffic;
use crate::weather::{Fault, Passage, Side, Weather};
use p2p_directory::Key;
use p2p_node::simulate::Random;
use std::io::{self, Read, Write};
use std::net::{IpAddr, Shutdown, SocketAddr, TcpListener, TcpStream};
use std::sync::atomic::{AtomicBool, AtomicU64, Ordering};
use std::sync::{Arc, Mutex, MutexGuard, PoisonError};
use std::thread;
use std::time::{Duration, Instant};

/// The stack of a thread, in bytes.
const STACK: usize = 256 << 10;

/// How many bytes are read at a time.
const PIECE: usize = 16 << 10;

/// How long a dialer may take to claim a key.
const PATIENCE: Duration = Duration::from_secs(10);

/// An open connection, with the keys of its ends once the dialer has claimed one.
struct Open {
    number: u64,
    keys: [Key; 2],
    streams: [TcpStream; 2],
}

/// What the proxies of a network share.
pub struct Proxies {
    address: IpAddr,
    traffic: Mutex<Traffic>,
    weather: Mutex<Weather>,
    open: Mutex<Vec<Open>>,
    numbers: AtomicU64,
    faults: AtomicU64,
    losses: Losses,
    is_over: AtomicBool,
}

/// The proxy of one address of a node.
#[derive(Debug)]
pub struct Proxy {
    /// Where others reach the node.
    pub address: SocketAddr,
    owner: Key,
    target: Mutex<Option<(SocketAddr, usize)>>,
}

fn locked<T>(mutex: &Mutex<T>) -> MutexGuard<'_, T> {
    mutex.lock().unwrap_or_else(PoisonError::into_inner)
}

impl Proxy {
    /// Sets where the node listens, and the number of its life.
    pub fn lead_to(&self, target: Option<(SocketAddr, usize)>) {
        *locked(&self.target) = target;
    }
}

impl Proxies {
    /// Proxies at this address that report to a log of traffic.
    pub fn new(traffic: Traffic, address: IpAddr) -> Arc<Proxies> {
        Arc::new(Proxies {
            address,
            traffic: Mutex::new(traffic),
            weather: Mutex::new(Weather::Clear),
            open: Mutex::new(Vec::new()),
            numbers: AtomicU64::new(0),
            faults: AtomicU64::new(0),
            losses: Losses::default(),
            is_over: AtomicBool::new(false),
        })
    }

    /// What was seen.
    pub fn traffic(&self) -> MutexGuard<'_, Traffic> {
        locked(&self.traffic)
    }

    /// How many connections were refused, slowed, held or cut.
    pub fn faults(&self) -> u64 {
        self.faults.load(Ordering::Relaxed)
    }

    /// How many segments were lost.
    pub fn losses(&self) -> &Losses {
        &self.losses
    }

    /// Changes the weather. Open connections between halves end.
    pub fn set_weather(&self, weather: Weather) {
        *locked(&self.weather) = weather.clone();
        for open in locked(&self.open).iter() {
            let [one, other] = &open.keys;
            if weather.parts(one, other) {
                end(&open.streams);
            }
        }
    }

    /// Ends all connections of a node.
    pub fn disconnect(&self, node: &Key) {
        let open = locked(&self.open);
        let of_it = open.iter().filter(|open| open.keys.contains(node));
        of_it.for_each(|open| end(&open.streams));
    }

    /// Starts a proxy for a node.
    ///
    /// # Errors
    ///
    /// That of the system.
    pub fn start(self: &Arc<Self>, owner: Key) -> io::Result<Arc<Proxy>> {
        let listener = TcpListener::bind((self.address, 0))?;
        let proxy = Arc::new(Proxy {
            address: listener.local_addr()?,
            owner,
            target: Mutex::new(None),
        });
        let (proxies, accepting) = (Arc::clone(self), Arc::clone(&proxy));
        spawn(move || {
            for stream in listener.incoming() {
                if proxies.is_over.load(Ordering::Relaxed) {
                    return;
                }
                let Ok(stream) = stream else {
                    thread::sleep(Duration::from_millis(20));
                    continue;
                };
                let (proxies, proxy) = (Arc::clone(&proxies), Arc::clone(&accepting));
                // A thread that can't be started drops the stream, which refuses the connection.
                let _ = spawn(move || drop(serve(&proxies, &proxy, stream)));
            }
        })?;
        Ok(proxy)
    }

    /// Lets the threads of these proxies end.
    pub fn stop(&self, proxies: &[Arc<Proxy>]) {
        self.is_over.store(true, Ordering::Relaxed);
        locked(&self.open)
            .iter()
            .for_each(|open| end(&open.streams));
        for proxy in proxies {
            let _ = TcpStream::connect(proxy.address);
        }
    }

    fn fault(&self, number: u64) -> Fault {
        let fault = locked(&self.weather).fault(number);
        if fault != Fault::None {
            self.faults.fetch_add(1, Ordering::Relaxed);
        }
        fault
    }

    /// Lists a connection, unless its ends are parted.
    fn list(&self, open: Open) -> Option<()> {
        // The lock of the weather is held, so that a change of it finds the connection in the list.
        let weather = locked(&self.weather);
        let [one, other] = &open.keys;
        if weather.parts(one, other) {
            return None;
        }
        locked(&self.open).push(open);
        Some(())
    }
}

fn spawn(work: impl FnOnce() + Send + 'static) -> io::Result<()> {
    let builder = thread::Builder::new().stack_size(STACK);
    builder.spawn(work).map(drop)
}

/// Ends both streams. The other side may have ended them before.
fn end(streams: &[TcpStream; 2]) {
    for stream in streams {
        let _ = stream.shutdown(Shutdown::Both);
    }
}

/// Connects to the node, and carries what a dialer sends to it and back, until either ends.
fn serve(proxies: &Arc<Proxies>, proxy: &Proxy, mut dialer: TcpStream) -> io::Result<()> {
    let begun = now();
    let number = proxies.numbers.fetch_add(1, Ordering::Relaxed);
    let fault = proxies.fault(number);
    let target = *locked(&proxy.target);
    let (Some((address, life)), true) = (target, fault != Fault::Refused) else {
        return Ok(());
    };
    let listener = TcpStream::connect_timeout(&address, PATIENCE)?;
    for stream in [&dialer, &listener] {
        stream.set_nodelay(true)?;
    }
    let (claim, key) = read_claim(&mut dialer)?;
    let open = Open {
        number,
        keys: [key, proxy.owner],
        streams: [dialer.try_clone()?, listener.try_clone()?],
    };
    if proxies.list(open).is_none() {
        return Ok(());
    }
    let place = proxies.traffic().begin(begun, key, (proxy.owner, life));
    let pipe = |side| Pipe {
        proxies: Arc::clone(proxies),
        place,
        side,
        fault,
        passed: 0,
        scanner: Scanner::default(),
        // Each direction of each connection has a seed of its own.
        random: Random::new(2 * number + u64::from(side == Side::Listener)),
    };
    let carried = carry_both(pipe, &claim, dialer, listener);
    let mut all = locked(&proxies.open);
    if let Some(place) = all.iter().position(|open| open.number == number) {
        end(&all.swap_remove(place).streams);
    }
    carried
}

/// Reads the bytes in which a dialer claims a key.
fn read_claim(dialer: &mut TcpStream) -> io::Result<([u8; CLAIM], Key)> {
    dialer.set_read_timeout(Some(PATIENCE))?;
    let mut claim = [0; CLAIM];
    dialer.read_exact(&mut claim)?;
    dialer.set_read_timeout(None)?;
    let mut scanner = Scanner::default();
    scanner.take(&claim);
    let key = scanner.key().ok_or(io::ErrorKind::InvalidData)?;
    Ok((claim, key))
}

/// Carries both directions, of which one has begun with these bytes.
fn carry_both(
    pipe: impl Fn(Side) -> Pipe,
    claim: &[u8],
    dialer: TcpStream,
    mut listener: TcpStream,
) -> io::Result<()> {
    let (from, to) = (listener.try_clone()?, dialer.try_clone()?);
    let back = pipe(Side::Listener);
    spawn(move || back.run(from, to))?;
    let mut forth = pipe(Side::Dialer);
    match forth.carry(claim, &mut listener)? {
        true => forth.run(dialer, listener),
        false => end(&[dialer, listener]),
    }
    Ok(())
}

/// One direction of a connection.
struct Pipe {
    proxies: Arc<Proxies>,
    place: usize,
    side: Side,
    fault: Fault,
    passed: usize,
    scanner: Scanner,
    random: Random,
}

impl Pipe {
    /// Carries bytes until either stream ends, and then ends both.
    fn run(mut self, mut from: TcpStream, mut to: TcpStream) {
        let mut piece = vec![0; PIECE];
        while let Ok(count @ 1..) = from.read(&mut piece) {
            match self.carry(&piece[..count], &mut to) {
                Ok(true) => {}
                Ok(false) | Err(_) => break,
            }
        }
        end(&[from, to]);
    }

    /// Carries these bytes as the fault permits, and returns whether the connection goes on.
    fn carry(&mut self, bytes: &[u8], to: &mut impl Write) -> io::Result<bool> {
        let (arrived, sent) = (now(), Instant::now());
        let passage = self.fault.passage(self.side, self.passed, bytes.len());
        let (count, goes_on) = match passage {
            Passage::Pass(count) => (count, true),
            Passage::End(count) => (count, false),
        };
        self.passed += bytes.len();
        let bytes = bytes.get(..count).unwrap_or_default();
        if bytes.is_empty() {
            return Ok(goes_on);
        }
        if let Fault::Slow(time) = self.fault {
            thread::sleep(time);
        }
        let loss = locked(&self.proxies.weather).loss();
        let Some(loss) = loss else {
            self.deliver(bytes, arrived, to)?;
            return Ok(goes_on);
        };
        for segment in bytes.chunks(SEGMENT) {
            if !self.receive(&loss, sent) {
                return Ok(false);
            }
            self.deliver(segment, arrived, to)?;
        }
        Ok(goes_on)
    }

    /// Waits for a segment that was sent at this time, and returns whether it arrives.
    fn receive(&mut self, loss: &Loss, sent: Instant) -> bool {
        let arrival = loss.arrival(&mut self.random);
        self.proxies.losses.count(&arrival);
        thread::sleep(arrival.after.saturating_sub(sent.elapsed()));
        arrival.is_whole
    }

    /// Delivers these bytes, and reports what ends in them.
    fn deliver(&mut self, bytes: &[u8], arrived: Duration, to: &mut impl Write) -> io::Result<()> {
        let had_signed = self.scanner.has_signed();
        let frames = self.scanner.take(bytes);
        self.report_handshake(had_signed, arrived);
        to.write_all(bytes)?;
        if !frames.is_empty() {
            let mut traffic = self.proxies.traffic();
            for frame in frames {
                traffic.deliver(self.place, self.side, frame);
            }
        }
        Ok(())
    }

    fn report_handshake(&self, had_signed: bool, arrived: Duration) {
        let Pipe { place, side, .. } = *self;
        if had_signed {
            self.proxies.traffic().begin_frames(place, side, arrived);
        } else if self.scanner.has_signed() {
            self.proxies.traffic().sign(place, side, now());
        }
    }
}

#[cfg(test)]
mod tests {
    use super::*;
    use std::net::Ipv4Addr;

    /// How long a test waits for what has to arrive.
    const WITHIN: Duration = Duration::from_secs(60);

    /// What a dialer claims.
    const CLAIMED: [u8; CLAIM] = [7; CLAIM];

    /// The ends of a connection through a proxy under this loss, of which the dialer has sent its
    /// claim.
    fn connected(loss: Loss) -> (Arc<Proxies>, [TcpStream; 2]) {
        let proxies = Proxies::new(Traffic::default(), Ipv4Addr::LOCALHOST.into());
        proxies.set_weather(Weather::Lossy(loss));
        let proxy = proxies.start(Key([1; 32])).unwrap();
        let node = TcpListener::bind((Ipv4Addr::LOCALHOST, 0)).unwrap();
        proxy.lead_to(Some((node.local_addr().unwrap(), 0)));
        let mut dialer = TcpStream::connect(proxy.address).unwrap();
        dialer.write_all(&CLAIMED).unwrap();
        let (listener, _) = node.accept().unwrap();
        for stream in [&dialer, &listener] {
            stream.set_read_timeout(Some(WITHIN)).unwrap();
        }
        (proxies, [dialer, listener])
    }

    /// A megabyte of which no part is like another.
    fn megabyte() -> Vec<u8> {
        let mut random = Random::new(5);
        let numbers = (0..1 << 17).map(|_| random.number());
        numbers.flat_map(u64::to_be_bytes).collect()
    }

    #[test]
    fn under_loss_all_bytes_arrive_in_order() {
        let third = Loss {
            probability: 1.0 / 3.0,
            timeout: Duration::from_micros(100),
            most: 40,
        };
        let (proxies, [mut dialer, mut listener]) = connected(third);
        let bytes = megabyte();
        let expected = [&CLAIMED, bytes.as_slice()].concat();
        let sending = thread::spawn(move || {
            dialer.write_all(&bytes).unwrap();
            dialer
        });
        let mut arrived = vec![0; expected.len()];
        listener.read_exact(&mut arrived).unwrap();
        assert!(arrived == expected);
        let [segments, lost, broken] = proxies.losses().counts();
        assert!(segments >= (expected.len() / SEGMENT) as u64, "{segments}");
        // 1/3 + 1/9 + 1/27 .. of each segment.
        let half = segments / 2;
        assert!(lost.abs_diff(half) < segments / 8, "{lost} of {segments}");
        assert_eq!(broken, 0);
        drop(sending.join().unwrap());
    }

    #[test]
    fn certain_loss_breaks_the_connection() {
        let certain = Loss {
            probability: 1.0,
            timeout: Duration::from_millis(10),
            most: 6,
        };
        let begin = Instant::now();
        let (proxies, ends) = connected(certain);
        for mut end in ends {
            // The end of the stream, or an error if what was sent wasn't read.
            let read = end.read(&mut [0]);
            assert!(
                !matches!(&read, Ok(1..))
                    && !matches!(&read, Err(error) if error.kind() == io::ErrorKind::WouldBlock),
                "{read:?}"
            );
        }
        // 10 * (1 + 2 + 4 + 8 + 16) milliseconds.
        let passed = begin.elapsed();
        assert!(passed >= Duration::from_millis(310), "{passed:?}");
        assert_eq!(proxies.losses().counts(), [1, 6, 1]);
    }

    #[test]
    fn without_loss_no_segment_is_counted() {
        let (proxies, [mut dialer, mut listener]) = connected(Loss {
            probability: 0.0,
            ..Loss::FIFTH
        });
        proxies.set_weather(Weather::Clear);
        listener.read_exact(&mut [0; CLAIM]).unwrap();
        let [before, lost, _] = proxies.losses().counts();
        assert_eq!(lost, 0);
        dialer.write_all(b"hello").unwrap();
        let mut hello = [0; 5];
        listener.read_exact(&mut hello).unwrap();
        assert_eq!(&hello, b"hello");
        assert_eq!(proxies.losses().counts(), [before, 0, 0]);
    }
}
