//! Bounds: how many of something there may be at a time, and how often something may happen.

use p2p_directory::{Key, Moment};
use std::collections::HashMap;
use std::net::{IpAddr, Ipv6Addr};
use std::sync::atomic::{AtomicUsize, Ordering};
use std::sync::{Arc, Mutex, MutexGuard, PoisonError};
use std::time::{Duration, Instant};

/// A number of slots, of which one is taken for each thing that exists.
#[derive(Debug)]
pub struct Slots {
    taken: AtomicUsize,
    most: usize,
}

/// A slot that is taken until it is dropped.
#[derive(Debug)]
pub struct Slot(Arc<Slots>);

impl Slots {
    /// So many slots, all of them free.
    #[must_use]
    pub fn new(most: usize) -> Arc<Slots> {
        Arc::new(Slots {
            taken: AtomicUsize::new(0),
            most,
        })
    }

    /// Takes a slot, or returns `None` if all are taken.
    #[must_use]
    pub fn take(self: &Arc<Self>) -> Option<Slot> {
        let more = |taken| (taken < self.most).then_some(taken + 1);
        let taken = self
            .taken
            .fetch_update(Ordering::AcqRel, Ordering::Acquire, more);
        taken.ok().map(|_| Slot(Arc::clone(self)))
    }

    /// How many slots are taken.
    #[must_use]
    pub fn taken(&self) -> usize {
        self.taken.load(Ordering::Acquire)
    }
}

impl Drop for Slot {
    fn drop(&mut self) {
        self.0.taken.fetch_sub(1, Ordering::AcqRel);
    }
}

/// What has come from addresses, such as streams whose dialer has proved no key. So many may wait at
/// a time, and so many of one address.
#[derive(Debug)]
pub struct Arrivals<T> {
    most: usize,
    of_address: usize,
    // The oldest one comes first.
    waiting: Mutex<Vec<(IpAddr, Arc<T>)>>,
}

/// An arrival that waits until it is dropped, or gives way to another one.
#[derive(Debug)]
pub struct Arrival<T> {
    arrivals: Arc<Arrivals<T>>,
    what: Arc<T>,
}

impl<T> Arrivals<T> {
    /// No arrivals, of which `most` may wait at a time, and `of_address` of one address.
    #[must_use]
    pub fn new(most: usize, of_address: usize) -> Arc<Arrivals<T>> {
        Arc::new(Arrivals {
            most,
            of_address,
            waiting: Mutex::new(Vec::new()),
        })
    }

    /// Lets `what` wait, or returns `None` if as many of its address wait as may, or there is no
    /// memory. If as many of all addresses wait as may, the oldest of the address that has most
    /// gives way, and is returned too.
    ///
    /// Addresses of IPv6 are the same if their first 64 bits are. One that maps an address of IPv4
    /// counts as that address.
    #[must_use]
    pub fn take(
        self: &Arc<Self>,
        address: IpAddr,
        what: &Arc<T>,
    ) -> Option<(Arrival<T>, Option<Arc<T>>)> {
        let source = source(address);
        let mut waiting = self.lock();
        let count = |source| waiting.iter().filter(|(other, _)| *other == source).count();
        if count(source) >= self.of_address {
            return None;
        }
        // Of several places the last one is taken, which is that of the oldest.
        let places = || (0..waiting.len()).rev();
        let oldest = || places().max_by_key(|place| count(waiting[*place].0));
        let is_full = waiting.len() >= self.most;
        let gives_way = is_full.then(oldest).flatten();
        waiting.try_reserve(1).ok()?;
        let gone = gives_way.map(|place| waiting.remove(place).1);
        waiting.push((source, Arc::clone(what)));
        let (arrivals, what) = (Arc::clone(self), Arc::clone(what));
        Some((Arrival { arrivals, what }, gone))
    }

    /// How many wait.
    #[must_use]
    pub fn waiting(&self) -> usize {
        self.lock().len()
    }

    fn lock(&self) -> MutexGuard<'_, Vec<(IpAddr, Arc<T>)>> {
        self.waiting.lock().unwrap_or_else(PoisonError::into_inner)
    }
}

impl<T> Drop for Arrival<T> {
    fn drop(&mut self) {
        let mut waiting = self.arrivals.lock();
        waiting.retain(|(_, other)| !Arc::ptr_eq(other, &self.what));
    }
}

/// The part of an address that arrivals are counted by.
fn source(address: IpAddr) -> IpAddr {
    match address.to_canonical() {
        IpAddr::V6(address) => Ipv6Addr::from_bits(address.to_bits() & (!0 << 64)).into(),
        address => address,
    }
}

/// When peers were granted a connection, for as long as their cooldown lasts.
#[derive(Debug)]
pub struct Cooldowns {
    length: Duration,
    granted: HashMap<Key, Moment>,
}

impl Cooldowns {
    /// Cooldowns of this length, of no peer yet.
    #[must_use]
    pub fn new(length: Duration) -> Cooldowns {
        Cooldowns {
            length,
            granted: HashMap::new(),
        }
    }

    /// Begins the cooldown of a peer, and forgets those that are over. If there is no memory, it
    /// doesn't begin.
    pub fn begin(&mut self, peer: &Key, at: Moment) {
        let length = self.length;
        self.granted
            .retain(|_, granted| granted.saturating_add(length) > at);
        if self.granted.try_reserve(1).is_ok() {
            self.granted.insert(*peer, at);
        }
    }

    /// Whether no cooldown of the peer lasts at this time.
    #[must_use]
    pub fn is_over(&self, peer: &Key, at: Moment) -> bool {
        let granted = self.granted.get(peer);
        granted.is_none_or(|granted| granted.saturating_add(self.length) <= at)
    }
}

/// A token bucket. It is full at first, an event takes a token, and tokens come back with time.
/// Tokens may be taken before they are there.
#[derive(Clone, Debug)]
pub struct TokenBucket {
    burst: f64,
    a_second: f64,
    tokens: f64,
    since: Instant,
}

impl TokenBucket {
    /// A full bucket of `burst` tokens, into which `refill` tokens come in each tick.
    #[must_use]
    pub fn new(burst: u32, refill: u32, tick: Duration, now: Instant) -> TokenBucket {
        TokenBucket {
            burst: f64::from(burst),
            a_second: f64::from(refill) / tick.as_secs_f64(),
            tokens: f64::from(burst),
            since: now,
        }
    }

    /// Takes a token, and returns how long it takes until it is there: no time if there is one now.
    pub fn take(&mut self, now: Instant) -> Duration {
        let passed = now.saturating_duration_since(self.since).as_secs_f64();
        self.since = self.since.max(now);
        self.tokens = (self.tokens + passed * self.a_second).min(self.burst) - 1.0;
        let missing = (-self.tokens).max(0.0);
        Duration::try_from_secs_f64(missing / self.a_second).unwrap_or(Duration::MAX)
    }
}

#[cfg(test)]
mod tests {
    use super::*;
    use p2p_directory::testing::key;

    #[test]
    fn no_more_slots_are_taken_than_there_are() {
        let slots = Slots::new(2);
        let (one, two) = (slots.take(), slots.take());
        assert!(one.is_some() && two.is_some());
        assert!(slots.take().is_none());
        drop(one);
        assert_eq!(slots.taken(), 1);
        assert!(slots.take().is_some());
    }

    type Held = (Arrival<char>, Option<Arc<char>>);

    fn come(arrivals: &Arc<Arrivals<char>>, address: &str, what: char) -> Option<Held> {
        arrivals.take(address.parse().unwrap(), &Arc::new(what))
    }

    #[test]
    fn an_address_has_no_more_arrivals_than_it_may() {
        let arrivals = Arrivals::new(100, 2);
        let first = come(&arrivals, "10.0.0.1", 'a');
        let second = come(&arrivals, "10.0.0.1", 'b');
        assert!(first.is_some() && second.is_some());
        assert!(come(&arrivals, "10.0.0.1", 'c').is_none());
        assert!(come(&arrivals, "10.0.0.2", 'd').is_some());
        drop(first);
        assert!(come(&arrivals, "10.0.0.1", 'e').is_some());
    }

    #[test]
    fn an_address_is_its_first_64_bits_or_the_one_that_it_maps() {
        for (one, other, is_same) in [
            ("2001:db8:0:1::1", "2001:db8:0:1:ffff:ffff:ffff:ffff", true),
            ("2001:db8:0:1::1", "2001:db8:0:2::1", false),
            ("::ffff:10.0.0.1", "10.0.0.1", true),
            ("::ffff:10.0.0.1", "::ffff:10.0.0.2", false),
            ("10.0.0.1", "10.0.0.2", false),
        ] {
            let arrivals = Arrivals::new(100, 1);
            let _first = come(&arrivals, one, 'a').unwrap();
            let second = come(&arrivals, other, 'b');
            assert_eq!(second.is_none(), is_same, "{one} {other}");
        }
    }

    #[test]
    fn the_oldest_of_the_address_that_has_most_gives_way() {
        let arrivals = Arrivals::new(4, 3);
        let come = |address, what| come(&arrivals, address, what).unwrap();
        let gone = |held: &Held| held.1.as_deref().copied();
        let held = [
            come("10.0.0.1", 'a'),
            come("10.0.0.2", 'b'),
            come("10.0.0.2", 'c'),
            come("10.0.0.3", 'd'),
        ];
        assert!(held.iter().all(|held| gone(held).is_none()));
        let newcomer = come("10.0.0.4", 'e');
        assert_eq!(gone(&newcomer), Some('b'));
        assert_eq!(arrivals.waiting(), 4);
        // Now each address has one, of which that of the first came first.
        let other = come("10.0.0.2", 'f');
        assert_eq!(gone(&other), Some('a'));
        // Those that gave way, and are dropped later, take no place of others with them.
        drop(held);
        assert_eq!(arrivals.waiting(), 2);
        drop((newcomer, other));
        assert_eq!(arrivals.waiting(), 0);
    }

    #[test]
    fn a_cooldown_lasts_from_a_grant_and_is_then_forgotten() {
        let at = Moment::from_secs;
        let mut cooldowns = Cooldowns::new(Duration::from_secs(5));
        assert!(cooldowns.is_over(&key(1), at(0)));
        cooldowns.begin(&key(1), at(1));
        cooldowns.begin(&key(2), at(3));
        assert!(!cooldowns.is_over(&key(1), at(5)));
        assert!(cooldowns.is_over(&key(1), at(6)));
        assert!(!cooldowns.is_over(&key(2), at(7)));
        cooldowns.begin(&key(3), at(7));
        assert_eq!(cooldowns.granted.len(), 2);
        cooldowns.begin(&key(3), at(12));
        assert_eq!(cooldowns.granted.len(), 1);
    }

    #[test]
    fn a_bucket_gives_a_burst_and_then_what_comes_in() {
        let start = Instant::now();
        let after = |milliseconds| start + Duration::from_millis(milliseconds);
        let mut bucket = TokenBucket::new(3, 2, Duration::from_secs(1), start);
        let is_near = |wait: Duration, milliseconds| {
            wait.abs_diff(Duration::from_millis(milliseconds)) < Duration::from_micros(1)
        };
        assert!((0..3).all(|_| bucket.take(start).is_zero()));
        // Half a second brings a token.
        assert!(is_near(bucket.take(start), 500));
        assert!(is_near(bucket.take(after(500)), 500));
        assert!(is_near(bucket.take(after(900)), 600));
        // Ten seconds would bring twenty tokens, and three fit.
        assert!((0..3).all(|_| bucket.take(after(10_900)).is_zero()));
        assert!(is_near(bucket.take(after(10_900)), 500));
        assert!(is_near(bucket.take(after(9_000)), 1000));
    }
}
