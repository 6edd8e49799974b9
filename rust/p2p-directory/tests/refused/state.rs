//! The states of nodes before a call: with key 9, one retained set unless said otherwise, a
//! cooldown of ten seconds and blocks of a minute.

use p2p_directory::sized::testing::{NAMESPACE, info, key, setup, sign, verify};
use p2p_directory::sized::{
    Directory, Info, Node, OrderedSet, Pair, Payload, Received, Reservation, Setup, TrackedPeers,
};
use p2p_directory::{Hostname, Ingress, Moment, OutOfMemory};
use std::fmt::Debug;
use std::num::NonZeroUsize;
use std::time::Duration;

/// A node, if there is one, with the reservations that it granted.
pub struct State<P: Pair> {
    node: Option<Node<P>>,
    held: Vec<Reservation<P>>,
}

pub fn seconds(seconds: u64) -> Moment {
    Moment::from_secs(seconds)
}

pub fn set<P: Pair>(numbers: &[u16]) -> OrderedSet<P> {
    OrderedSet::from_iter_dedup(numbers.iter().map(|number| key::<P>(*number)))
}

pub fn peers<P: Pair>(primary: &[u16], secondary: &[u16]) -> TrackedPeers<P> {
    TrackedPeers::new(set(primary), set(secondary))
}

/// The info of a key with a name, and the port 8000 plus the number.
pub fn named_info<P: Pair>(number: u16, timestamp: u64, name: &str) -> Info<P> {
    let ingress = Ingress::Dns {
        host: Hostname::new(name).expect("it is a name"),
        port: 8000 + number,
    };
    let key = key::<P>(number);
    Info::sign(key, NAMESPACE, ingress, timestamp, |namespace, message| {
        sign::<P>(&key, namespace, message)
    })
}

/// The text of a result.
pub fn text(answer: impl Debug) -> String {
    format!("{answer:?}")
}

/// The text of a result, unless an allocation failed.
pub fn said<T: Debug>(answer: Result<T, OutOfMemory>) -> Result<String, OutOfMemory> {
    answer.map(text)
}

impl<P: Pair> State<P> {
    /// No node, but capacity for its reservations.
    pub fn nothing() -> State<P> {
        State {
            node: None,
            held: Vec::with_capacity(8),
        }
    }

    pub fn of(setup: Setup<P>) -> State<P> {
        let mut state = State::nothing();
        state.node = Some(Node::new(&setup).expect("memory is ample"));
        state
    }

    pub fn make(&mut self, setup: Setup<P>) -> Result<(), OutOfMemory> {
        match Node::new(&setup) {
            Ok(node) => {
                self.node = Some(node);
                Ok(())
            }
            Err(refused) => {
                assert_eq!(refused, p2p_directory::SetupError::OutOfMemory);
                Err(OutOfMemory)
            }
        }
    }

    pub fn has_node(&self) -> bool {
        self.node.is_some()
    }

    pub fn node(&self) -> &Node<P> {
        self.node.as_ref().expect("there is a node")
    }

    pub fn directory(&self) -> &Directory<P> {
        self.node().directory()
    }

    pub fn node_mut(&mut self) -> &mut Node<P> {
        self.node.as_mut().expect("there is a node")
    }

    pub fn directory_mut(&mut self) -> &mut Directory<P> {
        self.node_mut().directory_mut()
    }

    pub fn held(&self) -> &[Reservation<P>] {
        &self.held
    }

    /// Returns whether it is granted.
    pub fn dial(&mut self, number: u16, now: Moment) -> Result<bool, OutOfMemory> {
        let granted = self
            .directory_mut()
            .dial(&key::<P>(number), now, Duration::ZERO)?;
        Ok(self.keeps(granted))
    }

    /// Returns whether it is granted.
    pub fn listen(&mut self, number: u16, now: Moment) -> Result<bool, OutOfMemory> {
        let granted = self
            .directory_mut()
            .listen(&key::<P>(number), now, Duration::ZERO)?;
        Ok(self.keeps(granted))
    }

    fn keeps(&mut self, granted: Option<Reservation<P>>) -> bool {
        let is_granted = granted.is_some();
        self.held.extend(granted);
        is_granted
    }

    /// Returns whether there was a reservation of the peer.
    pub fn release(&mut self, number: u16) -> bool {
        let peer: P::Key = key::<P>(number);
        let place = self.held.iter().position(|held| *held.public_key() == peer);
        let Some(place) = place else {
            return false;
        };
        let reservation = self.held.swap_remove(place);
        let released = self.directory_mut().release(reservation);
        released.expect("the directory's own");
        true
    }

    /// Drops the reservation of a peer.
    pub fn drops(&mut self, number: u16) {
        self.held
            .retain(|held| *held.public_key() != key::<P>(number));
    }

    pub fn receive(&mut self, frame: &[u8], now: Moment) -> Result<Received<P>, OutOfMemory> {
        match self.node_mut().receive(frame, now, verify) {
            Received::Memory => Err(OutOfMemory),
            received => Ok(received),
        }
    }

    /// In two steps, with these verification results.
    pub fn receive_judged(
        &mut self,
        payload: &Payload<P>,
        now: u64,
        verdicts: &[bool],
    ) -> Result<Received<P>, OutOfMemory> {
        let frame = payload.encode();
        let questions = self.node().check(&frame, seconds(now))?;
        let judged = questions.judged(verdicts.iter().copied());
        let judged = judged.expect("a verdict for each");
        match self.node_mut().receive_judged(judged) {
            Ok(Received::Memory) => Err(OutOfMemory),
            received => Ok(received.expect("this node checked it")),
        }
    }

    pub fn receives(&mut self, payload: Payload<P>, now: u64) -> Result<Received<P>, OutOfMemory> {
        self.receive(&payload.encode(), seconds(now))
    }

    // The following functions prepare states, with enough memory.

    pub fn tracks(mut self, index: u64, primary: &[u16], secondary: &[u16]) -> State<P> {
        let taken = self
            .directory_mut()
            .track(index, &peers(primary, secondary))
            .unwrap();
        assert!(taken.accepted().is_some(), "set {index}");
        self
    }

    pub fn told(mut self, infos: &[Info<P>]) -> State<P> {
        self.directory_mut().update_peers(infos).unwrap();
        self
    }

    pub fn greeted(mut self, info: Info<P>) -> State<P> {
        let greeter = info.public_key;
        let received = self.receives(Payload::Greeting(info), 100);
        assert_eq!(received, Ok(Received::Greeted(greeter)));
        self
    }

    pub fn listened(mut self, number: u16) -> State<P> {
        assert_eq!(self.listen(number, seconds(50)), Ok(true), "{number}");
        self
    }

    pub fn connected(self, number: u16) -> State<P> {
        let mut state = self.listened(number);
        state
            .directory_mut()
            .connect(&key::<P>(number), false)
            .unwrap();
        state
    }

    pub fn blocked(mut self, number: u16, now: u64) -> State<P> {
        let taken = self.directory_mut().block(&key::<P>(number), seconds(now));
        assert_eq!(taken, Ok(true), "{number}");
        self
    }
}

/// A node that knows nobody.
pub fn empty<P: Pair>() -> State<P> {
    State::of(setup(9))
}

/// A node that retains so many sets.
pub fn retaining<P: Pair>(max_sets: usize) -> State<P> {
    let mut setup = setup(9);
    setup.cfg.max_sets = NonZeroUsize::new(max_sets).expect("it isn't 0");
    State::of(setup)
}

/// A node with a set of unknown peers.
pub fn new<P: Pair>() -> State<P> {
    empty().tracks(0, &[1, 2, 5], &[])
}

/// 1 and 2 are connected, 3 is reserved, 5 was released, 4 and 6 are blocked, and 2 has a name.
pub fn known<P: Pair>() -> State<P> {
    let mut state = empty()
        .tracks(0, &[1, 2, 3, 5], &[4])
        .greeted(named_info(2, 1000, "a.b"))
        .told(&[info(1, 1000), info(5, 1000)])
        .connected(1)
        .connected(2)
        .listened(3)
        .listened(5)
        .blocked(4, 40)
        .blocked(6, 100);
    assert!(state.release(5));
    state
}

/// A set whose first peer is known with a socket, and whose second with a name.
pub fn introduced<P: Pair>() -> State<P> {
    empty()
        .tracks(0, &[1, 2], &[])
        .told(&[info(1, 1000)])
        .greeted(named_info(2, 1000, "a.b"))
}

/// The first is dialled, with a socket, and the second not yet.
pub fn dialling<P: Pair>() -> State<P> {
    let mut state = introduced();
    assert_eq!(state.dial(1, seconds(100)), Ok(true));
    state
}

/// So many peers are blocked at 100 seconds, from 10 on.
pub fn blocking<P: Pair>(count: u16) -> State<P> {
    (10..10 + count).fold(empty(), |state, number| state.blocked(number, 100))
}

/// Two of at most three sets. Peer 2 is primary in both, at another position in each. The info of a
/// peer that isn't connected is wanted.
pub fn two_sets<P: Pair>() -> State<P> {
    let mut setup = setup(9);
    setup.cfg.max_sets = NonZeroUsize::new(3).expect("it isn't 0");
    setup.cfg.dial_fail_limit = 0;
    State::of(setup)
        .tracks(0, &[1, 2, 3], &[])
        .tracks(1, &[2, 3], &[1])
        .told(&[info(2, 1000)])
}
