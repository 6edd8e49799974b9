//! Infos that are validated without a directory.

use super::info::Info;
use super::node::{Node, Received, Setup};
use super::pair::{Pair, Private};
use super::payload::{greeting_of, reply_of};
use super::verification::Question;
use crate::config::{Config, PayloadConfig};
use crate::error::{SetupError, ValidateError};
use crate::ingress::Ingress;
use crate::memory::copied;
use crate::moment::Moment;
use std::net::{Ipv4Addr, SocketAddr};
use std::num::NonZeroUsize;
use std::sync::{Mutex, MutexGuard, PoisonError};
use std::time::Duration;

/// A verifier of infos, which validates them as a [`Node`] validates those of frames. It is for
/// infos that don't come from frames, before they are passed to
/// [`Directory::update_peers`](super::Directory::update_peers). [`Info::verifier`] creates it.
///
/// The infos are validated by the proved library. The verifier can be shared between threads, and
/// isn't locked while signatures are verified.
///
/// # Examples
///
/// ```
/// # use p2p_directory::*; use std::time::Duration;
/// # let mut directory = testing::directory();
/// let bound = Duration::from_secs(30);
/// let verifier = Info::verifier(testing::key(9), 256, bound, testing::NAMESPACE)?;
/// let infos = [testing::info(1, 1000), testing::info(2, 2000)];
/// verifier.validate(Moment::from_secs(2), &infos, testing::verify)?;
/// directory.update_peers(&infos)?;
/// # Ok::<(), Box<dyn std::error::Error>>(())
/// ```
#[derive(Debug)]
pub struct InfoVerifier<P: Pair> {
    // It has no sets, so no info is kept.
    node: Mutex<Node<P>>,
}

impl<P: Pair> Info<P> {
    /// Creates a verifier of infos for the peer with the key `me`. It accepts at most
    /// `peer_gossip_max_count` infos at a time, with timestamps at most `synchrony_bound` ahead,
    /// signed in this namespace.
    ///
    /// # Errors
    ///
    /// [`SetupError::OutOfMemory`] if an allocation fails.
    ///
    /// # Examples
    ///
    /// ```
    /// # use p2p_directory::*; use std::time::Duration;
    /// let me = testing::key(9);
    /// let verifier = Info::verifier(me, 1, Duration::ZERO, testing::NAMESPACE)?;
    /// let own = testing::info(9, 0);
    /// let refused = verifier.validate_info(Moment::EPOCH, &own, testing::verify);
    /// assert_eq!(refused, Err(ValidateError::Invalid(Error::ReceivedSelf)));
    /// # Ok::<(), SetupError>(())
    /// ```
    pub fn verifier(
        me: P::Key,
        peer_gossip_max_count: usize,
        synchrony_bound: Duration,
        namespace: &[u8],
    ) -> Result<InfoVerifier<P>, SetupError> {
        // Its address and its info are never used: the node only has the key and the limits.
        let setup = Setup {
            bootstrappers: Vec::new(),
            myself: Info {
                ingress: Ingress::Socket(SocketAddr::from((Ipv4Addr::UNSPECIFIED, 0))),
                timestamp: 0,
                public_key: me,
                signature: P::Signature::filled(|_| ()),
            },
            cfg: Config {
                allow_private_ips: false,
                allow_dns: false,
                max_sets: NonZeroUsize::MIN,
                dial_fail_limit: 0,
                peer_connection_cooldown: Duration::ZERO,
                block_duration: Duration::ZERO,
            },
            payload: PayloadConfig {
                max_bit_vec: 0,
                max_peers: usize::MAX,
                max_data_length: 0,
            },
            peer_gossip_max_count,
            synchrony_bound,
            namespace: copied(namespace)?,
        };
        Ok(InfoVerifier {
            node: Mutex::new(Node::new(&setup)?),
        })
    }
}

impl<P: Pair> InfoVerifier<P> {
    /// Checks that a list of infos is valid at the time `now`, as a node checks that of a frame
    /// with [`Payload::Peers`](super::Payload::Peers).
    ///
    /// `verify` returns whether a signature is valid, as for [`Node::receive`]. It is called for
    /// each info, in order, up to the first info that is refused.
    ///
    /// # Errors
    ///
    /// [`ValidateError::Invalid`] with [`Error::TooManyPeers`](crate::Error::TooManyPeers) if there are too many infos, and
    /// otherwise with the reason why the first invalid info is refused.
    /// [`ValidateError::OutOfMemory`] if an allocation fails.
    ///
    /// # Panics
    ///
    /// Panics if there are more than `u32::MAX` infos, or if `verify` panics.
    ///
    /// # Examples
    ///
    /// ```
    /// # use p2p_directory::*; use std::time::Duration;
    /// # let bound = Duration::from_secs(30);
    /// let verifier = Info::verifier(testing::key(9), 1, bound, testing::NAMESPACE)?;
    /// let infos = [testing::info(1, 1000), testing::info(2, 2000)];
    /// let judged = |infos| verifier.validate(Moment::EPOCH, infos, testing::verify);
    /// assert_eq!(judged(&infos[..1]), Ok(()));
    /// assert_eq!(judged(&infos), Err(ValidateError::Invalid(Error::TooManyPeers(2))));
    /// # Ok::<(), SetupError>(())
    /// ```
    pub fn validate(
        &self,
        now: Moment,
        infos: &[Info<P>],
        verify: impl FnMut(Question<'_, P>) -> bool,
    ) -> Result<(), ValidateError> {
        self.judge(&reply_of(infos)?, now, verify)
    }

    /// Checks that an info is valid at the time `now`, as a node checks that of a greeting.
    /// `verify` is called as for [`InfoVerifier::validate`].
    ///
    /// # Errors
    ///
    /// [`ValidateError::Invalid`] with the reason why the info is refused,
    /// [`ValidateError::OutOfMemory`] if an allocation fails.
    ///
    /// # Panics
    ///
    /// Panics if `verify` panics.
    ///
    /// # Examples
    ///
    /// ```
    /// # use p2p_directory::*; use std::time::Duration;
    /// let bound = Duration::from_secs(30);
    /// let verifier = Info::verifier(testing::key(9), 1, bound, testing::NAMESPACE)?;
    /// let judged = |timestamp| {
    ///     verifier.validate_info(Moment::EPOCH, &testing::info(1, timestamp), testing::verify)
    /// };
    /// assert_eq!(judged(30_000), Ok(()));
    /// assert_eq!(judged(30_001), Err(ValidateError::Invalid(Error::SynchronyBound)));
    /// # Ok::<(), SetupError>(())
    /// ```
    pub fn validate_info(
        &self,
        now: Moment,
        info: &Info<P>,
        verify: impl FnMut(Question<'_, P>) -> bool,
    ) -> Result<(), ValidateError> {
        self.judge(&greeting_of(info)?, now, verify)
    }

    fn judge(
        &self,
        frame: &[u8],
        now: Moment,
        verify: impl FnMut(Question<'_, P>) -> bool,
    ) -> Result<(), ValidateError> {
        let questions = self.node().check(frame, now)?;
        let judged = questions.judged_by(verify);
        let received = self.node().receive_judged(judged);
        match received.expect("the node that checked it") {
            Received::Applied(_) | Received::Greeted(_) => Ok(()),
            Received::Invalid(error) => Err(ValidateError::Invalid(error)),
            Received::Memory => Err(ValidateError::OutOfMemory),
            other => unreachable!("infos were answered with {other:?}"),
        }
    }

    // Each critical section leaves the node consistent, so a poisoned lock can be used.
    fn node(&self) -> MutexGuard<'_, Node<P>> {
        self.node.lock().unwrap_or_else(PoisonError::into_inner)
    }
}
