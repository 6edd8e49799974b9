//! The signatures of a frame, which may be verified without its node.

use super::info::read_signature;
use super::pair::{Pair, Private};
use crate::answer::OWN;
use crate::codec::{ReadError, Reader};
use crate::error::{CodecError, WrongVerdictsError};
use crate::memory::zeros;
use crate::moment::Moment;
use std::error;
use std::fmt;
use std::marker::PhantomData;

/// A signature that has to be verified: whether the key made it over the namespace and the message.
///
/// # Examples
///
/// ```
/// # use p2p_directory::*;
/// # let node = Node::new(&testing::setup(9)).unwrap();
/// let info = testing::info(1, 1000);
/// let frame = Payload::Greeting(info.clone()).encode();
/// let questions = node.check(&frame, Moment::from_secs(1))?;
/// let question = questions.iter().next().expect("the info is signed");
/// assert_eq!(question.public_key, info.public_key);
/// assert_eq!(question.namespace, testing::NAMESPACE);
/// assert_eq!(question.message, info.signed_bytes());
/// assert_eq!(question.signature, info.signature);
/// # Ok::<(), OutOfMemory>(())
/// ```
///
/// A function that verifies signatures can be tested with questions of one's own:
///
/// ```
/// # use p2p_directory::{Question, testing};
/// let (public_key, namespace, message) = (testing::key(1), b"net".as_slice(), b"hello".as_slice());
/// let signature = testing::sign(&public_key, namespace, message);
/// let question = Question { public_key, namespace, message, signature };
/// assert!(testing::verify(question));
/// assert!(!testing::verify(Question { message: b"hullo", ..question }));
/// ```
#[derive(Clone, Copy, Debug, PartialEq, Eq, Hash)]
pub struct Question<'q, P: Pair> {
    /// The key that has to have made the signature.
    pub public_key: P::Key,
    /// The namespace in which infos are signed.
    pub namespace: &'q [u8],
    /// The signed bytes.
    pub message: &'q [u8],
    /// The signature.
    pub signature: P::Signature,
}

/// The signatures of a frame that have to be verified, returned by
/// [`Node::check`](super::Node::check). There is a question for each info whose signature decides,
/// in the order of the frame. It borrows the frame and nothing of the node.
///
/// # Examples
///
/// The signatures are verified while the node is not locked.
///
/// ```
/// # use p2p_directory::*; use std::sync::Mutex;
/// # let node = Mutex::new(Node::new(&testing::setup(9)).unwrap());
/// # let frame = Payload::Greeting(testing::info(1, 1000)).encode();
/// # let now = Moment::from_secs(1);
/// let questions = node.lock().unwrap().check(&frame, now)?;
/// let verdicts: Vec<bool> = questions.iter().map(testing::verify).collect();
/// let judged = questions.judged(verdicts)?;
/// let received = node.lock().unwrap().receive_judged(judged).unwrap();
/// assert_eq!(received, Received::Greeted(testing::key(1)));
/// # Ok::<(), Box<dyn std::error::Error>>(())
/// ```
#[derive(Debug)]
pub struct Questions<'f, P: Pair> {
    frame: &'f [u8],
    now: Moment,
    node: u64,
    // The length of the namespace, with which these bytes begin. The questions follow it.
    namespace: usize,
    bytes: Vec<u8>,
    // How many questions there are.
    count: usize,
    // A byte for each info of the frame, including those without a question.
    verdicts: Vec<u8>,
    pair: PhantomData<P>,
}

/// An iterator over the questions of a frame.
///
/// # Examples
///
/// ```
/// # use p2p_directory::*;
/// # let node = Node::new(&testing::setup(9)).unwrap();
/// let frame = Payload::Peers(vec![testing::info(1, 0), testing::info(2, 0)]).encode();
/// let questions = node.check(&frame, Moment::from_secs(1))?;
/// let keys: Vec<_> = questions.iter().map(|question| question.public_key).collect();
/// assert_eq!(keys, [testing::key(1), testing::key(2)]);
/// # Ok::<(), OutOfMemory>(())
/// ```
#[derive(Clone, Debug)]
pub struct QuestionsIter<'q, P: Pair> {
    asked: Asked<'q, P>,
    // How many questions are left.
    count: usize,
}

/// A frame with its verification results, for [`Node::receive_judged`](super::Node::receive_judged)
/// of the node that checked it.
///
/// # Examples
///
/// ```
/// # use p2p_directory::*;
/// # let mut node = Node::new(&testing::setup(9)).unwrap();
/// let frame = Payload::Greeting(testing::info(1, 1000)).encode();
/// let judged = node.check(&frame, Moment::from_secs(1))?.judged([false])?;
/// assert_eq!(node.receive_judged(judged).unwrap(), Received::Invalid(Error::InvalidSignature));
/// # Ok::<(), Box<dyn std::error::Error>>(())
/// ```
#[derive(Debug)]
pub struct Judged<'f, P: Pair> {
    pub(crate) frame: &'f [u8],
    pub(crate) now: Moment,
    pub(crate) node: u64,
    pub(crate) verdicts: Vec<u8>,
    pair: PhantomData<P>,
}

/// A frame was passed to another node than the one that checked it. The error gives it back, and
/// nothing has changed.
///
/// # Examples
///
/// ```
/// # use p2p_directory::*;
/// # let mut node = Node::new(&testing::setup(9)).unwrap();
/// # let mut other = Node::new(&testing::setup(8)).unwrap();
/// let frame = Payload::Greeting(testing::info(1, 1000)).encode();
/// let judged = node.check(&frame, Moment::from_secs(1))?.judged([true])?;
/// let ReceiveError { judged, .. } = other.receive_judged(judged).unwrap_err();
/// assert_eq!(node.receive_judged(judged).unwrap(), Received::Greeted(testing::key(1)));
/// # Ok::<(), Box<dyn std::error::Error>>(())
/// ```
#[derive(Debug)]
#[non_exhaustive]
pub struct ReceiveError<'f, P: Pair> {
    /// The frame, with its verification results.
    pub judged: Judged<'f, P>,
}

/// An iterator over the questions that the library wrote one after the other.
#[derive(Clone, Debug)]
pub(crate) struct Asked<'q, P: Pair> {
    namespace: &'q [u8],
    bytes: &'q [u8],
    pair: PhantomData<P>,
}

impl<'q, P: Pair> Asked<'q, P> {
    fn new(namespace: &'q [u8], bytes: &'q [u8]) -> Asked<'q, P> {
        Asked {
            namespace,
            bytes,
            pair: PhantomData,
        }
    }
}

/// What the library writes about a frame without infos.
pub(crate) const NOTHING_TOLD: [u8; 8] = [0; 8];

/// Reads what the library wrote about a frame: how many infos it has, and the questions.
pub(crate) fn read_told<'q, P: Pair>(
    namespace: &'q [u8],
    told: &'q [u8],
) -> Result<(usize, Asked<'q, P>), CodecError> {
    let mut reader = Reader::new(told);
    let infos = reader.number()? as usize;
    let bytes = reader.rest();
    Ok((infos, Asked::new(namespace, bytes)))
}

#[inline]
fn read_question<'q, P: Pair>(
    namespace: &'q [u8],
    reader: &mut Reader<'q>,
) -> Result<Question<'q, P>, CodecError> {
    let length = reader.number()? as usize;
    Ok(Question {
        public_key: P::Key::of_library(reader.take(P::KEY_SIZE)?),
        namespace,
        message: reader.take(length)?,
        signature: read_signature::<P>(reader)?,
    })
}

impl<'q, P: Pair> Iterator for Asked<'q, P> {
    type Item = Question<'q, P>;

    #[inline]
    fn next(&mut self) -> Option<Question<'q, P>> {
        if self.bytes.is_empty() {
            return None;
        }
        let mut reader = Reader::new(self.bytes);
        let question = read_question(self.namespace, &mut reader).expect(OWN);
        self.bytes = reader.rest();
        Some(question)
    }
}

/// Writes the verification result of each question, in order, up to the first false one. The others
/// stay as they are.
pub(crate) fn write_verdicts<P: Pair>(
    verdicts: &mut [u8],
    questions: Asked<'_, P>,
    mut verify: impl FnMut(Question<'_, P>) -> bool,
) {
    for (verdict, question) in verdicts.iter_mut().zip(questions) {
        let is_right = verify(question);
        *verdict = is_right.into();
        if !is_right {
            break;
        }
    }
}

impl<'f, P: Pair> Questions<'f, P> {
    // The questions of the library about a frame that a node of this namespace received at this
    // time.
    pub(crate) fn new(
        frame: &'f [u8],
        now: Moment,
        node: u64,
        namespace: &[u8],
        told: &[u8],
    ) -> Result<Questions<'f, P>, ReadError> {
        let (infos, asked) = read_told::<P>(namespace, told)?;
        let mut bytes = Vec::new();
        bytes.try_reserve_exact(namespace.len() + asked.bytes.len())?;
        bytes.extend_from_slice(namespace);
        bytes.extend_from_slice(asked.bytes);
        Ok(Questions {
            frame,
            now,
            node,
            namespace: namespace.len(),
            bytes,
            count: asked.count(),
            verdicts: zeros(infos)?,
            pair: PhantomData,
        })
    }

    /// The namespace in which all of these infos are signed.
    ///
    /// # Examples
    ///
    /// ```
    /// # use p2p_directory::*;
    /// # let node = Node::new(&testing::setup(9)).unwrap();
    /// let questions = node.check(&[0], Moment::EPOCH)?;
    /// assert_eq!(questions.namespace(), testing::NAMESPACE);
    /// # Ok::<(), OutOfMemory>(())
    /// ```
    #[must_use]
    pub fn namespace(&self) -> &[u8] {
        &self.bytes[..self.namespace]
    }

    /// How many questions there are.
    ///
    /// # Examples
    ///
    /// ```
    /// # use p2p_directory::*;
    /// # let node = Node::new(&testing::setup(9)).unwrap();
    /// // The local info is refused whatever its signature is, and there is no question after it.
    /// let infos = [1, 9, 2].map(|number| testing::info(number, 0));
    /// let frame = Payload::Peers(infos.to_vec()).encode();
    /// assert_eq!(node.check(&frame, Moment::from_secs(1))?.len(), 1);
    /// # Ok::<(), OutOfMemory>(())
    /// ```
    #[must_use]
    pub fn len(&self) -> usize {
        self.count
    }

    /// Whether there is no question.
    ///
    /// # Examples
    ///
    /// ```
    /// # use p2p_directory::*;
    /// # let node = Node::new(&testing::setup(9)).unwrap();
    /// let data = Payload::Data(Data { channel: 0, message: vec![1] });
    /// assert!(node.check(&data.encode(), Moment::EPOCH)?.is_empty());
    /// # Ok::<(), OutOfMemory>(())
    /// ```
    #[must_use]
    pub fn is_empty(&self) -> bool {
        self.count == 0
    }

    /// An iterator over the questions, in the order of the frame. Those after the first invalid
    /// signature need not be verified.
    ///
    /// # Examples
    ///
    /// ```
    /// # use p2p_directory::*;
    /// # let node = Node::new(&testing::setup(9)).unwrap();
    /// let frame = Payload::Greeting(testing::info(1, 1000)).encode();
    /// let questions = node.check(&frame, Moment::from_secs(1))?;
    /// assert_eq!(questions.iter().len(), 1);
    /// # Ok::<(), OutOfMemory>(())
    /// ```
    #[must_use]
    pub fn iter(&self) -> QuestionsIter<'_, P> {
        let (namespace, bytes) = self.bytes.split_at(self.namespace);
        QuestionsIter {
            asked: Asked::new(namespace, bytes),
            count: self.count,
        }
    }

    /// The frame with a verification result for each question, in their order: whether its
    /// signature is valid. Results after a false one may be left out. An info without a question
    /// counts as one whose signature is invalid. It doesn't allocate.
    ///
    /// # Errors
    ///
    /// [`WrongVerdictsError`] if there are more results than questions, or fewer and all of them
    /// are true.
    ///
    /// # Examples
    ///
    /// ```
    /// # use p2p_directory::*;
    /// # let mut node = Node::new(&testing::setup(9)).unwrap();
    /// let frame = Payload::Greeting(testing::info(1, 1000)).encode();
    /// let judged = node.check(&frame, Moment::from_secs(1))?.judged([true])?;
    /// assert_eq!(node.receive_judged(judged).unwrap(), Received::Greeted(testing::key(1)));
    /// # Ok::<(), Box<dyn std::error::Error>>(())
    /// ```
    pub fn judged(
        self,
        verdicts: impl IntoIterator<Item = bool>,
    ) -> Result<Judged<'f, P>, WrongVerdictsError> {
        let mut written = self.verdicts;
        let (mut given, mut are_all_right) = (0, true);
        for is_right in verdicts {
            if given == self.count {
                return Err(WrongVerdictsError);
            }
            written[given] = is_right.into();
            given += 1;
            are_all_right &= is_right;
        }
        if given < self.count && are_all_right {
            return Err(WrongVerdictsError);
        }
        Ok(Judged {
            frame: self.frame,
            now: self.now,
            node: self.node,
            verdicts: written,
            pair: PhantomData,
        })
    }

    /// The frame with the verification results of `verify`, which returns whether the signature of
    /// a question is valid. It is called once for each question, in order, up to the first false
    /// result. It doesn't allocate.
    ///
    /// # Panics
    ///
    /// Panics if `verify` panics.
    ///
    /// # Examples
    ///
    /// ```
    /// # use p2p_directory::*;
    /// # let mut node = Node::new(&testing::setup(9)).unwrap();
    /// let frame = Payload::Peers(vec![testing::info(1, 0), testing::info(2, 0)]).encode();
    /// let judged = node.check(&frame, Moment::from_secs(1))?.judged_by(testing::verify);
    /// assert_eq!(node.receive_judged(judged).unwrap(), Received::Applied(2));
    /// # Ok::<(), OutOfMemory>(())
    /// ```
    #[must_use]
    pub fn judged_by(self, verify: impl FnMut(Question<'_, P>) -> bool) -> Judged<'f, P> {
        let mut verdicts = self.verdicts;
        let (namespace, bytes) = self.bytes.split_at(self.namespace);
        write_verdicts(&mut verdicts, Asked::new(namespace, bytes), verify);
        Judged {
            frame: self.frame,
            now: self.now,
            node: self.node,
            verdicts,
            pair: PhantomData,
        }
    }
}

impl<'q, P: Pair> IntoIterator for &'q Questions<'_, P> {
    type Item = Question<'q, P>;
    type IntoIter = QuestionsIter<'q, P>;

    fn into_iter(self) -> QuestionsIter<'q, P> {
        self.iter()
    }
}

impl<'q, P: Pair> Iterator for QuestionsIter<'q, P> {
    type Item = Question<'q, P>;

    #[inline]
    fn next(&mut self) -> Option<Question<'q, P>> {
        let question = self.asked.next()?;
        self.count -= 1;
        Some(question)
    }

    fn size_hint(&self) -> (usize, Option<usize>) {
        (self.count, Some(self.count))
    }
}

impl<P: Pair> ExactSizeIterator for QuestionsIter<'_, P> {}

impl<P: Pair> fmt::Display for ReceiveError<'_, P> {
    fn fmt(&self, f: &mut fmt::Formatter<'_>) -> fmt::Result {
        f.write_str("the frame was checked by another node")
    }
}

impl<P: Pair> error::Error for ReceiveError<'_, P> {}
