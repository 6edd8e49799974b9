//! Infos that are validated without a directory.

#[macro_use]
mod each_pair;

use p2p_directory::sized::testing::{self, NAMESPACE, info, key, verify};
use p2p_directory::sized::{Info, InfoVerifier, Pair, Question};
use p2p_directory::{Error, Moment, ValidateError};
use std::panic::{AssertUnwindSafe, catch_unwind};
use std::thread;
use std::time::Duration;

tests_of_each_pair! {
    lists_are_judged_by_number_key_time_and_signature,
    one_info_is_judged_whatever_the_number_is,
    the_closure_is_asked_up_to_the_first_refusal,
    it_is_not_locked_while_signatures_are_verified,
}

const BOUND: Duration = Duration::from_secs(30);

// A verifier for key 9 and so many infos at a time.
fn verifier<P: Pair>(count: usize) -> InfoVerifier<P> {
    Info::verifier(key::<P>(9), count, BOUND, NAMESPACE).unwrap()
}

// An info that is signed in another namespace.
fn of_another_namespace<P: Pair>(number: u16, timestamp: u64) -> Info<P> {
    let Info { ingress, .. } = info::<P>(number, timestamp);
    let signer = key::<P>(number);
    Info::sign(
        signer,
        b"other",
        ingress,
        timestamp,
        |namespace, message| testing::sign::<P>(&signer, namespace, message),
    )
}

fn lists_are_judged_by_number_key_time_and_signature<P: Pair>() {
    let verifier = verifier(1);
    let judged = |infos: &[Info<P>]| verifier.validate(Moment::EPOCH, infos, verify);
    let refused = |error| Err(ValidateError::Invalid(error));
    let two = [info(1, 0), info(2, 0)];
    assert_eq!(judged(&two), refused(Error::TooManyPeers(2)));
    assert_eq!(judged(&[]), Ok(()));
    assert_eq!(judged(&[info(1, 30_000)]), Ok(()));
    assert_eq!(judged(&[info(1, 30_001)]), refused(Error::SynchronyBound));
    let own = of_another_namespace(9, 99_999);
    assert_eq!(judged(&[own]), refused(Error::ReceivedSelf));
    let stranger = of_another_namespace(1, 0);
    assert_eq!(judged(&[stranger]), refused(Error::InvalidSignature));
}

fn one_info_is_judged_whatever_the_number_is<P: Pair>() {
    let verifier = verifier::<P>(0);
    let one = info(1, 0);
    let judged = verifier.validate_info(Moment::EPOCH, &one, verify);
    assert_eq!(judged, Ok(()));
    let judged = verifier.validate(Moment::EPOCH, &[one], verify);
    let too_many = ValidateError::Invalid(Error::TooManyPeers(1));
    assert_eq!(judged, Err(too_many));
}

fn the_closure_is_asked_up_to_the_first_refusal<P: Pair>() {
    let verifier = verifier::<P>(4);
    let mut asked: Vec<P::Key> = Vec::new();
    let infos = [1, 2, 3].map(|number| info(number, 0));
    let judged = verifier.validate(Moment::EPOCH, &infos, |question| {
        assert_eq!(question.namespace, NAMESPACE);
        asked.push(question.public_key);
        question.public_key != key::<P>(2)
    });
    let refused = ValidateError::Invalid(Error::InvalidSignature);
    assert_eq!(judged, Err(refused));
    assert_eq!(asked, [key::<P>(1), key::<P>(2)]);
}

fn it_is_not_locked_while_signatures_are_verified<P: Pair>() {
    let verifier = verifier(4);
    let one = info(1, 0);
    let within = |question: Question<'_, P>| {
        let other = verifier.validate_info(Moment::EPOCH, &info(2, 0), verify);
        other == Ok(()) && verify(question)
    };
    assert_eq!(verifier.validate_info(Moment::EPOCH, &one, within), Ok(()));
    let panicked = catch_unwind(AssertUnwindSafe(|| {
        verifier.validate_info(Moment::EPOCH, &one, |_| panic!("a scheme that fails"))
    }));
    assert!(panicked.is_err());
    thread::scope(|scope| {
        let judged = || verifier.validate_info(Moment::EPOCH, &one, verify);
        let threads = [(); 2].map(|()| scope.spawn(judged));
        for thread in threads {
            assert_eq!(thread.join().unwrap(), Ok(()));
        }
    });
}
