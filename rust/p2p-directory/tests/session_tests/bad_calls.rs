//! What is no call: a number that no call has, more or fewer numbers than a call takes, bools that
//! are neither 0 nor 1, and bytes where it takes none. Each is refused alike, and nothing changes.

use super::given::{key, keys, tracking};
use super::{Exported, Session};
use crate::table;
use p2p_directory_sys::{BAD_CALL, NO_NODE};

tests_of_each_pair! {
    what_is_no_call_is_refused_before_all_else,
    what_is_no_call_changes_nothing,
}

// More numbers than any call takes.
const MOST_NUMBERS: usize = 16;

/// A request, by the number of its call.
#[derive(Clone, Debug)]
struct Request {
    number: u64,
    numbers: Vec<u64>,
    bytes: [Vec<u8>; 3],
}

impl Request {
    // The call of the table with ones, and with a key for each slice.
    fn of<P: Exported>(call: &table::Call) -> Request {
        let slices = call.slices().count();
        Request {
            number: call.number,
            numbers: vec![1; call.numbers().count()],
            bytes: [0, 1, 2].map(|place| match place < slices {
                true => key::<P>(1),
                false => Vec::new(),
            }),
        }
    }

    fn with_numbers(&self, count: usize) -> Request {
        Request {
            numbers: vec![1; count],
            ..self.clone()
        }
    }

    fn answer<P: Exported>(&self, session: &Session<P>, out: &mut [u8]) -> u64 {
        let [first, second, third] = &self.bytes;
        session.call(self.number, &self.numbers, [first, second, third], out)
    }
}

// What is no call, and differs from one in one respect.
fn bad<P: Exported>(call: &table::Call) -> Vec<Request> {
    let good = Request::of::<P>(call);
    let counts = (0..=MOST_NUMBERS).filter(|count| *count != good.numbers.len());
    let mut bad: Vec<Request> = counts.map(|count| good.with_numbers(count)).collect();
    for (place, (_, type_)) in call.numbers().enumerate() {
        for value in [2, u64::MAX] {
            let mut request = good.clone();
            request.numbers[place] = value;
            bad.extend((type_ == "bool").then_some(request));
        }
    }
    for place in call.slices().count()..3 {
        for bytes in [vec![0], key::<P>(1)] {
            let mut request = good.clone();
            request.bytes[place] = bytes;
            bad.push(request);
        }
    }
    bad
}

// The requests of numbers that no call has.
fn unknown<P: Exported>(calls: &[table::Call]) -> Vec<Request> {
    let behind = calls.len() as u64 + 1;
    let numbers = [0, behind, behind + 1, 255, 256 + 3, (1 << 32) + 3, u64::MAX];
    let of_none = |number| Request {
        number,
        numbers: Vec::new(),
        bytes: [const { Vec::new() }; 3],
    };
    let forms = calls.iter().map(Request::of::<P>);
    let forms: Vec<Request> = forms.chain([of_none(0)]).collect();
    let all = numbers.iter().flat_map(|number| {
        forms.iter().map(|form| Request {
            number: *number,
            ..form.clone()
        })
    });
    all.collect()
}

fn all_bad<P: Exported>(calls: &[table::Call]) -> Vec<Request> {
    let bad = calls.iter().flat_map(bad::<P>);
    bad.chain(unknown::<P>(calls)).collect()
}

// The state of a session, as far as some queries tell it.
fn seen<P: Exported>(session: &Session<P>) -> Vec<u8> {
    let mut seen = Vec::new();
    let mut out = [0; 512];
    for answer in [
        session.all(&mut out),
        session.blocked_peers(1, 1, &mut out),
        session.dialable(1, 1, &mut out),
        session.get_random_bit_vec(0, &mut out),
        session.tracked(),
        session.retained(),
        session.status(&key::<P>(1)),
        session.status(&key::<P>(2)),
    ] {
        seen.extend_from_slice(&answer.to_be_bytes());
        seen.extend_from_slice(&out);
    }
    seen
}

fn what_is_no_call_is_refused_before_all_else<P: Exported>() {
    let Some(calls) = table::calls() else {
        return;
    };
    let session = Session::<P>::new().expect("memory for a session");
    for request in all_bad::<P>(&calls) {
        let mut out = [0xaa; 64];
        assert_eq!(
            request.answer::<P>(&session, &mut out),
            BAD_CALL,
            "{request:?}"
        );
        assert_eq!(out, [0xaa; 64], "{request:?}");
        assert_eq!(session.tracked(), NO_NODE, "{request:?}");
    }
    // Without what is bad of it, each but `init` is refused for want of a node.
    for call in &calls[1..] {
        let answer = Request::of::<P>(call).answer::<P>(&session, &mut [0; 64]);
        assert_eq!(answer, NO_NODE, "{}", call.name);
    }
}

fn what_is_no_call_changes_nothing<P: Exported>() {
    let Some(calls) = table::calls() else {
        return;
    };
    let session = tracking::<P>(9, &[1, 2]);
    assert_eq!(session.listen(&key::<P>(1), 1, 0, 0, 0), 1);
    let before = seen::<P>(&session);
    for request in all_bad::<P>(&calls) {
        let mut out = [0xaa; 64];
        assert_eq!(
            request.answer::<P>(&session, &mut out),
            BAD_CALL,
            "{request:?}"
        );
        assert_eq!(out, [0xaa; 64], "{request:?}");
        assert_eq!(seen::<P>(&session), before, "{request:?}");
    }
    // The call of a number does what the method does.
    let of_block = |number, peer| session.call(number, &[1, 0], [peer, &[], &[]], &mut []);
    assert_eq!(of_block(10, &keys::<P>(&[2])), 1);
    assert_ne!(seen::<P>(&session), before);
}
