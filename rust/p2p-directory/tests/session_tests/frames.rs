//! Frames: the questions about them and the results, of sessions with keys 9 and 8.

use super::given::{asked, info, infos, key, session, tracking};
use super::{Exported, Session};
use p2p_directory_sys::{BAD_VERDICTS, NO_ROOM};

tests_of_each_pair! {
    bits_are_answered_with_infos,
    infos_have_to_be_verified,
    verdicts_decide,
    verdicts_and_room_are_counted,
    a_frame_is_not_taken_with_less_room_than_the_longest_answer_wants,
    an_answer_that_is_longer_than_the_room_tells_its_length,
    greetings_are_judged,
    infos_from_the_future_and_too_many_infos_are_refused,
    data_is_handed_on,
    faults_are_told,
    a_checked_frame_stands_for_its_own_bytes_alone,
    frames_are_received_in_another_order_than_they_are_checked,
    a_checked_frame_that_is_refused_can_be_received_again,
    a_set_that_comes_after_the_check_counts,
}

// The minimum length of a buffer for `receive`.
const fn longest<P: Exported>() -> usize {
    1 + P::KEY_SIZE
}

// The frame of the infos with these keys and timestamps.
fn peers<P: Exported>(told: &[(u8, u8)]) -> Vec<u8> {
    [vec![3], infos::<P>(told)].concat()
}

// The frame of a greeting with the info of a key.
fn greeting<P: Exported>(byte: u8, timestamp: u8) -> Vec<u8> {
    [vec![1], info::<P>(byte, timestamp)].concat()
}

// The result for a frame at 100 seconds.
fn received<P: Exported>(session: &Session<P>, frame: &[u8], verdicts: &[u8]) -> Vec<u8> {
    asked(|room| session.receive(frame, 100, 0, verdicts, room))
}

fn checked<P: Exported>(session: &Session<P>, frame: &[u8]) -> Vec<u8> {
    asked(|room| session.check(frame, 100, 0, room))
}

fn bits_are_answered_with_infos<P: Exported>() {
    let replier = tracking::<P>(8, &[1, 2]);
    assert_eq!(replier.update_peers(&infos::<P>(&[(1, 100)])), 1);
    assert_eq!(replier.listen(&key::<P>(1), 50, 0, 0, 0), 1);
    assert_eq!(replier.connect(&key::<P>(1), false), 1);
    let reply = [vec![2], peers::<P>(&[(1, 100)])].concat();
    assert_eq!(received::<P>(&replier, &[2, 0, 2, 0], &[]), reply);
}

// In order: the number of infos, the length of the message, the key, an ingress of 8 bytes with the
// timestamp, the signature.
fn infos_have_to_be_verified<P: Exported>() {
    let asker = tracking::<P>(9, &[1]);
    let wanted = [
        &1_u64.to_be_bytes()[..],
        &16_u64.to_be_bytes(),
        &key::<P>(1),
        &[0, 4, 1, 2, 3, 4, 31, 65],
        &100_u64.to_be_bytes(),
        &vec![1; P::SIGNATURE_SIZE],
    ];
    let checked = checked::<P>(&asker, &peers::<P>(&[(1, 100)]));
    assert_eq!(checked.len(), 8 + 8 + P::KEY_SIZE + 16 + P::SIGNATURE_SIZE);
    assert_eq!(checked, wanted.concat());
}

fn verdicts_decide<P: Exported>() {
    let asker = tracking::<P>(9, &[1]);
    let frame = peers::<P>(&[(1, 100)]);
    assert_eq!(received::<P>(&asker, &frame, &[0]), [6, 2]);
    let applied = [3, 0, 0, 0, 0, 0, 0, 0, 1];
    assert_eq!(received::<P>(&asker, &frame, &[1]), applied);
}

fn verdicts_and_room_are_counted<P: Exported>() {
    let asker = tracking::<P>(9, &[1]);
    let frame = peers::<P>(&[(1, 100)]);
    let mut room = [0; 512];
    for verdicts in [&[][..], &[1, 1]] {
        let answer = asker.receive(&frame, 100, 0, verdicts, &mut room);
        assert_eq!(answer, BAD_VERDICTS);
    }
    assert_eq!(asker.receive(&frame, 100, 0, &[1], &mut []), NO_ROOM);
    assert_eq!(asked(|room| asker.ask(0, room)), [2, 0, 1, 0]);
}

// This holds for each frame, even if its own result would fit.
fn a_frame_is_not_taken_with_less_room_than_the_longest_answer_wants<P: Exported>() {
    let session = tracking::<P>(9, &[1]);
    let frames = [
        (peers::<P>(&[(1, 100)]), vec![1]),
        (greeting::<P>(1, 100), vec![1]),
        (vec![2, 0, 1, 0], vec![]),
        (vec![0, 3, 2, b'h', b'i'], vec![]),
        (vec![4], vec![]),
    ];
    for (frame, verdicts) in &frames {
        for length in 0..longest::<P>() {
            let mut room = vec![0xaa; length];
            let answer = session.receive(frame, 100, 0, verdicts, &mut room);
            assert_eq!(answer, NO_ROOM, "{frame:?} with room of {length}");
            assert!(room.iter().all(|byte| *byte == 0xaa));
        }
    }
    assert_eq!(asked(|room| session.ask(0, room)), [2, 0, 1, 0]);
    let (frame, verdicts) = &frames[0];
    let mut room = vec![0; longest::<P>()];
    assert_eq!(session.receive(frame, 100, 0, verdicts, &mut room), 9);
    assert_eq!(asked(|room| session.ask(0, room)), [2, 0, 1, 1]);
}

// A result without effect is returned again if the buffer is long enough.
fn an_answer_that_is_longer_than_the_room_tells_its_length<P: Exported>() {
    let session = tracking::<P>(9, &[9]);
    let (question, reply) = ([2, 0, 1, 0], [vec![2], peers::<P>(&[(9, 0)])].concat());
    let mut room = vec![0xaa; longest::<P>()];
    let length = session.receive(&question, 100, 0, &[], &mut room);
    assert_eq!(length, reply.len() as u64);
    assert_eq!(room, vec![0xaa; longest::<P>()]);
    assert_eq!(received::<P>(&session, &question, &[]), reply);
}

fn greetings_are_judged<P: Exported>() {
    let session = tracking::<P>(9, &[1]);
    let (other, itself) = (greeting::<P>(1, 100), greeting::<P>(9, 0));
    assert_eq!(
        checked::<P>(&session, &other).len(),
        8 + 8 + P::KEY_SIZE + 16 + P::SIGNATURE_SIZE
    );
    assert_eq!(
        received::<P>(&session, &other, &[1]),
        [&[1][..], &key::<P>(1)].concat()
    );
    assert_eq!(checked::<P>(&session, &itself), 1_u64.to_be_bytes());
    assert_eq!(received::<P>(&session, &itself, &[1]), [6, 1]);
}

fn infos_from_the_future_and_too_many_infos_are_refused<P: Exported>() {
    let session = tracking::<P>(9, &[1]);
    let mut late = greeting::<P>(1, 0);
    // Replaces the timestamp 0 by one of 130,001 milliseconds.
    late.splice(9..10, [0xd1, 0xf7, 0x07]);
    assert_eq!(checked::<P>(&session, &late), 1_u64.to_be_bytes());
    assert_eq!(received::<P>(&session, &late, &[1]), [6, 3]);
    let nine = peers::<P>(&[(1, 0); 9]);
    assert_eq!(checked::<P>(&session, &nine), 0_u64.to_be_bytes());
    let too_long = [4, 2, 0, 0, 0, 0, 0, 0, 0, 9];
    assert_eq!(received::<P>(&session, &nine, &[]), too_long);
}

fn data_is_handed_on<P: Exported>() {
    // The channel and the length of the message, which is the end of the frame.
    let told = [&[0][..], &3_u64.to_be_bytes(), &2_u64.to_be_bytes()].concat();
    assert_eq!(
        received::<P>(&session::<P>(9), b"\x00\x03\x02hi", &[]),
        told
    );
}

fn faults_are_told<P: Exported>() {
    let session = tracking::<P>(9, &[1]);
    assert_eq!(received::<P>(&session, b"\x02\x00\x02\x00", &[]), [5]);
    let prefix = [4, 4, 0, 0, 0, 0, 0, 0, 0, 4];
    assert_eq!(received::<P>(&session, b"\x04", &[]), prefix);
}

// The session keeps the frame that was checked last. Whatever was checked, each frame is processed
// by its own bytes.
fn a_checked_frame_stands_for_its_own_bytes_alone<P: Exported>() {
    let session = tracking::<P>(9, &[1, 2]);
    let applied = [3, 0, 0, 0, 0, 0, 0, 0, 1];
    let knows = |frame: &[u8], bits: u8| {
        assert_eq!(received::<P>(&session, frame, &[1]), applied);
        assert_eq!(asked(|room| session.ask(0, room)), [2, 0, 2, bits]);
    };
    let (one, two) = (peers::<P>(&[(1, 100)]), peers::<P>(&[(2, 100)]));
    assert_eq!(one.len(), two.len());
    // Another frame of as many bytes, then the one that was checked, twice.
    checked::<P>(&session, &one);
    knows(&two, 0b10);
    knows(&one, 0b11);
    knows(&one, 0b11);
}

fn frames_are_received_in_another_order_than_they_are_checked<P: Exported>() {
    let session = tracking::<P>(9, &[1, 2]);
    let (one, two) = (peers::<P>(&[(1, 100)]), peers::<P>(&[(2, 100)]));
    checked::<P>(&session, &one);
    checked::<P>(&session, &two);
    assert_eq!(received::<P>(&session, &one, &[1]).len(), 9);
    assert_eq!(received::<P>(&session, &two, &[0]), [6, 2]);
    assert_eq!(received::<P>(&session, &two, &[1]).len(), 9);
    assert_eq!(asked(|room| session.ask(0, room)), [2, 0, 2, 0b11]);
}

// What was kept is gone with a refusal, and the frame is decoded again.
fn a_checked_frame_that_is_refused_can_be_received_again<P: Exported>() {
    let session = tracking::<P>(9, &[1]);
    let frame = peers::<P>(&[(1, 100)]);
    checked::<P>(&session, &frame);
    let mut room = vec![0; longest::<P>()];
    assert_eq!(
        session.receive(&frame, 100, 0, &[], &mut room),
        BAD_VERDICTS
    );
    assert_eq!(session.receive(&frame, 100, 0, &[1], &mut []), NO_ROOM);
    assert_eq!(received::<P>(&session, &frame, &[1])[0], 3);
}

// The set decides when a frame is received, not when it is checked.
fn a_set_that_comes_after_the_check_counts<P: Exported>() {
    let session = tracking::<P>(9, &[1]);
    let (frame, question) = (peers::<P>(&[(2, 100)]), [2, 1, 1, 0]);
    checked::<P>(&session, &frame);
    checked::<P>(&session, &question);
    asked(|room| session.track(1, &key::<P>(2), &[], room));
    assert_eq!(received::<P>(&session, &question, &[]), [2, 3, 0]);
    checked::<P>(&session, &frame);
    asked(|room| session.track(2, &key::<P>(2), &[], room));
    assert_eq!(received::<P>(&session, &frame, &[1])[0], 3);
    assert_eq!(asked(|room| session.ask(0, room))[3], 1);
}
