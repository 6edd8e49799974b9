//! The order of keys.

use super::given::{asked, key, session};
use super::{Exported, least_first};
use p2p_directory::sized::Bytes;

tests_of_each_pair! {
    the_first_bytes_that_differ_decide,
}

// The keys of a set that was registered with these keys, in the order in which the session keeps
// them.
fn kept<P: Exported>(given: [&[u8]; 2]) -> Vec<u8> {
    let session = session::<P>(1);
    assert_eq!(session.track(0, &given.concat(), &[], &mut []), 0);
    asked(|room| session.get_peer_set(0, room))[8..].to_vec()
}

// For each position: a key with the smaller byte there comes first, though all of its later bytes
// are greater.
fn the_first_bytes_that_differ_decide<P: Exported>() {
    let (mut less, mut greater) = (key::<P>(9), key::<P>(7));
    for place in 0..P::KEY_SIZE {
        let smaller = match (place, least_first::<P>()) {
            (0, 1..) => least_first::<P>(),
            _ => 7,
        };
        less[place] = smaller;
        greater[place] = smaller + 1;
        // Where keys begin with one byte alone, it decides nothing.
        if P::Key::of_bytes(&greater).is_none() {
            greater[place] = smaller;
            continue;
        }
        let sorted = [&less[..], &greater].concat();
        assert_eq!(kept::<P>([&less, &greater]), sorted, "at {place}");
        assert_eq!(kept::<P>([&greater, &less]), sorted, "at {place}");
        assert_eq!(kept::<P>([&less, &less]), less, "at {place}");
        greater[place] = smaller;
    }
}
