//! Checks of grants, connections and frames.

use super::{Check, Verdict};
use crate::bounds::{COOLDOWN, FRAMES, TICK};
use crate::network::{Network, SetAt};
use crate::traffic::Connection;
use crate::weather::Side;
use p2p_directory::Key;
use std::collections::HashMap;
use std::time::Duration;

/// A line of a ledger has the time before the directory is asked, which may be earlier than the
/// time of the grant by so much if the machine is loaded.
const SLACK: Duration = Duration::from_millis(250);

/// By their ledgers, nodes grant no peer a connection within the cooldown of the last grant.
pub fn cooldown_by_ledgers(network: &Network) -> Verdict {
    let mut faults = Vec::new();
    let mut count = 0;
    for (number, member) in network.members.iter().enumerate() {
        // A node that starts anew knows nothing of its grants before.
        for life in &member.lives {
            let mut last: HashMap<Key, Duration> = HashMap::new();
            for event in life.ledger.of("grant") {
                let Some(peer) = event.peer else { continue };
                count += 1;
                let before = last.insert(peer, event.at);
                let passed = before.map(|before| event.at.saturating_sub(before));
                if let Some(passed) = passed.filter(|passed| *passed + SLACK < COOLDOWN) {
                    faults.push(format!("node {number} granted {peer} twice in {passed:?}"));
                }
            }
        }
    }
    Verdict {
        check: Check::CooldownByLedgers,
        evidence: format!("{count} grants, {COOLDOWN:?} apart"),
        faults,
    }
}

/// So many dials in a row have to take half of what their cooldowns take.
const DIALS: usize = 11;

/// A node and a life of it, for each end of a connection.
type Ends = [(Key, usize); 2];

/// By what the proxies saw, no node grants a peer two connections within the cooldown.
///
/// A listener grants one after the handshake was delivered, and before its first frame arrives at
/// the proxy. If two connections have less than the cooldown from the earlier handshake to the later
/// first frame, both grants are in it, however slow the proxy was.
///
/// A dialer grants one before it connects, and the proxy may see that late. So a row of dials is
/// looked at, and half of the time is left for the machine.
pub fn cooldown_by_frames(network: &Network) -> Verdict {
    let traffic = network.proxies.traffic();
    let mut listened: HashMap<Ends, Vec<(Duration, Duration)>> = HashMap::new();
    let mut dialled: HashMap<Ends, Vec<Duration>> = HashMap::new();
    for connection in &traffic.connections {
        let ends = connection.ends(Side::Dialer);
        let span = (
            connection.from_dialer.signed,
            connection.from_listener.first,
        );
        if let (Some(signed), Some(first)) = span {
            listened.entry(ends).or_default().push((signed, first));
        }
        if is_honest(network, &connection.dialer.0) {
            dialled.entry(ends).or_default().push(connection.begun);
        }
    }
    let named = |ends: &Ends| ends.map(|(key, _)| name(network, &key));
    let mut faults = Vec::new();
    for (ends, spans) in &mut listened {
        if let Some(passed) = shortest_span(spans).filter(|passed| *passed < COOLDOWN) {
            let [dialer, listener] = named(ends);
            faults.push(format!("{listener} granted {dialer} twice in {passed:?}"));
        }
    }
    let shortest = COOLDOWN * (DIALS as u32 - 1) / 2;
    for (ends, times) in &mut dialled {
        if let Some(passed) = shortest_row(times).filter(|passed| *passed < shortest) {
            let [dialer, listener] = named(ends);
            faults.push(format!(
                "{dialer} dialled {listener} {DIALS} times in {passed:?}"
            ));
        }
    }
    let granted: usize = listened.values().map(Vec::len).sum();
    Verdict {
        check: Check::CooldownByFrames,
        evidence: format!(
            "{granted} of {} connections were granted",
            traffic.connections.len()
        ),
        faults,
    }
}

/// The shortest time that has the handshakes and the first frames of two connections.
fn shortest_span(spans: &mut [(Duration, Duration)]) -> Option<Duration> {
    spans.sort_unstable();
    let pairs = spans.windows(2).filter_map(|pair| match pair {
        [(signed, first), (_, later)] => Some((*first.max(later)).saturating_sub(*signed)),
        _ => None,
    });
    pairs.min()
}

/// The shortest time in which so many dials were made, if there are so many.
fn shortest_row(times: &mut [Duration]) -> Option<Duration> {
    times.sort_unstable();
    let rows = times.windows(DIALS).filter_map(|row| match row {
        [first, .., last] => Some(last.saturating_sub(*first)),
        _ => None,
    });
    rows.min()
}

fn is_honest(network: &Network, key: &Key) -> bool {
    network.members.iter().any(|member| member.key == *key)
}

/// How a key is called in a report.
pub fn name(network: &Network, key: &Key) -> String {
    let place = network.members.iter().position(|member| member.key == *key);
    match place {
        Some(number) => format!("node {number}"),
        None => format!("attacker {key}"),
    }
}

/// No frame passes between two peers that no set has had together since the bound.
pub fn dropped(network: &Network) -> Verdict {
    let traffic = network.proxies.traffic();
    let bound = network.bounds.dropped;
    let mut faults = Vec::new();
    for connection in &traffic.connections {
        let [(one, _), (other, _)] = connection.ends(Side::Dialer);
        let allowed = together(&network.sets, &one, &other, bound);
        let is_allowed = |at: &Duration| {
            let mut allowed = allowed.iter();
            allowed.any(|(from, until)| from <= at && until.is_none_or(|until| *at <= until))
        };
        let count = connection.times().filter(|at| !is_allowed(at)).count();
        if count > 0 {
            let ends = [one, other].map(|key| name(network, &key));
            let [one, other] = ends;
            faults.push(format!(
                "{count} frames between {one} and {other}, of which no set has both"
            ));
        }
    }
    Verdict {
        check: Check::Dropped,
        evidence: format!("{} frames, {} sets", traffic.frames, network.sets.len()),
        faults,
    }
}

/// When these peers may have a connection: from a set that has both, until the bound after the
/// next one that hasn't.
fn together(
    sets: &[SetAt],
    one: &Key,
    other: &Key,
    bound: Duration,
) -> Vec<(Duration, Option<Duration>)> {
    let ends = sets.iter().skip(1).map(|set| Some(set.at + bound));
    let ends = ends.chain([None]);
    let spans = sets.iter().zip(ends);
    let of_both = spans.filter(|(set, _)| set.peers.contains(one) && set.peers.contains(other));
    of_both.map(|(set, end)| (set.at, end)).collect()
}

/// Attackers get no more lists of infos than a node answers by its limit, besides those that it
/// sends of itself.
pub fn answers(network: &Network) -> Verdict {
    let traffic = network.proxies.traffic();
    let mut faults = Vec::new();
    let mut most = 0;
    for connection in &traffic.connections {
        if is_honest(network, &connection.dialer.0) {
            continue;
        }
        let Some(bound) = bound_on_lists(connection) else {
            continue;
        };
        let lists = connection.from_listener.lists;
        most = most.max(lists);
        if lists > bound {
            let node = name(network, &connection.listener.0);
            faults.push(format!(
                "{node} sent {lists} lists on a connection, of {bound}"
            ));
        }
    }
    Verdict {
        check: Check::Answers,
        evidence: format!("at most {most} lists on a connection of an attacker"),
        faults,
    }
}

/// How many lists a listener sends at most: it answers the frames at once and those of each tick,
/// and sends a list of its own in each tick. The ticks are counted from the handshake to the last
/// frame.
fn bound_on_lists(connection: &Connection) -> Option<u64> {
    let signed = connection.from_dialer.signed?;
    let last = *connection.from_listener.frames.last()?;
    let last = connection.begun + Duration::from_millis(u64::from(last));
    let passed = last.saturating_sub(signed).as_secs_f64();
    let ticks = (passed / TICK.as_secs_f64()).ceil() as u64 + 1;
    let (burst, refill) = FRAMES;
    Some(burst + (refill + 1) * ticks)
}

#[cfg(test)]
mod tests {
    use super::*;
    use p2p_directory::testing::key;

    #[test]
    fn two_grants_are_within_the_span_of_their_connections() {
        let at = Duration::from_millis;
        let mut spans = [
            (at(5000), at(5010)),
            (at(1000), at(1020)),
            (at(1500), at(1600)),
        ];
        assert_eq!(shortest_span(&mut spans), Some(at(600)));
        // The first one may have been granted late.
        let mut spans = [(at(1000), at(4000)), (at(3500), at(3600))];
        assert_eq!(shortest_span(&mut spans), Some(at(3000)));
        assert_eq!(shortest_span(&mut spans[..1]), None);
    }

    #[test]
    fn a_row_of_dials_is_as_long_as_its_shortest_part() {
        let seconds = Duration::from_secs;
        let mut times: Vec<Duration> = (0..20).map(|number| seconds(number * number)).collect();
        times.reverse();
        assert_eq!(shortest_row(&mut times), Some(seconds(100)));
        assert_eq!(shortest_row(&mut times[..DIALS - 1]), None);
    }

    #[test]
    fn peers_are_together_until_the_bound_after_a_set_without_one() {
        let at = Duration::from_secs;
        let set = |second, peers: &[u16]| SetAt {
            at: at(second),
            peers: peers.iter().map(|number| key(*number)).collect(),
        };
        let sets = [set(1, &[1, 2, 3]), set(5, &[1, 3]), set(9, &[1, 2])];
        let spans = |one, other| together(&sets, &key(one), &key(other), at(2));
        assert_eq!(spans(1, 2), [(at(1), Some(at(7))), (at(9), None)]);
        assert_eq!(spans(1, 3), [(at(1), Some(at(7))), (at(5), Some(at(11)))]);
        assert_eq!(spans(2, 3), [(at(1), Some(at(7)))]);
        assert_eq!(spans(1, 4), []);
    }
}
