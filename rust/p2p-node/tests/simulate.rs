//! The simulation: what can be counted by hand, or in another way than it does itself.

use p2p_node::simulate::{Ledger, Lie, Parameters, Random, Record, Run, csv, simulate};
use std::collections::BTreeSet;

fn parameters(flags: &str) -> Parameters {
    let words: Vec<String> = flags.split_whitespace().map(str::to_owned).collect();
    let read = Parameters::read(&words);
    read.expect("parameters within their ranges").0
}

fn run(flags: &str) -> Run {
    simulate(&parameters(flags), false).expect("memory for the nodes")
}

fn recorded(flags: &str) -> (Run, Record) {
    let mut run = simulate(&parameters(flags), true).expect("memory for the nodes");
    let record = run.record.take().expect("the run was recorded");
    (run, record)
}

/// The peers of whom a node knows an info at the end of a tick, counted from 0.
fn known(record: &Record, tick: usize, node: usize) -> BTreeSet<usize> {
    let ages = record.ticks[tick][node].ages.iter().enumerate();
    let known = ages.filter(|(_, age)| age.is_some());
    known.map(|(peer, _)| peer).collect()
}

/// The nodes within two connections of a node, without itself: its neighbours, and theirs.
fn within_two(record: &Record, tick: usize, node: usize) -> BTreeSet<usize> {
    let neighbours = |node: usize| record.ticks[tick][node].connections.iter().copied();
    let mut reached: BTreeSet<usize> = neighbours(node).collect();
    reached.extend(neighbours(node).flat_map(neighbours));
    reached.remove(&node);
    reached
}

#[test]
fn the_generator_is_splitmix64() {
    // The numbers that are published for this seed.
    let published = [
        6_457_827_717_110_365_317,
        3_203_168_211_198_807_973,
        9_817_491_932_198_370_423,
        4_593_380_528_125_082_431,
        16_408_922_859_458_223_821,
    ];
    let mut random = Random::new(1_234_567);
    assert_eq!([(); 5].map(|()| random.number()), published);
}

#[test]
fn draws_are_within_their_bounds() {
    let mut random = Random::new(5);
    let drawn: BTreeSet<u64> = (0..1000).map(|_| random.below(6)).collect();
    assert_eq!(drawn, (0..6).collect());
    assert_eq!(random.below(0), 0);
    assert!(!(0..1000).any(|_| random.happens(0.0)));
    assert!((0..1000).all(|_| random.happens(1.0)));
    let mut items: Vec<usize> = (0..50).collect();
    random.shuffle(&mut items);
    assert_ne!(items, (0..50).collect::<Vec<_>>());
    let chosen: BTreeSet<usize> = random.choose(&mut items, 7).iter().copied().collect();
    assert_eq!(chosen.len(), 7);
    items.sort_unstable();
    assert_eq!(items, (0..50).collect::<Vec<_>>());
}

#[test]
fn the_ledger_keeps_the_newest_info() {
    let mut ledger = Ledger::new(vec![vec![1, 2], vec![0], vec![]]);
    ledger.renew(1, 10);
    ledger.learn(0, 1, 10);
    ledger.learn(0, 1, 9);
    assert_eq!(ledger.held(0, 1), Some(10));
    assert_eq!((ledger.newest_known(0), ledger.known(0)), (1, 1));
    ledger.renew(1, 20);
    assert_eq!((ledger.newest_known(0), ledger.known(0)), (0, 1));
    ledger.learn(0, 1, 20);
    assert_eq!((ledger.newest_known(0), ledger.known(0)), (1, 1));
    // Node 2 is no peer of node 1.
    ledger.learn(1, 2, 5);
    assert_eq!((ledger.held(1, 2), ledger.known(1)), (None, 0));
    ledger.forget(0);
    assert_eq!((ledger.held(0, 1), ledger.known(0)), (None, 0));
}

#[test]
fn two_nodes_send_what_can_be_counted_by_hand() {
    let flags = "--nodes 2 --connections 1 --bootstrappers 1 --ticks 8";
    let rows = run(flags).rows;
    let met = rows.iter().position(|row| row.connections > 0.0);
    let met = met.expect("the two nodes connect within eight ticks");
    for (place, row) in rows.iter().enumerate() {
        let (share, bytes, questions) = match place {
            _ if place < met => (0.0, 0.0, 0),
            // A greeting: the prefix, an ingress of 8 bytes, a timestamp of 6, and the key of 32
            // with the signature of 64.
            _ if place == met => (1.0, 1.0 + 8.0 + 6.0 + 32.0 + 64.0, 0),
            // A question: the prefix, the index, the number of bits, and the bits. A reply without
            // infos: the prefix and the number.
            _ => (1.0, 4.0 + 2.0, 2),
        };
        assert_eq!(row.newest_known, share, "tick {}", row.tick);
        assert_eq!(row.bytes_of_node, bytes, "tick {}", row.tick);
        assert_eq!(row.counts.questions, questions, "tick {}", row.tick);
        assert_eq!(row.counts.replies, questions, "tick {}", row.tick);
        assert_eq!(row.counts.infos, 0, "tick {}", row.tick);
    }
    let table = csv(&parameters(flags), &rows);
    // The parameters, the columns, and eight ticks.
    assert_eq!(table.lines().count(), 10);
    let last = "8,240.000,2,1.000000,1.000000,1.000000,2,1.000,2,2,0,6.0,0,0,0,0";
    assert_eq!(table.lines().last(), Some(last));
}

#[test]
fn all_infos_are_known_if_all_may_connect_and_nothing_is_lost() {
    let (run, record) = recorded("--nodes 30 --connections 29 --ticks 12");
    let last = run.rows.last().expect("a row");
    assert_eq!((last.newest_known, last.complete), (1.0, 30));
    // The ledger and the bits of the directories say the same, of the local node as well.
    for node in record.ticks.last().expect("a tick") {
        assert_eq!(node.sets, [(0, 30, 30)]);
        assert!(node.blocked.is_empty());
    }
}

#[test]
fn a_bit_is_true_only_of_an_info_in_the_ledger() {
    let (_, record) = recorded("--nodes 40 --connections 5 --lifetime 4 --loss 0.1 --ticks 20");
    let mut differ = 0;
    for tick in 0..20 {
        for (node, state) in record.ticks[tick].iter().enumerate() {
            let count = known(&record, tick, node).len() + 1;
            let [(_, _, bits)] = state.sets[..] else {
                panic!("node {node} has another number of sets");
            };
            assert!(bits <= count, "tick {tick}, node {node}");
            differ += usize::from(bits < count);
        }
    }
    // An info is wanted again after failed dials, so some bits are false of infos that are known.
    assert!(differ > 0);
}

#[test]
fn with_one_connection_a_node_knows_one_peer() {
    let (run, record) = recorded("--nodes 50 --connections 1 --ticks 15");
    for tick in 0..15 {
        for node in 0..50 {
            let connected = record.ticks[tick][node].connections.iter().copied();
            let known = known(&record, tick, node);
            assert!(known.len() <= 1, "tick {tick}, node {node}");
            assert!(
                known.is_subset(&connected.collect()),
                "tick {tick}, node {node}"
            );
        }
    }
    let last = run.rows.last().expect("a row");
    // One of 49 peers at most, and most nodes find one.
    assert!(last.newest_known <= 1.0 / 49.0);
    assert!(last.newest_known > 0.5 / 49.0);
}

#[test]
fn nothing_is_known_beyond_two_hops_while_connections_last() {
    for connections in [2, 3, 5] {
        let flags = format!("--nodes 60 --connections {connections} --ticks 20");
        let (run, record) = recorded(&flags);
        for tick in 0..20 {
            let mut reach = 0;
            for node in 0..60 {
                let near = within_two(&record, tick, node);
                let known = known(&record, tick, node);
                assert!(
                    known.is_subset(&near),
                    "tick {tick}, node {node}: {known:?}, {near:?}"
                );
                assert!(near.len() <= connections * connections);
                reach += near.len();
            }
            let share = reach as f64 / (60.0 * 59.0);
            let told = run.rows[tick].two_hops;
            assert!((told - share).abs() < 1e-9, "tick {tick}");
        }
        // Nearly all that can be known is known at the end, so the bound says something.
        let last = run.rows.last().expect("a row");
        assert!(last.newest_known > 0.8 * last.two_hops, "{last:?}");
    }
}

#[test]
fn infos_go_beyond_two_hops_if_connections_end() {
    let lasting = run("--nodes 60 --connections 4 --ticks 60");
    let ending = run("--nodes 60 --connections 4 --lifetime 5 --ticks 60");
    let (lasting, ending) = (lasting.rows[59].newest_known, ending.rows[59].newest_known);
    assert!(lasting <= 16.0 / 59.0, "{lasting}");
    assert!(ending > 0.6, "{ending}");
}

#[test]
fn liars_lower_the_share() {
    let share = |liars: &str| {
        let run = run(&format!("--nodes 80 --connections 10 --ticks 8 {liars}"));
        run.rows[7].newest_known
    };
    let honest = share("");
    for liars in ["silent", "empty", "forged"] {
        let lied = share(&format!("--liars-{liars} 0.4"));
        assert!(lied < 0.9 * honest, "{liars}: {lied}, and {honest} without");
    }
}

#[test]
fn old_infos_of_liars_stay_where_no_infos_would_be_asked_for_again() {
    let outdated = |liars: &str| {
        let flags = "--nodes 40 --connections 12 --lifetime 6 --churn 0.03 --ticks 40";
        let rows = run(&format!("{flags} {liars}")).rows;
        let later = rows.iter().skip(20);
        later.map(|row| row.known - row.newest_known).sum::<f64>()
    };
    assert!(outdated("") > 0.0);
    assert!(outdated("--liars-oldest 0.5") > outdated("--liars-empty 0.5"));
}

#[test]
fn only_liars_who_forge_are_blocked() {
    let liars = "--liars-forged 0.1 --liars-oldest 0.1 --liars-silent 0.1 --liars-empty 0.1";
    let flags = format!("--nodes 50 --connections 10 --lifetime 5 --churn 0.01 --ticks 25 {liars}");
    let (run, record) = recorded(&flags);
    let count = |lie: Lie| run.lies.iter().filter(|other| **other == Some(lie)).count();
    assert_eq!(Lie::ALL.map(count), [0, 5, 5, 5, 5]);
    let blocks: u64 = run.rows.iter().map(|row| row.counts.blocks).sum();
    assert!(blocks > 0);
    let blocked = record.ticks.iter().flatten().flat_map(|node| &node.blocked);
    let lies: Vec<Option<Lie>> = blocked.map(|peer| run.lies[*peer]).collect();
    assert!(!lies.is_empty());
    assert!(lies.iter().all(|lie| *lie == Some(Lie::Forged)));
}

#[test]
fn nothing_arrives_if_all_is_lost() {
    for row in run("--nodes 20 --loss 1 --ticks 6").rows {
        let arrived = (row.known, row.connections, row.bytes_of_node);
        assert_eq!(arrived, (0.0, 0.0, 0.0));
        assert_eq!(row.counts.lost, row.counts.dials);
    }
}

#[test]
fn a_node_that_restarts_knows_nothing_and_has_a_newer_info() {
    let (run, record) = recorded("--nodes 30 --connections 29 --churn 0.05 --ticks 30");
    let (mut returns, mut outdated) = (0, 0);
    for (before, after) in record.ticks.iter().zip(record.ticks.iter().skip(1)) {
        for node in 0..30 {
            if before[node].is_running || !after[node].is_running {
                continue;
            }
            returns += 1;
            assert!(before[node].ages.iter().all(Option::is_none));
            // Unless no peer had an info of the node, some have an older one now.
            outdated += usize::from(after.iter().any(|state| state.ages[node] > Some(0)));
        }
    }
    assert!(returns > 10, "{returns}");
    assert!(10 * outdated > 9 * returns, "{outdated} of {returns}");
    assert!(run.rows.iter().any(|row| row.running < 30));
    assert!(run.rows.iter().any(|row| row.known > row.newest_known));
}

#[test]
fn nodes_know_only_those_with_whom_they_share_a_set() {
    let flags = "--nodes 60 --sets 2 --set-size 15 --connections 20 --ticks 25";
    let (run, record) = recorded(flags);
    let states = record.ticks.last().expect("a tick");
    let indices = |node: usize| -> BTreeSet<u64> {
        let sets = states[node].sets.iter();
        sets.map(|(index, _, _)| *index).collect()
    };
    for (node, state) in states.iter().enumerate() {
        assert_eq!(state.sets.len(), 2);
        assert!(state.sets.iter().all(|(_, peers, _)| *peers == 15));
        let shares = |peer: &usize| !indices(node).is_disjoint(&indices(*peer));
        assert!(known(&record, 24, node).iter().all(shares), "node {node}");
    }
    // Four groups of 15 for each of two rounds.
    let all: BTreeSet<u64> = (0..60).flat_map(indices).collect();
    assert_eq!(all, (0..8).collect());
    assert!(run.rows[24].newest_known > 0.95);
}
