//! How far infos can go: a reply has only infos of those with whom the replier is connected.

use super::network::{Network, Place};

/// Counts for the nodes of a network how many of their peers are within two connections.
///
/// A peer counts if the node is connected with it, or with another one that is connected with it,
/// and all three are in one set. So a question about that set can bring its info.
#[derive(Debug)]
pub struct Reach {
    // The connected peers of each node.
    neighbours: Vec<Vec<usize>>,
    // The group of each node in each round, the rounds of a node one after the other.
    groups: Vec<u64>,
    rounds: usize,
    // For each node the number of the count in which it was reached last.
    reached: Vec<usize>,
    count: usize,
}

impl Reach {
    /// Creates a counter for a network as it is now.
    #[must_use]
    pub fn new(network: &Network) -> Reach {
        let places = &network.places;
        let groups = places.iter().flat_map(|place| place.member.groups.iter());
        Reach {
            neighbours: places.iter().map(neighbours).collect(),
            groups: groups.map(|group| group.index).collect(),
            rounds: network.parameters.sets,
            reached: vec![0; places.len()],
            count: 0,
        }
    }

    /// How many of a node's peers, of whom there are so many, are within two connections.
    ///
    /// # Panics
    ///
    /// Panics if there is no such node.
    #[must_use]
    pub fn of(&mut self, node: usize, peers: usize) -> usize {
        let Reach {
            neighbours,
            groups,
            rounds,
            reached,
            count,
        } = self;
        *count += 1;
        let mut reach = |node: usize| {
            let before = std::mem::replace(&mut reached[node], *count);
            usize::from(before < *count)
        };
        let groups = |node: usize| &groups[node * *rounds..(node + 1) * *rounds];
        reach(node);
        let mut within: usize = neighbours[node].iter().map(|peer| reach(*peer)).sum();
        for peer in &neighbours[node] {
            if within == peers {
                break;
            }
            for other in &neighbours[*peer] {
                if share_group(groups(node), groups(*peer), groups(*other)) {
                    within += reach(*other);
                }
            }
        }
        within
    }
}

fn neighbours(place: &Place) -> Vec<usize> {
    let running = place.running.iter();
    let peers = running.flat_map(|running| running.connections.keys().copied());
    peers.collect()
}

// Each node is in one group of each round, so groups are compared round by round.
fn share_group(one: &[u64], two: &[u64], three: &[u64]) -> bool {
    let mut rounds = one.iter().zip(two).zip(three);
    rounds.any(|((one, two), three)| one == two && two == three)
}
