//! Who knows which info.

/// What each node knows of its peers, by the timestamps of infos.
///
/// A directory tells only the infos of connected peers. So the ledger is kept next to the nodes: it
/// has the infos of the frames that a node accepted, and of each peer the one with the greatest
/// timestamp, as a directory does.
///
/// # Examples
///
/// ```
/// use p2p_node::simulate::Ledger;
///
/// let mut ledger = Ledger::new(vec![vec![1], vec![0]]);
/// ledger.renew(1, 7);
/// ledger.learn(0, 1, 7);
/// assert_eq!(ledger.newest_known(0), 1);
/// ledger.renew(1, 8);
/// assert_eq!(ledger.newest_known(0), 0);
/// assert_eq!(ledger.held(0, 1), Some(7));
/// ```
#[derive(Clone, Debug)]
pub struct Ledger {
    rows: Vec<Row>,
    // The timestamp of each node's newest info. 0 if it has none.
    newest: Vec<u64>,
}

#[derive(Clone, Debug)]
struct Row {
    // The peers of the node's sets without itself, in ascending order.
    peers: Vec<usize>,
    // The timestamp of the known info of each peer. 0 if it has none.
    held: Vec<u64>,
    // How many of them are the newest of their peers.
    newest_known: usize,
    known: usize,
}

impl Ledger {
    /// Creates a ledger of nodes that know nothing, from the peers of each node without itself, in
    /// ascending order.
    #[must_use]
    pub fn new(peers: Vec<Vec<usize>>) -> Ledger {
        let newest = vec![0; peers.len()];
        let rows = peers.into_iter().map(|peers| Row {
            held: vec![0; peers.len()],
            peers,
            newest_known: 0,
            known: 0,
        });
        Ledger {
            rows: rows.collect(),
            newest,
        }
    }

    /// Records that a node accepted an info. Its peer has to be one of the node's, else nothing
    /// changes.
    ///
    /// # Panics
    ///
    /// Panics if there is no such node.
    pub fn learn(&mut self, node: usize, peer: usize, timestamp: u64) {
        let row = &mut self.rows[node];
        let Ok(place) = row.peers.binary_search(&peer) else {
            return;
        };
        let had = row.held[place];
        if timestamp <= had {
            return;
        }
        row.held[place] = timestamp;
        let newest = self.newest[peer];
        row.known += usize::from(had == 0);
        row.newest_known += usize::from(timestamp == newest);
        row.newest_known -= usize::from(had == newest);
    }

    /// Records that a node signed a newer info.
    ///
    /// # Panics
    ///
    /// Panics if there is no such node.
    pub fn renew(&mut self, peer: usize, timestamp: u64) {
        let before = self.newest[peer];
        self.newest[peer] = timestamp;
        if before == 0 {
            return;
        }
        for row in &mut self.rows {
            if let Ok(place) = row.peers.binary_search(&peer) {
                row.newest_known -= usize::from(row.held[place] == before);
            }
        }
    }

    /// Records that a node lost what it knew.
    ///
    /// # Panics
    ///
    /// Panics if there is no such node.
    pub fn forget(&mut self, node: usize) {
        let row = &mut self.rows[node];
        row.held.fill(0);
        row.newest_known = 0;
        row.known = 0;
    }

    /// The peers of a node, without itself, in ascending order.
    ///
    /// # Panics
    ///
    /// Panics if there is no such node.
    #[must_use]
    pub fn peers(&self, node: usize) -> &[usize] {
        &self.rows[node].peers
    }

    /// The timestamp of what a node knows of a peer, or `None` if it knows nothing.
    ///
    /// # Panics
    ///
    /// Panics if there is no such node.
    #[must_use]
    pub fn held(&self, node: usize, peer: usize) -> Option<u64> {
        let row = &self.rows[node];
        let place = row.peers.binary_search(&peer).ok()?;
        row.held.get(place).copied().filter(|held| *held > 0)
    }

    /// Of how many peers a node knows the newest info.
    ///
    /// # Panics
    ///
    /// Panics if there is no such node.
    #[must_use]
    pub fn newest_known(&self, node: usize) -> usize {
        self.rows[node].newest_known
    }

    /// Of how many peers a node knows any info.
    ///
    /// # Panics
    ///
    /// Panics if there is no such node.
    #[must_use]
    pub fn known(&self, node: usize) -> usize {
        self.rows[node].known
    }
}
