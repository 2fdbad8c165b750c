//! Horn's network: does a plan exist at all? Jobs stand on the left, the
//! stretches between neighbouring due minutes on the right. A stretch holds
//! boards x length minutes, a job at most the stretch's length of them. A
//! plan exists exactly when the greatest flow carries all the work.
//!
//! Nothing here is shared with the planner.

/// Whether a plan exists for the chosen jobs (counted from 0) alone.
pub fn plan_exists(boards: u32, work: &[u32], due: &[u32], jobs: &[usize]) -> bool {
    let ends = distinct_dues(due, jobs);
    let source = jobs.len() + ends.len();
    let sink = source + 1;
    let mut net = Network::new(sink + 1);
    for (left, &job) in jobs.iter().enumerate() {
        net.edge(source, left, u64::from(work[job]));
        for (s, length) in stretches(&ends).take_while(|&(s, _)| ends[s] <= due[job]) {
            net.edge(left, jobs.len() + s, length);
        }
    }
    for (s, length) in stretches(&ends) {
        net.edge(jobs.len() + s, sink, u64::from(boards) * length);
    }
    let total: u64 = jobs.iter().map(|&job| u64::from(work[job])).sum();
    net.greatest_flow(source, sink) == total
}

/// The first position in `order` up to which no plan exists. A plan for more
/// jobs holds one for fewer, so the first failing length can be bisected.
pub fn first_misfit(boards: u32, work: &[u32], due: &[u32], order: &[usize]) -> Option<usize> {
    let fits = |count: usize| plan_exists(boards, work, due, &order[..count]);
    if fits(order.len()) {
        return None;
    }
    let (mut good, mut bad) = (0, order.len());
    while good + 1 < bad {
        let middle = (good + bad) / 2;
        if fits(middle) {
            good = middle;
        } else {
            bad = middle;
        }
    }
    Some(good)
}

fn distinct_dues(due: &[u32], jobs: &[usize]) -> Vec<u32> {
    let mut ends: Vec<u32> = jobs.iter().map(|&job| due[job]).collect();
    ends.sort_unstable();
    ends.dedup();
    ends
}

/// Each stretch with its length; stretch `s` ends at `ends[s]`.
fn stretches(ends: &[u32]) -> impl Iterator<Item = (usize, u64)> + '_ {
    let starts = std::iter::once(0).chain(ends.iter().copied());
    ends.iter().zip(starts).map(|(&end, start)| u64::from(end - start)).enumerate()
}

const NONE: u32 = u32::MAX;

/// A network for Dinic's method. Edge `e` and its way back `e ^ 1` stand side
/// by side; a node's edges form a chain through `next`.
struct Network {
    first: Vec<u32>,
    next: Vec<u32>,
    to: Vec<u32>,
    left: Vec<u64>,
    depth: Vec<u32>,
    at: Vec<u32>,
}

impl Network {
    fn new(nodes: usize) -> Network {
        Network {
            first: vec![NONE; nodes],
            next: Vec::new(),
            to: Vec::new(),
            left: Vec::new(),
            depth: vec![NONE; nodes],
            at: vec![NONE; nodes],
        }
    }

    fn edge(&mut self, from: usize, to: usize, capacity: u64) {
        self.half_edge(from, to, capacity);
        self.half_edge(to, from, 0);
    }

    fn half_edge(&mut self, from: usize, to: usize, capacity: u64) {
        self.next.push(self.first[from]);
        self.first[from] = self.to.len() as u32;
        self.to.push(to as u32);
        self.left.push(capacity);
    }

    fn greatest_flow(&mut self, source: usize, sink: usize) -> u64 {
        let mut total = 0;
        while self.measure(source, sink) {
            self.at.copy_from_slice(&self.first);
            total += self.push(source, sink, u64::MAX);
        }
        total
    }

    /// Breadth first: each node's distance from the source along edges with
    /// something left. False when the sink is out of reach.
    fn measure(&mut self, source: usize, sink: usize) -> bool {
        self.depth.fill(NONE);
        self.depth[source] = 0;
        let mut queue = vec![source];
        let mut head = 0;
        while let Some(&node) = queue.get(head) {
            head += 1;
            let mut e = self.first[node];
            while e != NONE {
                let to = self.to[e as usize] as usize;
                if self.left[e as usize] > 0 && self.depth[to] == NONE {
                    self.depth[to] = self.depth[node] + 1;
                    queue.push(to);
                }
                e = self.next[e as usize];
            }
        }
        self.depth[sink] != NONE
    }

    /// Depth first, along edges that lead one step away from the source.
    fn push(&mut self, node: usize, sink: usize, most: u64) -> u64 {
        if node == sink {
            return most;
        }
        let mut sent = 0;
        while self.at[node] != NONE {
            let e = self.at[node] as usize;
            let to = self.to[e] as usize;
            if self.left[e] > 0 && self.depth[to] == self.depth[node] + 1 {
                let got = self.push(to, sink, self.left[e].min(most - sent));
                self.left[e] -= got;
                self.left[e ^ 1] += got;
                sent += got;
                if sent == most {
                    return sent; // the edge may carry more: stay on it
                }
            }
            self.at[node] = self.next[e];
        }
        sent
    }
}
