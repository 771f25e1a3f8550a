//! The waves of the four counter method, over a binary tree of nodes.

/// Sent and received messages.
pub type Sums = (u32, u32);

#[derive(Clone, Copy, Default)]
struct Visit {
    has_token: bool,
    is_reached: bool,
    has_given: bool,
    is_taken: bool,
    sums: Sums,
}

#[derive(Clone, Copy, PartialEq)]
enum Phase {
    Closed,
    Open,
    Ended,
    Over,
}

pub struct Waves {
    number: u32,
    phase: Phase,
    visits: Vec<Visit>,
    last: Option<Sums>,
}

impl Waves {
    pub fn new(nodes: usize) -> Waves {
        Waves { number: 0, phase: Phase::Closed, visits: vec![Visit::default(); nodes], last: None }
    }

    fn children(&self, node: usize) -> std::ops::Range<usize> {
        let nodes = self.visits.len();
        (2 * node + 1).min(nodes)..(2 * node + 3).min(nodes)
    }

    fn reach(&mut self, node: usize) {
        self.visits[node].has_token = false;
        self.visits[node].is_reached = true;
        for child in self.children(node) {
            self.visits[child].has_token = true;
        }
    }

    /// Opens the next wave, where the one before was judged.
    pub fn start(&mut self) -> bool {
        let can = self.phase == Phase::Closed;
        if can {
            self.number += 1;
            self.phase = Phase::Open;
            self.visits.fill(Visit::default());
            self.reach(0);
        }
        can
    }

    /// The node takes the token that its parent left for it.
    pub fn down(&mut self, node: usize) -> bool {
        let can = self.phase == Phase::Open && self.visits[node].has_token;
        if can {
            self.reach(node);
        }
        can
    }

    /// The idle node adds its numbers, once those of its children were taken.
    pub fn give(&mut self, node: usize, sent: u32, received: u32) -> bool {
        let visit = self.visits[node];
        let can = self.phase == Phase::Open
            && visit.is_reached
            && !visit.has_given
            && self.children(node).all(|child| self.visits[child].is_taken);
        if can {
            let visit = &mut self.visits[node];
            visit.has_given = true;
            visit.sums.0 += sent;
            visit.sums.1 += received;
            if node == 0 {
                self.phase = Phase::Ended;
            }
        }
        can
    }

    /// The parent takes what one of its children gave: which one it was.
    pub fn up(&mut self, parent: usize) -> Option<usize> {
        if self.phase != Phase::Open {
            return None;
        }
        let child = self.children(parent).find(|&it| self.visits[it].has_given && !self.visits[it].is_taken)?;
        self.visits[child].is_taken = true;
        let given = self.visits[child].sums;
        self.visits[parent].sums.0 += given.0;
        self.visits[parent].sums.1 += given.1;
        Some(child)
    }

    pub fn has_ended(&self) -> bool {
        self.phase == Phase::Ended
    }

    /// Judges the wave that has ended: the wave by whose end the pool had ended, if that is told.
    pub fn judge(&mut self) -> Option<u32> {
        let now = self.visits[0].sums;
        let is_over = now.0 == now.1 && self.last == Some(now);
        self.last = Some(now);
        self.phase = if is_over { Phase::Over } else { Phase::Closed };
        is_over.then(|| self.number - 1)
    }
}
