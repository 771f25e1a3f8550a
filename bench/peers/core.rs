//! A small core by hand: the steps of a pool, the checks of each in their order, the waves and the judgement.
//!
//! Tasks, actions and messages lie in std's maps: in `BTreeMap` where it is compiled with `--cfg sorted`, else in `HashMap`.

#[cfg(not(sorted))]
use std::collections::{HashMap as Map, HashSet as Set};
#[cfg(sorted)]
use std::collections::{BTreeMap as Map, BTreeSet as Set};

const MOST_NODES: usize = 8;
const MOST_STEPS: usize = 1_048_576;

#[derive(Clone, Copy, Debug)]
pub enum Step {
    Insert { node: u32, task: u32, inputs: u8 },
    Supply(u32),
    Begin(u32),
    Done(u32),
    Open { node: u32, action: u32 },
    Close { node: u32, action: u32 },
    Ready(u32),
    Send { from: u32, to: u32, message: u32 },
    Receive { to: u32, message: u32 },
    End { to: u32, message: u32 },
    Start,
    Down(u32),
    Give(u32),
    Up(u32),
    Judge,
}

#[derive(Clone, Copy, Debug, PartialEq)]
pub enum Refusal {
    NoNode = 1,
    SameNode,
    TaskKnown,
    NoTask,
    WrongLife,
    Inactive,
    ActionKnown,
    NoAction,
    MessageKnown,
    NoMessage,
    NotIdle,
    NoToken,
    WaveOpen,
    WaveNotEnded,
    Ended,
    HistoryFull,
}

#[derive(Clone, Copy)]
pub enum Reply {
    Plain,
    Wave { number: u32, sent: u32, received: u32 },
    Not,
    Over(u32),
}

#[derive(Clone, Copy, PartialEq)]
enum Life {
    Waiting(u8),
    Ready,
    Running,
    Done,
}

#[derive(Clone, Copy, PartialEq)]
enum Letter {
    Under(u32),
    Open(u32),
    Closed,
}

#[derive(Clone, Copy, Default)]
pub struct Numbers {
    pub pending: u32,
    pub sent: u32,
    pub received: u32,
}

#[derive(Clone, Copy, Default)]
struct Visit {
    has_token: bool,
    is_reached: bool,
    has_given: bool,
    is_taken: bool,
    sent: u32,
    received: u32,
}

#[derive(Clone, Copy, PartialEq)]
enum Phase {
    Closed,
    Open,
    Ended,
    Over,
}

struct Wave {
    number: u32,
    phase: Phase,
    visits: [Visit; MOST_NODES],
    last: Option<(u32, u32)>,
}

/// What a pool of so many nodes has come to.
pub struct Core {
    nodes: Vec<Numbers>,
    is_opening: [bool; MOST_NODES],
    tasks: Map<u32, (u32, Life)>,
    actions: Set<(u32, u32)>,
    letters: Map<u32, Letter>,
    under: u32,
    wave: Wave,
    steps: Vec<Step>,
}

fn refuse_if(fault: bool, refusal: Refusal) -> Result<(), Refusal> {
    if fault { Err(refusal) } else { Ok(()) }
}

impl Core {
    /// A new pool of 1 to 8 nodes.
    pub fn new(nodes: u32) -> Core {
        let wave = Wave { number: 0, phase: Phase::Closed, visits: Default::default(), last: None };
        Core {
            nodes: vec![Numbers { pending: 1, ..Numbers::default() }; nodes as usize],
            is_opening: [true; MOST_NODES],
            tasks: Map::new(),
            actions: Set::new(),
            letters: Map::new(),
            under: 0,
            wave,
            steps: Vec::new(),
        }
    }

    pub fn numbers(&self) -> &[Numbers] {
        &self.nodes
    }

    pub fn under_way(&self) -> u32 {
        self.under
    }

    pub fn steps(&self) -> usize {
        self.steps.len()
    }

    /// Takes a step, or leaves everything as it was and tells why.
    pub fn step(&mut self, step: Step) -> Result<Reply, Refusal> {
        let reply = match step {
            Step::Insert { node, task, inputs } => self.insert(node, task, inputs),
            Step::Supply(task) => self.supply(task),
            Step::Begin(task) => self.turn(task, Life::Ready, Life::Running),
            Step::Done(task) => self.done(task),
            Step::Open { node, action } => self.open(node, action),
            Step::Close { node, action } => self.close(node, action),
            Step::Ready(node) => self.ready(node),
            Step::Send { from, to, message } => self.send(from, to, message),
            Step::Receive { to, message } => self.receive(to, message),
            Step::End { to, message } => self.end(to, message),
            Step::Start => self.start(),
            Step::Down(node) => self.down(node),
            Step::Give(node) => self.give(node),
            Step::Up(node) => self.up(node),
            Step::Judge => self.judge(),
        }?;
        self.steps.push(step);
        Ok(reply)
    }

    fn has_room(&self) -> Result<(), Refusal> {
        refuse_if(self.steps.len() >= MOST_STEPS, Refusal::HistoryFull)
    }

    fn node(&mut self, node: u32) -> Result<&mut Numbers, Refusal> {
        self.nodes.get_mut(node as usize).ok_or(Refusal::NoNode)
    }

    fn insert(&mut self, node: u32, task: u32, inputs: u8) -> Result<Reply, Refusal> {
        let pending = self.node(node)?.pending;
        refuse_if(self.tasks.contains_key(&task), Refusal::TaskKnown)?;
        refuse_if(pending == 0, Refusal::Inactive)?;
        self.has_room()?;
        self.tasks.insert(task, (node, if inputs == 0 { Life::Ready } else { Life::Waiting(inputs) }));
        self.nodes[node as usize].pending += 1;
        Ok(Reply::Plain)
    }

    fn supply(&mut self, task: u32) -> Result<Reply, Refusal> {
        let has_room = self.has_room();
        let (_, life) = self.tasks.get_mut(&task).ok_or(Refusal::NoTask)?;
        let Life::Waiting(missing) = *life else { return Err(Refusal::WrongLife) };
        has_room?;
        *life = if missing == 1 { Life::Ready } else { Life::Waiting(missing - 1) };
        Ok(Reply::Plain)
    }

    fn turn(&mut self, task: u32, from: Life, to: Life) -> Result<Reply, Refusal> {
        let has_room = self.has_room();
        let (_, life) = self.tasks.get_mut(&task).ok_or(Refusal::NoTask)?;
        refuse_if(*life != from, Refusal::WrongLife)?;
        has_room?;
        *life = to;
        Ok(Reply::Plain)
    }

    fn done(&mut self, task: u32) -> Result<Reply, Refusal> {
        let has_room = self.has_room();
        let (home, life) = self.tasks.get_mut(&task).ok_or(Refusal::NoTask)?;
        refuse_if(*life != Life::Running, Refusal::WrongLife)?;
        has_room?;
        *life = Life::Done;
        self.nodes[*home as usize].pending -= 1;
        Ok(Reply::Plain)
    }

    fn open(&mut self, node: u32, action: u32) -> Result<Reply, Refusal> {
        let pending = self.node(node)?.pending;
        refuse_if(self.actions.contains(&(node, action)), Refusal::ActionKnown)?;
        refuse_if(pending == 0, Refusal::Inactive)?;
        self.has_room()?;
        self.actions.insert((node, action));
        self.nodes[node as usize].pending += 1;
        Ok(Reply::Plain)
    }

    fn close(&mut self, node: u32, action: u32) -> Result<Reply, Refusal> {
        self.node(node)?;
        refuse_if(!self.actions.contains(&(node, action)), Refusal::NoAction)?;
        self.has_room()?;
        self.actions.remove(&(node, action));
        self.nodes[node as usize].pending -= 1;
        Ok(Reply::Plain)
    }

    fn ready(&mut self, node: u32) -> Result<Reply, Refusal> {
        self.node(node)?;
        refuse_if(!self.is_opening[node as usize], Refusal::NoAction)?;
        self.has_room()?;
        self.is_opening[node as usize] = false;
        self.nodes[node as usize].pending -= 1;
        Ok(Reply::Plain)
    }

    fn send(&mut self, from: u32, to: u32, message: u32) -> Result<Reply, Refusal> {
        self.node(to)?;
        let pending = self.node(from)?.pending;
        refuse_if(from == to, Refusal::SameNode)?;
        refuse_if(self.letters.contains_key(&message), Refusal::MessageKnown)?;
        refuse_if(pending == 0, Refusal::Inactive)?;
        self.has_room()?;
        self.letters.insert(message, Letter::Under(to));
        self.nodes[from as usize].sent += 1;
        self.under += 1;
        Ok(Reply::Plain)
    }

    fn receive(&mut self, to: u32, message: u32) -> Result<Reply, Refusal> {
        self.node(to)?;
        let has_room = self.has_room();
        let letter = self.letters.get_mut(&message).ok_or(Refusal::NoMessage)?;
        refuse_if(*letter != Letter::Under(to), Refusal::NoMessage)?;
        has_room?;
        *letter = Letter::Open(to);
        let node = &mut self.nodes[to as usize];
        node.received += 1;
        node.pending += 1;
        self.under -= 1;
        Ok(Reply::Plain)
    }

    fn end(&mut self, to: u32, message: u32) -> Result<Reply, Refusal> {
        self.node(to)?;
        let has_room = self.has_room();
        let letter = self.letters.get_mut(&message).ok_or(Refusal::NoAction)?;
        refuse_if(*letter != Letter::Open(to), Refusal::NoAction)?;
        has_room?;
        *letter = Letter::Closed;
        self.nodes[to as usize].pending -= 1;
        Ok(Reply::Plain)
    }

    fn children(&self, node: u32) -> std::ops::Range<usize> {
        let (node, nodes) = (node as usize, self.nodes.len());
        (2 * node + 1).min(nodes)..(2 * node + 3).min(nodes)
    }

    fn reach(&mut self, node: u32) {
        self.wave.visits[node as usize].has_token = false;
        self.wave.visits[node as usize].is_reached = true;
        for child in self.children(node) {
            self.wave.visits[child].has_token = true;
        }
    }

    fn start(&mut self) -> Result<Reply, Refusal> {
        refuse_if(self.wave.phase == Phase::Over, Refusal::Ended)?;
        refuse_if(self.wave.phase != Phase::Closed, Refusal::WaveOpen)?;
        self.has_room()?;
        self.wave.number += 1;
        self.wave.phase = Phase::Open;
        self.wave.visits = Default::default();
        self.reach(0);
        Ok(Reply::Plain)
    }

    /// How a wave that is open has come to a node.
    fn visit(&mut self, node: u32) -> Result<Visit, Refusal> {
        self.node(node)?;
        refuse_if(self.wave.phase == Phase::Over, Refusal::Ended)?;
        refuse_if(self.wave.phase != Phase::Open, Refusal::NoToken)?;
        Ok(self.wave.visits[node as usize])
    }

    fn down(&mut self, node: u32) -> Result<Reply, Refusal> {
        let visit = self.visit(node)?;
        refuse_if(!visit.has_token, Refusal::NoToken)?;
        self.has_room()?;
        self.reach(node);
        Ok(Reply::Plain)
    }

    fn give(&mut self, node: u32) -> Result<Reply, Refusal> {
        let visit = self.visit(node)?;
        let are_taken = self.children(node).all(|child| self.wave.visits[child].is_taken);
        refuse_if(!visit.is_reached || visit.has_given || !are_taken, Refusal::NoToken)?;
        let Numbers { pending, sent, received } = self.nodes[node as usize];
        refuse_if(pending > 0, Refusal::NotIdle)?;
        self.has_room()?;
        let (sent, received) = (visit.sent + sent, visit.received + received);
        self.wave.visits[node as usize] = Visit { has_given: true, sent, received, ..visit };
        if node > 0 {
            return Ok(Reply::Plain);
        }
        self.wave.phase = Phase::Ended;
        Ok(Reply::Wave { number: self.wave.number, sent, received })
    }

    fn up(&mut self, node: u32) -> Result<Reply, Refusal> {
        let visit = self.visit(node)?;
        refuse_if(node == 0 || !visit.has_given || visit.is_taken, Refusal::NoToken)?;
        self.has_room()?;
        self.wave.visits[node as usize].is_taken = true;
        let parent = &mut self.wave.visits[(node as usize - 1) / 2];
        parent.sent += visit.sent;
        parent.received += visit.received;
        Ok(Reply::Plain)
    }

    fn judge(&mut self) -> Result<Reply, Refusal> {
        refuse_if(self.wave.phase == Phase::Over, Refusal::Ended)?;
        refuse_if(self.wave.phase != Phase::Ended, Refusal::WaveNotEnded)?;
        self.has_room()?;
        let now = (self.wave.visits[0].sent, self.wave.visits[0].received);
        let is_over = now.0 == now.1 && self.wave.last == Some(now);
        self.wave.last = Some(now);
        self.wave.phase = if is_over { Phase::Over } else { Phase::Closed };
        Ok(if is_over { Reply::Over(self.wave.number - 1) } else { Reply::Not })
    }
}
