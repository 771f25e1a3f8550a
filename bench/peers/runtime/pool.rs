//! A running pool: nodes, the links between them, and the board. Locks are taken in this order: node, link, board.

use crate::Refusal;
use crate::board::{Board, Control, Event};
use crate::graph::{Graph, Value};
use crate::store::{Delivery, Store};
use std::collections::VecDeque;
use std::sync::atomic::{AtomicBool, AtomicUsize, Ordering};
use std::sync::{Mutex, MutexGuard, PoisonError};
use std::{hint, thread};

/// How many turns without work a worker spins before it gives its processor away at each.
const SPINS: u32 = 6;

struct Node {
    number: u32,
    store: Store,
    tasks: u32,
    actions: u32,
    is_opening: bool,
    sent: u32,
    received: u32,
}

struct Message {
    number: u32,
    task: u32,
    place: usize,
    value: Value,
}

#[derive(Default)]
struct Link {
    /// How many messages lie in the queue: looked at before the lock is taken.
    length: AtomicUsize,
    queue: Mutex<VecDeque<Message>>,
}

pub struct RunningPool<G> {
    graph: G,
    nodes: Vec<Mutex<Node>>,
    links: Vec<Link>,
    board: Mutex<Board>,
    is_over: AtomicBool,
}

fn locked<T>(lock: &Mutex<T>) -> MutexGuard<'_, T> {
    lock.lock().unwrap_or_else(PoisonError::into_inner)
}

impl<G: Graph> RunningPool<G> {
    fn new(graph: G, nodes: u32) -> Self {
        let count = nodes as usize;
        let node = |number| Node {
            number,
            store: Store::default(),
            tasks: 0,
            actions: 1,
            is_opening: true,
            sent: 0,
            received: 0,
        };
        RunningPool {
            graph,
            nodes: (0..nodes).map(|number| Mutex::new(node(number))).collect(),
            links: (0..count * count).map(|_| Link::default()).collect(),
            board: Mutex::new(Board::new(count)),
            is_over: AtomicBool::new(false),
        }
    }

    fn link(&self, from: u32, to: u32) -> &Link {
        &self.links[from as usize * self.nodes.len() + to as usize]
    }

    fn home(&self, task: u32) -> u32 {
        self.graph.home(task, self.nodes.len() as u32)
    }

    /// Inserts the tasks of a node that wait for nothing, and closes the action with which it opened.
    fn open(&self, node: &mut Node) -> Result<(), Refusal> {
        for task in (0..self.graph.tasks()).filter(|&it| self.graph.inputs(it) == 0 && self.home(it) == node.number) {
            locked(&self.board).append(Event::Insert { node: node.number, task, missing: 0 })?;
            node.store.insert(task, self.graph.class(task))?;
            node.tasks += 1;
        }
        locked(&self.board).append(Event::Ready { node: node.number })?;
        node.is_opening = false;
        node.actions -= 1;
        Ok(())
    }

    /// Brings a value to a task of this node; the event is to be appended.
    fn deliver(&self, node: &mut Node, task: u32, place: usize, value: Value) -> Result<Event, Refusal> {
        match node.store.deliver(task, self.graph.inputs(task), self.graph.class(task), place, value)? {
            Delivery::Inserted(missing) => {
                node.tasks += 1;
                Ok(Event::Insert { node: node.number, task, missing })
            }
            Delivery::Supplied => Ok(Event::Supply { task }),
        }
    }

    /// Takes one message from the first link that has one.
    fn receive(&self, node: &mut Node) -> Result<bool, Refusal> {
        let to = node.number;
        for from in (0..self.nodes.len() as u32).filter(|&it| it != to) {
            let link = self.link(from, to);
            if link.length.load(Ordering::Acquire) == 0 {
                continue;
            }
            let mut queue = locked(&link.queue);
            let Some(message) = queue.pop_front() else { continue };
            locked(&self.board).append(Event::Receive { to, message: message.number })?;
            link.length.fetch_sub(1, Ordering::AcqRel);
            drop(queue);
            node.received += 1;
            node.actions += 1;
            let event = self.deliver(node, message.task, message.place, message.value)?;
            let mut board = locked(&self.board);
            board.append(event)?;
            board.append(Event::End { to, message: message.number })?;
            drop(board);
            node.actions -= 1;
            return Ok(true);
        }
        Ok(false)
    }

    fn send(&self, node: &mut Node, to: u32, task: u32, place: usize, value: Value) -> Result<(), Refusal> {
        let link = self.link(node.number, to);
        let mut queue = locked(&link.queue);
        let number = locked(&self.board).send(node.number, to)?;
        queue.push_back(Message { number, task, place, value });
        link.length.fetch_add(1, Ordering::AcqRel);
        node.sent += 1;
        Ok(())
    }

    /// Hands a value on to the tasks that take it, and keeps it.
    fn finish(&self, node: &mut Node, task: u32, value: Value) -> Result<(), Refusal> {
        for (target, place) in (0..self.graph.feeds(task)).map(|k| self.graph.feed(task, k)) {
            let home = self.home(target);
            if home == node.number {
                let event = self.deliver(node, target, place, value.clone())?;
                locked(&self.board).append(event)?;
            } else {
                self.send(node, home, target, place, value.clone())?;
            }
        }
        locked(&self.board).append(Event::Done { task })?;
        node.store.done(task, value)?;
        node.tasks -= 1;
        Ok(())
    }

    fn control(&self, node: &mut Node) -> Result<bool, Refusal> {
        let is_idle = node.tasks + node.actions == 0;
        match locked(&self.board).control(node.number, is_idle, node.sent, node.received)? {
            Control::Nothing => Ok(false),
            Control::Step => Ok(true),
            Control::Ended => {
                self.is_over.store(true, Ordering::Release);
                Ok(true)
            }
        }
    }

    /// What a worker does next: whether there was anything.
    fn turn(&self, home: &Mutex<Node>) -> Result<bool, Refusal> {
        let mut node = locked(home);
        if node.is_opening {
            self.open(&mut node)?;
            return Ok(true);
        }
        if self.receive(&mut node)? {
            return Ok(true);
        }
        let Some((task, inputs)) = node.store.begin() else { return self.control(&mut node) };
        locked(&self.board).append(Event::Begin { task })?;
        drop(node);
        let value = self.graph.value(task, &inputs);
        drop(inputs);
        self.finish(&mut locked(home), task, value)?;
        Ok(true)
    }

    fn work(&self, home: &Mutex<Node>) {
        let mut idle = 0;
        while !self.is_over.load(Ordering::Acquire) {
            match self.turn(home) {
                Ok(true) => idle = 0,
                Ok(false) if idle < SPINS => {
                    idle += 1;
                    (0..1 << idle).for_each(|_| hint::spin_loop());
                }
                Ok(false) => thread::yield_now(),
                Err(refusal) => {
                    locked(&self.board).fault.get_or_insert(refusal);
                    self.is_over.store(true, Ordering::Release);
                }
            }
        }
    }
}

/// Runs all tasks of a graph, by so many workers at each of so many nodes: the values by task, and the number of messages.
pub fn run<G: Graph>(graph: G, nodes: u32, workers: u32) -> Result<(Vec<Value>, u32), Refusal> {
    let pool = RunningPool::new(graph, nodes);
    thread::scope(|scope| {
        // first one worker at each node, then a second one: a node opens as soon as it has one
        for home in (0..workers).flat_map(|_| &pool.nodes) {
            scope.spawn(|| pool.work(home));
        }
    });
    let board = pool.board.into_inner().unwrap_or_else(PoisonError::into_inner);
    if let Some(fault) = board.fault {
        return Err(fault);
    }
    let mut values = vec![None; graph.tasks() as usize];
    for node in pool.nodes {
        for (task, value) in node.into_inner().unwrap_or_else(PoisonError::into_inner).store.results {
            values[task as usize] = Some(value);
        }
    }
    let values: Option<Vec<Value>> = values.into_iter().collect();
    Ok((values.ok_or(Refusal::Missing)?, board.messages))
}
