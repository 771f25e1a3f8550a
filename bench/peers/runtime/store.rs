//! The tasks of one node: where each lies, which are ready, and what those that are done made.

use crate::Refusal;
use crate::graph::Value;
use std::collections::{HashMap, VecDeque};

const MOST_LIVE: usize = 65_536;

#[derive(Clone, Copy)]
enum Place {
    Slot(u32),
    Done,
}

#[derive(Clone, Copy, PartialEq)]
enum Life {
    Waiting(u8),
    Ready,
    Running,
}

struct Item {
    task: u32,
    class: usize,
    life: Life,
    filled: u16,
    inputs: Vec<Value>,
}

/// What the delivery of a value came to.
pub enum Delivery {
    /// The task was inserted, and waits for so many more.
    Inserted(u8),
    Supplied,
}

#[derive(Default)]
pub struct Store {
    places: HashMap<u32, Place>,
    slots: Vec<Option<Item>>,
    free: Vec<u32>,
    live: usize,
    ready: [VecDeque<u32>; 4],
    pub results: Vec<(u32, Value)>,
}

impl Store {
    fn put(&mut self, item: Item) -> Result<(), Refusal> {
        if self.live == MOST_LIVE {
            return Err(Refusal::StoreFull);
        }
        self.live += 1;
        let (task, class, is_ready) = (item.task, item.class, item.life == Life::Ready);
        let slot = match self.free.pop() {
            Some(slot) => {
                self.slots[slot as usize] = Some(item);
                slot
            }
            None => {
                self.slots.push(Some(item));
                self.slots.len() as u32 - 1
            }
        };
        self.places.insert(task, Place::Slot(slot));
        if is_ready {
            self.ready[class].push_back(slot);
        }
        Ok(())
    }

    /// Inserts a task that waits for nothing.
    pub fn insert(&mut self, task: u32, class: usize) -> Result<(), Refusal> {
        if self.places.contains_key(&task) {
            return Err(Refusal::TaskKnown);
        }
        self.put(Item { task, class, life: Life::Ready, filled: 0, inputs: Vec::new() })
    }

    /// Brings a value to its place among the inputs of a task, which is inserted by the first of them.
    pub fn deliver(&mut self, task: u32, inputs: u8, class: usize, place: usize, value: Value) -> Result<Delivery, Refusal> {
        let slot = match self.places.get(&task) {
            Some(Place::Done) => return Err(Refusal::TaskKnown),
            Some(Place::Slot(slot)) => *slot,
            None => {
                let mut values = vec![Value::new(); inputs.into()];
                values[place] = value;
                let missing = inputs - 1;
                let life = if missing == 0 { Life::Ready } else { Life::Waiting(missing) };
                self.put(Item { task, class, life, filled: 1 << place, inputs: values })?;
                return Ok(Delivery::Inserted(missing));
            }
        };
        let item = self.slots[slot as usize].as_mut().ok_or(Refusal::NoTask)?;
        let Life::Waiting(missing) = item.life else { return Err(Refusal::WrongLife) };
        if item.filled >> place & 1 == 1 {
            return Err(Refusal::SlotTaken);
        }
        item.filled |= 1 << place;
        item.inputs[place] = value;
        if missing > 1 {
            item.life = Life::Waiting(missing - 1);
        } else {
            item.life = Life::Ready;
            self.ready[item.class].push_back(slot);
        }
        Ok(Delivery::Supplied)
    }

    /// The next ready task, which begins, and its inputs.
    pub fn begin(&mut self) -> Option<(u32, Vec<Value>)> {
        let slot = self.ready.iter_mut().find_map(VecDeque::pop_front)?;
        let item = self.slots[slot as usize].as_mut()?;
        item.life = Life::Running;
        Some((item.task, std::mem::take(&mut item.inputs)))
    }

    /// The task is done and has made this value.
    pub fn done(&mut self, task: u32, value: Value) -> Result<(), Refusal> {
        let place = self.places.get_mut(&task).ok_or(Refusal::NoTask)?;
        let Place::Slot(slot) = *place else { return Err(Refusal::WrongLife) };
        if !matches!(&self.slots[slot as usize], Some(item) if item.life == Life::Running) {
            return Err(Refusal::WrongLife);
        }
        *place = Place::Done;
        self.slots[slot as usize] = None;
        self.free.push(slot);
        self.live -= 1;
        self.results.push((task, value));
        Ok(())
    }
}
