//! What all nodes share: the list of all events in one order, and the waves.

use crate::Refusal;
use crate::wave::Waves;

const MOST_EVENTS: usize = 1_048_576;

/// What happens in a pool. The list of events is kept to its end, though this program prints none of it.
#[derive(Clone, Copy)]
#[allow(dead_code)]
pub enum Event {
    Insert { node: u32, task: u32, missing: u8 },
    Supply { task: u32 },
    Begin { task: u32 },
    Done { task: u32 },
    Ready { node: u32 },
    Send { from: u32, to: u32, message: u32 },
    Receive { to: u32, message: u32 },
    End { to: u32, message: u32 },
    Start,
    Down { node: u32 },
    Give { node: u32 },
    Up { node: u32 },
    Judge { ended: Option<u32> },
}

pub struct Board {
    events: Vec<Event>,
    pub messages: u32,
    waves: Waves,
    pub fault: Option<Refusal>,
}

/// What a node did for the waves.
pub enum Control {
    Nothing,
    Step,
    Ended,
}

impl Board {
    pub fn new(nodes: usize) -> Board {
        Board { events: Vec::new(), messages: 0, waves: Waves::new(nodes), fault: None }
    }

    pub fn append(&mut self, event: Event) -> Result<(), Refusal> {
        if self.events.len() >= MOST_EVENTS {
            return Err(Refusal::HistoryFull);
        }
        self.events.push(event);
        Ok(())
    }

    /// The number of the next message, whose sending is appended.
    pub fn send(&mut self, from: u32, to: u32) -> Result<u32, Refusal> {
        let message = self.messages;
        self.append(Event::Send { from, to, message })?;
        self.messages += 1;
        Ok(message)
    }

    /// One control step of a node, the first that it can make.
    pub fn control(&mut self, node: u32, is_idle: bool, sent: u32, received: u32) -> Result<Control, Refusal> {
        let here = node as usize;
        let event = if self.waves.down(here) {
            Event::Down { node }
        } else if let Some(child) = self.waves.up(here) {
            Event::Up { node: child as u32 }
        } else if is_idle && self.waves.give(here, sent, received) {
            Event::Give { node }
        } else if node == 0 && self.waves.has_ended() {
            let ended = self.waves.judge();
            self.append(Event::Judge { ended })?;
            return Ok(if ended.is_some() { Control::Ended } else { Control::Step });
        } else if node == 0 && is_idle && self.waves.start() {
            Event::Start
        } else {
            return Ok(Control::Nothing);
        };
        self.append(event)?;
        Ok(Control::Step)
    }
}
