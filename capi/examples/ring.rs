//! Four nodes as four threads, from Rust: eight tokens go round a ring, every event is reported to one core under a mutex,
//! and idle nodes take part in the waves.
use std::collections::VecDeque;
use std::sync::Mutex;
use std::sync::atomic::{AtomicU32, Ordering};
use std::thread;

/// A `gerfmuod_core`. While it is all zeros it is not open, and every call refuses it.
#[repr(C)]
struct Core([u64; 64]);

#[repr(C)]
#[derive(Clone, Copy, Debug)]
struct StepResult {
    refused: u16,
    event: u16,
    number: u32,
    sent: u32,
    received: u32,
}

unsafe extern "C" {
    safe fn gerfmuod_core_open(core: &mut Core, nodes: u32) -> u32;
    safe fn gerfmuod_core_close(core: &mut Core) -> u32;
    safe fn gerfmuod_core_ready(core: &mut Core, node: u32) -> StepResult;
    safe fn gerfmuod_core_send(core: &mut Core, from: u32, to: u32, message: u32, generation: u32) -> StepResult;
    safe fn gerfmuod_core_receive(core: &mut Core, node: u32, message: u32, generation: u32) -> StepResult;
    safe fn gerfmuod_core_message_end(core: &mut Core, node: u32, message: u32, generation: u32) -> StepResult;
    safe fn gerfmuod_core_start(core: &mut Core) -> StepResult;
    safe fn gerfmuod_core_down(core: &mut Core, node: u32) -> StepResult;
    safe fn gerfmuod_core_give(core: &mut Core, node: u32) -> StepResult;
    safe fn gerfmuod_core_up(core: &mut Core, node: u32) -> StepResult;
    safe fn gerfmuod_core_judge(core: &mut Core) -> StepResult;
}

const EVENT_ENDED: u16 = 3;
const FIRST_GENERATION: u32 = 1;

/// A core that is open, on the heap.
struct Detector(Box<Core>);

impl Detector {
    fn new(nodes: u32) -> Option<Detector> {
        let mut it = Detector(Box::new(Core([0; 64])));
        (gerfmuod_core_open(&mut it.0, nodes) == 0).then_some(it)
    }
}

impl Drop for Detector {
    fn drop(&mut self) {
        gerfmuod_core_close(&mut self.0);
    }
}

const NODES: u32 = 4;
const TOKENS: u32 = 8;
const HOPS: u32 = 200;

struct Ring {
    detector: Mutex<Detector>,
    /// For each node the messages to it, with the number of hops that each has left.
    inboxes: [Mutex<VecDeque<(u32, u32)>>; NODES as usize],
    messages: AtomicU32,
    ended: AtomicU32,
}

impl Ring {
    /// Takes a step that must not be refused.
    fn tell(&self, step: impl FnOnce(&mut Core) -> StepResult) {
        assert_eq!(self.ask(step).refused, 0);
    }

    /// Takes a step that may be refused, which then changes nothing.
    fn ask(&self, step: impl FnOnce(&mut Core) -> StepResult) -> StepResult {
        step(&mut self.detector.lock().unwrap().0)
    }

    fn send(&self, from: u32, hops: u32) {
        let (to, message) = ((from + 1) % NODES, self.messages.fetch_add(1, Ordering::SeqCst));
        self.tell(|core| gerfmuod_core_send(core, from, to, message, FIRST_GENERATION));
        self.inboxes[to as usize].lock().unwrap().push_back((message, hops));
    }

    fn wave(&self, node: u32) {
        if node > 0 {
            self.ask(|core| gerfmuod_core_down(core, node));
            self.ask(|core| gerfmuod_core_give(core, node));
            self.ask(|core| gerfmuod_core_up(core, node));
            return;
        }
        self.ask(|core| gerfmuod_core_start(core));
        self.ask(|core| gerfmuod_core_give(core, 0));
        let it = self.ask(|core| gerfmuod_core_judge(core));
        if it.refused == 0 && it.event == EVENT_ENDED {
            self.ended.store(it.number, Ordering::SeqCst);
        }
    }

    fn run(&self, node: u32) {
        if node == 0 {
            for _ in 0..TOKENS {
                self.send(0, HOPS);
            }
        }
        self.tell(|core| gerfmuod_core_ready(core, node));
        while self.ended.load(Ordering::SeqCst) == 0 {
            let next = self.inboxes[node as usize].lock().unwrap().pop_front();
            let Some((message, hops)) = next else {
                self.wave(node);
                thread::yield_now();
                continue;
            };
            self.tell(|core| gerfmuod_core_receive(core, node, message, FIRST_GENERATION));
            if hops > 0 {
                self.send(node, hops - 1);
            }
            self.tell(|core| gerfmuod_core_message_end(core, node, message, FIRST_GENERATION));
        }
    }
}

fn main() {
    assert!(Detector::new(9).is_none());
    let ring = Ring {
        detector: Mutex::new(Detector::new(NODES).unwrap()),
        inboxes: Default::default(),
        messages: AtomicU32::new(0),
        ended: AtomicU32::new(0),
    };
    thread::scope(|scope| {
        for node in 0..NODES {
            let ring = &ring;
            scope.spawn(move || ring.run(node));
        }
    });
    assert!(ring.inboxes.iter().all(|it| it.lock().unwrap().is_empty()));
    let messages = ring.messages.load(Ordering::SeqCst);
    assert_eq!(messages, TOKENS * (HOPS + 1));
    println!("ended: {messages} messages, none was left");
}
