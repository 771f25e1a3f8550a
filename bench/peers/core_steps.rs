//! The same steps as `library_steps.c`, told the core of `core.rs`: `core_steps tasks N` or `core_steps messages N`.

#[allow(dead_code)]
mod core;

use crate::core::{Core, Step};

fn steps_of_task(task: u32) -> [Step; 3] {
    [Step::Insert { node: task % 8, task, inputs: 0 }, Step::Begin(task), Step::Done(task)]
}

fn steps_of_message(message: u32) -> [Step; 3] {
    let to = (message + 1) % 8;
    [Step::Send { from: message % 8, to, message }, Step::Receive { to, message }, Step::End { to, message }]
}

fn main() -> Result<(), Box<dyn std::error::Error>> {
    let words: Vec<String> = std::env::args().collect();
    let [_, kind, count] = words.as_slice() else { return Err("core_steps tasks|messages N".into()) };
    let steps_of = if kind == "tasks" { steps_of_task } else { steps_of_message };
    let rounds = count.parse::<u32>()? / 3;
    let mut core = Core::new(8);
    let mut refused = 0;
    for round in 0..rounds {
        refused += steps_of(round).into_iter().filter(|&it| core.step(it).is_err()).count();
    }
    println!("refused {refused} steps {}", core.steps());
    for (node, it) in core.numbers().iter().enumerate() {
        println!("node {node} pending {} sent {} received {}", it.pending, it.sent, it.received);
    }
    Ok(())
}
