//! A graph of tasks: who feeds whom, where a task is at home, what it makes, and what is printed.

use std::fmt::Write as _;

/// What a task makes.
pub type Value = Vec<i64>;

/// A graph of tasks, which have the numbers from 0 on.
pub trait Graph: Copy + Send + Sync {
    fn tasks(&self) -> u32;
    /// How many inputs a task waits for.
    fn inputs(&self, task: u32) -> u8;
    /// Its class of priority, 0 to 3; 0 goes first.
    fn class(&self, task: u32) -> usize;
    /// How many tasks take its value.
    fn feeds(&self, task: u32) -> u32;
    /// The k-th of them, and the place of the value among its inputs.
    fn feed(&self, task: u32, k: u32) -> (u32, usize);
    /// The node that runs it, of so many.
    fn home(&self, task: u32, nodes: u32) -> u32;
    fn value(&self, task: u32, inputs: &[Value]) -> Value;
    /// What is printed of the values of all tasks, by number.
    fn told(&self, values: &[Value]) -> String;
}

/// Rows of numbers as lines.
pub fn lines_of(rows: impl Iterator<Item = Vec<i64>>) -> String {
    let line = |row: Vec<i64>| row.iter().map(i64::to_string).collect::<Vec<_>>().join(" ") + "\n";
    rows.map(line).collect()
}

/// The text of a run: what is told of its values, how many tasks there were and, where it is known, how many messages.
pub fn text_of<G: Graph>(graph: &G, values: &[Value], messages: Option<u32>) -> String {
    let mut text = graph.told(values);
    let _ = writeln!(text, "tasks {}", graph.tasks());
    if let Some(count) = messages {
        let _ = writeln!(text, "messages {count}");
    }
    text + "ended\n"
}
