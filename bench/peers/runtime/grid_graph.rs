//! A grid of Task Bench as a graph of tasks, which are numbered row by row. A node has a range of the columns.

use crate::graph::{Graph, Value};
use crate::patterns::{Grid, checksum, made};

#[derive(Clone, Copy)]
pub struct GridGraph<'a>(pub &'a Grid);

impl GridGraph<'_> {
    /// The row and the column of a task.
    fn place(&self, task: u32) -> (u32, u32) {
        (task / self.0.width, task % self.0.width)
    }
}

impl Graph for GridGraph<'_> {
    fn tasks(&self) -> u32 {
        self.0.steps * self.0.width
    }

    fn inputs(&self, task: u32) -> u8 {
        let (row, column) = self.place(task);
        self.0.inputs(row, column).len() as u8
    }

    fn class(&self, _: u32) -> usize {
        0
    }

    fn feeds(&self, task: u32) -> u32 {
        let (row, column) = self.place(task);
        self.0.outputs(row, column).len() as u32
    }

    fn feed(&self, task: u32, k: u32) -> (u32, usize) {
        let (row, column) = self.place(task);
        let (target, slot) = self.0.outputs(row, column)[k as usize];
        ((row + 1) * self.0.width + target, slot)
    }

    fn home(&self, task: u32, nodes: u32) -> u32 {
        task % self.0.width * nodes / self.0.width
    }

    fn value(&self, task: u32, inputs: &[Value]) -> Value {
        let total = inputs.iter().map(|it| it[0] as u64).sum();
        vec![made(self.0.iterations, task % self.0.width, total) as i64]
    }

    fn told(&self, values: &[Value]) -> String {
        let last = values.iter().skip((self.tasks() - self.0.width) as usize);
        format!("checksum {}\n", checksum(last.map(|it| it[0] as u64)))
    }
}
