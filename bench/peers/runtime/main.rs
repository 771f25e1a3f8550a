//! A runtime of the same architecture, written by hand and proved by nobody: `runtime POOL [--nodes N] [--workers W] [--timing RUNS]`, or
//! `runtime PATTERN WIDTH STEPS ITERATIONS [--nodes N] [--workers W] [--radius K] [--seed S] [--timing RUNS]`.
//!
//! Nodes with a lock each, a link with a lock for each ordered pair of nodes, and one board with a lock, which keeps every
//! event in one order and leads the waves of the four counters. The index of tasks is std's `HashMap`. A worker that finds
//! nothing to do spins for a few turns and then gives its processor away.

mod board;
#[path = "../graph.rs"]
mod graph;
mod grid_graph;
#[path = "../patterns.rs"]
mod patterns;
mod pool;
#[path = "../sample_pools.rs"]
mod sample_pools;
mod store;
#[path = "../timing.rs"]
mod timing;
mod wave;

use graph::{Graph, text_of};
use grid_graph::GridGraph;
use patterns::{Grid, option};
use sample_pools::Pool;
use timing::timed;

/// Why a run is given up.
#[derive(Clone, Copy, Debug)]
pub enum Refusal {
    TaskKnown,
    NoTask,
    WrongLife,
    SlotTaken,
    StoreFull,
    HistoryFull,
    Missing,
}

fn run<G: Graph>(graph: G, nodes: u32, workers: u32) -> Result<(Vec<graph::Value>, u32), String> {
    pool::run(graph, nodes, workers).map_err(|it| format!("refused {it:?}"))
}

fn text_of_pool<G: Graph>(graph: G, words: &[String], nodes: u32, workers: u32) -> Result<String, String> {
    let ((values, messages), times) = timed(words, || run(graph, nodes, workers))?;
    Ok(text_of(&graph, &values, Some(messages)) + &times)
}

/// The time of a grid has that of the table of who feeds whom.
fn text_of_grid(words: &[String], nodes: u32, workers: u32) -> Result<String, String> {
    let ((grid, values, messages), times) = timed(words, || {
        let grid = Grid::of_words(words)?;
        let (values, messages) = run(GridGraph(&grid), nodes, workers)?;
        Ok::<_, String>((grid, values, messages))
    })?;
    Ok(text_of(&GridGraph(&grid), &values, Some(messages)) + &times)
}

/// A sample pool's word has a colon, a pattern's name has none.
fn main() -> Result<(), String> {
    let words: Vec<String> = std::env::args().skip(1).collect();
    let first = words.first().ok_or("runtime POOL, or runtime PATTERN WIDTH STEPS ITERATIONS")?;
    let (nodes, workers) = (option(&words, "--nodes", 1)?, option(&words, "--workers", 1)?);
    let text = if first.contains(':') {
        match first.parse()? {
            Pool::Product(graph) => text_of_pool(graph, &words, nodes, workers),
            Pool::Wavefront(graph) => text_of_pool(graph, &words, nodes, workers),
            Pool::Reduce(graph) => text_of_pool(graph, &words, nodes, workers),
        }
    } else {
        text_of_grid(&words, nodes, workers)
    };
    print!("{}", text?);
    Ok(())
}
