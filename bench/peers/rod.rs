//! A rod of cells, a number a line: `rod STEPS BLOCK [--nodes N] [--workers W] [--threads] [--timing RUNS] < CELLS`.
//!
//! At each step a cell becomes the sum of a third of itself and of each neighbour, each cut towards 0; beyond the ends there
//! is 0. Without `--threads` it is one plain loop, and BLOCK, N and W count for nothing. With it N times W threads have a
//! part of the rod each, and wait for each other at a barrier after each step.

mod timing;

use std::io::{self, Read, Write};
use std::sync::atomic::{AtomicI64, Ordering::Relaxed};
use std::sync::Barrier;
use std::thread;
use timing::timed;

fn mixed(left: i64, own: i64, right: i64) -> i64 {
    left / 3 + own / 3 + right / 3
}

/// One plain loop a step.
fn by_one(mut cells: Vec<i64>, steps: u64) -> Vec<i64> {
    let mut next = vec![0; cells.len()];
    for _ in 0..steps {
        for (at, cell) in next.iter_mut().enumerate() {
            let left = if at == 0 { 0 } else { cells[at - 1] };
            let right = cells.get(at + 1).copied().unwrap_or(0);
            *cell = mixed(left, cells[at], right);
        }
        std::mem::swap(&mut cells, &mut next);
    }
    cells
}

/// One step of a part of the rod. Loads and stores that ask for no order cost what plain ones do.
fn step_part(from: &[AtomicI64], to: &[AtomicI64], part: std::ops::Range<usize>) {
    let mut left = part.start.checked_sub(1).map_or(0, |at| from[at].load(Relaxed));
    let mut own = from.get(part.start).map_or(0, |it| it.load(Relaxed));
    let ahead = from[part.clone()].iter().skip(1).chain(from.get(part.end)).map(|it| it.load(Relaxed));
    for (right, cell) in ahead.chain(std::iter::once(0)).zip(&to[part]) {
        cell.store(mixed(left, own, right), Relaxed);
        (left, own) = (own, right);
    }
}

/// Threads, each with its part of the rod, that wait for each other after each step.
fn by_threads(cells: Vec<i64>, steps: u64, threads: usize) -> Vec<i64> {
    let part = cells.len().div_ceil(threads);
    let length = cells.len();
    let rods: [Vec<AtomicI64>; 2] = [cells.iter().copied().map(AtomicI64::new).collect(), (0..length).map(|_| AtomicI64::new(0)).collect()];
    let barrier = Barrier::new(threads);
    thread::scope(|scope| {
        for thread in 0..threads {
            let (rods, barrier) = (&rods, &barrier);
            scope.spawn(move || {
                let own = (thread * part).min(length)..((thread + 1) * part).min(length);
                for step in 0..steps as usize {
                    step_part(&rods[step % 2], &rods[(step + 1) % 2], own.clone());
                    barrier.wait();
                }
            });
        }
    });
    let [even, odd] = rods;
    let last = if steps % 2 == 0 { even } else { odd };
    last.into_iter().map(AtomicI64::into_inner).collect()
}

fn option(words: &[String], name: &str) -> usize {
    words.iter().position(|it| it == name).and_then(|at| words.get(at + 1)?.parse().ok()).unwrap_or(1)
}

fn main() -> Result<(), Box<dyn std::error::Error>> {
    let words: Vec<String> = std::env::args().collect();
    let steps = words.get(1).ok_or("rod STEPS BLOCK")?.parse()?;
    let mut text = String::new();
    io::stdin().read_to_string(&mut text)?;
    let cells = text.lines().map(str::parse).collect::<Result<Vec<i64>, _>>()?;
    let threads = option(&words, "--nodes") * option(&words, "--workers");
    let has_threads = words.iter().any(|it| it == "--threads");
    let (cells, times) = timed(&words, || {
        let cells = cells.clone();
        Ok::<_, io::Error>(if has_threads { by_threads(cells, steps, threads) } else { by_one(cells, steps) })
    })?;
    let mut out = Vec::with_capacity(text.len());
    for cell in &cells {
        writeln!(out, "{cell}")?;
    }
    out.extend_from_slice(times.as_bytes());
    io::stdout().write_all(&out)?;
    Ok(())
}
