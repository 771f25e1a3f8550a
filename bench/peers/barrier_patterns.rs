//! A grid of Task Bench by threads that have a range of the columns each, and wait for each other after each row:
//! `barrier_patterns PATTERN WIDTH STEPS ITERATIONS [--nodes N] [--workers W] [--radius K] [--seed S] [--timing RUNS]`.

mod patterns;
mod timing;

use patterns::{Grid, checksum, made, option};
use std::sync::atomic::{AtomicU64, AtomicUsize, Ordering};
use std::{hint, thread};
use timing::timed;

/// How many turns a thread spins before it gives its processor away at each.
const SPINS: u32 = 1000;

/// Where threads wait until all are there. They spin; those at the barrier of std's library sleep.
struct Barrier {
    threads: usize,
    there: AtomicUsize,
    rounds: AtomicUsize,
}

impl Barrier {
    fn wait(&self) {
        let round = self.rounds.load(Ordering::Relaxed);
        if self.there.fetch_add(1, Ordering::AcqRel) + 1 == self.threads {
            self.there.store(0, Ordering::Relaxed);
            self.rounds.store(round + 1, Ordering::Release);
            return;
        }
        let mut turns = 0;
        while self.rounds.load(Ordering::Acquire) == round {
            if turns < SPINS {
                turns += 1;
                hint::spin_loop();
            } else {
                thread::yield_now();
            }
        }
    }
}

/// Makes some columns of a row out of the row before. Loads and stores that ask for no order cost what plain ones do.
fn make(grid: &Grid, row: u32, columns: std::ops::Range<u32>, before: &[AtomicU64], own: &[AtomicU64]) {
    for column in columns {
        let inputs = grid.inputs(row, column).iter();
        let total = inputs.map(|&it| before[it as usize].load(Ordering::Relaxed)).sum();
        own[column as usize].store(made(grid.iterations, column, total), Ordering::Relaxed);
    }
}

/// The numbers of the last row.
fn run(grid: &Grid, threads: u32) -> Vec<u64> {
    let rows = [(); 2].map(|()| (0..grid.width).map(|_| AtomicU64::new(0)).collect::<Vec<_>>());
    let barrier = Barrier { threads: threads as usize, there: AtomicUsize::new(0), rounds: AtomicUsize::new(0) };
    thread::scope(|scope| {
        for number in 0..threads {
            let (rows, barrier) = (&rows, &barrier);
            scope.spawn(move || {
                let columns = number * grid.width / threads..(number + 1) * grid.width / threads;
                for row in 0..grid.steps {
                    let own = row as usize % 2;
                    make(grid, row, columns.clone(), &rows[1 - own], &rows[own]);
                    barrier.wait();
                }
            });
        }
    });
    let [even, odd] = rows;
    let last = if grid.steps % 2 == 1 { even } else { odd };
    last.into_iter().map(AtomicU64::into_inner).collect()
}

fn main() -> Result<(), String> {
    let words: Vec<String> = std::env::args().skip(1).collect();
    let threads = option(&words, "--nodes", 1)? * option(&words, "--workers", 1)?;
    let ((row, tasks), times) = timed(&words, || {
        let grid = Grid::of_words(&words)?;
        Ok::<_, String>((run(&grid, threads), grid.width * grid.steps))
    })?;
    print!("checksum {}\ntasks {tasks}\nended\n{times}", checksum(row.into_iter()));
    Ok(())
}
