//! Runs that are repeated and timed in one process: the option `--timing RUNS`.

use std::time::Instant;

/// Runs as often as `--timing` says, and once without it. Returns what the last run returned, and with `--timing` a line with
/// the nanoseconds of each run. What a run returns is dropped after its time has ended.
pub fn timed<T, E>(words: &[String], mut run: impl FnMut() -> Result<T, E>) -> Result<(T, String), E> {
    let place = words.iter().position(|word| word == "--timing");
    let runs: Option<u32> = place.and_then(|at| words.get(at + 1)?.parse().ok());
    let mut lines = String::new();
    let mut once = || {
        let start = Instant::now();
        let made = run();
        let nanoseconds = start.elapsed().as_nanos();
        if runs.is_some() {
            lines += &format!("nanoseconds {nanoseconds}\n");
        }
        made
    };
    for _ in 1..runs.unwrap_or(1) {
        once()?;
    }
    let made = once()?;
    Ok((made, lines))
}
