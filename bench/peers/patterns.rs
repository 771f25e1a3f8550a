//! Task Bench's patterns: rows of tasks, in which a relation of columns says which of a row feed which of the next; what a
//! task makes; and the checksum of a row.

const LIMIT: u64 = 1 << 31;

/// One iteration of the kernel.
fn stirred(x: u64) -> u64 {
    (x * (2 * x + 1) + 1_013_904_223) % LIMIT
}

/// What a column makes of the sum of its inputs.
pub fn made(iterations: u64, column: u32, total: u64) -> u64 {
    let mut x = (total + u64::from(column) + 1) % LIMIT;
    for _ in 0..iterations {
        x = stirred(x);
    }
    x
}

pub fn checksum(row: impl Iterator<Item = u64>) -> u64 {
    row.fold(0, |sum, number| (sum + number) % LIMIT)
}

#[derive(Clone, Copy)]
enum Pattern {
    Trivial,
    NoComm,
    Stencil,
    StencilPeriodic,
    Dom,
    Tree,
    Fft,
    AllToAll,
    Nearest { radius: u32 },
    Spread { seed: u32 },
    RandomNearest { radius: u32, seed: u32 },
}

/// How many of 2, 4, 8 and so on are at most a width, but 1 at least.
fn doublings(width: u32) -> u32 {
    width.ilog2().max(1)
}

/// The column so many fifths of a row to the right of a column, moved by one from row to row.
fn fifth(width: u32, step: u32, seed: u32, to: u32, fifths: u32) -> u32 {
    let moved = u64::from(to) + u64::from(fifths * width / 5) + u64::from(step - 1) + u64::from(seed);
    (moved % u64::from(width)) as u32
}

/// One bit, by chance.
fn is_drawn(step: u32, seed: u32, from: u32, to: u32) -> bool {
    let [step, seed, from, to] = [step, seed, from, to].map(u64::from);
    let mixed = seed + 7919 * step + 104_729 * from + 1_299_709 * to;
    (stirred(stirred(mixed % LIMIT)) >> 20) % 2 == 0
}

impl Pattern {
    /// Whether column `from` of the row before feeds column `to` of row `step`, which is 1 or more.
    fn relates(self, width: u32, step: u32, from: u32, to: u32) -> bool {
        let apart = from.abs_diff(to);
        match self {
            Pattern::Trivial => false,
            Pattern::NoComm => from == to,
            Pattern::Stencil => apart <= 1,
            Pattern::StencilPeriodic => apart <= 1 || apart + 1 == width,
            Pattern::Dom => from == to || from + 1 == to,
            Pattern::Tree => from == to / 2,
            Pattern::Fft => from == to || apart == 1 << ((step - 1) % doublings(width)),
            Pattern::AllToAll => true,
            Pattern::Nearest { radius } => apart <= radius,
            Pattern::Spread { seed } => from == to || (1..=4).any(|it| from == fifth(width, step, seed, to, it)),
            Pattern::RandomNearest { radius, seed } => from == to || (apart <= radius && is_drawn(step, seed, from, to)),
        }
    }

    /// After how many rows it comes again: after all of them where chance draws each.
    fn period(self, width: u32, steps: u32) -> u32 {
        match self {
            Pattern::Fft => doublings(width),
            Pattern::Spread { .. } => width,
            Pattern::RandomNearest { .. } => steps,
            _ => 1,
        }
    }

    /// The pattern that the words name: PATTERN [--radius K] [--seed S].
    fn of_words(words: &[String]) -> Result<Pattern, String> {
        let (radius, seed) = (option(words, "--radius", 1)?, option(words, "--seed", 0)?);
        match words.first().map(String::as_str) {
            Some("trivial") => Ok(Pattern::Trivial),
            Some("no_comm") => Ok(Pattern::NoComm),
            Some("stencil") => Ok(Pattern::Stencil),
            Some("stencil_periodic") => Ok(Pattern::StencilPeriodic),
            Some("dom") => Ok(Pattern::Dom),
            Some("tree") => Ok(Pattern::Tree),
            Some("fft") => Ok(Pattern::Fft),
            Some("all_to_all") => Ok(Pattern::AllToAll),
            Some("nearest") => Ok(Pattern::Nearest { radius }),
            Some("spread") => Ok(Pattern::Spread { seed }),
            Some("random_nearest") => Ok(Pattern::RandomNearest { radius, seed }),
            other => Err(format!("{} is no pattern", other.unwrap_or("nothing"))),
        }
    }
}

/// Who feeds a row: for each column those that feed it, and for each column of the row before those that it feeds, with the
/// slot there.
struct Step {
    inputs: Vec<Vec<u32>>,
    outputs: Vec<Vec<(u32, usize)>>,
}

impl Step {
    fn new(pattern: Pattern, width: u32, step: u32) -> Step {
        let (mut inputs, mut outputs) = (vec![Vec::new(); width as usize], vec![Vec::new(); width as usize]);
        for to in 0..width {
            for from in (0..width).filter(|&it| pattern.relates(width, step, it, to)) {
                outputs[from as usize].push((to, inputs[to as usize].len()));
                inputs[to as usize].push(from);
            }
        }
        Step { inputs, outputs }
    }
}

/// So many rows of tasks over a pattern.
pub struct Grid {
    pub width: u32,
    pub steps: u32,
    pub iterations: u64,
    /// The rows from 1 on, up to where the pattern comes again.
    fed: Vec<Step>,
}

impl Grid {
    /// The grid that the words name: PATTERN WIDTH STEPS ITERATIONS [--radius K] [--seed S].
    pub fn of_words(words: &[String]) -> Result<Grid, String> {
        let pattern = Pattern::of_words(words)?;
        let [width, steps, iterations] = [1, 2, 3].map(|at| words.get(at).and_then(|it| it.parse::<u32>().ok()));
        let (Some(width @ 1..), Some(steps @ 1..), Some(iterations)) = (width, steps, iterations) else {
            return Err("wanted are PATTERN WIDTH STEPS ITERATIONS, one column and one row at least".into());
        };
        let fed = (1..=pattern.period(width, steps).min(steps - 1)).map(|step| Step::new(pattern, width, step)).collect();
        Ok(Grid { width, steps, iterations: iterations.into(), fed })
    }

    fn fed(&self, row: u32) -> &Step {
        &self.fed[(row as usize - 1) % self.fed.len()]
    }

    /// The columns of the row before that feed a column of a row; none in the first.
    pub fn inputs(&self, row: u32, column: u32) -> &[u32] {
        if row == 0 { &[] } else { &self.fed(row).inputs[column as usize] }
    }

    /// The columns of the next row that a column of a row feeds, with the slot there; none in the last.
    #[allow(dead_code)] // threads that wait for each other hand nothing on
    pub fn outputs(&self, row: u32, column: u32) -> &[(u32, usize)] {
        if row + 1 == self.steps { &[] } else { &self.fed(row + 1).outputs[column as usize] }
    }
}

/// The number behind an option; the other one where it is not there.
pub fn option(words: &[String], name: &str, otherwise: u32) -> Result<u32, String> {
    match words.iter().position(|it| it == name) {
        None => Ok(otherwise),
        Some(at) => words.get(at + 1).and_then(|it| it.parse().ok()).ok_or(format!("{name} wants a number")),
    }
}
