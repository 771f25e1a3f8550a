//! Answers scripts (`texts sim < SCRIPT`) and judges traces (`texts audit < TRACE`), both of version 1, by the core of
//! `core.rs`: each line is read and its step taken in one pass over the text. What a text that is of no grammar would
//! have been answered by then is dropped.

#[allow(dead_code)]
mod core;

use crate::core::{Core, Refusal, Reply, Step};
use std::fmt::Write as _;
use std::io::{self, Read, Write as _};
use std::process::ExitCode;

/// What a line of a trace claims to have been judged.
#[derive(Clone, Copy, PartialEq)]
enum Claim {
    Nothing,
    Not,
    Ended(u32),
}

/// Reads numbers and words off the front of what is left of a line.
struct Line<'a>(&'a [u8]);

impl<'a> Line<'a> {
    fn word(&mut self) -> &'a [u8] {
        let end = self.0.iter().position(|&it| it == b' ').unwrap_or(self.0.len());
        let (word, rest) = self.0.split_at(end);
        self.0 = rest;
        word
    }

    /// A space and a number of one to six digits without leading zeros.
    fn number(&mut self) -> Option<u32> {
        let (b' ', rest) = self.0.split_first()? else { return None };
        let digits = rest.iter().take_while(|it| it.is_ascii_digit()).count();
        if digits == 0 || digits > 6 || (digits > 1 && rest[0] == b'0') {
            return None;
        }
        self.0 = &rest[digits..];
        Some(rest[..digits].iter().fold(0, |sum, digit| sum * 10 + u32::from(digit - b'0')))
    }

    fn claim(&mut self) -> Option<Claim> {
        if self.0 == b" not" {
            self.0 = &[];
            return Some(Claim::Not);
        }
        self.0 = self.0.strip_prefix(b" ended")?;
        self.number().filter(|&it| it > 0).map(Claim::Ended)
    }

    /// The step that the line spells, all of it.
    fn step(mut self, is_trace: bool) -> Option<(Step, Claim)> {
        let mut claim = Claim::Nothing;
        let step = match self.word() {
            b"insert" => {
                let (node, task, inputs) = (self.number()?, self.number()?, self.number()?);
                Step::Insert { node, task, inputs: u8::try_from(inputs).ok().filter(|&it| it <= 16)? }
            }
            b"supply" => Step::Supply(self.number()?),
            b"begin" => Step::Begin(self.number()?),
            b"done" => Step::Done(self.number()?),
            b"open" => Step::Open { node: self.number()?, action: self.number()? },
            b"close" => Step::Close { node: self.number()?, action: self.number()? },
            b"ready" => Step::Ready(self.number()?),
            b"send" => Step::Send { from: self.number()?, to: self.number()?, message: self.number()? },
            b"recv" => Step::Receive { to: self.number()?, message: self.number()? },
            b"end" => Step::End { to: self.number()?, message: self.number()? },
            b"start" => Step::Start,
            b"down" => Step::Down(self.number()?),
            b"give" => Step::Give(self.number()?),
            b"up" => Step::Up(self.number()?),
            b"judge" => Step::Judge,
            _ => return None,
        };
        if is_trace && matches!(step, Step::Judge) {
            claim = self.claim()?;
        }
        self.0.is_empty().then_some((step, claim))
    }
}

/// A pool of as many nodes as the line says.
fn opened(line: Option<&[u8]>) -> Option<Core> {
    let mut line = Line(line?.strip_prefix(b"nodes")?);
    let nodes = line.number().filter(|it| (1..=8).contains(it))?;
    line.0.is_empty().then(|| Core::new(nodes))
}

/// The lines of a text that ends with a line feed; where it does not, a last line that is of no grammar.
fn lines_of(text: &[u8]) -> impl Iterator<Item = &[u8]> {
    text.split_inclusive(|&it| it == b'\n').map(|it| it.strip_suffix(b"\n").unwrap_or(b"?"))
}

const REFUSED: [&str; 17] = [
    "",
    "refused 1 NoNode\n",
    "refused 2 SameNode\n",
    "refused 3 TaskKnown\n",
    "refused 4 NoTask\n",
    "refused 5 WrongLife\n",
    "refused 6 Inactive\n",
    "refused 7 ActionKnown\n",
    "refused 8 NoAction\n",
    "refused 9 MessageKnown\n",
    "refused 10 NoMessage\n",
    "refused 11 NotIdle\n",
    "refused 12 NoToken\n",
    "refused 13 WaveOpen\n",
    "refused 14 WaveNotEnded\n",
    "refused 15 Ended\n",
    "refused 16 HistoryFull\n",
];

fn answer(out: &mut String, reply: Result<Reply, Refusal>) {
    match reply {
        Ok(Reply::Plain) => out.push_str("ok\n"),
        Ok(Reply::Not) => out.push_str("not\n"),
        Ok(Reply::Over(wave)) => drop(writeln!(out, "ended {wave}")),
        Ok(Reply::Wave { number, sent, received }) => drop(writeln!(out, "wave {number} sent {sent} received {received}")),
        Err(refusal) => out.push_str(REFUSED[refusal as usize]),
    }
}

/// The numbers of all nodes, with which a script's answers close.
fn close(out: &mut String, core: &Core) {
    let (mut pending, mut sent, mut received) = (0, 0, 0);
    for (node, it) in core.numbers().iter().enumerate() {
        let _ = writeln!(out, "node {node} pending {} sent {} received {}", it.pending, it.sent, it.received);
        pending += it.pending;
        sent += it.sent;
        received += it.received;
    }
    let under = core.under_way();
    let _ = writeln!(out, "total pending {pending} sent {sent} received {received} under {under}");
    let _ = writeln!(out, "quiet {}", if pending == 0 && under == 0 { "yes" } else { "no" });
}

/// The answers to a script; or the line at fault.
fn sim(text: &[u8]) -> Result<String, String> {
    let mut lines = lines_of(text);
    let mut core = opened(lines.next()).ok_or("syntax line 1\n")?;
    let mut out = String::with_capacity(text.len());
    for (number, line) in (2..).zip(lines) {
        let (step, _) = Line(line).step(false).ok_or_else(|| format!("syntax line {number}\n"))?;
        answer(&mut out, core.step(step));
    }
    close(&mut out, &core);
    Ok(out)
}

/// How many there were of each, and by which wave the pool had ended.
#[derive(Default)]
struct Counts {
    tasks: u32,
    done: u32,
    sent: u32,
    received: u32,
    ended: Option<u32>,
}

impl Counts {
    /// Counts a step that was taken: whether what the line claims is so.
    fn count(&mut self, step: Step, reply: Reply, claim: Claim) -> bool {
        match step {
            Step::Insert { .. } => self.tasks += 1,
            Step::Done(_) => self.done += 1,
            Step::Send { .. } => self.sent += 1,
            Step::Receive { .. } => self.received += 1,
            _ => {}
        }
        match reply {
            Reply::Not => claim == Claim::Not,
            Reply::Over(wave) => {
                self.ended = Some(wave);
                claim == Claim::Ended(wave)
            }
            _ => true,
        }
    }
}

/// The judgement of a trace. Where a step is refused or a claim is wrong, that is kept until the grammar of all is known.
fn audit(text: &[u8]) -> Result<String, String> {
    let mut lines = lines_of(text);
    lines.next().filter(|&it| it == b"trace 1").ok_or("syntax line 1\n")?;
    let mut core = opened(lines.next()).ok_or("syntax line 2\n")?;
    let (mut counts, mut fault) = (Counts::default(), None);
    for (number, line) in (3..).zip(lines) {
        let (step, claim) = Line(line).step(true).ok_or_else(|| format!("syntax line {number}\n"))?;
        if fault.is_none() {
            fault = match core.step(step) {
                Err(refusal) => Some(format!("line {number} {}", REFUSED[refusal as usize])),
                Ok(reply) if !counts.count(step, reply, claim) => Some(format!("line {number} unjustified\n")),
                Ok(_) => None,
            };
        }
    }
    if let Some(told) = fault {
        return Err(told);
    }
    let Counts { tasks, done, sent, received, ended } = counts;
    let ended = ended.map_or("not ended".to_string(), |wave| format!("ended {wave}"));
    Ok(format!("steps {}\ntasks {tasks} done {done}\nmessages {sent} received {received}\n{ended}\n", core.steps()))
}

fn main() -> io::Result<ExitCode> {
    let is_trace = std::env::args().nth(1).is_some_and(|it| it == "audit");
    let mut text = Vec::new();
    io::stdin().read_to_end(&mut text)?;
    let answered = if is_trace { audit(&text) } else { sim(&text) };
    let (told, status) = match &answered {
        Ok(told) => (told, 0),
        Err(told) => (told, 2),
    };
    io::stdout().write_all(told.as_bytes())?;
    Ok(ExitCode::from(status))
}
