//! Compares what `replay` prints for the three orders of each pair of lists.

use std::fmt::{self, Display};
use std::io::{self, BufRead};

use crate::generator::mixes::{pair, Pair, Turn, ORDERS};

/// How many pairs keep their counters apart, and how many do not.
#[derive(Clone, Copy, Debug, Default, PartialEq, Eq)]
pub struct Summary {
    /// Alike in all orders.
    pub keeping: usize,
    /// Of these, the pairs in which a condition moves a counter.
    pub moving: usize,
    pub breaking: usize,
    /// Of these, the pairs that differ in some order.
    pub differing: usize,
}

impl Display for Summary {
    fn fmt(&self, formatter: &mut fmt::Formatter<'_>) -> fmt::Result {
        write!(
            formatter,
            "{} pairs keep apart and are alike in all orders, {} of them move a counter; \
             {} pairs do not keep apart, {} of them differ",
            self.keeping, self.moving, self.breaking, self.differing
        )
    }
}

/// What is wrong with the output. Pairs and commands are counted from 1.
#[derive(Debug)]
pub enum Failure {
    Short { pair: u64 },
    Long,
    BadLine { pair: u64, line: String },
    Differs { pair: u64, difference: Difference },
    NoneMoves(Summary),
    NoneDiffers(Summary),
    Unreadable(io::Error),
}

impl Display for Failure {
    fn fmt(&self, formatter: &mut fmt::Formatter<'_>) -> fmt::Result {
        match self {
            Failure::Short { pair } => write!(formatter, "the input ends in pair {pair}"),
            Failure::Long => formatter.write_str("the input goes on after the last pair"),
            Failure::BadLine { pair, line } => {
                write!(formatter, "a line of pair {pair} is not expected: {line}")
            }
            Failure::Differs { pair, difference } => {
                write!(
                    formatter,
                    "pair {pair} keeps apart and differs: {difference}"
                )
            }
            Failure::NoneMoves(summary) => {
                write!(
                    formatter,
                    "no pair that keeps apart moves a counter: {summary}"
                )
            }
            Failure::NoneDiffers(summary) => {
                write!(
                    formatter,
                    "no pair that does not keep apart differs: {summary}"
                )
            }
            Failure::Unreadable(error) => error.fmt(formatter),
        }
    }
}

impl From<io::Error> for Failure {
    fn from(error: io::Error) -> Failure {
        Failure::Unreadable(error)
    }
}

/// What differs from the mix in another order.
#[derive(Clone, Copy, Debug, PartialEq, Eq)]
pub struct Difference {
    pub order: usize,
    pub part: Part,
}

#[derive(Clone, Copy, Debug, PartialEq, Eq)]
pub enum Part {
    /// Whether the store is accepted at the beginning.
    Beginning,
    /// The outcome or a byte of the room.
    Command(Turn),
    FinalSession,
    FinalStore,
}

impl Display for Difference {
    fn fmt(&self, formatter: &mut fmt::Formatter<'_>) -> fmt::Result {
        match self.part {
            Part::Beginning => formatter.write_str("the judgment of the store"),
            Part::Command(Turn { list, place }) => {
                let list = ["first", "second"][list];
                write!(formatter, "command {} of the {list} list", place + 1)
            }
            Part::FinalSession => formatter.write_str("the session at the end"),
            Part::FinalStore => formatter.write_str("the store at the end"),
        }?;
        write!(formatter, ", in {} against the mix", ORDERS[self.order])
    }
}

/// Compares the output for the pairs of a seed.
pub fn check(seed: u64, count: u64, input: impl BufRead) -> Result<Summary, Failure> {
    let mut lines = input.lines();
    let mut summary = Summary::default();
    for index in 0..count {
        let pair = pair(seed, index);
        let number = index + 1;
        let runs = read_runs(&pair, number, &mut lines)?;
        let judged = pair.judge();
        match (judged.keeps_apart, first_difference(&pair, &runs)) {
            (true, Some(difference)) => {
                let pair = number;
                return Err(Failure::Differs { pair, difference });
            }
            (true, None) => {
                summary.keeping += 1;
                summary.moving += usize::from(judged.moves);
            }
            (false, difference) => {
                summary.breaking += 1;
                summary.differing += usize::from(difference.is_some());
            }
        }
    }
    if lines.next().transpose()?.is_some() {
        return Err(Failure::Long);
    }
    match summary {
        Summary { moving: 0, .. } => Err(Failure::NoneMoves(summary)),
        Summary { differing: 0, .. } => Err(Failure::NoneDiffers(summary)),
        _ => Ok(summary),
    }
}

type Lines<R> = io::Lines<R>;

/// What one run prints, the answers by list and place.
struct Run {
    accepted: String,
    answers: [Vec<Answer>; 2],
    /// None where no command was sent.
    session: Option<String>,
    store: String,
}

#[derive(PartialEq, Eq)]
struct Answer {
    outcome: String,
    room: String,
}

fn read_runs<R: BufRead>(
    pair: &Pair,
    number: u64,
    lines: &mut Lines<R>,
) -> Result<[Run; 3], Failure> {
    let [mix, first, second] = pair.orders();
    Ok([
        read_run(pair, &mix, number, lines)?,
        read_run(pair, &first, number, lines)?,
        read_run(pair, &second, number, lines)?,
    ])
}

fn read_run<R: BufRead>(
    pair: &Pair,
    order: &[Turn],
    number: u64,
    lines: &mut Lines<R>,
) -> Result<Run, Failure> {
    let accepted = read_line(number, lines, |line| {
        let accepted = line.strip_prefix("S ")?;
        ["0", "1"].contains(&accepted).then(|| accepted.to_string())
    })?;
    let mut answers: [Vec<Option<Answer>>; 2] =
        [0, 1].map(|list| pair.lists[list].iter().map(|_| None).collect());
    let mut session = None;
    for &turn in order {
        let room = pair.listed(turn).room.len();
        let (answer, after) = read_line(number, lines, |line| read_answer(line, room))?;
        answers[turn.list][turn.place] = Some(answer);
        session = Some(after);
    }
    let store = read_line(number, lines, |line| {
        let store = line.strip_prefix("B ")?;
        (store.len() == 2 * pair.state.store.len()).then(|| store.to_string())
    })?;
    Ok(Run {
        accepted,
        answers: answers.map(|list| list.into_iter().flatten().collect()),
        session,
        store,
    })
}

/// The next line in the form that `read` takes.
fn read_line<R: BufRead, T>(
    pair: u64,
    lines: &mut Lines<R>,
    read: impl Fn(&str) -> Option<T>,
) -> Result<T, Failure> {
    let line = lines.next().transpose()?.ok_or(Failure::Short { pair })?;
    read(&line).ok_or(Failure::BadLine { pair, line })
}

/// The answer of a command with a room of this size, and the session after it.
fn read_answer(line: &str, room: usize) -> Option<(Answer, String)> {
    let parts: Vec<&str> = line.splitn(5, ' ').collect();
    let ["C", outcome, session, checksum, bytes] = parts[..] else {
        return None;
    };
    let fits = session.len() == 8 && checksum.len() == 8 && bytes.len() == 2 * room;
    let answer = Answer {
        outcome: outcome.to_string(),
        room: bytes.to_string(),
    };
    fits.then(|| (answer, session.to_string()))
}

/// The first part in which an order differs from the mix.
fn first_difference(pair: &Pair, runs: &[Run; 3]) -> Option<Difference> {
    let [mix, others @ ..] = runs;
    let mut others = others.iter().zip(1..);
    others.find_map(|(run, order)| {
        let part = differing_part(pair, mix, run)?;
        Some(Difference { order, part })
    })
}

fn differing_part(pair: &Pair, mix: &Run, run: &Run) -> Option<Part> {
    if mix.accepted != run.accepted {
        return Some(Part::Beginning);
    }
    let answer = |run: &Run, turn: Turn| -> bool {
        run.answers[turn.list][turn.place] == mix.answers[turn.list][turn.place]
    };
    let mut turns = pair.mix.iter();
    if let Some(&turn) = turns.find(|&&turn| !answer(run, turn)) {
        return Some(Part::Command(turn));
    }
    if mix.session != run.session {
        return Some(Part::FinalSession);
    }
    (mix.store != run.store).then_some(Part::FinalStore)
}
