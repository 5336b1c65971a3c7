//! Inputs of program `replays`: for each script a word with its length in words, and its words.

use crate::input::words;
use crate::random::Random;
use crate::replay;
use crate::session::{Engine, Kind, Secant, Station, Tried, Verdict, TEXTBOOK};
use crate::sessions;
use crate::step::{Call, Kernel};
use crate::tally::Tally;
use crate::vector::Vector;
use std::cell::Cell;
use std::io::{self, Write};

/// `count` scripts, of one kind of session if it is told.
pub fn input(count: u64, seed: u64, kind: Option<u64>) -> Vec<u8> {
    many(count, seed, |random| script(random, kind))
}

/// `count` scripts, each after a word with its length in words.
pub(crate) fn many(
    count: u64,
    seed: u64,
    mut script: impl FnMut(&mut Random) -> Vec<u64>,
) -> Vec<u8> {
    let mut random = Random::new(seed);
    let mut bytes = Vec::new();
    for _ in 0..count {
        let script = script(&mut random);
        words(&mut bytes, &[script.len() as u64]);
        words(&mut bytes, &script);
    }
    bytes
}

/// A session, damaged now and then.
fn script(random: &mut Random, kind: Option<u64>) -> Vec<u64> {
    let mut script = session(random, kind);
    if !random.once_in(12) {
        return script;
    }
    // Kind 3 and call 5 were unknown once, and the words of kinds 1 and 2 are stored.
    let hidden = is_hidden(kind);
    let (next_kind, next_call) = if hidden { (5, 6) } else { (3, 5) };
    match random.below(if hidden { 10 } else { 8 }) {
        0 => {
            let wrong = [0, next_kind, 1 << 32 | 1, u64::MAX];
            replace(&mut script, 0, random.pick(&wrong));
        }
        1 => {
            let n = script.get(1).copied().unwrap_or(1);
            let wrong = [0, 65, n | 1 << 32, n + 1, n - 1, u64::MAX];
            replace(&mut script, 1, random.pick(&wrong));
        }
        2 => script.extend([random.pick(&[0, next_call, 1 << 32 | 1]), 1, 1, 1, 1, 1]),
        3 => script.extend([4, 0, 0, random.pick(&[3, 1 << 32, u64::MAX]), 0, 0]),
        4 => script.clear(),
        8 | 9 => {
            // How many further settings there are: more than the kind knew when these were made. Kind 4 knows a third one by now, and
            // reads the cost for it.
            let place = if kind == Some(3) { 8 } else { 9 };
            let more = [3, 4, 1 << 32 | 1, 1 << 32 | 2, u64::MAX];
            replace(&mut script, place, random.pick(&more));
        }
        _ => {
            let length = random.below(script.len() as u64 + 1);
            script.truncate(length as usize);
        }
    }
    script
}

/// Kinds 3 and 4 have allowances, and many hidden trials.
fn is_hidden(kind: Option<u64>) -> bool {
    matches!(kind, Some(3 | 4))
}

fn replace(script: &mut [u64], place: usize, word: u64) {
    if let Some(at) = script.get_mut(place) {
        *at = word;
    }
}

/// The whole words of a random session.
fn session(random: &mut Random, kind: Option<u64>) -> Vec<u64> {
    loop {
        let seed = random.word();
        let bytes = if is_hidden(kind) {
            sessions::hidden(seed)
        } else {
            sessions::input(seed)
        };
        let script: Vec<u64> = words_of(&bytes).collect();
        if kind.is_none() || script.first().copied() == kind {
            return script;
        }
    }
}

/// The whole words of some bytes.
pub(crate) fn words_of(bytes: &[u8]) -> impl Iterator<Item = u64> + '_ {
    let chunks = bytes.chunks_exact(8);
    chunks.map(|word| u64::from_le_bytes(word.try_into().expect("eight bytes")))
}

/// Splits off the first script: its own bytes, and the rest. A script that runs past the end is
/// what there is of it. Nothing where the bytes make no length.
pub fn split(input: &[u8]) -> Option<(&[u8], &[u8])> {
    let (length, rest) = input.split_first_chunk()?;
    let bytes = u64::from_le_bytes(*length).saturating_mul(8);
    let here = usize::try_from(bytes).unwrap_or(usize::MAX).min(rest.len());
    Some(rest.split_at(here))
}

/// Answers an input of program `replays`, and counts the lines.
pub fn answer(input: &[u8], engine: &impl Engine, out: &mut impl Write) -> io::Result<Tally> {
    let mut tally = Tally::new(&ROWS, &KERNELS);
    let engine = Counted {
        engine,
        judged: Default::default(),
        updated: Default::default(),
        skipped: Default::default(),
        differ: Default::default(),
    };
    let mut left = input;
    while !left.is_empty() {
        let Some((script, rest)) = split(left) else {
            writeln!(out, "bad input")?;
            break;
        };
        let lines = lines(script, &engine)?;
        count(&mut tally, script, &lines);
        out.write_all(&lines)?;
        left = rest;
    }
    for (row, counts) in [
        ("judged", &engine.judged),
        ("updated", &engine.updated),
        ("skipped", &engine.skipped),
        ("editions differ", &engine.differ),
    ] {
        for (column, counted) in counts.iter().enumerate() {
            tally.add(row, column, counted.get());
        }
    }
    Ok(tally)
}

fn lines(script: &[u8], engine: &impl Engine) -> io::Result<Vec<u8>> {
    let mut lines = Vec::new();
    replay::answer(script, engine, &mut lines)?;
    Ok(lines)
}

/// Writes the first script whose lines are not those of another program, with its words.
pub fn difference(
    input: &[u8],
    other: &[u8],
    engine: &impl Engine,
    out: &mut impl Write,
) -> io::Result<()> {
    let (mut left, mut other) = (input, other);
    let mut number = 0;
    while let Some((script, rest)) = split(left) {
        let lines = lines(script, engine)?;
        let Some(after) = other.strip_prefix(&lines[..]) else {
            let theirs = String::from_utf8_lossy(other);
            let many = lines.split(|&byte| byte == b'\n').count();
            writeln!(out, "script {number} (from 0); the other program goes on:")?;
            for line in theirs.lines().take(many) {
                writeln!(out, "  {line}")?;
            }
            writeln!(out, "and it should write:")?;
            for line in String::from_utf8_lossy(&lines).lines() {
                writeln!(out, "  {line}")?;
            }
            writeln!(out, "its words are:")?;
            for word in script.chunks(8) {
                let digits: Vec<String> = word.iter().rev().map(|b| format!("{b:02x}")).collect();
                writeln!(out, "  {}", digits.concat())?;
            }
            return Ok(());
        };
        (left, other) = (rest, after);
        number += 1;
    }
    writeln!(out, "no script differs: the other program writes more")
}

/// The table's columns.
const KERNELS: [&str; 5] = ["Cauchy", "Dogleg", "Steihaug", "Textbook", "no kernel"];

/// Its rows: the lines by their first words, and sums.
const ROWS: [&str; 26] = [
    "start",
    "proposed",
    "accepted",
    "rejected",
    "rejected, NaN",
    "taken",
    "done",
    "refused 1",
    "refused 2",
    "refused 3",
    "refused 4",
    "refused 5",
    "refused 6",
    "refused 7",
    "refused 8",
    "refused 9",
    "bad input",
    "end ready",
    "end cost",
    "end derivatives",
    "trials",
    "judged",
    "updated",
    "skipped",
    "editions differ",
    "scripts",
];

/// Counts a script and its lines.
fn count(tally: &mut Tally, script: &[u8], lines: &[u8]) {
    let words: Vec<u64> = words_of(script).collect();
    let further = match words.first() {
        Some(3) => words.get(8..),
        Some(4) => words.get(9..),
        _ => None,
    };
    let textbook = matches!(further, Some([2 | 3, _, TEXTBOOK, ..]));
    let column = match words.get(2) {
        Some(2) if textbook => 3,
        Some(&kernel @ 1..=3) => kernel as usize - 1,
        _ => 4,
    };
    for line in String::from_utf8_lossy(lines).lines() {
        let words: Vec<&str> = line.split(' ').collect();
        let name = match words[..] {
            ["refused" | "end" | "bad", ..] => words[..2].join(" "),
            ["step" | "trial" | "point" | "gradient" | "hessian" | "radius" | "cost" | "count", ..] => {
                continue
            }
            [word, "7ff8000000000000", ..] => format!("{word}, NaN"),
            _ => words[0].to_string(),
        };
        tally.add(&name, column, 1);
        if name.starts_with("accepted") || name.starts_with("rejected") {
            tally.add("trials", column, 1);
        }
    }
    tally.add("scripts", column, 1);
}

/// An engine whose verdicts are counted by kernel: trials that a caller made up do not reach it. Of SR1's it is counted how often
/// the session's test updates the Hessian and how often it skips that; and how often the test of the other edition would have come
/// to another end, so that under edition 2 the Hessian is not argmin's own.
struct Counted<'a, E> {
    engine: &'a E,
    judged: Counts,
    updated: Counts,
    skipped: Counts,
    differ: Counts,
}

/// By kernel.
type Counts = [Cell<u64>; 4];

fn raise(counts: &Counts, column: usize) {
    counts[column].set(counts[column].get() + 1);
}

impl<E: Engine> Counted<'_, E> {
    fn count_update(&self, column: usize, edition: u64, secant: &Secant) {
        let updates = secant.updates(edition);
        raise(
            if updates {
                &self.updated
            } else {
                &self.skipped
            },
            column,
        );
        if secant.updates_as_ported() != secant.updates_by_the_book() {
            raise(&self.differ, column);
        }
    }
}

impl<E: Engine> Engine for Counted<'_, E> {
    fn solve(&self, call: &Call) -> Result<(Vector, u64), u8> {
        self.engine.solve(call)
    }

    fn judge(&self, station: &Station, tried: &Tried) -> Verdict {
        let column = match station.call().kernel {
            Kernel::Cauchy => 0,
            Kernel::Dogleg => 1,
            Kernel::Steihaug => 2,
            Kernel::Textbook => 3,
        };
        raise(&self.judged, column);
        if let (Kind::Sr1 { edition, .. }, Some(secant)) =
            (station.settings.kind, Secant::new(station, tried))
        {
            self.count_update(column, edition, &secant);
        }
        self.engine.judge(station, tried)
    }
}

#[cfg(test)]
mod tests {
    use super::*;
    use crate::session::Formulas;

    fn answered(input: &[u8]) -> String {
        let mut out = Vec::new();
        answer(input, &Formulas, &mut out).unwrap();
        String::from_utf8(out).unwrap()
    }

    #[test]
    fn ends() {
        assert_eq!(answered(&[]), "");
        assert_eq!(answered(&[1; 3]), "bad input\n");
        // Two scripts without a word, and one that runs past the end.
        let mut bytes = Vec::new();
        words(&mut bytes, &[0, 0, u64::MAX]);
        assert_eq!(answered(&bytes), "bad input\n".repeat(3));
    }

    /// Every kind of line comes up, for every kernel and every kind of session that can have it.
    #[test]
    fn lines_of_every_kind() {
        for kind in 1..=4 {
            every_line(kind);
        }
    }

    fn every_line(kind: u64) {
        let mut out = Vec::new();
        let input = input(600, 1, Some(kind));
        let tally = answer(&input, &Formulas, &mut out).unwrap();
        let (sr1, hidden) = (kind % 2 == 0, kind > 2);
        // The textbook's dogleg is that of kinds 3 and 4 alone.
        let every = if hidden { 15 } else { 7 };
        for (name, kernels) in [
            ("start", every),
            ("proposed", every),
            ("accepted", every),
            ("rejected", every),
            ("rejected, NaN", every),
            ("taken", if sr1 { 0 } else { every }),
            ("done", if sr1 { every } else { 0 }),
            ("bad input", every),
            ("refused 1", every),
            ("refused 2", every),
            ("refused 3", every),
            ("refused 4", every),
            ("refused 5", every),
            ("refused 6", every & 10),
            ("refused 7", 4),
            ("refused 8", every),
            ("refused 9", if hidden { every } else { 0 }),
            ("end ready", every),
            ("end cost", every),
            ("end derivatives", if sr1 { 0 } else { every }),
        ] {
            for kernel in 0..4 {
                let comes = kernels & 1 << kernel != 0;
                let counted = tally.get(name, kernel);
                assert_eq!(counted > 0, comes, "kind {kind}, {name}: {kernel}");
            }
        }
    }

    /// Two sessions of three have an allowance of 1 to 5, and start.
    #[test]
    fn small_allowances() {
        for kind in [3, 4] {
            let (count, input) = (3000, input(3000, 5, Some(kind)));
            let (mut small, mut left) = (0, &input[..]);
            while let Some((script, rest)) = split(left) {
                let started = lines(script, &Formulas).unwrap().starts_with(b"start");
                let words: Vec<u64> = words_of(script).collect();
                let place = if kind == 3 { 8 } else { 9 };
                small += match words.get(place..place + 2) {
                    Some([1 | 2, 1..=5]) if started => 1,
                    _ => 0,
                };
                left = rest;
            }
            assert!(3 * small >= 2 * count, "kind {kind}: {small} of {count}");
        }
    }
}
