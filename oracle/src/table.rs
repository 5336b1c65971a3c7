//! The table of program `replay_table`: a script of program `replay` as people read it.

use crate::decimals::text;
use crate::input::Reader;
use crate::replay::{call, start, Call};
use crate::session::{Engine, Phase, Proposal, Station};
use std::io::{self, Write};

/// Answers an input of program `replay` by a table.
pub fn answer(input: &[u8], engine: &impl Engine, out: &mut impl Write) -> io::Result<()> {
    let mut reader = Reader(input);
    let Some(start) = start(&mut reader) else {
        return bad(out);
    };
    let mut station = match start.session {
        Ok(station) => station,
        Err(number) => return writeln!(out, "The start is {}", refused(number)),
    };
    let (cost, radius) = (text(station.cost), text(station.radius));
    writeln!(out, "Start at cost {cost}, radius {radius}.\n")?;
    let [cost, ratio] = ["cost", "ratio"];
    writeln!(out, "trial  {cost:24}{ratio:24}verdict   radius")?;
    let mut trials = 0;
    while !reader.0.is_empty() {
        let Some(call) = call(&mut reader, &station) else {
            return bad(out);
        };
        if let Err(number) = row(&mut station, call, engine, &mut trials, out)? {
            writeln!(out, "       a call is {}", refused(number))?;
        }
    }
    end(&station, out)
}

fn bad(out: &mut impl Write) -> io::Result<()> {
    writeln!(
        out,
        "The input is bad: it ends inside a call, or a word of it is none that may stand there."
    )
}

/// The reasons of document 01 and of request Five.
fn refused(number: u8) -> String {
    let reason = match number {
        1 => "n or a length is wrong",
        2 => "a setting, or the radius, the cost or the count of the session, is out of range",
        3 => "it is out of turn",
        4 => "a number that came with it is not finite",
        5 => "the radius is zero",
        6 => "the Hessian has no inverse, a pivot is zero or nearly",
        7 => "no root leads to the edge of the region",
        9 => "as many trials as are allowed in a row were hidden: show the markers, then set the count to 0",
        _ => "a number of the result would not be finite",
    };
    format!("refused ({number}): {reason}")
}

/// Runs a call. A verdict is a row; the refusal's number goes back.
fn row(
    station: &mut Station,
    call: Call,
    engine: &impl Engine,
    trials: &mut u64,
    out: &mut impl Write,
) -> io::Result<Result<(), u8>> {
    let done = match call {
        Call::Propose(n) => match station.propose(n, engine) {
            Ok(Proposal::Done) => {
                writeln!(out, "       the gradient is below the tolerance: done")?;
                Ok(())
            }
            Ok(Proposal::Made { .. }) => Ok(()),
            Err(number) => Err(number),
        },
        Call::Cost(n, cost, gradient) => match station.answer(n, cost, gradient.as_ref(), engine) {
            Ok(verdict) => {
                *trials += 1;
                let word = match (verdict.accepted, cost.is_nan()) {
                    (true, _) => "accepted",
                    (false, true) => "hidden",
                    (false, false) => "rejected",
                };
                let [cost, ratio, radius] = [cost, verdict.ratio, verdict.radius].map(text);
                writeln!(out, "{trials:5}  {cost:24}{ratio:24}{word:10}{radius}")?;
                Ok(())
            }
            Err(number) => Err(number),
        },
        Call::Derivatives(n, gradient, hessian) => station.renew(n, gradient, hessian),
        Call::Put(radius, cost, phase) => {
            (station.radius, station.cost, station.phase) = (radius, cost, phase);
            by_hand(out)?;
            Ok(())
        }
        Call::Count(count) => {
            station.count = count;
            by_hand(out)?;
            Ok(())
        }
    };
    Ok(done)
}

fn by_hand(out: &mut impl Write) -> io::Result<()> {
    writeln!(out, "       the session is changed by hand")
}

fn end(station: &Station, out: &mut impl Write) -> io::Result<()> {
    let (cost, radius) = (text(station.cost), text(station.radius));
    let waits = match station.phase {
        Phase::Ready => "ready for a proposal",
        Phase::Cost { .. } => "a cost is awaited",
        Phase::Derivatives => "derivatives are awaited",
    };
    writeln!(
        out,
        "\nEnd at cost {cost}, radius {radius}, {waits}.\nPoint:"
    )?;
    for &x in &station.point.0 {
        writeln!(out, "       {}", text(x))?;
    }
    Ok(())
}

#[cfg(test)]
mod tests {
    use super::*;
    use crate::input::words;
    use crate::session::Formulas;

    /// Half the square of x, from 2, with one hidden trial allowed: the markers stay hidden, the
    /// count is put to 2 by hand and then back to 0.
    #[test]
    fn too_many_hidden_trials() {
        let numbers = [1.0, 100.0, 0.125, 1e-9].map(f64::to_bits);
        let vectors = [2.0, 2.0, 2.0, 1.0].map(f64::to_bits);
        let head = [&[3, 1, 1], &numbers[..], &[5, 1, 1], &vectors[..]].concat();
        let calls = [1, 1, 2, 1, f64::NAN.to_bits(), 1, 1, 5, 2, 1, 1, 5, 0];
        let mut bytes = Vec::new();
        words(&mut bytes, &[&head[..], &calls].concat());
        let expected = "\
Start at cost 2, radius 1.

trial  cost                    ratio                   verdict   radius
    1  nan                     nan                     hidden    1
       a call is refused (9): as many trials as are allowed in a row were hidden: show the markers, then set the count to 0
       the session is changed by hand
       a call is refused (2): a setting, or the radius, the cost or the count of the session, is out of range
       the session is changed by hand

End at cost 2, radius 1, ready for a proposal.
Point:
       2
";
        let mut out = Vec::new();
        answer(&bytes, &Formulas, &mut out).unwrap();
        assert_eq!(String::from_utf8(out).unwrap(), expected);
    }
}
