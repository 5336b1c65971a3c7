//! Program `replay`: a session's start and its calls in a file, a line or more for each.

use crate::input::Reader;
use crate::leaves::one_nan;
use crate::session::{
    Engine, Kind, Phase, Proposal, Settings, Station, LARGEST_ALLOWANCE, PORTED, PORTED_UPDATE,
};
use crate::step::LARGEST_SIZE;
use crate::vector::{Matrix, Vector};
use std::io::{self, Write};

/// So many further settings a kind knows: kinds 3 and 4 the allowance and which dogleg, kind 4 also the edition of SR1's test.
pub(crate) fn most_further(kind: u64) -> u64 {
    match kind {
        3 => 2,
        4 => 3,
        _ => 0,
    }
}

/// Answers an input of program `replay`.
pub fn answer(input: &[u8], engine: &impl Engine, out: &mut impl Write) -> io::Result<()> {
    answer_by(
        |station, call, out| run(station, call, engine, out),
        input,
        out,
    )
}

/// The same with another way to run a call.
pub(crate) fn answer_by<W: Write>(
    mut run: impl FnMut(&mut Station, Call, &mut W) -> io::Result<()>,
    input: &[u8],
    out: &mut W,
) -> io::Result<()> {
    let mut reader = Reader(input);
    let Some(start) = start(&mut reader) else {
        return writeln!(out, "bad input");
    };
    let mut station = match start.session {
        Ok(station) => station,
        Err(number) => return writeln!(out, "refused {number}"),
    };
    writeln!(out, "start")?;
    while !reader.0.is_empty() {
        let Some(call) = call(&mut reader, &station) else {
            return writeln!(out, "bad input");
        };
        run(&mut station, call, out)?;
    }
    end(&station, out)?;
    if start.tells_count {
        writeln!(out, "count {}", station.count)?;
    }
    Ok(())
}

/// A call, as its words have it.
#[derive(Clone)]
pub enum Call {
    Propose(u64),
    Cost(u64, f64, Option<Vector>),
    Derivatives(u64, Vector, Matrix),
    Put(f64, f64, Phase),
    Count(u64),
}

/// Runs a call and writes its lines.
pub fn run(
    station: &mut Station,
    call: Call,
    engine: &impl Engine,
    out: &mut impl Write,
) -> io::Result<()> {
    let refused = match call {
        Call::Propose(n) => match station.propose(n, engine) {
            Ok(Proposal::Done) => return writeln!(out, "done"),
            Ok(Proposal::Made { passes }) => {
                writeln!(out, "proposed {passes}")?;
                numbers(out, "step", &station.step.0)?;
                return numbers(out, "trial", &station.trial.0);
            }
            Err(number) => number,
        },
        Call::Cost(n, cost, gradient) => match station.answer(n, cost, gradient.as_ref(), engine) {
            Ok(verdict) => {
                let word = if verdict.accepted {
                    "accepted"
                } else {
                    "rejected"
                };
                let [ratio, radius] = [verdict.ratio, verdict.radius].map(one_nan);
                return writeln!(out, "{word} {ratio:016x} radius {radius:016x}");
            }
            Err(number) => number,
        },
        Call::Derivatives(n, gradient, hessian) => match station.renew(n, gradient, hessian) {
            Ok(()) => return writeln!(out, "taken"),
            Err(number) => number,
        },
        Call::Put(radius, cost, phase) => {
            (station.radius, station.cost, station.phase) = (radius, cost, phase);
            return Ok(());
        }
        Call::Count(count) => {
            station.count = count;
            return Ok(());
        }
    };
    writeln!(out, "refused {refused}")
}

fn end(station: &Station, out: &mut impl Write) -> io::Result<()> {
    match station.phase {
        Phase::Ready => writeln!(out, "end ready")?,
        Phase::Cost { promised, norm, .. } => {
            numbers(out, "end cost", &[promised, norm])?;
        }
        Phase::Derivatives => writeln!(out, "end derivatives")?,
    }
    numbers(out, "radius", &[station.radius])?;
    numbers(out, "cost", &[station.cost])?;
    numbers(out, "point", &station.point.0)?;
    numbers(out, "gradient", &station.gradient.0)?;
    numbers(out, "hessian", station.hessian.entries())
}

fn numbers(out: &mut impl Write, name: &str, list: &[f64]) -> io::Result<()> {
    write!(out, "{name}")?;
    for &x in list {
        write!(out, " {:016x}", one_nan(x))?;
    }
    writeln!(out)
}

impl Reader<'_> {
    fn vector(&mut self, n: usize) -> Option<Vector> {
        (0..n)
            .map(|_| self.number())
            .collect::<Option<_>>()
            .map(Vector)
    }

    fn matrix(&mut self, n: usize) -> Option<Matrix> {
        let Vector(entries) = self.vector(n * n)?;
        Some(Matrix::new(n, entries))
    }
}

/// What the words of a start make.
pub(crate) struct Start {
    pub(crate) session: Result<Station, u8>,
    /// Kinds 3 and 4 tell the count at their end.
    tells_count: bool,
}

/// The start's words, read whole before it is judged.
pub(crate) fn start(reader: &mut Reader) -> Option<Start> {
    let kind = reader.word().filter(|kind| (1..=4).contains(kind))?;
    let most = most_further(kind);
    let n = reader.word().filter(|n| (1..=LARGEST_SIZE).contains(n))? as usize;
    let kernel = reader.word()?;
    let radius = reader.number()?;
    let many = if kind % 2 == 1 { 2 } else { 3 };
    let own: Vec<f64> = (0..many).map(|_| reader.number()).collect::<Option<_>>()?;
    let (epsilon, limit) = (reader.number()?, reader.word()?);
    let further = further(reader, most)?;
    let (kind, eta) = match own[..] {
        [eta, factor, tol_grad] => {
            let edition = further.get(2).copied().unwrap_or(PORTED_UPDATE);
            let kind = Kind::Sr1 {
                factor,
                tol_grad,
                edition,
            };
            (kind, eta)
        }
        _ => {
            let max_radius = own[0];
            (Kind::TrustRegion { max_radius }, own[1])
        }
    };
    let settings = Settings {
        kind,
        kernel,
        radius,
        eta,
        epsilon,
        limit,
        allowance: further.first().copied().unwrap_or(LARGEST_ALLOWANCE),
        dogleg: further.get(1).copied().unwrap_or(PORTED),
    };
    let cost = reader.number()?;
    let (point, gradient) = (reader.vector(n)?, reader.vector(n)?);
    let hessian = reader.matrix(n)?;
    Some(Start {
        session: Station::start(settings, cost, point, gradient, hessian),
        tells_count: most > 0,
    })
}

/// How many further settings there are, and then these; nothing of it in a kind that knows none. Those that are
/// missing have the values of kinds 1 and 2.
fn further(reader: &mut Reader, most: u64) -> Option<Vec<u64>> {
    if most == 0 {
        return Some(Vec::new());
    }
    let many = reader.word().filter(|many| *many <= most)?;
    (0..many).map(|_| reader.word()).collect()
}

pub(crate) fn call(reader: &mut Reader, station: &Station) -> Option<Call> {
    let n = station.size();
    let sr1 = matches!(station.settings.kind, Kind::Sr1 { .. });
    Some(match reader.word()? {
        1 => Call::Propose(reader.word()?),
        2 => {
            let (told, cost) = (reader.word()?, reader.number()?);
            let gradient = if sr1 { Some(reader.vector(n)?) } else { None };
            Call::Cost(told, cost, gradient)
        }
        3 if !sr1 => Call::Derivatives(reader.word()?, reader.vector(n)?, reader.matrix(n)?),
        4 => {
            let (radius, cost) = (reader.number()?, reader.number()?);
            let phase = reader.word()?;
            let (promised, norm) = (reader.number()?, reader.number()?);
            let phase = match phase {
                0 => Phase::Ready,
                1 => Phase::Cost {
                    promised,
                    norm,
                    made_up: true,
                },
                2 if !sr1 => Phase::Derivatives,
                _ => return None,
            };
            Call::Put(radius, cost, phase)
        }
        5 => Call::Count(reader.word()?),
        _ => return None,
    })
}

#[cfg(test)]
mod tests {
    use super::*;
    use crate::input::words;
    use crate::session::Formulas;

    fn lines_of(input: &[u8]) -> String {
        let mut out = Vec::new();
        answer(input, &Formulas, &mut out).unwrap();
        String::from_utf8(out).unwrap()
    }

    fn bytes(list: &[u64]) -> Vec<u8> {
        let mut bytes = Vec::new();
        words(&mut bytes, list);
        bytes
    }

    /// A `TrustRegion` with Cauchy, n = 1, f = 0, at 0, g = 2, H = 1.
    fn head() -> Vec<u64> {
        let numbers = [1.0, 100.0, 0.125, 1e-9].map(f64::to_bits);
        let vectors = [0.0, 0.0, 2.0, 1.0].map(f64::to_bits);
        [&[1, 1, 1], &numbers[..], &[5], &vectors[..]].concat()
    }

    #[test]
    fn a_session() {
        let minus = (-1.5f64).to_bits();
        let (one, two) = (1f64.to_bits(), 2f64.to_bits());
        let calls = [&[1, 1, 1, 2, 2, 1, minus][..], &[3, 1, one, one, 2, 1, 0]].concat();
        // The step is −1 and the model −1.5, so the ratio is 1 and the radius doubles.
        let expected = "\
start
proposed 0
step bff0000000000000
trial bff0000000000000
refused 1
accepted 3ff0000000000000 radius 4000000000000000
taken
refused 3
end ready
radius 4000000000000000
cost bff8000000000000
point bff0000000000000
gradient 3ff0000000000000
hessian 3ff0000000000000
";
        let input = [head(), calls].concat();
        assert_eq!(lines_of(&bytes(&input)), expected);
        // A put writes nothing, and the end tells of it.
        let put = [head(), vec![4, one, two, 1, two, one]].concat();
        let lines = lines_of(&bytes(&put));
        assert!(lines.starts_with("start\nend cost 4000000000000000 3ff0000000000000\n"));
    }

    /// The same start in kind 3, or the like of it in kind 4, with these words behind `limit`.
    fn head_with(kind: u64, further: &[u64]) -> Vec<u64> {
        let numbers: &[f64] = match kind {
            3 => &[1.0, 100.0, 0.125, 1e-9],
            _ => &[1.0, 0.0005, 1e-8, 1e-3, 1e-9],
        };
        let numbers: Vec<u64> = numbers.iter().map(|x| x.to_bits()).collect();
        let vectors = [0.0, 0.0, 2.0, 1.0].map(f64::to_bits);
        [&[kind, 1, 1], &numbers[..], &[5], further, &vectors].concat()
    }

    const NAN: u64 = 0xfff0_0000_0000_0001;

    /// Two hidden trials are allowed, and the third proposal is refused; then the session would be
    /// ready, so an answer is out of turn.
    #[test]
    fn an_allowance_of_two() {
        let trial = [1, 1, 2, 1, NAN];
        let calls = [&trial[..], &trial, &[1, 1], &[2, 1, NAN]].concat();
        let input = [head_with(3, &[1, 2]), calls].concat();
        let proposed = "proposed 0\nstep bff0000000000000\ntrial bff0000000000000\n";
        let hidden = "rejected 7ff8000000000000 radius 3ff0000000000000\n";
        let end = "\
refused 9
refused 3
end ready
radius 3ff0000000000000
cost 0000000000000000
point 0000000000000000
gradient 4000000000000000
hessian 3ff0000000000000
count 2
";
        let expected = ["start\n", proposed, hidden, proposed, hidden, end].concat();
        assert_eq!(lines_of(&bytes(&input)), expected);
    }

    /// SR1 with an allowance of one. The step is −1, and a new gradient of 0 makes z −1 and q 1: the
    /// Hessian becomes 2 and the radius 1/2. With the count back at 0 the step is −1/2, P is 3/4, a
    /// fall of 3/4 doubles the radius, and the Hessian becomes 2 + 1/(1/2).
    #[test]
    fn an_allowance_of_one() {
        let fall = (-0.75f64).to_bits();
        let calls = [
            &[1, 1, 2, 1, NAN, 0][..],
            &[1, 1, 5, 0, 1, 1],
            &[2, 1, fall, 0],
        ];
        let input = [head_with(4, &[1, 1]), calls.concat()].concat();
        let expected = "\
start
proposed 0
step bff0000000000000
trial bff0000000000000
rejected 7ff8000000000000 radius 3fe0000000000000
refused 9
proposed 0
step bfe0000000000000
trial bfe0000000000000
accepted 3ff0000000000000 radius 3ff0000000000000
end ready
radius 3ff0000000000000
cost bfe8000000000000
point bfe0000000000000
gradient 0000000000000000
hessian 4010000000000000
count 0
";
        assert_eq!(lines_of(&bytes(&input)), expected);
    }

    /// Kind 1, and kinds 3 and 4 without further settings, allow a thousand.
    #[test]
    fn counts_put_in() {
        let last = |head: Vec<u64>, count: u64| {
            let input = [head, vec![5, count, 1, 1]].concat();
            let lines = lines_of(&bytes(&input));
            let second = lines.lines().nth(1).unwrap().to_string();
            (second, lines.lines().last().unwrap().to_string())
        };
        let said = |second: &str, last: &str| (second.to_string(), last.to_string());
        let hessian = "hessian 3ff0000000000000";
        assert_eq!(last(head(), 999), said("proposed 0", hessian));
        assert_eq!(last(head(), 1000), said("refused 9", hessian));
        assert_eq!(last(head(), 1001), said("refused 2", hessian));
        for kind in [3, 4] {
            let counted = |count| last(head_with(kind, &[0]), count);
            assert_eq!(counted(999), said("proposed 0", "count 999"));
            assert_eq!(counted(1000), said("refused 9", "count 1000"));
            assert_eq!(counted(1001), said("refused 2", "count 1001"));
            let most = said("refused 2", "count 18446744073709551615");
            assert_eq!(counted(u64::MAX), most);
        }
    }

    /// Kernel 2 with g = 2, H = 1 and a radius of 1: pb is −2, and so is pu. The ported dogleg stands still,
    /// the textbook's goes −1. It is the ported one where none is named.
    #[test]
    fn two_doglegs() {
        let stands = "proposed 0\nstep 8000000000000000\n";
        let moves = "proposed 0\nstep bff0000000000000\n";
        for kind in [3, 4] {
            for (further, said) in [
                (&[0][..], stands),
                (&[1, 7], stands),
                (&[2, 7, 1], stands),
                (&[2, 7, 2], moves),
            ] {
                let mut input = head_with(kind, further);
                input[2] = 2;
                input.extend([1, 1]);
                let lines = lines_of(&bytes(&input));
                assert!(lines.starts_with(&format!("start\n{said}")), "{lines}");
            }
        }
    }

    /// Words that make no start of kinds 3 and 4; and starts that are refused.
    #[test]
    fn bad_further_settings() {
        for kind in [3, 4] {
            for further in [&[1, 1000][..], &[2, 1000, 1], &[2, 1000, 2]] {
                let good = bytes(&head_with(kind, further));
                for length in 0..good.len() {
                    assert_eq!(lines_of(&good[..length]), "bad input\n");
                }
                assert!(lines_of(&good).starts_with("start\nend ready\n"));
            }
            // The third one is the edition, which kind 3 has not.
            let most = [
                3,
                4,
                1 << 32,
                (1 << 32) + 1,
                (1 << 32) + 2,
                (1 << 32) + 3,
                u64::MAX,
            ];
            for many in &most[if kind == 3 { 0 } else { 1 }..] {
                let input = head_with(kind, &[*many, 1, 1, 1, 1]);
                assert_eq!(lines_of(&bytes(&input)), "bad input\n");
            }
            for allowance in [0, 1001, (1 << 32) + 1, u64::MAX] {
                let input = head_with(kind, &[1, allowance]);
                assert_eq!(lines_of(&bytes(&input)), "refused 2\n");
            }
            // The dogleg is looked at whatever the kernel.
            for kernel in 1..=3 {
                let with = |dogleg| {
                    let mut input = head_with(kind, &[2, 1, dogleg]);
                    input[2] = kernel;
                    lines_of(&bytes(&input))
                };
                for dogleg in [0, 3, (1 << 32) + 1, (1 << 32) + 2, u64::MAX] {
                    assert_eq!(with(dogleg), "refused 2\n");
                }
                for dogleg in [1, 2] {
                    assert!(with(dogleg).starts_with("start\n"));
                }
            }
            // What is bad comes before what is refused: kernel 4 is none.
            let mut input = head_with(kind, &[4, 1, 1, 1, 1]);
            input[2] = 4;
            assert_eq!(lines_of(&bytes(&input)), "bad input\n");
        }
    }

    /// H = 1 at the start, s = −1 and G = 1 make z 0. Edition 1 is the one where none is named.
    #[test]
    fn two_editions() {
        let refused =
            "proposed 0\nstep bff0000000000000\ntrial bff0000000000000\nrefused 8\nend cost";
        let taken = "proposed 0\nstep bff0000000000000\ntrial bff0000000000000\naccepted ";
        for (further, said) in [
            (&[0][..], refused),
            (&[1, 7], refused),
            (&[2, 7, 2], refused),
            (&[3, 7, 2, 1], refused),
            (&[3, 7, 1, 2], taken),
        ] {
            let mut input = head_with(4, further);
            input.extend([1, 1, 2, 1, (-1.5f64).to_bits(), 1f64.to_bits()]);
            let lines = lines_of(&bytes(&input));
            assert!(lines.starts_with(&format!("start\n{said}")), "{lines}");
            if said == taken {
                assert!(lines.ends_with("hessian 3ff0000000000000\ncount 0\n"));
            }
        }
    }

    /// Words of kind 4 that end inside its third further setting, and editions that are none.
    #[test]
    fn bad_editions() {
        let good = bytes(&head_with(4, &[3, 1000, 2, 2]));
        for length in 0..good.len() {
            assert_eq!(lines_of(&good[..length]), "bad input\n");
        }
        assert!(lines_of(&good).starts_with("start\nend ready\n"));
        for kernel in 1..=3 {
            for edition in [0, 3, (1 << 32) + 1, (1 << 32) + 2, u64::MAX] {
                let mut input = head_with(4, &[3, 1, 1, edition]);
                input[2] = kernel;
                assert_eq!(lines_of(&bytes(&input)), "refused 2\n");
            }
        }
    }

    #[test]
    fn bad_inputs() {
        let head = head();
        let good = bytes(&[&head[..], &[1, 1]].concat());
        for length in 0..8 * head.len() {
            assert_eq!(lines_of(&good[..length]), "bad input\n");
        }
        for length in 8 * head.len() + 1..good.len() {
            assert_eq!(lines_of(&good[..length]), "start\nbad input\n");
        }
        for (place, wrong) in [(0, 0), (0, 5), (1, 0), (1, 65)] {
            let mut head = head.clone();
            head[place] = wrong;
            assert_eq!(lines_of(&bytes(&head)), "bad input\n");
        }
        for call in [&[0][..], &[5], &[6, 0], &[4, 0, 0, 3, 0, 0]] {
            let input = [&head[..], call].concat();
            assert_eq!(lines_of(&bytes(&input)), "start\nbad input\n");
        }
        let mut refused = head;
        refused[2] = 4;
        refused.push(9);
        assert_eq!(lines_of(&bytes(&refused)), "refused 2\n");
    }
}
