//! Program `step` but for its kernels: what an input means, which refusals come before a kernel and
//! after it, and the lines of an answer. All of it rests on document 01 alone.

use crate::tally::{Tally, ANSWERS};
use crate::vector::{Matrix, Vector};
use std::io::{self, Write};

pub const LARGEST_SIZE: u64 = 64;
pub const LARGEST_LIMIT: u64 = 10_000;

/// Kernel, n, radius, epsilon, limit: the words before the numbers.
pub const HEAD: usize = 5;

#[derive(Clone, Copy, Debug, PartialEq, Eq, PartialOrd, Ord)]
pub enum Kernel {
    Cauchy,
    Dogleg,
    Steihaug,
    /// The second dogleg. Program `step` has it not; a session chooses it by a setting.
    Textbook,
}

/// A call of a kernel that refusals 1 to 4 let pass.
#[derive(Clone, Debug)]
pub struct Call {
    pub kernel: Kernel,
    pub radius: f64,
    pub epsilon: f64,
    pub limit: u64,
    pub gradient: Vector,
    pub hessian: Matrix,
}

/// What program `step` answers.
#[derive(Clone, Debug, PartialEq)]
pub enum Answer {
    Step { step: Vec<f64>, passes: u64 },
    Refused(u8),
}

/// Answers an input, with this way to work out a kernel's step and its passes.
pub fn answer(input: &[u8], solve: impl Fn(&Call) -> Result<(Vector, u64), u8>) -> Answer {
    let solved = read(input).and_then(|call| solve(&call));
    match solved {
        Ok((step, passes)) if step.is_finite() => Answer::Step {
            step: step.0,
            passes,
        },
        Ok(_) => Answer::Refused(8),
        Err(number) => Answer::Refused(number),
    }
}

impl Vector {
    /// Its norm too, which may overflow where the numbers do not.
    fn is_finite(&self) -> bool {
        self.0.iter().all(|x| x.is_finite()) && self.norm().is_finite()
    }
}

/// The call that an input asks for, or a refusal by document 01's number.
pub fn read(input: &[u8]) -> Result<Call, u8> {
    let words: Vec<u64> = input
        .chunks_exact(8)
        .map(|chunk| u64::from_le_bytes(chunk.try_into().expect("chunks are of 8 bytes")))
        .collect();
    // n is looked at before anything is made of it: no product of a huge one is taken.
    let &n = words.get(1).ok_or(1)?;
    if !(1..=LARGEST_SIZE).contains(&n) {
        return Err(1);
    }
    let n = n as usize;
    if input.len() != 8 * (HEAD + n + n * n) {
        return Err(1);
    }
    let kernel = match words[0] {
        1 => Kernel::Cauchy,
        2 => Kernel::Dogleg,
        3 => Kernel::Steihaug,
        _ => return Err(2),
    };
    let [radius, epsilon] = [words[2], words[3]].map(f64::from_bits);
    let limit = words[4];
    let above_zero = |x: f64| x.is_finite() && x > 0.0;
    if !above_zero(radius) {
        return Err(2);
    }
    if kernel == Kernel::Steihaug && !(above_zero(epsilon) && limit <= LARGEST_LIMIT) {
        return Err(2);
    }
    let mut numbers: Vec<f64> = words[HEAD..].iter().copied().map(f64::from_bits).collect();
    if !numbers.iter().all(|x| x.is_finite()) {
        return Err(4);
    }
    let hessian = Matrix::new(n, numbers.split_off(n));
    Ok(Call {
        kernel,
        radius,
        epsilon,
        limit,
        gradient: Vector(numbers),
        hessian,
    })
}

impl Answer {
    /// The lines of the answer. A step is finite, so no NaN is written.
    pub fn write(&self, out: &mut impl Write) -> io::Result<()> {
        match self {
            Answer::Step { step, passes } => {
                writeln!(out, "step {} {passes}", step.len())?;
                for x in step {
                    writeln!(out, "{:016x}", x.to_bits())?;
                }
                Ok(())
            }
            Answer::Refused(number) => writeln!(out, "refused {number}"),
        }
    }

    /// Equal as lines are: by bits, so that −0 is not +0.
    pub fn same(&self, other: &Answer) -> bool {
        let lines = |answer: &Answer| {
            let mut lines = Vec::new();
            answer
                .write(&mut lines)
                .expect("writing to memory never fails");
            lines
        };
        lines(self) == lines(other)
    }
}

/// How often each kernel gave each answer.
pub fn tally() -> Tally {
    Tally::new(
        &["Cauchy", "Dogleg", "Steihaug", "another kernel", "all"],
        &ANSWERS,
    )
}

/// Counts the answer to an input.
pub fn count(tally: &mut Tally, input: &[u8], answer: &Answer) {
    let row = match input.first_chunk().map(|word| u64::from_le_bytes(*word)) {
        Some(1) => "Cauchy",
        Some(2) => "Dogleg",
        Some(3) => "Steihaug",
        _ => "another kernel",
    };
    let column = match answer {
        Answer::Step { .. } => 0,
        Answer::Refused(number) => usize::from(*number),
    };
    tally.add(row, column, 1);
    tally.add("all", column, 1);
}

/// Answers a batch: for each case a word with its length in bytes, and its bytes. Nothing follows a
/// case that runs past the end.
pub fn batch(
    input: &[u8],
    answer: impl Fn(&[u8]) -> Answer,
    out: &mut impl Write,
) -> io::Result<()> {
    let mut rest = input;
    while !rest.is_empty() {
        let Some((case, after)) = split_case(rest) else {
            return writeln!(out, "bad input");
        };
        answer(case).write(out)?;
        rest = after;
    }
    Ok(())
}

/// The first case and what follows it; nothing where the input ends before it does.
pub fn split_case(input: &[u8]) -> Option<(&[u8], &[u8])> {
    let (length, rest) = input.split_first_chunk()?;
    let length = usize::try_from(u64::from_le_bytes(*length)).ok()?;
    rest.split_at_checked(length)
}

#[cfg(test)]
mod tests {
    use super::*;
    use crate::formulas;
    use crate::input::words;

    const NAN: u64 = 0x7ff8_0000_0000_0000;
    const INFINITY: u64 = 0x7ff0_0000_0000_0000;
    const TWO: u64 = 0x4000_0000_0000_0000;

    fn bytes(list: &[u64]) -> Vec<u8> {
        let mut bytes = Vec::new();
        words(&mut bytes, list);
        bytes
    }

    fn lines_of(input: &[u8]) -> String {
        let mut out = Vec::new();
        answer(input, formulas::solve).write(&mut out).unwrap();
        String::from_utf8(out).unwrap()
    }

    fn lines(list: &[u64]) -> String {
        lines_of(&bytes(list))
    }

    /// Kernel, radius, epsilon and limit as given, g = (2), H = (2).
    fn small(kernel: u64, radius: u64, epsilon: u64, limit: u64) -> Vec<u64> {
        vec![kernel, 1, radius, epsilon, limit, TWO, TWO]
    }

    #[test]
    fn marked_case_two() {
        let numbers = [3.0, 4.0, 1.0, 0.0, 0.0, 1.0].map(f64::to_bits);
        let input = [&[1, 2, 2.5f64.to_bits(), 0, 0], &numbers[..]].concat();
        assert_eq!(
            lines(&input),
            "step 2 0\nbff8000000000000\nc000000000000000\n"
        );
    }

    #[test]
    fn lengths_come_first() {
        assert_eq!(lines(&[]), "refused 1\n");
        assert_eq!(lines(&[9]), "refused 1\n");
        assert_eq!(lines(&[9, 1]), "refused 1\n");
        let good = small(9, NAN, NAN, 0);
        assert_eq!(lines(&good), "refused 2\n");
        for n in [0, 2, 65, (1 << 32) + 1, u64::MAX] {
            let mut wrong = good.clone();
            wrong[1] = n;
            assert_eq!(lines(&wrong), "refused 1\n");
        }
        let good = bytes(&good);
        for length in 0..good.len() {
            assert_eq!(lines_of(&good[..length]), "refused 1\n");
        }
        for more in 1..17 {
            let long = [&good[..], &vec![0; more]].concat();
            assert_eq!(lines_of(&long), "refused 1\n");
        }
    }

    #[test]
    fn settings_come_before_entries() {
        let minus_zero = 1 << 63;
        let wrong = [0, minus_zero, NAN, INFINITY, TWO | minus_zero];
        let with_nan = |mut list: Vec<u64>| {
            list[5] = NAN;
            lines(&list)
        };
        for x in wrong {
            for kernel in 1..=3 {
                assert_eq!(with_nan(small(kernel, x, TWO, 1)), "refused 2\n");
            }
            assert_eq!(with_nan(small(3, TWO, x, 1)), "refused 2\n");
            // Epsilon and limit are Steihaug's alone.
            assert_eq!(with_nan(small(1, TWO, x, u64::MAX)), "refused 4\n");
            assert_eq!(with_nan(small(2, TWO, x, u64::MAX)), "refused 4\n");
        }
        for kernel in [0, 4, (1 << 32) + 1, u64::MAX] {
            assert_eq!(with_nan(small(kernel, TWO, TWO, 1)), "refused 2\n");
        }
        assert_eq!(with_nan(small(3, TWO, TWO, 10_001)), "refused 2\n");
        assert_eq!(with_nan(small(3, TWO, TWO, 10_000)), "refused 4\n");
        let mut list = small(2, TWO, TWO, 1);
        list[6] = INFINITY;
        assert_eq!(lines(&list), "refused 4\n");
    }

    #[test]
    fn a_norm_that_overflows_is_refused() {
        // H⁻¹·g is 2^600, and its square is not finite: ‖pb‖ is not at most the radius, and the
        // root's terms are not finite either.
        let g = f64::from_bits((1023 + 600) << 52);
        let input = [2, 1, TWO, 0, 0, g.to_bits(), 1f64.to_bits()];
        assert_eq!(lines(&input), "refused 8\n");
    }

    #[test]
    fn counts() {
        let mut tally = tally();
        let step = Answer::Step {
            step: vec![],
            passes: 0,
        };
        count(&mut tally, &2u64.to_le_bytes(), &step);
        count(&mut tally, &2u64.to_le_bytes(), &Answer::Refused(6));
        count(&mut tally, &[], &Answer::Refused(1));
        let counted = |row: &str| [0, 1, 6].map(|column| tally.get(row, column));
        assert_eq!(counted("Dogleg"), [1, 0, 1]);
        assert_eq!(counted("another kernel"), [0, 1, 0]);
        assert_eq!(counted("all"), [1, 1, 1]);
    }

    #[test]
    fn batches() {
        let batch_of = |input: &[u8]| {
            let mut out = Vec::new();
            batch(input, |case| answer(case, formulas::solve), &mut out).unwrap();
            String::from_utf8(out).unwrap()
        };
        assert_eq!(batch_of(&[]), "");
        let case = bytes(&small(2, TWO, 0, 0));
        let one = "step 1 0\nbff0000000000000\n";
        let mut input = [bytes(&[case.len() as u64]), case].concat();
        assert_eq!(batch_of(&input), one);
        input.extend(bytes(&[0]));
        assert_eq!(batch_of(&input), format!("{one}refused 1\n"));
        for cut in 65..input.len() - 1 {
            assert_eq!(batch_of(&input[..cut]), format!("{one}bad input\n"));
        }
        for length in [1, 1 << 32, 1 << 61, 1 << 63, u64::MAX] {
            let end = input.len() - 8;
            input.truncate(end);
            input.extend(bytes(&[length]));
            assert_eq!(batch_of(&input), format!("{one}bad input\n"));
        }
    }
}
