//! Program `leaves`, answered independently: the calls of the leaf functions, a line for each.

use crate::input::{Reader, LONGEST_LENT, LONGEST_LIST};
use crate::tally::{Tally, ANSWERS};
use crate::vector::{root, Matrix, Vector};
use std::io::{self, Write};

/// Calls are numbered from 1 to this.
pub const OPERATIONS: u64 = 8;

const LARGEST_SIZE: usize = 64;

/// What a call gives: numbers, or a refusal by document 01's number.
enum Answer {
    Is(Vec<f64>),
    Refused(u8),
}

use Answer::{Is, Refused};

/// The table's rows: the calls by their number, from 1 on, and all of them.
const ROWS: [&str; 9] = [
    "root",
    "ratio",
    "dot",
    "norm",
    "weighted dot",
    "product",
    "inverse",
    "row",
    "all",
];

/// Writes the line of each call in `input`, and counts them. Call numbers above `operations` are
/// unknown; bad input is no answer.
pub fn answer(input: &[u8], operations: u64, out: &mut impl Write) -> io::Result<Tally> {
    let mut tally = Tally::new(&ROWS, &ANSWERS);
    let mut reader = Reader(input);
    while !reader.0.is_empty() {
        let number = Reader(reader.0).word();
        let answer = call(&mut reader, operations);
        if let (Some(number), Some(answer)) = (number, &answer) {
            let column = match answer {
                Is(_) => 0,
                Refused(k) => usize::from(*k),
            };
            tally.add(ROWS[number as usize - 1], column, 1);
            tally.add("all", column, 1);
        }
        match answer {
            Some(Is(numbers)) => {
                write!(out, "is")?;
                for x in numbers {
                    write!(out, " {:016x}", one_nan(x))?;
                }
                writeln!(out)?;
            }
            Some(Refused(k)) => writeln!(out, "refused {k}")?,
            None => {
                writeln!(out, "bad input")?;
                break;
            }
        }
    }
    Ok(tally)
}

/// The bits that are printed. Machines make NaN of either sign, so all of them become one.
pub fn one_nan(x: f64) -> u64 {
    if x.is_nan() {
        0x7ff8_0000_0000_0000
    } else {
        x.to_bits()
    }
}

// A size keeps all 64 digits of its word: 2^32 + 1 must not be taken for 1.
const _: () = assert!(usize::BITS == 64);

impl Reader<'_> {
    /// A size, a length or a row number.
    fn whole(&mut self) -> Option<usize> {
        self.word().map(|word| word as usize)
    }

    fn list(&mut self) -> Option<Vec<f64>> {
        let length = self.word().filter(|&length| length <= LONGEST_LIST)?;
        (0..length).map(|_| self.number()).collect()
    }

    /// The length of a lent output or scratch.
    fn lent(&mut self) -> Option<usize> {
        self.whole().filter(|&length| length as u64 <= LONGEST_LENT)
    }
}

/// Reads a call whole and answers it.
fn call(reader: &mut Reader, operations: u64) -> Option<Answer> {
    let number = reader.word().filter(|&number| number <= operations)?;
    Some(match number {
        1 => Is(vec![root(reader.number()?)]),
        2 => {
            let [f, next_f] = [reader.number()?, reader.number()?];
            let [m0, m] = [reader.number()?, reader.number()?];
            Is(vec![(f - next_f) / (m0 - m)])
        }
        3 => {
            let n = reader.whole()?;
            let (a, b) = (reader.list()?, reader.list()?);
            dot(n, a, b)
        }
        4 => {
            let n = reader.whole()?;
            norm(n, reader.list()?)
        }
        5 => {
            let n = reader.whole()?;
            let (a, h, b) = (reader.list()?, reader.list()?, reader.list()?);
            weighted_dot(n, a, h, b)
        }
        6 => {
            let n = reader.whole()?;
            let (h, d) = (reader.list()?, reader.list()?);
            product(n, h, d, reader.lent()?)
        }
        7 => {
            let n = reader.whole()?;
            let h = reader.list()?;
            let (output, scratch) = (reader.lent()?, reader.lent()?);
            inverse(n, h, output, scratch)
        }
        8 => {
            let n = reader.whole()?;
            let h = reader.list()?;
            row(n, h, reader.whole()?)
        }
        _ => return None,
    })
}

/// Whether n is 1 to 64 and the lengths of these vectors and matrices fit it. n is tested first: no
/// product of a huge one is taken.
fn fits(n: usize, vectors: &[usize], matrices: &[usize]) -> bool {
    (1..=LARGEST_SIZE).contains(&n)
        && vectors.iter().all(|&length| length == n)
        && matrices.iter().all(|&length| length == n * n)
}

fn dot(n: usize, a: Vec<f64>, b: Vec<f64>) -> Answer {
    if !fits(n, &[a.len(), b.len()], &[]) {
        return Refused(1);
    }
    Is(vec![Vector(a).dot(&Vector(b))])
}

fn norm(n: usize, a: Vec<f64>) -> Answer {
    if !fits(n, &[a.len()], &[]) {
        return Refused(1);
    }
    Is(vec![Vector(a).norm()])
}

fn weighted_dot(n: usize, a: Vec<f64>, h: Vec<f64>, b: Vec<f64>) -> Answer {
    if !fits(n, &[a.len(), b.len()], &[h.len()]) {
        return Refused(1);
    }
    let h = Matrix::new(n, h);
    Is(vec![Vector(a).weighted_dot(&h, &Vector(b))])
}

fn product(n: usize, h: Vec<f64>, d: Vec<f64>, output: usize) -> Answer {
    if !fits(n, &[d.len(), output], &[h.len()]) {
        return Refused(1);
    }
    Is(Matrix::new(n, h).times(&Vector(d)).0)
}

fn inverse(n: usize, h: Vec<f64>, output: usize, scratch: usize) -> Answer {
    if !fits(n, &[], &[h.len(), output]) || scratch != 2 * n * n + 8 * n {
        return Refused(1);
    }
    if !h.iter().all(|x| x.is_finite()) {
        return Refused(4);
    }
    match Matrix::new(n, h).inverse() {
        Some(inverse) => Is(inverse.entries().to_vec()),
        None => Refused(6),
    }
}

/// Row i, or the empty part; a row refuses nothing.
fn row(n: usize, h: Vec<f64>, i: usize) -> Answer {
    if !fits(n, &[], &[h.len()]) || i >= n {
        return Is(Vec::new());
    }
    Is(Matrix::new(n, h).row(i).to_vec())
}

#[cfg(test)]
mod tests {
    use super::*;
    use crate::input::words;

    const ONE: u64 = 0x3ff0_0000_0000_0000;
    const TWO: u64 = 0x4000_0000_0000_0000;

    fn bytes(list: &[u64]) -> Vec<u8> {
        let mut bytes = Vec::new();
        words(&mut bytes, list);
        bytes
    }

    fn lines_of(input: &[u8], operations: u64) -> String {
        let mut out = Vec::new();
        answer(input, operations, &mut out).unwrap();
        String::from_utf8(out).unwrap()
    }

    /// The lines for an input of these words.
    fn lines(list: &[u64]) -> String {
        lines_of(&bytes(list), OPERATIONS)
    }

    #[test]
    fn nothing_for_empty_input() {
        assert_eq!(lines(&[]), "");
    }

    #[test]
    fn root_lines() {
        assert_eq!(lines(&[1, 0x3fef_ffff_ffff_ffff]), "is 3fefffffffffffff\n");
        assert_eq!(lines(&[1, 1 << 63]), "is 8000000000000000\n");
        assert_eq!(lines(&[1, ONE | 1 << 63]), "is 7ff8000000000000\n");
        assert_eq!(lines(&[1, 0xfff0_0000_0000_0001]), "is 7ff8000000000000\n");
    }

    #[test]
    fn ratio_lines() {
        // f 10, F 9.5, m0 10, m 6: document 01's case 10.
        let words = [2, 10f64.to_bits(), 9.5f64.to_bits(), 10f64.to_bits()];
        let words = [&words[..], &[6f64.to_bits()]].concat();
        assert_eq!(lines(&words), "is 3fc0000000000000\n");
        assert_eq!(lines(&[2, 0, 0, 0, 0]), "is 7ff8000000000000\n");
    }

    #[test]
    fn vector_lines() {
        let minus_zero = 1 << 63;
        let dot = [3, 1, 1, minus_zero, 1, ONE];
        assert_eq!(lines(&dot), "is 0000000000000000\n");
        let norm = [4, 1, 1, TWO | 1 << 63];
        assert_eq!(lines(&norm), "is 4000000000000000\n");
        let weighted = [5, 1, 1, TWO, 1, ONE, 1, ONE];
        assert_eq!(lines(&weighted), "is 4000000000000000\n");
        let product = [6, 1, 1, TWO, 1, ONE, 1];
        assert_eq!(lines(&product), "is 4000000000000000\n");
    }

    #[test]
    fn inverse_lines() {
        let exchange = [7, 2, 4, 0, ONE, ONE, 0, 4, 24];
        assert_eq!(
            lines(&exchange),
            "is 0000000000000000 3ff0000000000000 3ff0000000000000 0000000000000000\n"
        );
        let singular = [7, 2, 4, ONE, ONE, TWO, TWO, 4, 24];
        assert_eq!(lines(&singular), "refused 6\n");
        // The least subnormal number has an inverse beyond all finite ones.
        assert_eq!(lines(&[7, 1, 1, 1, 1, 10]), "is 7ff0000000000000\n");
        assert_eq!(lines(&[7, 1, 1, 0x7ff << 52, 1, 10]), "refused 4\n");
    }

    #[test]
    fn wrong_lengths_come_before_wrong_entries() {
        let infinite = 0x7ff << 52;
        assert_eq!(lines(&[7, 1, 1, infinite, 2, 10]), "refused 1\n");
        assert_eq!(lines(&[7, 1, 1, infinite, 1, 9]), "refused 1\n");
        assert_eq!(lines(&[7, 2, 1, infinite, 1, 10]), "refused 1\n");
    }

    #[test]
    fn wrong_sizes_are_refused() {
        for n in [0, 2, 65, (1 << 32) + 1, u64::MAX] {
            assert_eq!(lines(&[3, n, 1, ONE, 1, ONE]), "refused 1\n");
            assert_eq!(lines(&[4, n, 1, ONE]), "refused 1\n");
            assert_eq!(lines(&[5, n, 1, ONE, 1, ONE, 1, ONE]), "refused 1\n");
            assert_eq!(lines(&[6, n, 1, ONE, 1, ONE, 1]), "refused 1\n");
            assert_eq!(lines(&[7, n, 1, ONE, 1, 10]), "refused 1\n");
            assert_eq!(lines(&[8, n, 1, ONE, 0]), "is\n");
        }
        // 2·n·n + 8·n and n·n are zero modulo 2^64 here.
        assert_eq!(lines(&[7, 1 << 61, 0, 0, 0]), "refused 1\n");
        assert_eq!(lines(&[6, 1, 1, ONE, 1, ONE, 0]), "refused 1\n");
    }

    #[test]
    fn row_lines() {
        let h = [8, 2, 4, 0, 1, 2, 0xffff_ffff_ffff_ffff];
        let row = |i| lines(&[&h[..], &[i]].concat());
        assert_eq!(row(0), "is 0000000000000000 0000000000000001\n");
        assert_eq!(row(1), "is 0000000000000002 7ff8000000000000\n");
        assert_eq!(row(2), "is\n");
        assert_eq!(row(1 << 63), "is\n");
    }

    #[test]
    fn every_cut_is_bad_input() {
        let calls: [&[u64]; 8] = [
            &[1, ONE],
            &[2, ONE, TWO, 0, ONE],
            &[3, 1, 1, ONE, 1, ONE],
            &[4, 1, 1, ONE],
            &[5, 1, 1, ONE, 1, ONE, 1, ONE],
            &[6, 1, 1, ONE, 1, ONE, 1],
            &[7, 1, 1, ONE, 1, 10],
            &[8, 1, 1, ONE, 0],
        ];
        let first = "is 3ff0000000000000\n";
        for call in calls {
            let whole = [bytes(&[1, ONE]), bytes(call)].concat();
            assert!(!lines_of(&whole, OPERATIONS).contains("bad"));
            for cut in 17..whole.len() {
                let lines = lines_of(&whole[..cut], OPERATIONS);
                assert_eq!(lines, format!("{first}bad input\n"));
            }
        }
    }

    #[test]
    fn nothing_follows_bad_input() {
        for number in [0, 9, (1 << 32) + 1, u64::MAX] {
            let lines = lines(&[1, ONE, number, 1, ONE]);
            assert_eq!(lines, "is 3ff0000000000000\nbad input\n");
        }
    }

    #[test]
    fn lengths_at_their_limits() {
        let mut longest = vec![4, 1, LONGEST_LIST];
        longest.extend([ONE; LONGEST_LIST as usize]);
        assert_eq!(lines(&longest), "refused 1\n");
        longest[2] += 1;
        longest.push(ONE);
        assert_eq!(lines(&longest), "bad input\n");
        assert_eq!(lines(&[4, 1, u64::MAX]), "bad input\n");
        let lent = |length| lines(&[6, 1, 1, ONE, 1, ONE, length]);
        assert_eq!(lent(LONGEST_LENT), "refused 1\n");
        assert_eq!(lent(LONGEST_LENT + 1), "bad input\n");
        let scratch = |length| lines(&[7, 1, 1, ONE, 1, length]);
        assert_eq!(scratch(LONGEST_LENT), "refused 1\n");
        assert_eq!(scratch(LONGEST_LENT + 1), "bad input\n");
    }

    #[test]
    fn fewer_operations() {
        let words = bytes(&[1, ONE, 4, 1, 1, ONE]);
        assert_eq!(lines_of(&words, 1), "is 3ff0000000000000\nbad input\n");
        assert_eq!(lines_of(&words, 4), "is 3ff0000000000000\n".repeat(2));
    }
}
