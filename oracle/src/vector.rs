//! The team's vector type: the arithmetic of document 01 and nothing else. Every operation rounds
//! once and nothing is fused, which is what rustc makes of plain `+ - * /` on f64.

/// A vector of n numbers.
#[derive(Clone, Debug, PartialEq)]
pub struct Vector(pub Vec<f64>);

impl Vector {
    pub fn dot(&self, other: &Vector) -> f64 {
        dot(&self.0, &other.0)
    }

    pub fn norm(&self) -> f64 {
        root(self.dot(self))
    }

    /// self · (H · other)
    pub fn weighted_dot(&self, h: &Matrix, other: &Vector) -> f64 {
        self.dot(&h.times(other))
    }
}

/// A square matrix, by rows.
#[derive(Clone, Debug, PartialEq)]
pub struct Matrix {
    size: usize,
    entries: Vec<f64>,
}

impl Matrix {
    pub fn new(size: usize, entries: Vec<f64>) -> Matrix {
        assert_eq!(entries.len(), size * size, "a matrix has n rows of n");
        Matrix { size, entries }
    }

    pub fn size(&self) -> usize {
        self.size
    }

    pub fn entries(&self) -> &[f64] {
        &self.entries
    }

    pub fn row(&self, i: usize) -> &[f64] {
        &self.entries[i * self.size..(i + 1) * self.size]
    }

    /// H · d, the dot of each row with d.
    pub fn times(&self, d: &Vector) -> Vector {
        Vector((0..self.size).map(|i| dot(self.row(i), &d.0)).collect())
    }

    /// Gauss-Jordan on [H | I]; nothing if a pivot's magnitude is at most 2^-40 times the largest
    /// magnitude of H, a product that rounds once (document 02, request Two).
    pub fn inverse(&self) -> Option<Matrix> {
        self.inverse_above(self.pivot_bound())
    }

    /// 2^-40 times the largest magnitude.
    pub fn pivot_bound(&self) -> f64 {
        PIVOT_SHARE * largest(&self.entries)
    }

    /// The same with this bound: with 0, nothing if a pivot is zero, which was the rule before.
    pub fn inverse_above(&self, bound: f64) -> Option<Matrix> {
        // A NaN is not at most anything.
        self.inverse_unless(|pivot, _, _| pivot.abs() <= bound)
    }

    /// The same by this test of a pivot, the rows under way and the column.
    pub fn inverse_unless(
        &self,
        refused: impl Fn(f64, &[Vec<f64>], usize) -> bool,
    ) -> Option<Matrix> {
        let n = self.size;
        let mut rows: Vec<Vec<f64>> = (0..n)
            .map(|i| {
                let mut row = self.row(i).to_vec();
                row.extend((0..n).map(|k| if k == i { 1.0 } else { 0.0 }));
                row
            })
            .collect();
        for j in 0..n {
            // Strictly larger: of equal magnitudes the upper row stays, and a NaN never moves it.
            let mut pivot_row = j;
            for i in j + 1..n {
                if rows[i][j].abs() > rows[pivot_row][j].abs() {
                    pivot_row = i;
                }
            }
            rows.swap(j, pivot_row);
            let pivot = rows[j][j];
            if refused(pivot, &rows, j) {
                return None;
            }
            for entry in &mut rows[j] {
                *entry /= pivot;
            }
            let taken = rows[j].clone();
            for (i, row) in rows.iter_mut().enumerate() {
                if i == j {
                    continue;
                }
                // Read beforehand, since the loop below changes it. A zero is not skipped: zero
                // times an infinity is a NaN.
                let factor = row[j];
                for (entry, t) in row.iter_mut().zip(&taken) {
                    *entry -= factor * t;
                }
            }
        }
        let entries = rows.iter().flat_map(|row| &row[n..]).copied().collect();
        Some(Matrix::new(n, entries))
    }
}

/// 2^-40.
pub const PIVOT_SHARE: f64 = 1.0 / (1u64 << 40) as f64;

/// The largest magnitude; a NaN if one is there.
pub fn largest(list: &[f64]) -> f64 {
    let mut top = 0.0;
    for x in list {
        if x.is_nan() {
            return f64::NAN;
        }
        if x.abs() > top {
            top = x.abs();
        }
    }
    top
}

/// The hardware's square root: IEEE 754 wants it correctly rounded.
pub fn root(x: f64) -> f64 {
    x.sqrt()
}

/// Written out, because `Iterator::sum` begins at −0 where document 01 begins at +0.
fn dot(a: &[f64], b: &[f64]) -> f64 {
    assert_eq!(a.len(), b.len(), "a dot takes vectors of one length");
    let mut sum = 0.0;
    for (x, y) in a.iter().zip(b) {
        sum += x * y;
    }
    sum
}

#[cfg(test)]
mod tests {
    use super::*;
    use crate::random::Random;

    /// Document 01's relation over whole numbers, for positive finite x: with r = M·2^e and
    /// x = X·2^(2e), (2M − 1)² < 4X < (2M + 1)², and (4M − 1)² < 16X where M = 2^52.
    fn is_nearest_root(x: f64, r: f64) -> bool {
        let (m, e) = digits(r);
        let (x_digits, x_exponent) = digits(x);
        // X·16, whole because x has 53 digits here and X at least 105.
        let x16 = u128::from(x_digits) << (x_exponent - 2 * e + 4);
        let m = u128::from(m);
        let square = |k: u128| k * k;
        4 * square(2 * m - 1) < x16
            && x16 < 4 * square(2 * m + 1)
            && (m != 1 << 52 || square(4 * m - 1) < x16)
    }

    /// The value as M·2^e with M from 2^52 to 2^53 − 1, subnormal numbers too.
    fn digits(x: f64) -> (u64, i32) {
        assert!(x > 0.0 && x.is_finite());
        let mut exponent = (x.to_bits() >> 52) as i32;
        let mut m = x.to_bits() % (1 << 52);
        if exponent == 0 {
            exponent = 1;
        } else {
            m += 1 << 52;
        }
        while m < 1 << 52 {
            m *= 2;
            exponent -= 1;
        }
        (m, exponent - 1075)
    }

    #[test]
    fn roots_meet_the_relation() {
        let mut random = Random::new(5);
        for x in crate::roots::values(100_000, 5) {
            let x = f64::from_bits(x);
            if x > 0.0 && x.is_finite() {
                let r = root(x);
                assert!(is_nearest_root(x, r), "{:016x}", x.to_bits());
                // The relation fits one number only: a neighbour must not pass.
                let beside = r.to_bits() - 1 + 2 * random.below(2);
                assert!(!is_nearest_root(x, f64::from_bits(beside)));
            }
        }
    }

    #[test]
    fn root_just_below_one() {
        let below_one = f64::from_bits(0x3fef_ffff_ffff_ffff);
        assert_eq!(root(below_one), below_one);
    }

    #[test]
    fn root_of_what_is_not_positive() {
        assert_eq!(root(-0.0).to_bits(), (-0.0f64).to_bits());
        assert_eq!(root(f64::INFINITY), f64::INFINITY);
        assert!(root(-1.0).is_nan());
        assert!(root(f64::NAN).is_nan());
    }

    #[test]
    fn dot_starts_at_plus_zero() {
        let minus_zero = Vector(vec![-0.0]).dot(&Vector(vec![1.0]));
        assert_eq!(minus_zero.to_bits(), 0);
    }

    #[test]
    fn dot_adds_from_the_front() {
        // From the front 1 is lost beside 2^53; from the back both ones would count.
        let a = Vector(vec![9007199254740992.0, 1.0, 1.0]);
        let ones = Vector(vec![1.0; 3]);
        assert_eq!(a.dot(&ones), 9007199254740992.0);
    }

    #[test]
    fn dot_is_not_fused() {
        // x·x is 1 + 2^-29 + 2^-60; rounded first, its last digit is gone.
        let x = 1.0 + 2f64.powi(-30);
        let a = Vector(vec![-(1.0 + 2f64.powi(-29)), x]);
        assert_eq!(a.dot(&Vector(vec![1.0, x])), 0.0);
    }

    #[test]
    fn norm_of_three_and_four() {
        assert_eq!(Vector(vec![3.0, 4.0]).norm(), 5.0);
    }

    #[test]
    fn product_and_weighted_dot() {
        let h = Matrix::new(2, vec![1.0, 2.0, 3.0, 4.0]);
        let d = Vector(vec![5.0, 6.0]);
        assert_eq!(h.times(&d), Vector(vec![17.0, 39.0]));
        assert_eq!(Vector(vec![1.0, -1.0]).weighted_dot(&h, &d), -22.0);
    }

    #[test]
    fn inverse_of_an_exchange() {
        let h = Matrix::new(2, vec![0.0, 1.0, 1.0, 0.0]);
        assert_eq!(h.inverse(), Some(h));
    }

    #[test]
    fn inverse_by_hand() {
        // Pivot 4 is taken from below; every step is exact.
        let h = Matrix::new(2, vec![2.0, 1.0, 4.0, 4.0]);
        let inverse = Matrix::new(2, vec![1.0, -0.25, -1.0, 0.5]);
        assert_eq!(h.inverse(), Some(inverse));
    }

    #[test]
    fn inverse_rounds_step_by_step() {
        // A tie, so the upper row stays. Its exchange, or 1/3 taken times 5, would round elsewhere.
        let h = Matrix::new(2, vec![3.0, 5.0, -3.0, 0.1]);
        let upper = [5.0 / 3.0, 1.0 / 3.0, 0.0 / 3.0];
        let pivot = 0.1 - -3.0 * upper[0];
        let low = [
            (0.0 - -3.0 * upper[1]) / pivot,
            (1.0 - -3.0 * upper[2]) / pivot,
        ];
        let high = [upper[1] - upper[0] * low[0], upper[2] - upper[0] * low[1]];
        let expected = Matrix::new(2, [high, low].concat());
        assert_eq!(h.inverse(), Some(expected));
    }

    #[test]
    fn singular_has_no_inverse() {
        let h = Matrix::new(2, vec![1.0, 2.0, 2.0, 4.0]);
        assert_eq!(h.inverse(), None);
        assert_eq!(Matrix::new(1, vec![-0.0]).inverse(), None);
    }

    #[test]
    fn a_pivot_at_the_bound_is_none() {
        let share = 2f64.powi(-40);
        assert_eq!(PIVOT_SHARE.to_bits(), share.to_bits());
        let diagonal = |a: f64, b: f64| Matrix::new(2, vec![a, 0.0, 0.0, b]);
        for sign in [1.0, -1.0] {
            assert_eq!(diagonal(-1.0, sign * share).inverse(), None);
            assert_eq!(diagonal(1.0, sign * share.next_down()).inverse(), None);
            assert!(diagonal(1.0, sign * share.next_up()).inverse().is_some());
            // In the first column, the largest in another row and column.
            let h = Matrix::new(2, vec![0.0, 8.0, sign * 8.0 * share, 0.0]);
            assert_eq!(h.inverse(), None);
        }
        // The rule before took them.
        assert!(diagonal(1.0, share).inverse_above(0.0).is_some());
    }

    #[test]
    fn a_pivot_that_is_a_nan_goes_on() {
        let h = Matrix::new(3, crate::cases::OVERFLOWING.to_vec());
        let seen = std::cell::RefCell::new(Vec::new());
        let bound = h.pivot_bound();
        let inverse = h.inverse_unless(|pivot, _, _| {
            seen.borrow_mut().push(pivot);
            pivot.abs() <= bound
        });
        assert_eq!(seen.borrow()[..2], [1e297, f64::NEG_INFINITY]);
        assert!(seen.borrow()[2].is_nan());
        assert!(inverse.is_some() && h.inverse().is_some());
    }

    #[test]
    fn a_bound_may_round() {
        // 2^-40 times 2^-1034 is the least number above zero; times 2^-1035 it is a tie, and rounds to 0.
        let least = f64::from_bits(1);
        let h = |top: f64, x: f64| Matrix::new(2, vec![x, 0.0, 0.0, top]);
        let top = 2f64.powi(-1034);
        assert_eq!(h(top, least).inverse(), None);
        assert!(h(0.5 * top, least).inverse().is_some());
        assert_eq!(h(0.5 * top, 0.0).inverse(), None);
        // Rounded up to twice the least: 2^-40 times 1.5·2^-1034.
        assert_eq!(h(1.5 * top, 2.0 * least).inverse(), None);
    }
}
