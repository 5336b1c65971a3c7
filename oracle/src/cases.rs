//! Batches of inputs for program `step`. First marked cases, the same for every seed; then random
//! ones, each of a kind chosen at random, damaged ones among them.

use crate::input::words;
use crate::random::{power_of_two, subnormal, with_exponent, Random, NANS};
use crate::step::HEAD;
use crate::vector::{root, Matrix, Vector, PIVOT_SHARE};

const MINUS: u64 = 1 << 63;
const INFINITY: u64 = 0x7ff0_0000_0000_0000;

/// The default, and the limit of document 01's marked cases.
const EPSILON: f64 = 1e-9;
const LIMIT: u64 = 5;

/// A batch of `count` cases: for each a word with its length in bytes, and its bytes.
pub fn input(count: u64, seed: u64) -> Vec<u8> {
    let mut bytes = Vec::new();
    for case in Cases::new(seed).take(count as usize) {
        words(&mut bytes, &[case.len() as u64]);
        bytes.extend(case);
    }
    bytes
}

/// The cases of one seed, without end.
pub struct Cases {
    marked: std::vec::IntoIter<Vec<u8>>,
    random: Random,
}

impl Cases {
    pub fn new(seed: u64) -> Cases {
        Cases {
            marked: marked().into_iter(),
            random: Random::new(seed),
        }
    }
}

impl Iterator for Cases {
    type Item = Vec<u8>;

    fn next(&mut self) -> Option<Vec<u8>> {
        let case = self.marked.next();
        Some(case.unwrap_or_else(|| any(&mut self.random)))
    }
}

/// A case whose lengths fit.
#[derive(Clone)]
struct Case {
    kernel: u64,
    radius: f64,
    epsilon: f64,
    limit: u64,
    g: Vec<f64>,
    h: Vec<f64>,
}

const CAUCHY: u64 = 1;
const DOGLEG: u64 = 2;
const STEIHAUG: u64 = 3;
const KERNELS: [u64; 3] = [CAUCHY, DOGLEG, STEIHAUG];

impl Case {
    fn new(kernel: u64, radius: f64, g: &[f64], h: &[f64]) -> Case {
        assert_eq!(g.len() * g.len(), h.len(), "H has n rows of n");
        Case {
            kernel,
            radius,
            epsilon: EPSILON,
            limit: LIMIT,
            g: g.to_vec(),
            h: h.to_vec(),
        }
    }

    fn limit(mut self, limit: u64) -> Case {
        self.limit = limit;
        self
    }

    fn epsilon(mut self, epsilon: f64) -> Case {
        self.epsilon = epsilon;
        self
    }

    fn words(&self) -> Vec<u64> {
        let mut words = vec![
            self.kernel,
            self.g.len() as u64,
            self.radius.to_bits(),
            self.epsilon.to_bits(),
            self.limit,
        ];
        words.extend(self.g.iter().chain(&self.h).map(|x| x.to_bits()));
        words
    }

    fn bytes(&self) -> Vec<u8> {
        bytes_of(&self.words())
    }
}

fn bytes_of(list: &[u64]) -> Vec<u8> {
    let mut bytes = Vec::new();
    words(&mut bytes, list);
    bytes
}

/// Cases that are there whatever the seed.
fn marked() -> Vec<Vec<u8>> {
    let mut cases = document();
    cases.extend(telling());
    let mut cases: Vec<Vec<u8>> = cases.iter().map(Case::bytes).collect();
    cases.extend(damaged());
    cases
}

/// Document 01's marked cases 1 to 9.
fn document() -> Vec<Case> {
    let g = [3.0, 4.0];
    let identity = [1.0, 0.0, 0.0, 1.0];
    let minus = [-1.0, 0.0, 0.0, -1.0];
    vec![
        Case::new(CAUCHY, 10.0, &g, &identity),
        Case::new(CAUCHY, 2.5, &g, &identity),
        Case::new(CAUCHY, 2.5, &g, &minus),
        Case::new(DOGLEG, 5.0, &g, &identity),
        Case::new(DOGLEG, 1.0, &g, &identity),
        Case::new(STEIHAUG, 10.0, &g, &identity),
        Case::new(STEIHAUG, 2.5, &g, &identity),
        Case::new(STEIHAUG, 2.5, &g, &minus),
        Case::new(STEIHAUG, 2.5, &g, &identity).limit(0),
    ]
}

/// Cases that tell a slip apart where a random case would seldom do so.
fn telling() -> Vec<Case> {
    let g = [3.0, 4.0];
    let zero = [0.0; 4];
    let mut cases = Vec::new();
    for radius in [2.5, 5.0] {
        // d·H·d is 0. Taken for a number above it, alpha is infinite, and 0 times it a NaN.
        cases.push(Case::new(STEIHAUG, radius, &[3.0, 0.0], &zero));
        cases.push(Case::new(STEIHAUG, radius, &g, &zero));
        cases.push(Case::new(CAUCHY, radius, &g, &zero));
    }
    // The model's linear part is lost beside the other: both roots have one model.
    let steep = -power_of_two(60);
    cases.push(Case::new(STEIHAUG, 2.5, &g, &[steep, 0.0, 0.0, steep]));
    // Both models are −infinity; and with a radius whose square is infinite, one is NaN.
    cases.push(Case::new(STEIHAUG, 1e150, &g, &[-1e10, 0.0, 0.0, -1e10]));
    cases.push(Case::new(STEIHAUG, 1e155, &g, &[-1.0, 0.0, 0.0, -1.0]));
    // Two candidates of Dogleg's tau are −0 and then +0, the third is above 2; or one is kept, and
    // it is −0, 1 or 2.
    let (small, large) = (power_of_two(-280), power_of_two(300));
    for (s, times, h) in [
        (small, 1.5, &SMALL_TIE),
        (large, 1.5, &LARGE_TIE),
        (large, 1.0, &LARGE_TIE),
        (large, 1.5, &TWO_TIE),
    ] {
        cases.push(Case::new(DOGLEG, times * s, &[s, 0.0], h));
    }
    // Both roots are at least 0.
    cases.push(turning(539, 40, power_of_two(-538)));
    cases.extend(just_below_one());
    // Exactly on the border.
    let ties = [
        ([3.0, 4.0], [1.0, 0.0, 0.0, 2.0]),
        ([3.0, 4.0], [2.0, 1.0, 1.0, 3.0]),
        ([1.0, 1.0], [1.0, 0.0, 0.0, 3.0]),
    ];
    for (g, h) in ties {
        for kernel in [DOGLEG, STEIHAUG] {
            let base = Case::new(kernel, 1.0, &g, &h);
            for norm in norms(&base) {
                for radius in [norm, norm.next_up(), norm.next_down()] {
                    let radius = if radius > 0.0 { radius } else { 1.0 };
                    cases.push(Case {
                        radius,
                        ..base.clone()
                    });
                }
            }
        }
        let norm = Vector(g.to_vec()).norm();
        let (_, residuals) = conjugate(&Vector(g.to_vec()), &Matrix::new(2, h.to_vec()));
        let end = residuals[0] / norm;
        for epsilon in [norm, norm.next_up(), norm.next_down(), end, end.next_up()] {
            cases.push(Case::new(STEIHAUG, 2.5, &g, &h).epsilon(epsilon));
        }
    }
    cases.extend(pivots());
    // Limits at their end, with something to do in each pass.
    for limit in [0, 1, 2, 3, 10_000] {
        cases.push(Case::new(STEIHAUG, 1e9, &[1.0, 2.0, 3.0], &hilbert(3)).limit(limit));
    }
    cases
}

/// A pivot at the bound of request Two, a number above it and one below it, of both signs: in the first column and in the
/// second, with the largest entry beside it, above it or in another row and column, large and negative; with a bound that is
/// subnormal, that rounds up, down and at a tie, and that rounds to 0; and two markers almost in line.
fn pivots() -> Vec<Case> {
    let mut cases = Vec::new();
    let tiny = power_of_two(-1034);
    for top in [1.0, -3.0, 1e300, 1.5 * tiny, 1.25 * tiny, 0.5 * tiny] {
        let bound = Matrix::new(1, vec![top]).pivot_bound();
        let beside = [
            bound,
            bound.next_up(),
            bound.next_down().max(0.0),
            0.5 * bound,
            2.0 * bound,
        ];
        for x in beside.into_iter().flat_map(|x| [x, -x]) {
            // In the first column: beside the largest entry, or in another row and column than it.
            for h in [
                [x, 0.0, 0.0, top],
                [0.0, top, x, 0.0],
                [x, top, 0.0, 0.5 * top],
            ] {
                cases.push(Case::new(DOGLEG, 1.0, &[top, 0.5 * top], &h));
            }
            // In the second: the pivot's own column has nothing as large.
            let h = [top, 0.0, 0.0, x];
            cases.push(Case::new(DOGLEG, 1.0, &[top, 0.5 * top], &h));
        }
    }
    let line = [0.05, 0.05, 0.05, 0.05f64.next_up()];
    cases.push(Case::new(DOGLEG, 1e18, &[0.02, 0.03], &line));
    cases.push(Case::new(DOGLEG, 1.0, &[3.0, 4.0], &[0.0; 4]));
    cases.push(Case::new(DOGLEG, 1.0, &[1.0; 3], &OVERFLOWING));
    cases
}

/// Its second pivot overflows to −inf on the way and its third is a NaN, which is not at most anything.
pub(crate) const OVERFLOWING: [f64; 9] = [
    1e297, 1e308, 1e308, 1e297, -1e308, 0.0, 1e297, -1e308, 1e308,
];

/// g·g is the number just below 1, whose root is itself and not 1.
fn just_below_one() -> Vec<Case> {
    let below_one = 1f64.next_down();
    let mut cases = Vec::new();
    for i in 1..40u64 {
        let x = i as f64 / 64.0;
        let near = root(below_one - x * x);
        for y in [near.next_down(), near, near.next_up()] {
            let g = [x, y];
            if x * x + y * y == below_one {
                let identity = [1.0, 0.0, 0.0, 1.0];
                cases.push(Case::new(CAUCHY, 0.75, &g, &identity));
                cases.push(Case::new(DOGLEG, below_one, &g, &identity));
                cases.push(Case::new(STEIHAUG, 1.0, &g, &identity));
            }
        }
        if cases.len() >= 9 {
            break;
        }
    }
    cases
}

/// One of everything that can be wrong with an input, for every kernel.
fn damaged() -> Vec<Vec<u8>> {
    let mut all = vec![vec![], vec![0; 7], bytes_of(&[CAUCHY])];
    let h = [2.0, 1.0, 1.0, 3.0];
    for kernel in KERNELS {
        let good = Case::new(kernel, 2.5, &[3.0, 4.0], &h).words();
        for (place, values) in [
            (0, &[0, 4, (1 << 32) + 1, u64::MAX][..]),
            (1, &[0, 1, 3, 64, 65, (1 << 32) + 2, 1 << 63, u64::MAX]),
            (2, &WRONG_NUMBERS),
            (3, &WRONG_NUMBERS),
            (4, &[0, 10_000, 10_001, 1 << 32, u64::MAX]),
            (HEAD, &NOT_FINITE),
            (HEAD + 1, &NOT_FINITE),
            (HEAD + 2, &NOT_FINITE),
            (HEAD + 5, &NOT_FINITE),
        ] {
            for &value in values {
                let mut wrong = good.clone();
                wrong[place] = value;
                all.push(bytes_of(&wrong));
            }
        }
        let good = bytes_of(&good);
        for length in [0, 1, 8, 15, 16, 17, 40, 80, 87] {
            all.push(good[..length].to_vec());
        }
        for more in [1, 7, 8, 16] {
            all.push([&good[..], &vec![0; more]].concat());
        }
    }
    // Each of a pair of wrongs: the lower number is given.
    let mut both = Case::new(STEIHAUG, -1.0, &[f64::NAN, 4.0], &h).words();
    all.push(bytes_of(&both));
    both[1] = 3;
    all.push(bytes_of(&both));
    all
}

/// No settings: zeros, numbers below zero, and those that are not finite.
const WRONG_NUMBERS: [u64; 7] = [
    0,
    MINUS,
    MINUS | 1,
    0xbff0_0000_0000_0000,
    INFINITY,
    MINUS | INFINITY,
    NANS[0],
];

const NOT_FINITE: [u64; 4] = [INFINITY, MINUS | INFINITY, NANS[1], NANS[4]];

/// A Dogleg with this Hessian, and half the time with a gradient of its size, so that the step is a number.
pub(crate) fn dogleg(random: &mut Random, h: &Matrix) -> Vec<u8> {
    let n = h.size();
    let largest = h.pivot_bound() / PIVOT_SHARE;
    let g = if random.once_in(2) || largest == 0.0 {
        gradient(random, n)
    } else {
        let e = largest.log2().floor() as i64;
        let size = |random: &mut Random| random.between(-3, 3) + e;
        (0..n)
            .map(|_| {
                let e = size(random).clamp(-1022, 1023);
                with_exponent(random, e)
            })
            .collect()
    };
    let mut case = Case::new(DOGLEG, 1.0, &g, h.entries());
    settings(random, &mut case);
    case.bytes()
}

/// A random case: one in ten damaged.
pub(crate) fn any(random: &mut Random) -> Vec<u8> {
    let case = match random.below(20) {
        0 => model_tie(random),
        1 => residue(random),
        2 => candidate_tie(random),
        3 => wild(random),
        4 => small_whole(random),
        5 => second_pass(random),
        6 => vanishing(random),
        _ => ordinary(random),
    };
    if random.once_in(10) {
        return damage(random, &case);
    }
    case.bytes()
}

/// Makes one thing wrong, or two.
fn damage(random: &mut Random, case: &Case) -> Vec<u8> {
    let mut list = case.words();
    let n = list[1];
    let word = random.word();
    for _ in 0..random.pick(&[1, 1, 1, 2]) {
        match random.below(8) {
            0 => {
                list[0] = random.pick(&[
                    0,
                    4,
                    5,
                    257,
                    (1 << 32) + 1,
                    (1 << 32) + 3,
                    1 << 63,
                    u64::MAX,
                    word,
                ]);
            }
            1 => {
                list[1] = random.pick(&[
                    0,
                    65,
                    n - 1,
                    n + 1,
                    n | 1 << 8,
                    n | 1 << 32,
                    n | 1 << 63,
                    n.wrapping_neg(),
                    (1 << 32) + 1,
                    u64::MAX,
                ]);
            }
            2 => list[2] = wrong_number(random),
            3 => list[3] = wrong_number(random),
            4 => {
                list[4] = random.pick(&[10_001, 10_002, 1 << 32, 1 << 63, u64::MAX, word]);
            }
            5 | 6 => {
                let place = HEAD + random.below((list.len() - HEAD) as u64) as usize;
                list[place] = if random.once_in(2) {
                    random.pick(&NANS)
                } else {
                    random.pick(&NOT_FINITE)
                };
            }
            _ => {
                let mut bytes = bytes_of(&list);
                let length = bytes.len() as u64;
                let (shorter, short) = (random.below(length), random.below(17));
                let longer = length + random.below(64);
                let other = random.pick(&[
                    length - 1,
                    length - 8,
                    length + 1,
                    length + 8,
                    length + 16,
                    shorter,
                    short,
                    longer,
                ]);
                bytes.resize(other as usize, word as u8);
                return bytes;
            }
        }
    }
    bytes_of(&list)
}

fn wrong_number(random: &mut Random) -> u64 {
    match random.below(4) {
        0 => random.pick(&NANS),
        1 => MINUS | random.word() >> 1,
        _ => random.pick(&WRONG_NUMBERS),
    }
}

fn kernel(random: &mut Random) -> u64 {
    random.pick(&[
        CAUCHY, CAUCHY, DOGLEG, DOGLEG, DOGLEG, STEIHAUG, STEIHAUG, STEIHAUG, STEIHAUG,
    ])
}

/// Mostly small: a case has n·n words, and Dogleg takes n·n·n steps.
fn size(random: &mut Random) -> usize {
    let (low, high) = match random.below(1000) {
        0..900 => (1, 5),
        900..970 => (6, 12),
        970..992 => (13, 32),
        992..998 => (33, 63),
        _ => (64, 64),
    };
    random.between(low, high) as usize
}

/// Any gradient with any Hessian, and settings that often lie on a border.
fn ordinary(random: &mut Random) -> Case {
    let n = size(random);
    let g = gradient(random, n);
    let h = hessian(random, n);
    let mut case = Case::new(kernel(random), 1.0, &g, &h);
    settings(random, &mut case);
    case
}

fn settings(random: &mut Random, case: &mut Case) {
    case.radius = radius(random, case);
    case.epsilon = epsilon(random, case);
    case.limit = limit(random, case.g.len());
}

/// What numbers look like.
#[derive(Clone, Copy)]
pub(crate) enum Kind {
    Whole,
    Ordinary,
    Zero,
    Wide,
    Tiny,
    Huge,
    Subnormal,
}

use Kind::*;

impl Kind {
    pub(crate) fn number(self, random: &mut Random) -> f64 {
        let (low, high) = match self {
            Whole => return whole(random, 4),
            Zero => return random.pick(&[0.0, -0.0]),
            Subnormal => return f64::from_bits(random.pick(&[0, MINUS]) | subnormal(random)),
            Ordinary => (-8, 8),
            Wide => (-1022, 1023),
            // Squares of these are subnormal or zero, or overflow.
            Tiny => (-600, -480),
            Huge => (480, 1023),
        };
        let e = random.between(low, high);
        with_exponent(random, e)
    }
}

pub(crate) fn whole(random: &mut Random, most: i64) -> f64 {
    random.between(-most, most) as f64
}

pub(crate) fn some_kind(random: &mut Random) -> Kind {
    random.pick(&[
        Whole, Whole, Whole, Whole, Whole, Ordinary, Ordinary, Ordinary, Ordinary, Ordinary, Wide,
        Tiny, Huge, Subnormal,
    ])
}

pub(crate) fn gradient(random: &mut Random, n: usize) -> Vec<f64> {
    let mut g: Vec<f64> = match random.below(12) {
        // One number alone, so that 0 meets infinities.
        0 => {
            let mut g = vec![0.0; n];
            let i = random.below(n as u64) as usize;
            g[i] = some_kind(random).number(random);
            g
        }
        1 => vec![some_kind(random).number(random); n],
        2 => (0..n).map(|_| some_kind(random).number(random)).collect(),
        3 if random.once_in(3) => vec![Zero.number(random); n],
        _ => {
            let kind = some_kind(random);
            (0..n).map(|_| kind.number(random)).collect()
        }
    };
    scale(random, &mut g);
    g
}

/// By a power of two, now and then; what would overflow stays as it is.
fn scale(random: &mut Random, numbers: &mut [f64]) {
    if !random.once_in(6) {
        return;
    }
    let by = power_of_two(random.pick(&[-600, -520, -300, -60, 60, 300, 500, 520]));
    for x in numbers {
        if (*x * by).is_finite() {
            *x *= by;
        }
    }
}

pub(crate) fn hessian(random: &mut Random, n: usize) -> Vec<f64> {
    let mut h = match random.below(14) {
        0 => {
            let kind = some_kind(random);
            let other = kind.number(random);
            let x = random.pick(&[1.0, -1.0, 3.0, other]);
            diagonal(n, |_| x)
        }
        // Definite or not, well conditioned or not.
        1 => {
            let kind = some_kind(random);
            diagonal(n, |_| kind.number(random))
        }
        2 => {
            let kind = some_kind(random);
            let sign = random.pick(&[1.0, -1.0]);
            diagonal(n, |_| sign * kind.number(random).abs())
        }
        3 if random.once_in(3) => vec![0.0; n * n],
        4 | 5 => definite(random, n),
        6 => definite(random, n).into_iter().map(|x| -x).collect(),
        7 | 8 => symmetric(random, n),
        9 => low_rank(random, n),
        10 => ill_conditioned(random, n),
        11 => near_identity(random, n),
        _ => {
            let kind = some_kind(random);
            (0..n * n).map(|_| kind.number(random)).collect()
        }
    };
    scale(random, &mut h);
    h
}

pub(crate) fn diagonal(n: usize, mut entry: impl FnMut(usize) -> f64) -> Vec<f64> {
    let mut h = vec![0.0; n * n];
    for i in 0..n {
        h[i * n + i] = entry(i);
    }
    h
}

/// A sum of rank-one matrices a·aᵀ, and a little on the diagonal at times.
fn gram(random: &mut Random, n: usize, rank: usize) -> Vec<f64> {
    let kind = random.pick(&[Whole, Ordinary]);
    let mut h = vec![0.0; n * n];
    for _ in 0..rank {
        let a: Vec<f64> = (0..n).map(|_| kind.number(random)).collect();
        for i in 0..n {
            for j in 0..n {
                h[i * n + j] += a[i] * a[j];
            }
        }
    }
    h
}

pub(crate) fn definite(random: &mut Random, n: usize) -> Vec<f64> {
    let mut h = gram(random, n, n);
    let shift = random.pick(&[0.0, 1.0, 1.0, 16.0, 0.001]);
    for i in 0..n {
        h[i * n + i] += shift;
    }
    h
}

pub(crate) fn symmetric(random: &mut Random, n: usize) -> Vec<f64> {
    let kind = random.pick(&[Whole, Ordinary, Wide]);
    let mut h = vec![0.0; n * n];
    for i in 0..n {
        for j in 0..=i {
            let x = kind.number(random);
            h[i * n + j] = x;
            h[j * n + i] = x;
        }
    }
    h
}

/// Half of full rank at most, or a row twice.
pub(crate) fn low_rank(random: &mut Random, n: usize) -> Vec<f64> {
    if random.once_in(2) {
        let sign = random.pick(&[1.0, -1.0]);
        return gram(random, n, n / 2).iter().map(|x| sign * x).collect();
    }
    let mut h: Vec<f64> = (0..n * n).map(|_| whole(random, 4)).collect();
    let from = random.below(n as u64) as usize;
    let to = random.below(n as u64) as usize;
    h.copy_within(from * n..(from + 1) * n, to * n);
    h
}

/// 1/(i + j + 1)
fn hilbert(n: usize) -> Vec<f64> {
    let place = |k: usize| (k / n + k % n + 1) as f64;
    (0..n * n).map(|k| 1.0 / place(k)).collect()
}

pub(crate) fn ill_conditioned(random: &mut Random, n: usize) -> Vec<f64> {
    match random.below(3) {
        0 => hilbert(n),
        1 => {
            let base = random.between(-30, 30);
            diagonal(n, |i| {
                power_of_two((base * i as i64).clamp(-1000, 1000)) * random.pick(&[1.0, 1.5, 3.0])
            })
        }
        _ => {
            let mut h = gram(random, n, n.max(2) - 1);
            for i in 0..n {
                h[i * n + i] += power_of_two(random.between(-52, -20));
            }
            h
        }
    }
}

/// A multiple of the identity, but for the last digits: Dogleg's two points nearly meet.
pub(crate) fn near_identity(random: &mut Random, n: usize) -> Vec<f64> {
    let other = Ordinary.number(random).abs();
    let x = random.pick(&[1.0, 3.0, 0.1, 7.0, other]);
    let mut h = diagonal(n, |_| x);
    for _ in 0..random.below(3) {
        let k = random.below((n * n) as u64) as usize;
        h[k] += x * power_of_two(random.between(-53, -30));
    }
    h
}

/// From 1e-300 to 1e300, of the step's own size, or on a border that the kernel tests.
fn radius(random: &mut Random, case: &Case) -> f64 {
    match random.below(8) {
        0 => {
            let e = random.between(-996, 996);
            with_exponent(random, e).abs()
        }
        1 => random.pick(&[1e-300, 1e300, 1e-160, 1e155, 1.0, 2.5, 5.0, 1e-10, 1e10]),
        2 => {
            let e = random.between(-8, 8);
            with_exponent(random, e).abs()
        }
        kind => {
            let norms = norms(case);
            let norm = if norms.is_empty() {
                Vector(case.g.clone()).norm()
            } else {
                random.pick(&norms)
            };
            let near = match kind {
                3 | 4 => beside(random, norm),
                // Within the region, or outside it.
                5 => norm * 0.5,
                6 => norm * random.pick(&[0.25, 0.75, 0.9, 0.99, 1.5, 4.0]),
                _ => norm * with_exponent(random, 0).abs(),
            };
            if near.is_finite() && near > 0.0 {
                near
            } else {
                random.pick(&[1.0, 2.5, 1e-3, 1e3])
            }
        }
    }
}

/// The number itself or one of its two neighbours.
pub(crate) fn beside(random: &mut Random, x: f64) -> f64 {
    match random.below(4) {
        0 => x.next_up(),
        1 => x.next_down(),
        _ => x,
    }
}

/// The norms that the kernel holds against its radius: of pb, or of each q. Cauchy has none.
fn norms(case: &Case) -> Vec<f64> {
    let n = case.g.len();
    let g = Vector(case.g.clone());
    let h = Matrix::new(n, case.h.clone());
    let norms = match case.kernel {
        CAUCHY => vec![],
        // By the rule before request Two, so that a border is there for a pivot that is nearly zero too.
        DOGLEG => match h.inverse_above(0.0) {
            // Dogleg's other border: pu, where its path bends.
            Some(inverse) => {
                let bend = g.dot(&g) / g.weighted_dot(&h, &g) * g.norm();
                vec![inverse.times(&g).norm(), bend.abs()]
            }
            None => vec![],
        },
        _ => conjugate(&g, &h).0,
    };
    norms
        .into_iter()
        .filter(|x| x.is_finite() && *x > 0.0)
        .collect()
}

/// The norms of the points and of the residuals that conjugate gradients go through.
fn conjugate(g: &Vector, h: &Matrix) -> (Vec<f64>, Vec<f64>) {
    let n = g.0.len();
    let mut p = Vector(vec![0.0; n]);
    let mut r = g.clone();
    let mut d = Vector(g.0.iter().map(|x| -x).collect());
    let mut rtr = g.dot(g);
    let (mut points, mut residuals) = (Vec::new(), Vec::new());
    for _ in 0..4 {
        let hd = h.times(&d);
        let dhd = d.dot(&hd);
        if dhd <= 0.0 || dhd.is_nan() {
            break;
        }
        let alpha = rtr / dhd;
        for i in 0..n {
            p.0[i] += d.0[i] * alpha;
            r.0[i] += hd.0[i] * alpha;
        }
        points.push(p.norm());
        residuals.push(r.norm());
        let sts = r.dot(&r);
        let beta = sts / rtr;
        for i in 0..n {
            d.0[i] = -r.0[i] + d.0[i] * beta;
        }
        rtr = sts;
    }
    (points, residuals)
}

fn epsilon(random: &mut Random, case: &Case) -> f64 {
    let g = Vector(case.g.clone());
    let epsilon = match random.below(12) {
        0 => random.pick(&[1e-300, 5e-324, 1e-160, 1e300]),
        1 => random.pick(&[0.5, 1.0, 2.0, 0.1]),
        2 => beside(random, g.norm()),
        3 => {
            let h = Matrix::new(g.0.len(), case.h.clone());
            let (_, residuals) = conjugate(&g, &h);
            residuals.first().map_or(1e-3, |norm| norm / g.norm())
        }
        4 => {
            let e = random.between(-60, 0);
            with_exponent(random, e).abs()
        }
        _ => EPSILON,
    };
    if epsilon.is_finite() && epsilon > 0.0 {
        epsilon
    } else {
        EPSILON
    }
}

fn limit(random: &mut Random, n: usize) -> u64 {
    let n = n as u64;
    // A run that has met a NaN goes on to its limit, so large ones are few.
    if n <= 3 && random.once_in(400) {
        return 10_000;
    }
    let some = random.below(6);
    random.pick(&[some, some, n, n + 1, 2 * n, 5, 20])
}

/// A Steihaug whose model is steep and negative: its linear part is lost, and both roots tie.
fn model_tie(random: &mut Random) -> Case {
    let n = random.between(1, 4) as usize;
    let g: Vec<f64> = (0..n).map(|_| whole(random, 4)).collect();
    let steep = -power_of_two(random.between(40, 70));
    let sizes = random.pick(&[[1.0, 1.0], [1.0, 2.0], [1.0, 0.0]]);
    let h = diagonal(n, |_| steep * random.pick(&sizes));
    let radius = random.pick(&[2.5, 1.0, 1e150, 1e155, 3.0, 1e-20]);
    Case::new(STEIHAUG, radius, &g, &h).limit(random.below(4))
}

/// A Steihaug of size 1 whose second direction is what rounding left of the first: its square is
/// zero, so that both roots are infinite and the third counts.
fn residue(random: &mut Random) -> Case {
    let e = random.between(-512, -484);
    let g = with_exponent(random, e);
    let f = random.between(-30, 30);
    let h = with_exponent(random, f).abs();
    let radius = power_of_two(e - f + random.between(1, 60));
    let epsilon = random.pick(&[1e-300, 1e-200, 5e-324]);
    Case::new(STEIHAUG, radius, &[g], &[h])
        .epsilon(epsilon)
        .limit(random.below(5))
}

/// A Steihaug whose points have squares around the least number there is: some of them count as
/// zero, and where it leaves its region both roots may be at least 0.
fn vanishing(random: &mut Random) -> Case {
    if random.once_in(4) {
        let down = random.between(536, 542);
        let radius = power_of_two(-random.between(536, 543));
        return turning(down, random.between(20, 60), radius);
    }
    let n = random.between(2, 4) as usize;
    let mut g: Vec<f64> = (0..n).map(|_| whole(random, 4)).collect();
    let mut h: Vec<f64> = (0..n * n).map(|_| whole(random, 4)).collect();
    for i in 0..n {
        h[i * n + i] += random.pick(&[0.0, 4.0]);
    }
    // Points become this much smaller, while directions stay large.
    let down = 537 + random.between(-4, 4);
    let up = random.between(10, 60);
    g.iter_mut().for_each(|x| *x *= power_of_two(up));
    h.iter_mut().for_each(|x| *x *= power_of_two(down + up));
    let radius = power_of_two(-537 - random.between(-3, 6));
    Case::new(STEIHAUG, radius, &g, &h).limit(random.below(5) + 1)
}

/// A Steihaug whose H is not symmetric: its fourth direction turns back on the point reached, whose
/// square is zero, and so is the radius's.
fn turning(down: i64, up: i64, radius: f64) -> Case {
    let g = [3.0, 2.0, -3.0].map(|x| x * power_of_two(up));
    let h = [4.0, 3.0, 0.0, 4.0, 8.0, 1.0, -3.0, 3.0, 2.0];
    let h = h.map(|x| x * power_of_two(down + up));
    Case::new(STEIHAUG, radius, &g, &h)
}

/// A Dogleg so small that the root's terms are zero, or so large that they are infinite: the
/// candidates are then −0 and +0 and one above 2, or one alone, at an end of its range.
fn candidate_tie(random: &mut Random) -> Case {
    let sign = random.pick(&[1.0, -1.0]);
    let t = random.pick(&[1.0, 1.0, 0.5, 2.0]);
    let (s, h, radii) = if random.once_in(2) {
        let s = power_of_two(random.between(-300, -260));
        let radii = [1.5, 1.5, 1.45, 1.55, 1.25, 1.0, 1.75, 0.5];
        (s, SMALL_TIE, radii)
    } else {
        let s = power_of_two(random.between(250, 500));
        let radii = [1.5, 1.5, 1.5, 1.5, 1.25, 1.0, 1.0, 0.5];
        (s, random.pick(&[LARGE_TIE, TWO_TIE]), radii)
    };
    let g = [sign * s, random.pick(&[0.0, -0.0])];
    Case::new(DOGLEG, s / t * random.pick(&radii), &g, &h.map(|x| x * t))
}

/// With g (s, 0): pu is (−s, −0), and pu·v equals v·v.
const SMALL_TIE: [f64; 4] = [1.0, -1.0, -1.0, 3.0];

/// With g (s, 0): pu is (−s, −0), and 2·(pu·v) + 2.25·s·s equals pu·pu.
const LARGE_TIE: [f64; 4] = [1.0, -0.3125, 2.0, 0.375];

/// With g (s, 0): pu is (−s, −0), and pu·pu + 2·(pu·v) equals 2.25·s·s.
const TWO_TIE: [f64; 4] = [1.0, -0.625, -1.0, 1.625];

/// Small, and each number of any size: what overflows meets what vanishes.
fn wild(random: &mut Random) -> Case {
    let n = random.between(1, 3) as usize;
    let number = |random: &mut Random| {
        let kind = random.pick(&[Whole, Wide, Tiny, Huge, Zero, Ordinary, Subnormal]);
        kind.number(random)
    };
    let g: Vec<f64> = (0..n).map(|_| number(random)).collect();
    let h: Vec<f64> = (0..n * n).map(|_| number(random)).collect();
    let mut case = Case::new(kernel(random), 1.0, &g, &h);
    settings(random, &mut case);
    case
}

/// Small whole numbers throughout: many exact ties.
fn small_whole(random: &mut Random) -> Case {
    let n = random.between(1, 3) as usize;
    let g: Vec<f64> = (0..n).map(|_| whole(random, 2)).collect();
    let mut h: Vec<f64> = (0..n * n).map(|_| whole(random, 2)).collect();
    if random.once_in(2) {
        for i in 0..n {
            for j in 0..i {
                h[i * n + j] = h[j * n + i];
            }
        }
    }
    let radius = random.pick(&[0.5, 1.0, 1.5, 2.0, 2.5, 3.0, 5.0]);
    Case::new(kernel(random), radius, &g, &h).limit(random.below(5))
}

/// A Steihaug that leaves its region, or meets a curvature that is not positive, after a pass or
/// more; at times with a direction whose square overflows.
fn second_pass(random: &mut Random) -> Case {
    let n = random.between(2, 4) as usize;
    let mut h = definite(random, n);
    if random.once_in(2) {
        let i = random.below(n as u64) as usize;
        h[i * n + i] -= 2.0 * h[i * n + i].abs() * random.pick(&[0.5, 1.0, 0.25]);
    }
    let g: Vec<f64> = (0..n).map(|_| Ordinary.number(random)).collect();
    let mut case = Case::new(STEIHAUG, 1.0, &g, &h);
    settings(random, &mut case);
    case.limit = random.below(6) + 1;
    if random.once_in(3) {
        let e = random.pick(&[-530, -500, 480, 510]);
        let by = power_of_two(e);
        case.g.iter_mut().for_each(|x| *x *= by);
        let radius = case.radius * by;
        if radius.is_finite() && radius > 0.0 {
            case.radius = radius;
        }
        case.epsilon = random.pick(&[EPSILON, 1e-300, 1e-200]);
    }
    case
}

#[cfg(test)]
mod tests {
    use super::*;
    use crate::formulas;
    use crate::step::{self, Answer};
    use std::collections::HashMap;

    #[test]
    fn the_same_seed_gives_the_same_cases() {
        let batch = input(800, 9);
        assert_eq!(batch, input(800, 9));
        assert!(input(801, 9).starts_with(&batch));
        assert_ne!(batch, input(800, 10));
        assert!(marked().len() < 600, "random ones get room");
    }

    /// Every kernel comes with every answer that it can have, and with none other.
    #[test]
    fn all_answers_come_up() {
        let mut seen: HashMap<(u64, u8), u64> = HashMap::new();
        for case in Cases::new(3).take(20_000) {
            let number = match step::answer(&case, formulas::solve) {
                Answer::Step { .. } => 0,
                Answer::Refused(number) => number,
            };
            let kernel = case
                .first_chunk()
                .map_or(0, |word| u64::from_le_bytes(*word));
            if KERNELS.contains(&kernel) {
                *seen.entry((kernel, number)).or_default() += 1;
            }
        }
        for kernel in KERNELS {
            for number in 0..=8 {
                let counted = seen.get(&(kernel, number)).copied().unwrap_or(0);
                let possible = match number {
                    3 | 5 => false,
                    6 => kernel == DOGLEG,
                    7 => kernel == STEIHAUG,
                    _ => true,
                };
                assert_eq!(counted > 20, possible, "kernel {kernel}: {number}");
                assert!(possible || counted == 0);
            }
        }
    }

    #[test]
    fn some_numbers_are_just_below_one() {
        assert!(just_below_one().len() >= 3);
    }

    #[test]
    fn every_size_comes_up() {
        let mut seen = [0; 65];
        for case in Cases::new(4).take(100_000) {
            if let Ok(call) = step::read(&case) {
                seen[call.gradient.0.len()] += 1;
            }
        }
        assert!(seen[1..].iter().all(|&count| count > 0));
    }
}
