//! The Rattle root beside a plain Rust root that also settles one binary digit at a time. Both are
//! called through the same pointer, which the compiler cannot see through, on the same numbers, in
//! turns; the best of each counts. The Rattle root is reached through `mboyaxin_root`, which hands its
//! argument on and does nothing else: at most one call more than the plain root has.

use std::hint::black_box;
use std::process::ExitCode;
use std::time::Instant;

const INPUTS: usize = 10_000_000;
const ROUNDS: usize = 3;
const INFINITY: u64 = 0x7ff0_0000_0000_0000;

type Root = extern "C" fn(f64) -> f64;

mod rattle {
    unsafe extern "C" {
        // A total function on numbers: there is nothing to test before calling it.
        pub safe fn mboyaxin_root(x: f64) -> f64;
    }
}

/// The classical loop: of m's digits two are brought down at a time, and the next digit of the root
/// is 1 if what is left allows it.
#[inline(never)]
extern "C" fn plain_root(x: f64) -> f64 {
    let bits = x.to_bits();
    if x.is_nan() || x == 0.0 || bits == INFINITY {
        return x;
    }
    if x < 0.0 {
        return f64::NAN;
    }
    let mut exponent = (bits >> 52) as i64;
    let mut m = bits & ((1 << 52) - 1);
    if exponent == 0 {
        let shift = m.leading_zeros() - 11;
        m <<= shift;
        exponent = 1 - i64::from(shift);
    } else {
        m |= 1 << 52;
    }
    // x = m·2^(exponent − 1075), and the exponent is to be even.
    exponent -= 1075;
    if exponent & 1 != 0 {
        m <<= 1;
        exponent -= 1;
    }
    // 54 digits of the root of m·2^54: one more than there is room for, to round by. That root is
    // never at a midpoint, so no tie has to be settled.
    let mut ahead = m << 10;
    let mut rest: u64 = 0;
    let mut root: u64 = 0;
    for _ in 0..54 {
        rest = rest << 2 | ahead >> 62;
        ahead <<= 2;
        let taken = root << 2 | 1;
        root <<= 1;
        if rest >= taken {
            rest -= taken;
            root |= 1;
        }
    }
    let rounded = (root + 1) >> 1;
    // The root is rounded·2^(exponent/2 − 26), and the top digit of `rounded` falls into the
    // exponent's place, where it counts one.
    let place = (exponent / 2 - 26 + 1074) as u64;
    f64::from_bits((place << 52) + rounded)
}

/// The generator splitmix64.
fn random(state: &mut u64) -> u64 {
    *state = state.wrapping_add(0x9e37_79b9_7f4a_7c15);
    let mut z = *state;
    z = (z ^ (z >> 30)).wrapping_mul(0xbf58_476d_1ce4_e5b9);
    z = (z ^ (z >> 27)).wrapping_mul(0x94d0_49bb_1331_11eb);
    z ^ (z >> 31)
}

/// A few special numbers, then positive ones of every exponent, one in sixteen subnormal.
fn inputs() -> Vec<f64> {
    let specials = [
        0.0,
        -0.0,
        f64::INFINITY,
        f64::NEG_INFINITY,
        f64::NAN,
        -f64::NAN,
        -1.0,
        1.0,
        1.0f64.next_down(),
        1.0f64.next_up(),
        f64::MAX,
        f64::MIN,
        f64::MIN_POSITIVE,
        f64::MIN_POSITIVE.next_down(),
        f64::from_bits(1),
        -f64::from_bits(1),
    ];
    let mut state = 1;
    let mut inputs = specials.to_vec();
    while inputs.len() < INPUTS {
        let bits = random(&mut state);
        inputs.push(f64::from_bits(if bits % 16 == 0 {
            // Of every length down to one digit.
            ((1 << 51 | bits >> 13) >> (random(&mut state) % 52)).max(1)
        } else {
            (1 << 52) + bits % (INFINITY - (1 << 52))
        }));
    }
    inputs
}

#[inline(never)]
fn seconds(root: Root, inputs: &[f64], answers: &mut [f64]) -> f64 {
    let root = black_box(root);
    let start = Instant::now();
    for (answer, &x) in answers.iter_mut().zip(inputs) {
        *answer = root(x);
    }
    start.elapsed().as_secs_f64()
}

/// All NaN count as one.
fn same(a: f64, b: f64) -> bool {
    a.to_bits() == b.to_bits() || a.is_nan() && b.is_nan()
}

fn report(name: &str, times: &[f64]) -> f64 {
    let best = times.iter().copied().fold(f64::INFINITY, f64::min);
    let all: Vec<String> = times.iter().map(|time| format!("{time:.3}")).collect();
    println!("{name} {best:.3} s (of {})", all.join(", "));
    best
}

fn main() -> ExitCode {
    let inputs = inputs();
    let subnormal = inputs.iter().filter(|x| x.is_subnormal()).count();
    // Written once before the clock runs, so that no round pays for fresh memory.
    let mut by_rattle = vec![1.0; INPUTS];
    let mut by_plain = vec![1.0; INPUTS];
    let (mut rattle_times, mut plain_times) = (Vec::new(), Vec::new());
    for _ in 0..ROUNDS {
        rattle_times.push(seconds(rattle::mboyaxin_root, &inputs, &mut by_rattle));
        plain_times.push(seconds(plain_root, &inputs, &mut by_plain));
    }
    println!("{INPUTS} inputs, {subnormal} of them subnormal; best of {ROUNDS} rounds");
    let rattle = report("Rattle    ", &rattle_times);
    let plain = report("plain Rust", &plain_times);
    println!("ratio      {:.2} (Rattle to plain Rust)", rattle / plain);
    let differing = (0..INPUTS)
        .filter(|&i| !same(by_rattle[i], by_plain[i]) || !same(by_rattle[i], inputs[i].sqrt()))
        .count();
    if differing > 0 {
        println!("answers    {differing} differ from each other or from the hardware's root");
        return ExitCode::FAILURE;
    }
    println!("answers    all equal to each other and to the hardware's root");
    ExitCode::SUCCESS
}
