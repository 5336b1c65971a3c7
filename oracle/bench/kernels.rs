//! argmin's own kernels, timed, and beside them the Rattle ones (`crates/foreign`, which the script
//! bench-argmin links). Both get the same inputs, in turns; the best round of each counts. argmin has no
//! second dogleg: it is timed beside our ported one, leg by leg and on all four together.
//!
//! argmin's side is what its `TrustRegion` runs for each step: an executor over the kernel, with
//! the derivatives cloned, and a fresh vector for every operation. The arithmetic under it is
//! document 01's (src/vector.rs).

use oracle::argmin_kernels;
use oracle::random::{with_exponent, Random};
use oracle::step::{Call, Kernel};
use oracle::textbook::{self, Leg};
use oracle::vector::{Matrix, Vector};
use std::hint::black_box;
use std::process::ExitCode;
use std::time::Instant;

const SIZES: [usize; 3] = [6, 24, 64];
const INPUTS: usize = 32;
const ROUNDS: usize = 5;
/// A round is repeated until it takes about this long.
const ROUND_SECONDS: f64 = 0.1;

/// What the linked library exports: a function for each kernel, all of one shape. A slice is a
/// pointer and a length. Cauchy and both doglegs pass over epsilon and limit. The answer is 0 where the
/// step was written, else the refusal's number.
type Linked = unsafe extern "C" fn(
    n: usize,
    radius: f64,
    epsilon: f64,
    limit: u64,
    gradient: *const f64,
    gradient_length: usize,
    hessian: *const f64,
    hessian_length: usize,
    step: *mut f64,
    step_length: usize,
    scratch: *mut f64,
    scratch_length: usize,
) -> u64;

/// Declares each name of the library with the shape above.
macro_rules! linked {
    ($($kernel:ident: $name:ident,)*) => {
        unsafe extern "C" {
            $(fn $name(
                n: usize, radius: f64, epsilon: f64, limit: u64,
                gradient: *const f64, gradient_length: usize,
                hessian: *const f64, hessian_length: usize,
                step: *mut f64, step_length: usize,
                scratch: *mut f64, scratch_length: usize,
            ) -> u64;)*
        }

        fn linked(kernel: Kernel) -> Linked {
            match kernel {
                $(Kernel::$kernel => $name,)*
            }
        }
    };
}

// The table of names.
linked! {
    Cauchy: mboyaxin_cauchy_point,
    Dogleg: mboyaxin_dogleg,
    Steihaug: mboyaxin_steihaug,
    Textbook: mboyaxin_textbook_dogleg,
}

/// Runs a linked kernel on lent vectors and leaves its step in `step`.
fn run_linked(kernel: Linked, call: &Call, step: &mut [f64], scratch: &mut [f64]) -> u64 {
    let (g, h) = (&call.gradient.0, call.hessian.entries());
    // SAFETY: each pointer comes with its own slice's length, and none of them overlap.
    unsafe {
        kernel(
            g.len(),
            call.radius,
            call.epsilon,
            call.limit,
            g.as_ptr(),
            g.len(),
            h.as_ptr(),
            h.len(),
            step.as_mut_ptr(),
            step.len(),
            scratch.as_mut_ptr(),
            scratch.len(),
        )
    }
}

/// Calls that take the kernel's long way: Cauchy's tau below 1, Dogleg's path cut, Steihaug's passes
/// until the residual is small or n are done.
fn calls(kernel: Kernel, n: usize, random: &mut Random) -> Vec<Call> {
    let call = |random: &mut Random| {
        let gradient = Vector((0..n).map(|_| with_exponent(random, 0)).collect());
        let hessian = definite(n, random);
        let inverse = hessian.inverse().expect("a definite matrix has an inverse");
        let whole = inverse.times(&gradient).norm();
        let radius = match kernel {
            Kernel::Cauchy => 4.0 * gradient.norm(),
            Kernel::Dogleg | Kernel::Textbook => 0.5 * whole,
            Kernel::Steihaug => 1e6 * whole,
        };
        Call {
            kernel,
            radius,
            epsilon: 1e-9,
            limit: n as u64,
            gradient,
            hessian,
        }
    };
    (0..INPUTS).map(|_| call(random)).collect()
}

/// Calls of the second dogleg whose steps come from this leg.
fn on_leg(leg: Leg, n: usize, random: &mut Random) -> Vec<Call> {
    let call = |random: &mut Random| {
        let gradient = Vector((0..n).map(|_| with_exponent(random, 0)).collect());
        let mut hessian = definite(n, random);
        let inverse = hessian.inverse().expect("a definite matrix has an inverse");
        let whole = inverse.times(&gradient).norm();
        let least = gradient.dot(&gradient) * gradient.norm();
        let least = least / gradient.weighted_dot(&hessian, &gradient);
        let radius = match leg {
            Leg::Whole => 2.0 * whole,
            Leg::Second => 0.5 * (least + whole),
            _ => 0.5 * least,
        };
        if leg == Leg::Cauchy {
            let turned = hessian.entries().iter().map(|x| -x);
            hessian = Matrix::new(n, turned.collect());
        }
        assert_eq!(textbook::by_leg(&gradient, &hessian, radius).0, leg);
        Call {
            kernel: Kernel::Textbook,
            radius,
            epsilon: 1e-9,
            limit: n as u64,
            gradient,
            hessian,
        }
    };
    (0..INPUTS).map(|_| call(random)).collect()
}

/// A·Aᵀ with n on its diagonal besides: definite, and not too far from a multiple of the identity.
fn definite(n: usize, random: &mut Random) -> Matrix {
    let rows: Vec<Vector> = (0..n)
        .map(|_| Vector((0..n).map(|_| with_exponent(random, 0)).collect()))
        .collect();
    let entries = (0..n * n).map(|k| {
        let (i, j) = (k / n, k % n);
        rows[i].dot(&rows[j]) + if i == j { n as f64 } else { 0.0 }
    });
    Matrix::new(n, entries.collect())
}

/// Seconds for so many goes over all inputs.
fn seconds(goes: usize, mut go: impl FnMut()) -> f64 {
    let start = Instant::now();
    for _ in 0..goes {
        go();
    }
    start.elapsed().as_secs_f64()
}

fn main() -> ExitCode {
    println!("nanoseconds for a call, best of {ROUNDS} rounds over {INPUTS} inputs");
    println!(
        "{:9} {:>3} {:>6} {:>10} {:>10}",
        "", "n", "passes", "argmin", "Rattle"
    );
    let mut random = Random::new(1);
    let mut differing = 0;
    for kernel in [Kernel::Cauchy, Kernel::Dogleg, Kernel::Steihaug] {
        for n in SIZES {
            let calls = calls(kernel, n, &mut random);
            differing += bench(kernel, &format!("{kernel:?}"), n, &calls);
        }
    }
    println!(
        "{:9} {:>3} {:>6} {:>10} {:>10}",
        "leg", "n", "passes", "Dogleg", "Textbook"
    );
    for n in SIZES {
        let mut all = Vec::new();
        for leg in [Leg::Cauchy, Leg::Whole, Leg::First, Leg::Second] {
            let calls = on_leg(leg, n, &mut random);
            differing += bench(Kernel::Textbook, &format!("{leg:?}"), n, &calls);
            all.extend(calls);
        }
        differing += bench(Kernel::Textbook, "all four", n, &all);
    }
    if differing > 0 {
        println!("{differing} steps differ");
        return ExitCode::FAILURE;
    }
    ExitCode::SUCCESS
}

/// Goes over all calls by a linked kernel.
fn by_linked(linked: Linked, calls: &[Call]) -> impl FnMut() + '_ {
    let n = calls[0].gradient.0.len();
    let mut step = vec![0.0; n];
    let mut scratch = vec![0.0; 2 * n * n + 8 * n];
    move || {
        for call in calls {
            let answer = run_linked(black_box(linked), black_box(call), &mut step, &mut scratch);
            assert_eq!(answer, 0, "a step");
            black_box(&mut step);
        }
    }
}

/// argmin's own kernel, or for the second dogleg our ported one.
fn other<'a>(kernel: Kernel, calls: &'a [Call]) -> Box<dyn FnMut() + 'a> {
    if kernel == Kernel::Textbook {
        return Box::new(by_linked(linked(Kernel::Dogleg), calls));
    }
    Box::new(move || {
        for call in calls {
            // An unwanted answer would be a quick one.
            let (step, _) = argmin_kernels::solve(black_box(call)).expect("a step");
            black_box(step);
        }
    })
}

/// Prints a line, and gives the number of calls whose steps differ: from argmin's, and those of the second
/// dogleg from what the oracle works out.
fn bench(kernel: Kernel, name: &str, n: usize, calls: &[Call]) -> usize {
    let mut by_other = other(kernel, calls);
    let linked = linked(kernel);
    let mut by_rattle = by_linked(linked, calls);
    let goes = (ROUND_SECONDS / seconds(1, &mut by_other)).ceil() as usize;
    let (mut other, mut rattle) = (f64::INFINITY, f64::INFINITY);
    for _ in 0..ROUNDS {
        other = other.min(seconds(goes, &mut by_other));
        rattle = rattle.min(seconds(goes, &mut by_rattle));
    }
    let nanoseconds = |seconds: f64| seconds * 1e9 / (goes * calls.len()) as f64;
    let right = |call: &Call| argmin_kernels::solve(call).expect("a step");
    let passes: u64 = calls.iter().map(|call| right(call).1).sum();
    println!(
        "{name:9} {n:3} {:6.1} {:10.0} {:10.0}  ratio {:.2}",
        passes as f64 / calls.len() as f64,
        nanoseconds(other),
        nanoseconds(rattle),
        rattle / other
    );
    let mut step = vec![0.0; n];
    let mut scratch = vec![0.0; 2 * n * n + 8 * n];
    let differs = |call: &&Call| {
        run_linked(linked, call, &mut step, &mut scratch);
        let bits = |numbers: &[f64]| numbers.iter().map(|x| x.to_bits()).collect::<Vec<_>>();
        bits(&step) != bits(&right(call).0 .0)
    };
    calls.iter().filter(differs).count()
}
