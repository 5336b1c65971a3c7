//! The second dogleg as C calls it, `mboyaxin_textbook_dogleg` of `crates/foreign` (the script
//! compare-textbook links it), against the oracle's: the answer, every bit of the step and of the scratch,
//! and that nothing else is written. The cases are those of `oracle textbook`, asked directly; radius, n and
//! lengths are wrong now and then, and entries not finite.

use oracle::legs::{self, Case};
use oracle::random::{Random, NANS};
use oracle::textbook;
use std::env;
use std::process::ExitCode;

unsafe extern "C" {
    fn mboyaxin_textbook_dogleg(
        n: u64,
        radius: f64,
        epsilon: f64,
        limit: u64,
        gradient: *const f64,
        gradient_length: u64,
        hessian: *const f64,
        hessian_length: u64,
        step: *mut f64,
        step_length: u64,
        scratch: *mut f64,
        scratch_length: u64,
    ) -> u64;
}

/// So many words behind each list, which no call may touch.
const GUARD: usize = 8;
/// So many differences are shown.
const SHOWN: u64 = 5;
const ANSWERS: [&str; 7] = [
    "answered",
    "refused 1",
    "refused 2",
    "refused 4",
    "refused 6",
    "refused 8",
    "another answer",
];

/// A call: what is told, and the lists by their bits, each as long as it is told.
struct Asked {
    n: u64,
    radius: f64,
    epsilon: f64,
    limit: u64,
    gradient: Vec<u64>,
    hessian: Vec<u64>,
    step: Vec<u64>,
    scratch: Vec<u64>,
}

fn bits(list: &[f64]) -> Vec<u64> {
    list.iter().map(|x| x.to_bits()).collect()
}

fn numbers(list: &[u64]) -> Vec<f64> {
    list.iter().copied().map(f64::from_bits).collect()
}

/// What is lent to be written begins as NaN of many patterns.
fn lent(length: usize) -> Vec<u64> {
    let pattern = |i: usize| NANS[i % NANS.len()] ^ (i as u64 & 0xffff);
    (0..length).map(pattern).collect()
}

fn asked(random: &mut Random) -> Asked {
    let mut case = legs::any(random);
    if random.once_in(200) {
        // One more than there may be, with lists that fit it.
        case = larger(case);
    }
    let n = case.gradient.0.len();
    let mut asked = Asked {
        n: n as u64,
        radius: case.radius,
        // Not looked at.
        epsilon: random.pick(&[1e-9, 0.0, -1.0, f64::NAN, f64::INFINITY]),
        limit: random.pick(&[5, 0, 10_001, u64::MAX]),
        gradient: bits(&case.gradient.0),
        hessian: bits(case.hessian.entries()),
        step: lent(n),
        scratch: lent(2 * n * n + 8 * n),
    };
    // None, one or two things are wrong.
    while random.once_in(8) {
        spoil(random, &mut asked);
    }
    asked
}

/// A case of 65.
fn larger(case: Case) -> Case {
    let n = 65;
    let mut hessian = vec![0.0; n * n];
    for i in 0..n {
        hessian[i * n + i] = 1.0;
    }
    Case {
        gradient: oracle::vector::Vector(vec![1.0; n]),
        hessian: oracle::vector::Matrix::new(n, hessian),
        ..case
    }
}

fn spoil(random: &mut Random, asked: &mut Asked) {
    let n = asked.n;
    match random.below(8) {
        0 => {
            let wrong = [
                0,
                n.wrapping_sub(1),
                n + 1,
                n | 1 << 32,
                n | 1 << 63,
                u64::MAX,
            ];
            asked.n = random.pick(&wrong);
        }
        1 | 2 => {
            let wrong = [0.0, -0.0, -1.0, f64::NAN, f64::INFINITY, f64::NEG_INFINITY];
            asked.radius = random.pick(&wrong);
        }
        3 => {
            let lists = [
                &mut asked.gradient,
                &mut asked.hessian,
                &mut asked.step,
                &mut asked.scratch,
            ];
            let place = random.below(4) as usize;
            for (i, list) in lists.into_iter().enumerate() {
                if i == place {
                    let shorter = random.below(list.len() as u64 + 1) as usize;
                    let wrong = [0, list.len() + 1, list.len().saturating_sub(1), shorter];
                    list.resize(random.pick(&wrong), 1f64.to_bits());
                }
            }
        }
        4 | 5 => not_finite(random, &mut asked.gradient),
        _ => not_finite(random, &mut asked.hessian),
    }
}

fn not_finite(random: &mut Random, list: &mut [u64]) {
    if !list.is_empty() {
        let place = random.below(list.len() as u64) as usize;
        let infinity = f64::INFINITY.to_bits();
        list[place] = random.pick(&[infinity, infinity | 1 << 63, NANS[0], NANS[1], NANS[4]]);
    }
}

/// Makes the call on lists with a guard behind each. The answer, the lists afterwards, and whether the
/// guards are what they were.
fn call(asked: &Asked) -> (u64, Vec<u64>, Vec<u64>, bool) {
    let guarded = |list: &[u64]| [list, &lent(GUARD)].concat();
    let (gradient, hessian) = (guarded(&asked.gradient), guarded(&asked.hessian));
    let (mut step, mut scratch) = (guarded(&asked.step), guarded(&asked.scratch));
    let before = (gradient.clone(), hessian.clone());
    let length = |list: &[u64]| list.len() as u64;
    // SAFETY: each pointer comes with a length that its list has, and none of them overlap. A u64 is as
    // large as an f64 and aligned like it, and any bits of it are one.
    let answer = unsafe {
        mboyaxin_textbook_dogleg(
            asked.n,
            asked.radius,
            asked.epsilon,
            asked.limit,
            gradient.as_ptr().cast(),
            length(&asked.gradient),
            hessian.as_ptr().cast(),
            length(&asked.hessian),
            step.as_mut_ptr().cast(),
            length(&asked.step),
            scratch.as_mut_ptr().cast(),
            length(&asked.scratch),
        )
    };
    let guards = [
        step.split_off(asked.step.len()),
        scratch.split_off(asked.scratch.len()),
    ];
    let kept = before == (gradient, hessian) && guards.iter().all(|guard| *guard == lent(GUARD));
    (answer, step, scratch, kept)
}

/// What the call should come to: the answer, the step and the scratch.
fn right(asked: &Asked) -> (u64, Vec<u64>, Vec<u64>) {
    let found = textbook::called(
        asked.n,
        asked.radius,
        &numbers(&asked.gradient),
        &numbers(&asked.hessian),
        asked.step.len(),
        asked.scratch.len(),
    );
    let cleared = vec![0; asked.scratch.len()];
    match found {
        Ok(step) => (0, bits(&step.0), cleared),
        Err(number @ (6 | 8)) => (u64::from(number), asked.step.clone(), cleared),
        Err(number) => (u64::from(number), asked.step.clone(), asked.scratch.clone()),
    }
}

fn show(number: u64, asked: &Asked, answer: u64, step: &[u64], right: &(u64, Vec<u64>, Vec<u64>)) {
    let hexadecimal = |list: &[u64]| {
        let words: Vec<String> = list.iter().map(|word| format!("{word:016x}")).collect();
        words.join(" ")
    };
    println!(
        "case {number} (from 0) differs: n {}, radius {:016x}",
        asked.n,
        asked.radius.to_bits()
    );
    println!("  gradient {}", hexadecimal(&asked.gradient));
    println!("  hessian {}", hexadecimal(&asked.hessian));
    println!(
        "  step and scratch of {} and {}",
        asked.step.len(),
        asked.scratch.len()
    );
    println!("  ours:   {answer}, step {}", hexadecimal(step));
    println!("  theirs: {}, step {}", right.0, hexadecimal(&right.1));
}

fn main() -> ExitCode {
    let words: Vec<String> = env::args().skip(1).collect();
    let parsed: Vec<u64> = words.iter().filter_map(|word| word.parse().ok()).collect();
    let ([count, seed], 2) = (&parsed[..], words.len()) else {
        eprintln!("usage: compare-textbook COUNT SEED");
        return ExitCode::from(2);
    };
    let mut random = Random::new(*seed);
    let (mut counts, mut differing) = ([0u64; 7], 0);
    for number in 0..*count {
        let asked = asked(&mut random);
        let (answer, step, scratch, kept) = call(&asked);
        let column = match answer {
            0 => 0,
            1 | 2 => answer as usize,
            4 => 3,
            6 => 4,
            8 => 5,
            _ => 6,
        };
        counts[column] += 1;
        let right = right(&asked);
        if (answer, &step, &scratch, kept) != (right.0, &right.1, &right.2, true) {
            differing += 1;
            if differing <= SHOWN {
                show(number, &asked, answer, &step, &right);
                let as_it_should = |is: bool| if is { "as it should be" } else { "another" };
                println!("  scratch {}", as_it_should(scratch == right.2));
                println!(
                    "  what is lent to be read, and what lies behind: {}",
                    as_it_should(kept)
                );
            }
        }
    }
    for (name, counted) in ANSWERS.iter().zip(counts) {
        println!("{counted:9}  {name}");
    }
    println!("{count} direct calls, {differing} differ");
    if differing > 0 {
        return ExitCode::FAILURE;
    }
    ExitCode::SUCCESS
}
