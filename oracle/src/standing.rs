//! A fit that stood on its start: six angles, begun at the mirror image of where they belong, as when the
//! markers of the two legs are confused. The cost is half the squared distance, so the Hessian is the
//! identity and the whole step leads to the minimum; but it is longer than the radius. The ported dogleg
//! then proposes the zero step: the trial is the start, the ratio is 0/0, the radius stays, and so it goes
//! on until a marker trembles and the same point costs a little more: then the radius is a quarter of the
//! step's length, zero, and the next proposal is refused by 5. With the textbook's first leg the fit moves,
//! and ends at the minimum.

use crate::input::words;
use crate::replay::{self, Call};
use crate::session::{Formulas, Kind, Phase, Settings, Station, LARGEST_ALLOWANCE};
use crate::vector::{Matrix, Vector};

const SIZE: usize = 6;

/// Where the angles belong, in degrees. Whole numbers, so that start, cost and gradient are exact.
const ANGLES: [f64; SIZE] = [12.0, -31.0, 58.0, 7.0, -24.0, 16.0];

/// So many trials pass before a marker trembles.
const PATIENCE: usize = 20;

/// He is content with a gradient below this.
const CLOSE: f64 = 1e-6;

/// The script for program `replay`, of kind 3, with this dogleg. It has only + − · / and roots in it, so
/// it is the same on every machine.
pub fn input(dogleg: u64) -> Vec<u8> {
    let mut bytes = Vec::new();
    words(&mut bytes, &script(dogleg));
    bytes
}

pub fn script(dogleg: u64) -> Vec<u64> {
    let max_radius = 100.0;
    let settings = Settings {
        kind: Kind::TrustRegion { max_radius },
        kernel: 2,
        radius: 1.0,
        eta: 0.125,
        epsilon: 1e-9,
        limit: 12,
        allowance: LARGEST_ALLOWANCE,
        dogleg,
    };
    let n = SIZE as u64;
    let mirrored = ANGLES.map(|x| -x);
    let start = Station::start(
        settings,
        cost(&mirrored),
        Vector(mirrored.to_vec()),
        Vector(gradient(&mirrored)),
        identity(),
    );
    let mut station = start.expect("settings in range");
    let mut script = vec![3, n, settings.kernel];
    push(&mut script, &[settings.radius, max_radius, settings.eta]);
    push(&mut script, &[settings.epsilon]);
    script.extend([settings.limit, 2, settings.allowance, dogleg]);
    push(&mut script, &[station.cost]);
    push(&mut script, &station.point.0);
    push(&mut script, &station.gradient.0);
    push(&mut script, station.hessian.entries());
    let mut made = |station: &mut Station, call: Call| {
        match &call {
            Call::Propose(n) => script.extend([1, *n]),
            Call::Cost(n, cost, _) => script.extend([2, *n, cost.to_bits()]),
            Call::Derivatives(n, gradient, hessian) => {
                script.extend([3, *n]);
                push(&mut script, &gradient.0);
                push(&mut script, hessian.entries());
            }
            Call::Put(..) | Call::Count(_) => unreachable!("an honest caller changes no session"),
        }
        let mut lines = Vec::new();
        replay::run(station, call, &Formulas, &mut lines).expect("memory can be written");
    };
    for trial in 0.. {
        made(&mut station, Call::Propose(n));
        if station.phase == Phase::Ready {
            // Refused: nothing moves any more.
            break;
        }
        let mut found = cost(&station.trial.0);
        if trial >= PATIENCE {
            found = found.next_up();
        }
        made(&mut station, Call::Cost(n, found, None));
        if station.phase == Phase::Derivatives {
            let gradient = Vector(gradient(&station.point.0));
            made(&mut station, Call::Derivatives(n, gradient, identity()));
        }
        if station.gradient.norm() < CLOSE {
            break;
        }
    }
    script
}

fn push(script: &mut Vec<u64>, numbers: &[f64]) {
    script.extend(numbers.iter().map(|x| x.to_bits()));
}

/// Half the squared distance.
fn cost(x: &[f64]) -> f64 {
    let mut sum = 0.0;
    for off in gradient(x) {
        sum += off * off;
    }
    0.5 * sum
}

fn gradient(x: &[f64]) -> Vec<f64> {
    x.iter().zip(ANGLES).map(|(x, angle)| x - angle).collect()
}

fn identity() -> Matrix {
    let one = |k: usize| if k % (SIZE + 1) == 0 { 1.0 } else { 0.0 };
    Matrix::new(SIZE, (0..SIZE * SIZE).map(one).collect())
}

#[cfg(test)]
mod tests {
    use super::*;
    use crate::session::{PORTED, TEXTBOOK};

    fn lines(dogleg: u64) -> Vec<String> {
        let mut out = Vec::new();
        replay::answer(&input(dogleg), &Formulas, &mut out).unwrap();
        let lines = String::from_utf8(out).unwrap();
        lines.lines().map(str::to_string).collect()
    }

    fn begin(lines: &[String], with: &str) -> usize {
        lines.iter().filter(|line| line.starts_with(with)).count()
    }

    fn numbers(lines: &[String], name: &str) -> Vec<f64> {
        let line = lines.iter().find_map(|line| line.strip_prefix(name));
        let words = line.unwrap().trim().split(' ');
        let bits = words.map(|word| u64::from_str_radix(word, 16).unwrap());
        bits.map(f64::from_bits).collect()
    }

    /// The whole step is too long, every trial is the start itself, and the radius is what it was; then it is
    /// zero.
    #[test]
    fn the_ported_dogleg_stands() {
        let lines = lines(PORTED);
        assert_eq!(begin(&lines, "proposed"), PATIENCE + 1);
        let still = "rejected 7ff8000000000000 radius 3ff0000000000000";
        assert_eq!(begin(&lines, still), PATIENCE);
        assert_eq!(numbers(&lines, "point "), ANGLES.map(|x| -x));
        assert_eq!(numbers(&lines, "step "), [0.0; SIZE]);
        let trembled = "rejected fff0000000000000 radius 0000000000000000";
        assert_eq!(begin(&lines, trembled), 1);
        assert_eq!(begin(&lines, "refused 5"), 1);
        assert_eq!(begin(&lines, "end ready"), 1);
    }

    /// It moves by the radius, which doubles, and ends at the angles.
    #[test]
    fn the_textbook_s_arrives() {
        let lines = lines(TEXTBOOK);
        assert_eq!(begin(&lines, "rejected") + begin(&lines, "refused"), 0);
        assert!((4..PATIENCE).contains(&begin(&lines, "accepted")));
        for (found, angle) in numbers(&lines, "point ").into_iter().zip(ANGLES) {
            assert!((found - angle).abs() < 1e-9, "{found} {angle}");
        }
        assert_eq!(lines.last().unwrap(), "count 0");
    }
}
