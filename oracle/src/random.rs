//! Numbers that look random and are the same on every machine for the same seed.

/// The generator splitmix64.
pub struct Random(u64);

impl Random {
    pub fn new(seed: u64) -> Random {
        Random(seed)
    }

    pub fn word(&mut self) -> u64 {
        self.0 = self.0.wrapping_add(0x9e37_79b9_7f4a_7c15);
        let mut z = self.0;
        z = (z ^ (z >> 30)).wrapping_mul(0xbf58_476d_1ce4_e5b9);
        z = (z ^ (z >> 27)).wrapping_mul(0x94d0_49bb_1331_11eb);
        z ^ (z >> 31)
    }

    /// A whole number below `limit`, which is above zero.
    pub fn below(&mut self, limit: u64) -> u64 {
        ((u128::from(self.word()) * u128::from(limit)) >> 64) as u64
    }

    /// A whole number from `low` to `high`, both included.
    pub fn between(&mut self, low: i64, high: i64) -> i64 {
        low + self.below((high - low + 1) as u64) as i64
    }

    /// True once in `times`.
    pub fn once_in(&mut self, times: u64) -> bool {
        self.below(times) == 0
    }

    pub fn pick<T: Copy>(&mut self, from: &[T]) -> T {
        from[self.below(from.len() as u64) as usize]
    }
}

/// 2^e, for e from −1074 to 1023.
pub fn power_of_two(e: i64) -> f64 {
    assert!((-1074..=1023).contains(&e));
    f64::from_bits(if e < -1022 {
        1 << (e + 1074)
    } else {
        ((e + 1023) as u64) << 52
    })
}

/// A number with this exponent (−1022 to 1023), its sign and its other digits random.
pub fn with_exponent(random: &mut Random, e: i64) -> f64 {
    let sign = random.word() & (1 << 63);
    let digits = random.word() >> 12;
    f64::from_bits(sign | power_of_two(e).to_bits() | digits)
}

/// A positive subnormal number of any length, by its bits.
pub fn subnormal(random: &mut Random) -> u64 {
    let digits = random.word() >> 12;
    let shorter = digits >> random.below(52);
    shorter.max(1)
}

/// The bits of a number that arithmetic made, so that they are the same on every machine: an x86-64 sets the sign of a NaN that
/// it makes, an Arm does not. By bits, since a compiler takes one NaN for another.
pub fn made_bits(x: f64) -> u64 {
    if x.is_nan() {
        NANS[0]
    } else {
        x.to_bits()
    }
}

/// NaN of both signs: the one that x86 makes, quiet and signalling ones, all digits and one digit.
pub const NANS: [u64; 10] = [
    0x7ff8_0000_0000_0000,
    0xfff8_0000_0000_0000,
    0x7ff8_0000_0000_0001,
    0xfff8_0000_0000_0001,
    0x7ff0_0000_0000_0001,
    0xfff0_0000_0000_0001,
    0x7fff_ffff_ffff_ffff,
    0xffff_ffff_ffff_ffff,
    0x7ff7_ffff_ffff_ffff,
    0xfff4_0000_0000_0000,
];

#[cfg(test)]
mod tests {
    use super::*;

    #[test]
    fn the_generator_is_splitmix64() {
        // Its first words for seed 0.
        let mut random = Random::new(0);
        assert_eq!(random.word(), 0xe220_a839_7b1d_cdaf);
        assert_eq!(random.word(), 0x6e78_9e6a_a1b9_65f4);
    }

    #[test]
    fn powers_of_two() {
        assert_eq!(power_of_two(0), 1.0);
        assert_eq!(power_of_two(1023), f64::MAX / (2.0 - f64::EPSILON));
        assert_eq!(power_of_two(-1022), f64::MIN_POSITIVE);
        assert_eq!(power_of_two(-1074).to_bits(), 1);
        assert_eq!(power_of_two(-1023) * 2.0, f64::MIN_POSITIVE);
    }

    #[test]
    fn every_nan_is_one() {
        assert!(NANS.iter().all(|&bits| f64::from_bits(bits).is_nan()));
    }
}
