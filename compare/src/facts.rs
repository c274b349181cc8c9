//! Two places where this Rust and document 01 differ, and why neither is seen.
//!
//! **Sums.** `iter().sum()` starts at -0.0 in Rust 1.95, a sum of document 01
//! at 0.0. The two differ only while all terms so far are -0.0, and then only
//! in the sign of a zero. The original sums twice. The filter's coefficients
//! are not all zero. The powers of the two own probes are never -0.0: a sum of
//! squares is not, and what is taken from it leaves +0.0 where nothing is left.
//!
//! **Maximum.** `f64::max` gives the other one where one is NaN and either one
//! of two zeros; document 01 keeps the first unless the second is greater. No
//! NaN arises from samples within ±1, and the original only compares the
//! results by size, for which both zeros are the same.

use original::nco::Goertzel;
use original::resample::Resampler;

use crate::random::Random;

const MINUS_ZERO: u64 = 0x8000_0000_0000_0000;

#[test]
fn sums_of_this_rust_start_at_minus_zero() {
    assert_eq!([].iter().sum::<f64>().to_bits(), MINUS_ZERO);
}

#[test]
fn no_filter_is_all_zeros() {
    for rate in 8_001..=48_000 {
        let filter = Resampler::new(f64::from(rate), 8_000.0);
        assert!(filter.taps.iter().any(|&tap| tap != 0.0), "rate {rate}");
    }
}

#[test]
fn no_power_is_minus_zero() {
    let mut random = Random::new(1);
    let mut probe = Goertzel::new(1_270.0, 8_000.0);
    let small = [0.0, -0.0, 5e-324, -5e-324, 1.6e-162, -1.6e-162, 1e-150];
    for turn in 0..1_000_000 {
        (probe.s1, probe.s2) = if turn % 2 == 0 {
            (random.pick(&small), random.pick(&small))
        } else {
            (random.between(-300.0, 300.0), random.between(-300.0, 300.0))
        };
        let power = probe.power();
        assert_ne!(power.to_bits(), MINUS_ZERO);
        assert_eq!([power, power].iter().sum::<f64>().to_bits(), (0.0 + power + power).to_bits());
        let kept = if power > 0.0 { power } else { 0.0 };
        assert_eq!(0.0f64.max(power).to_bits(), kept.to_bits());
    }
}
