//! Document 01's stand-ins, under the names by which the original calls libm.
//!
//! Each operation is rounded once, in the order in which the document gives
//! it. `core` has what is needed, so the crate is `no_std` as the original is.
//! The functions are `#[inline]` so that the original is not slowed by a call
//! that the port does not make.

#![no_std]

/// Given by its bits, as in the document.
const TAU: f64 = f64::from_bits(0x4019_21FB_5444_2D18);
const PI: f64 = f64::from_bits(0x4009_21FB_5444_2D18);

/// How often TAU is taken away before the argument counts as too large.
const TURNS: u32 = 64;

/// The divisors of the series, 15 * 14 down to 3 * 2.
const DIVISORS: [f64; 7] = [210.0, 156.0, 110.0, 72.0, 42.0, 20.0, 6.0];

/// Sine: negative x gives minus sine(-x).
#[inline]
pub fn sin(x: f64) -> f64 {
    if x < 0.0 {
        -sine_from_zero(-x)
    } else {
        sine_from_zero(x)
    }
}

/// Cosine x = sine(x + TAU/4).
#[inline]
pub fn cos(x: f64) -> f64 {
    sin(x + TAU / 4.0)
}

/// Sine of an x that is not negative.
#[inline]
fn sine_from_zero(x: f64) -> f64 {
    let mut x = x;
    let mut turns = 0;
    while x >= TAU && turns < TURNS {
        x -= TAU;
        turns += 1;
    }
    if x >= TAU {
        return 0.0;
    }
    if x >= PI {
        return -half_wave(x - PI);
    }
    half_wave(x)
}

/// Sine of an x from 0 to PI.
#[inline]
fn half_wave(x: f64) -> f64 {
    let x = if x > PI / 2.0 { PI - x } else { x };
    let t = x * x;
    let mut h = 1.0;
    for d in DIVISORS {
        h = 1.0 - t * h / d;
    }
    x * h
}

/// The document's root: half the exponent as a first guess, then five steps.
#[inline]
pub fn hypot(a: f64, b: f64) -> f64 {
    let v = a * a + b * b;
    if v == 0.0 {
        return 0.0;
    }
    let mut g = f64::from_bits(v.to_bits() / 2 + 0x1FF8_0000_0000_0000);
    for _ in 0..5 {
        g = 0.5 * (g + v / g);
    }
    g
}

/// From here on every f64 is whole.
const ALL_WHOLE: f64 = 4_503_599_627_370_496.0;

/// The whole number nearest to x, half away from zero.
#[inline]
pub fn round(x: f64) -> f64 {
    if x.is_nan() || x.abs() >= ALL_WHOLE {
        return x;
    }
    let whole = x as i64 as f64;
    let rest = x - whole;
    let nearest = if rest >= 0.5 {
        whole + 1.0
    } else if rest <= -0.5 {
        whole - 1.0
    } else {
        whole
    };
    nearest.copysign(x)
}

/// The least whole number that is not below x.
#[inline]
pub fn ceil(x: f64) -> f64 {
    if x.is_nan() || x.abs() >= ALL_WHOLE {
        return x;
    }
    let whole = x as i64 as f64;
    let above = if whole < x { whole + 1.0 } else { whole };
    above.copysign(x)
}

#[cfg(test)]
mod tests {
    extern crate std;

    /// The series ends at the fifteenth power, so it is a little off at PI/2.
    #[test]
    fn sine_and_cosine_are_near_the_library_s() {
        for i in -4000..4000 {
            let x = f64::from(i) * 0.017;
            assert!((super::sin(x) - x.sin()).abs() < 1e-11, "sine of {x}");
            assert!((super::cos(x) - x.cos()).abs() < 1e-11, "cosine of {x}");
        }
    }

    #[test]
    fn an_angle_past_the_last_turn_gives_zero() {
        assert_eq!(super::sin(65.5 * super::TAU), 0.0);
        assert!(super::sin(64.25 * super::TAU) > 0.99);
    }

    #[test]
    fn root_is_near_the_library_s() {
        for i in 1..2000 {
            let (a, b) = (f64::from(i) * 1e-5, f64::from(i * i) * -3e-7);
            assert!((super::hypot(a, b) / a.hypot(b) - 1.0).abs() < 1e-15);
        }
        assert_eq!(super::hypot(0.0, -0.0).to_bits(), 0);
    }

    #[test]
    fn round_and_ceil_are_the_library_s() {
        let mut xs = std::vec![0.0, -0.0, 0.49999999999999994, 4503599627370495.5, 1e300];
        for i in -3000..3000 {
            xs.push(f64::from(i) * 0.125);
        }
        for x in xs {
            assert_eq!(super::round(x).to_bits(), x.round().to_bits(), "round {x}");
            assert_eq!(super::ceil(x).to_bits(), x.ceil().to_bits(), "ceil {x}");
        }
    }
}
