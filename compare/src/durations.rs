//! How many samples bits last: a model written from the request alone, with the total's product in 128 bits and the rounded count in f64 as
//! the original works it out, and the port's two functions, on random rates and lists and at and past every limit.

use crate::random::Random;

const UNTOUCHED: u64 = 777_777;
const MOST_LENGTHS: usize = 1_000;
const LONGEST: u64 = 1_048_576;

#[cfg(all(feature = "port", not(feature = "slips")))]
extern "C" {
    fn morkhetta_exact(rate: u32, n: u64, out: *mut u64, out_len: usize) -> u32;

    fn morkhetta_exact_sum(
        rate: u32,
        lengths: *const u64,
        lengths_len: usize,
        out: *mut u64,
        out_len: usize,
    ) -> u32;
}

/// The number, and what is then in the places lent.
type Told = (u32, Vec<u64>);

#[cfg(all(feature = "port", not(feature = "slips")))]
fn port_exact(rate: u32, n: u64, places: usize) -> Told {
    let mut out = vec![UNTOUCHED; places];
    // Safety: pointer and length come from one slice, lent to nobody else meanwhile.
    let number = unsafe { morkhetta_exact(rate, n, out.as_mut_ptr(), out.len()) };
    (number, out)
}

#[cfg(all(feature = "port", not(feature = "slips")))]
fn port_sum(rate: u32, lengths: &[u64], places: usize) -> Told {
    let mut out = vec![UNTOUCHED; places];
    // Safety: each pointer and length come from one slice, and no slice overlaps another.
    let number = unsafe {
        morkhetta_exact_sum(rate, lengths.as_ptr(), lengths.len(), out.as_mut_ptr(), out.len())
    };
    (number, out)
}

#[cfg(any(not(feature = "port"), feature = "slips"))]
use {model_exact as port_exact, model_sum as port_sum};

/// Numbers at the front of so many places, where there is room for all of them.
fn told(numbers: &[u64], places: usize) -> Told {
    let mut out = vec![UNTOUCHED; places];
    if numbers.len() <= places {
        out[..numbers.len()].copy_from_slice(numbers);
    }
    (0, out)
}

fn refused(number: u32, places: usize) -> Told {
    (number, vec![UNTOUCHED; places])
}

/// "the quotient and the remainder of n × rate by 300", of the total.
fn divided(rate: u32, total: u128) -> [u64; 2] {
    let product = total * u128::from(rate);
    [(product / 300) as u64, (product % 300) as u64]
}

fn model_exact(rate: u32, n: u64, places: usize) -> Told {
    if !(8_000..=48_000).contains(&rate) {
        return refused(1, places);
    }
    if n > LONGEST {
        return refused(7, places);
    }
    let [quotient, remainder] = divided(rate, u128::from(n));
    let rounded = (n as f64 * f64::from(rate) / 300.0).round() as u64;
    told(&[quotient, remainder, rounded], places)
}

fn model_sum(rate: u32, lengths: &[u64], places: usize) -> Told {
    if !(8_000..=48_000).contains(&rate) {
        return refused(1, places);
    }
    if lengths.len() > MOST_LENGTHS {
        return refused(42, places);
    }
    if lengths.iter().any(|&n| n > LONGEST) {
        return refused(7, places);
    }
    told(&divided(rate, lengths.iter().map(|&n| u128::from(n)).sum()), places)
}

/// How often each answer was given.
#[derive(Default)]
struct Seen {
    exact: [usize; 3],
    sums: [usize; 4],
    carried: usize,
    halves: usize,
}

fn same(what: &str, model: Told, port: Told) -> Result<Told, String> {
    if model == port {
        return Ok(model);
    }
    Err(format!("{what}: {model:?} by the model, {port:?} by the port"))
}

fn one_exact(rate: u32, n: u64, places: usize, seen: &mut Seen) -> Result<(), String> {
    let what = format!("{n} bits at {rate}, {places} places");
    let told = same(&what, model_exact(rate, n, places), port_exact(rate, n, places))?;
    seen.exact[[0, 1, 7].iter().position(|&k| k == told.0).expect("one of the three")] += 1;
    seen.halves += usize::from(told.0 == 0 && places > 1 && told.1[1] == 150);
    Ok(())
}

fn one_sum(rate: u32, lengths: &[u64], places: usize, seen: &mut Seen) -> Result<(), String> {
    let what = format!("{} lengths {lengths:?} at {rate}, {places} places", lengths.len());
    let told = same(&what, model_sum(rate, lengths, places), port_sum(rate, lengths, places))?;
    seen.sums[[0, 1, 42, 7].iter().position(|&k| k == told.0).expect("one of the four")] += 1;
    if told.0 == 0 && places > 1 {
        let whole: u64 = lengths.iter().map(|&n| divided(rate, u128::from(n))[0]).sum();
        seen.carried += usize::from(told.1[0] > whole);
    }
    Ok(())
}

const RATES: [u32; 10] = [0, 7_999, 8_000, 8_001, 11_025, 44_100, 47_999, 48_000, 48_001, u32::MAX];
const LENGTHS: [u64; 9] = [0, 1, 2, 3, 299, 1_048_575, LONGEST, LONGEST + 1, u64::MAX];
const COUNTS: [usize; 6] = [0, 1, 2, 999, 1_000, 1_001];

fn some_rate(random: &mut Random) -> u32 {
    if random.once_in(8) {
        return random.pick(&RATES);
    }
    random.whole(8_000, 48_000)
}

fn some_length(random: &mut Random) -> u64 {
    match random.whole(0, 3) {
        0 => u64::from(random.whole(0, 400)),
        1 => random.pick(&LENGTHS[..7]),
        _ => u64::from(random.whole(0, 1_048_576)),
    }
}

/// Lists of one length, as many as each limit says and one more, with one that is too large at the front, at the end or nowhere.
fn limits(seen: &mut Seen) -> Result<(), String> {
    for rate in RATES {
        for n in LENGTHS {
            for places in 0..=4 {
                one_exact(rate, n, places, seen)?;
            }
            for count in COUNTS {
                one_sum(rate, &vec![n; count], 2, seen)?;
                for at in [0, count.saturating_sub(1)] {
                    let mut lengths = vec![270; count];
                    if let Some(place) = lengths.get_mut(at) {
                        *place = n;
                    }
                    one_sum(rate, &lengths, 3, seen)?;
                }
            }
        }
    }
    Ok(())
}

/// At each rate some lengths, and a day's lines.
fn all_rates(seed: u64, seen: &mut Seen) -> Result<(), String> {
    for rate in 8_000..=48_000 {
        let mut random = Random::of_case(seed ^ 0x4452, u64::from(rate));
        for n in [1, 270, LONGEST, some_length(&mut random)] {
            one_exact(rate, n, 3, seen)?;
        }
        one_sum(rate, &[270; 144], 2, seen)?;
    }
    Ok(())
}

/// The whole comparison; what was seen, in words.
pub fn compare(seed: u64, cases: usize) -> Result<String, String> {
    let mut seen = Seen::default();
    limits(&mut seen)?;
    all_rates(seed, &mut seen)?;
    for index in 0..cases {
        let mut random = Random::of_case(seed ^ 0x4455, index as u64);
        for _ in 0..100 {
            let (rate, n) = (some_rate(&mut random), some_length(&mut random));
            let n = if random.once_in(20) { random.next() } else { n };
            one_exact(rate, n, 3, &mut seen)?;
        }
        let count = match random.whole(0, 5) {
            0 => random.pick(&COUNTS),
            1 => random.whole(990, 1_010) as usize,
            _ => random.whole(0, 1_000) as usize,
        };
        let mut lengths: Vec<u64> = (0..count).map(|_| some_length(&mut random)).collect();
        if count > 0 && random.once_in(6) {
            let at = random.whole(0, count as u32 - 1) as usize;
            lengths[at] = random.pick(&[LONGEST + 1, u64::MAX, 1 << 63]);
        }
        let places = random.pick(&[2, 2, 3, 1, 0]);
        one_sum(some_rate(&mut random), &lengths, places, &mut seen)?;
    }
    let Seen { exact, sums, carried, halves } = seen;
    if exact.iter().chain(&sums).chain([&carried, &halves]).any(|&n| n == 0) {
        return Err(format!("LEFT OUT: exact {exact:?}, sums {sums:?}, {carried}, {halves}"));
    }
    Ok(format!(
        "{} lengths ({} answered 1, {} 7; {halves} half samples), {} lists ({} answered 1, {} 42, {} 7; {carried} with a carry), 0 differences",
        exact.iter().sum::<usize>(),
        exact[1],
        exact[2],
        sums.iter().sum::<usize>(),
        sums[1],
        sums[2],
        sums[3],
    ))
}
