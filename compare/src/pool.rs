//! Three gauges, one level: a judge of them, written from the request alone, and the port's function, on all triples of a few readings near each
//! other and on random ones, with ties, readings exactly 5 and 6 minutes older, and each of the three missing.

// Without the port there is nothing to compare.
#![cfg_attr(any(not(feature = "port"), feature = "slips"), allow(dead_code))]

use crate::random::Random;

const UNTOUCHED: i64 = -777_777;
const MISSING: (u32, i16) = (0, i16::MIN);

/// A gauge's water minute and level, if its reading is there.
type Gauge = Option<(u32, i16)>;

#[cfg(all(feature = "port", not(feature = "slips")))]
extern "C" {
    fn morkhetta_pool(
        water1: u32,
        level1: i16,
        water2: u32,
        level2: i16,
        water3: u32,
        level3: i16,
        pooled: *mut i64,
        pooled_len: usize,
    ) -> u32;
}

/// The number, and what is left in the places.
fn judged(gauges: [Gauge; 3], places: usize) -> (u32, Vec<i64>) {
    let mut told = vec![UNTOUCHED; places];
    let there: Vec<(i64, i64)> =
        gauges.iter().flatten().map(|&(w, level)| (i64::from(w), i64::from(level))).collect();
    let Some(newest) = there.iter().map(|r| r.0).max() else {
        return (46, told);
    };
    // "drop readings more than 5 minutes older"
    let kept: Vec<(i64, i64)> = there.into_iter().filter(|r| newest - r.0 <= 5).collect();
    let mut levels: Vec<i64> = kept.iter().map(|r| r.1).collect();
    levels.sort_unstable();
    // "Of three, show the middle level; of two, the lower; of one, that one."
    let level = levels[(levels.len() - 1) / 2];
    let minute = kept.iter().map(|r| r.0).min().expect("the newest is kept");
    if places >= 2 {
        told[..2].copy_from_slice(&[minute, level]);
    }
    (0, told)
}

#[cfg(all(feature = "port", not(feature = "slips")))]
fn port_pool(gauges: [Gauge; 3], places: usize) -> (u32, Vec<i64>) {
    let mut told = vec![UNTOUCHED; places];
    let [a, b, c] = gauges.map(|g| g.unwrap_or(MISSING));
    // Safety: pointer and length come from one slice, lent to nobody else meanwhile.
    let number =
        unsafe { morkhetta_pool(a.0, a.1, b.0, b.1, c.0, c.1, told.as_mut_ptr(), told.len()) };
    (number, told)
}

#[cfg(any(not(feature = "port"), feature = "slips"))]
use judged as port_pool;

/// How often three, two, one and none were there, a reading was dropped, and there were levels alike.
#[derive(Default)]
struct Seen {
    there: [usize; 4],
    dropped: usize,
    alike: usize,
}

fn same(gauges: [Gauge; 3], places: usize, seen: &mut Seen) -> Result<(), String> {
    let (judge, port) = (judged(gauges, places), port_pool(gauges, places));
    if judge != port {
        return Err(format!("{gauges:?}: {judge:?} by the judge, {port:?} by the port"));
    }
    let there: Vec<(u32, i16)> = gauges.into_iter().flatten().collect();
    seen.there[there.len()] += 1;
    let newest = there.iter().map(|r| r.0).max().unwrap_or(0);
    seen.dropped += usize::from(there.iter().any(|r| newest - r.0 > 5));
    let apart: std::collections::BTreeSet<i16> = there.iter().map(|r| r.1).collect();
    seen.alike += usize::from(apart.len() < there.len());
    Ok(())
}

/// A reading some minutes older than the newest, at a level that is often another's too.
fn some_gauge(random: &mut Random, newest: u32, near: i16) -> Gauge {
    if random.once_in(5) {
        return None;
    }
    let any = random.whole(0, u32::MAX);
    let older = random.pick(&[0, 0, 1, 4, 5, 5, 6, 6, 7, 255, any]);
    let wide = (random.whole(0, 65_534) as i32 - 32_767) as i16;
    let level = random.pick(&[near, near, near.saturating_add(1), 0, -1, 1, 32_767, -32_767, wide]);
    Some((newest.saturating_sub(older), level))
}

/// Every triple of readings of seven minutes and three levels, and of missing ones.
fn all_near(seen: &mut Seen) -> Result<(), String> {
    let near = (94..=100).flat_map(|w| (-1..=1).map(move |level| Some((w, level))));
    let gauges: Vec<Gauge> = near.chain([None]).collect();
    for &a in &gauges {
        for &b in &gauges {
            for &c in &gauges {
                same([a, b, c], 2, seen)?;
            }
        }
    }
    Ok(())
}

/// The whole comparison: what was seen, in words.
pub fn compare(seed: u64, rounds: usize) -> Result<String, String> {
    let mut seen = Seen::default();
    all_near(&mut seen)?;
    for index in 0..rounds as u64 {
        let mut random = Random::of_case(seed ^ 0x504F, index);
        let any = random.whole(0, u32::MAX);
        let newest = random.pick(&[u32::MAX, 12_582_907, 5, 6, 0, any]);
        let near = random.pick(&[0, 412, -32_767, 32_766]);
        let gauges = [(); 3].map(|()| some_gauge(&mut random, newest, near));
        let places = random.pick(&[2, 2, 2, 3, 1, 0]);
        same(gauges, places, &mut seen)
            .map_err(|words| format!("case {index} of seed {seed}: {words}"))?;
    }
    println!(
        "    none, one, two and three readings there: {:?}; {} with one dropped, {} with levels alike",
        seen.there, seen.dropped, seen.alike
    );
    Ok(format!("{} triples, 0 differences", seen.there.iter().sum::<usize>()))
}

#[cfg(test)]
mod tests {
    use super::judged;

    #[test]
    fn the_request_s_words() {
        let shown = |a, b, c| judged([a, b, c], 2);
        assert_eq!(shown(None, None, None).0, 46);
        assert_eq!(shown(Some((100, 3)), None, Some((95, 1))), (0, vec![95, 1]));
        assert_eq!(shown(Some((100, 3)), None, Some((94, 1))), (0, vec![100, 3]));
        assert_eq!(shown(Some((100, 3)), Some((98, -7)), Some((99, 1))), (0, vec![98, 1]));
    }
}
