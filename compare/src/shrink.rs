//! Makes a differing case smaller while it still differs.
//!
//! Each kind of case offers smaller ones; whichever still differs replaces
//! it. Large steps come first, and the steps become finer from round to round,
//! until none helps or the time is up.

use std::ops::Range;
use std::time::{Duration, Instant};

use crate::cases::{ReceiverCase, ResamplerCase, SenderCase};
use crate::difference::{of_heard, of_resampled, of_sent, of_stopped, Difference};
use crate::layout::{CALL, ORIGINATE, READ, SENT, STEP, TOLD, WRITE};
use crate::side::{ORIGINAL, PORT};

const TIME: Duration = Duration::from_secs(20);

pub trait Case: Clone {
    fn difference(&self) -> Difference;
    /// The same with simpler settings, in several ways; None where a way does
    /// not make it simpler.
    const WAYS: usize;
    fn simpler(&self, way: usize) -> Option<Self>;
    fn calls(&self) -> usize;
    /// Without some calls, and without what was handed to them.
    fn without_calls(&self, some: Range<usize>) -> Self;
    fn samples(&self) -> usize;
    fn without_samples(&self, some: Range<usize>) -> Self;
    /// With some samples made zero; None if they are.
    fn silenced(&self, some: Range<usize>) -> Option<Self>;
}

/// The smallest case that was found, and its difference.
pub fn shrink<C: Case>(case: &C, difference: String) -> (C, String) {
    let mut search = Search { best: case.clone(), difference, until: Instant::now() + TIME };
    let mut stretches = 8;
    while !search.time_is_up() {
        let better = search.round(stretches);
        if !better && stretches > case.samples() && stretches > case.calls() {
            break;
        }
        stretches = stretches.saturating_mul(8);
    }
    (search.best, search.difference)
}

struct Search<C: Case> {
    best: C,
    difference: String,
    until: Instant,
}

impl<C: Case> Search<C> {
    /// Whether anything became smaller by steps on up to so many stretches.
    fn round(&mut self, stretches: usize) -> bool {
        let mut better = false;
        for way in 0..C::WAYS {
            better |= self.try_one(self.best.simpler(way));
        }
        let without_calls = |case: &C, some| Some(case.without_calls(some));
        let without_samples = |case: &C, some| Some(case.without_samples(some));
        better |= self.in_stretches(stretches, C::calls, without_calls);
        better |= self.in_stretches(stretches, C::samples, without_samples);
        better |= self.in_stretches(stretches, C::samples, C::silenced);
        better
    }

    fn time_is_up(&self) -> bool {
        Instant::now() > self.until
    }

    fn try_one(&mut self, case: Option<C>) -> bool {
        let Some(case) = case else {
            return false;
        };
        match case.difference() {
            Some(difference) => {
                self.best = case;
                self.difference = difference;
                true
            }
            None => false,
        }
    }

    /// Tries a step on longer stretches first, from the end on, since what
    /// comes after the difference is the easiest to lose.
    fn in_stretches(
        &mut self,
        stretches: usize,
        count: fn(&C) -> usize,
        step: fn(&C, Range<usize>) -> Option<C>,
    ) -> bool {
        let mut better = false;
        let mut len = count(&self.best);
        while len > 0 && count(&self.best) / len <= stretches {
            let mut to = count(&self.best);
            while to > 0 && !self.time_is_up() {
                let from = to.saturating_sub(len);
                better |= self.try_one(step(&self.best, from..to));
                to = from;
            }
            len /= 2;
        }
        better
    }
}

/// Where call `call` begins when what is handed to the calls lies end to end.
fn start_of(lengths: impl Iterator<Item = u64>, call: usize, end: usize) -> usize {
    lengths.take(call).fold(0, u64::saturating_add).min(end as u64) as usize
}

fn without<T: Clone>(list: &[T], some: Range<usize>) -> Vec<T> {
    [&list[..some.start], &list[some.end..]].concat()
}

impl Case for ReceiverCase {
    fn difference(&self) -> Difference {
        of_heard(&self.run(&ORIGINAL), &self.run(&PORT))
    }

    const WAYS: usize = 6;
    fn simpler(&self, way: usize) -> Option<ReceiverCase> {
        let full_calls = self.samples.len().div_ceil(1_024);
        let case = match way {
            0 => ReceiverCase { rate: 8_000, ..self.clone() },
            1 => ReceiverCase { role: ORIGINATE, ..self.clone() },
            2 if full_calls < self.calls() => {
                ReceiverCase { script: [1_024, 600, 100].repeat(full_calls), ..self.clone() }
            }
            3 => self.with_each(|s| if s < 0.0 { -1.0 } else { 1.0 }),
            4 => self.with_each(|s| (s * 8.0).round() / 8.0),
            5 => self.with_each(|s| (s * 256.0).round() / 256.0),
            _ => return None,
        };
        (!case.is(self)).then_some(case)
    }

    fn calls(&self) -> usize {
        self.script.len() / CALL
    }

    fn without_calls(&self, some: Range<usize>) -> ReceiverCase {
        let lengths = || self.script.chunks_exact(CALL).map(|call| u64::from(call[0]));
        let end = self.samples.len();
        let handed = start_of(lengths(), some.start, end)..start_of(lengths(), some.end, end);
        ReceiverCase {
            samples: without(&self.samples, handed),
            script: without(&self.script, some.start * CALL..some.end * CALL),
            ..*self
        }
    }

    fn samples(&self) -> usize {
        self.samples.len()
    }

    fn without_samples(&self, some: Range<usize>) -> ReceiverCase {
        ReceiverCase { samples: without(&self.samples, some), ..self.clone() }
    }

    fn silenced(&self, some: Range<usize>) -> Option<ReceiverCase> {
        let mut case = self.clone();
        case.samples[some].fill(0.0);
        (!case.is(self)).then_some(case)
    }
}

impl ReceiverCase {
    fn with_each(&self, change: fn(f32) -> f32) -> ReceiverCase {
        ReceiverCase { samples: self.samples.iter().map(|&s| change(s)).collect(), ..self.clone() }
    }

    fn is(&self, other: &ReceiverCase) -> bool {
        let bits = |case: &ReceiverCase| -> Vec<u32> {
            case.samples.iter().map(|s| s.to_bits()).collect()
        };
        self.rate == other.rate
            && self.role == other.role
            && self.script == other.script
            && bits(self) == bits(other)
    }
}

impl Case for ResamplerCase {
    fn difference(&self) -> Difference {
        of_resampled(&self.run(&ORIGINAL), &self.run(&PORT))
    }

    const WAYS: usize = 1;
    fn simpler(&self, _: usize) -> Option<ResamplerCase> {
        let input = self.input.iter().map(|x| x.round()).collect();
        let case = ResamplerCase { input, ..self.clone() };
        (!case.is(self)).then_some(case)
    }

    fn calls(&self) -> usize {
        self.lengths.len()
    }

    fn without_calls(&self, some: Range<usize>) -> ResamplerCase {
        let lengths = || self.lengths.iter().map(|&n| u64::from(n));
        let end = self.input.len();
        let handed = start_of(lengths(), some.start, end)..start_of(lengths(), some.end, end);
        ResamplerCase {
            input: without(&self.input, handed),
            answers: self.answers.saturating_sub(some.len() * TOLD),
            lengths: without(&self.lengths, some),
            ..*self
        }
    }

    fn samples(&self) -> usize {
        self.input.len()
    }

    fn without_samples(&self, some: Range<usize>) -> ResamplerCase {
        ResamplerCase { input: without(&self.input, some), ..self.clone() }
    }

    fn silenced(&self, some: Range<usize>) -> Option<ResamplerCase> {
        let mut case = self.clone();
        case.input[some].fill(0.0);
        (!case.is(self)).then_some(case)
    }
}

impl ResamplerCase {
    /// For two cases with the same settings.
    fn is(&self, other: &ResamplerCase) -> bool {
        self.input.iter().zip(&other.input).all(|(a, b)| a.to_bits() == b.to_bits())
    }
}

impl Case for SenderCase {
    fn difference(&self) -> Difference {
        of_sent(&self.run(&ORIGINAL), &self.run(&PORT))
            .or_else(|| of_stopped(&self.stop(&ORIGINAL), &self.stop(&PORT)))
    }

    const WAYS: usize = 2;
    fn simpler(&self, way: usize) -> Option<SenderCase> {
        match way {
            0 if self.rate != 8_000 => Some(SenderCase { rate: 8_000, ..self.clone() }),
            1 if self.role != ORIGINATE => Some(SenderCase { role: ORIGINATE, ..self.clone() }),
            _ => None,
        }
    }

    fn calls(&self) -> usize {
        self.script.len() / STEP
    }

    fn without_calls(&self, some: Range<usize>) -> SenderCase {
        let numbers = |kind| {
            let of_kind = move |step: &[u64]| if step[0] == kind { step[1] } else { 0 };
            self.script.chunks_exact(STEP).map(of_kind)
        };
        let handed = |kind, end| {
            start_of(numbers(kind), some.start, end)..start_of(numbers(kind), some.end, end)
        };
        SenderCase {
            data: without(&self.data, handed(WRITE, self.data.len())),
            room: self.room - handed(READ, self.room).len(),
            answers: self.answers.saturating_sub(some.len() * SENT),
            script: without(&self.script, some.start * STEP..some.end * STEP),
            ..*self
        }
    }

    // What a sender is given are bytes; they go with their calls.
    fn samples(&self) -> usize {
        0
    }

    fn without_samples(&self, _: Range<usize>) -> SenderCase {
        self.clone()
    }

    fn silenced(&self, _: Range<usize>) -> Option<SenderCase> {
        None
    }
}
