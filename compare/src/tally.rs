//! What the receiver cases of one kind brought about, and the sender cases, so
//! that a reader sees that they reach the parts that they are there for.

use std::collections::BTreeMap;

use crate::cases::{Heard, ReceiverCase, SenderCase, Sent};
use crate::layout::{HEARD, READ, SENT, STEP};

#[derive(Default)]
pub struct Tally {
    cases: u32,
    seconds: f64,
    writes: usize,
    bytes: usize,
    errors: u64,
    ups: usize,
    downs: usize,
    /// Cases in which the queue dropped its oldest event.
    overflows: u32,
    refused: BTreeMap<u64, usize>,
}

impl Tally {
    pub fn add(&mut self, case: &ReceiverCase, heard: &Heard) {
        self.cases += 1;
        self.seconds += case.samples.len() as f64 / f64::from(case.rate);
        let (mut drained, mut changes, mut carrier) = (0, 0, 0);
        for call in heard.answers.chunks_exact(HEARD) {
            self.writes += 1;
            if call[0] != 0 {
                *self.refused.entry(call[0]).or_default() += 1;
            }
            self.bytes += call[1] as usize;
            drained += call[2] as usize;
            changes += usize::from(call[3] != carrier);
            carrier = call[3];
            self.errors += call[5];
        }
        let ups = heard.events[..drained].iter().filter(|&&e| e == 1).count();
        self.ups += ups;
        self.downs += drained - ups;
        // A change of the report that never came out as an event was dropped.
        self.overflows += u32::from(changes > drained);
    }

    pub fn join(&mut self, other: &Tally) {
        self.cases += other.cases;
        self.seconds += other.seconds;
        self.writes += other.writes;
        self.bytes += other.bytes;
        self.errors += other.errors;
        self.ups += other.ups;
        self.downs += other.downs;
        self.overflows += other.overflows;
        for (&number, &n) in &other.refused {
            *self.refused.entry(number).or_default() += n;
        }
    }

    pub fn any(&self) -> bool {
        self.cases > 0
    }

    /// What a whole comparison must bring about.
    pub fn reached(&self) -> Vec<(&'static str, bool)> {
        let refused = |number| self.refused.contains_key(&number);
        vec![
            ("a byte", self.bytes > 0),
            ("a framing error", self.errors > 0),
            ("a carrier that rises", self.ups > 0),
            ("a carrier that is lost", self.downs > 0),
            ("a queue of events that overflows", self.overflows > 0),
            ("refusal 3", refused(3)),
            ("refusal 4", refused(4)),
            ("refusal 32", refused(32)),
        ]
    }

    pub fn heading() {
        println!(
            "{:30} {:>5} {:>7} {:>8} {:>7} {:>7} {:>5} {:>5} {:>5}  refused",
            "kind", "cases", "seconds", "writes", "bytes", "errors", "ups", "downs", "over"
        );
    }

    pub fn print(&self, name: &str) {
        let refused: Vec<String> =
            self.refused.iter().map(|(number, n)| format!("{number}: {n}")).collect();
        println!(
            "{name:30} {:>5} {:>7.0} {:>8} {:>7} {:>7} {:>5} {:>5} {:>5}  {}",
            self.cases,
            self.seconds,
            self.writes,
            self.bytes,
            self.errors,
            self.ups,
            self.downs,
            self.overflows,
            refused.join(", ")
        );
    }
}

#[derive(Default)]
pub struct SentTally {
    steps: usize,
    samples: u64,
    /// Steps behind which bits waited.
    waits: usize,
    refused: BTreeMap<u64, usize>,
}

impl SentTally {
    pub fn of(case: &SenderCase, sent: &Sent) -> SentTally {
        let mut tally = SentTally { steps: sent.steps, ..SentTally::default() };
        let answers = sent.answers.chunks_exact(SENT).take(sent.steps);
        for (step, told) in case.script.chunks_exact(STEP).zip(answers) {
            tally.samples += if step[0] == READ { told[1] } else { 0 };
            tally.waits += told[2] as usize;
            if told[0] != 0 {
                *tally.refused.entry(told[0]).or_default() += 1;
            }
        }
        tally
    }

    pub fn join(&mut self, other: &SentTally) {
        self.steps += other.steps;
        self.samples += other.samples;
        self.waits += other.waits;
        for (&number, &n) in &other.refused {
            *self.refused.entry(number).or_default() += n;
        }
    }

    /// What a whole comparison must bring about.
    pub fn reached(&self) -> Vec<(&'static str, bool)> {
        let refused = |number| self.refused.contains_key(&number);
        vec![
            ("bits that wait", self.waits > 0),
            ("refusal 3", refused(3)),
            ("refusal 6", refused(6)),
            ("refusal 7", refused(7)),
            ("refusal 33", refused(33)),
        ]
    }

    pub fn words(&self) -> String {
        format!(
            "{} steps, bits waiting behind {}; {} samples; refused {:?}",
            self.steps, self.waits, self.samples, self.refused
        )
    }
}
