//! Cases and the original's answers as two texts: the calls, which a program
//! reads from its standard input (`crates/replay`), and what it must print.
//!
//! A line of the calls is a letter and its fields, each after one blank; at
//! most 320 characters. Counts and rates are decimal; a byte is two hexadecimal
//! digits, an f32 the eight of its bits, an f64 the sixteen of its bits, all
//! lowercase. A line that begins with # is for readers, and stands in both.
//!
//! There is one block of samples, empty at first and behind each call.
//!
//!     S x x ..           these samples join the block
//!     N x n              n times the sample x joins the block
//!     B x h              f32 samples x and -x join the block, four for each
//!                        of the digits h, highest bit first: 1 is x, 0 is -x
//!
//! Receiver:
//!
//!     R rate role        a fresh receiver; role 0 originates, 1 answers
//!     W b e              the block is written; then at most b bytes are read
//!                        and e events drained
//!
//! Resampler:
//!
//!     Z src dst          a fresh resampler
//!     P room             the block is processed into an output of `room`
//!                        places
//!     M src dst n        max_output_len of n
//!
//! Sender. Its bytes join the block as samples do, two digits each; a call takes
//! or drops them.
//!
//!     T rate role        a fresh sender
//!     A x                the amplitude is set to the f32 x
//!     K                  the block's bytes are written
//!     I n                n bits of idle mark are written
//!     G n                n samples are read, and the bits of each printed
//!     H n                n samples are read, and the sum of their bits printed:
//!                        from 0, 31 times the sum so far plus the next sample's
//!                        bits, modulo 4,294,967,296, for each in turn
//!     L n                samples_for_bits of n
//!
//! What is printed has one line for each call, with 0 or the number of the
//! refusal, or a count, and of a sender whether bits wait afterwards; and behind
//! a resampler's call or a sender's G one line for each sample's bits.

use std::fmt::Write;

use crate::cases::{Heard, ReceiverCase, Resampled, ResamplerCase, SenderCase, Sent};
use crate::layout::*;
use crate::oracle::end_of;

/// Equal samples in a row from which on they are counted, and samples of two
/// values from which on they are written as bits.
const COUNTED: usize = 6;
const AS_BITS: usize = 16;
/// The most samples of a sender's read that are printed each.
const LISTED: usize = 64;
/// The most samples on a line of bits.
const ON_A_LINE: usize = 1_024;

/// Words for readers before a call: its number, and the words.
pub type Remark = (usize, String);

pub struct Text {
    pub calls: String,
    pub answers: String,
}

impl Text {
    pub fn new() -> Text {
        Text { calls: String::new(), answers: String::new() }
    }

    /// The bytes of both.
    pub fn len(&self) -> usize {
        self.calls.len() + self.answers.len()
    }

    fn call(&mut self, words: &str) {
        self.calls.push_str(words);
        self.calls.push('\n');
    }

    fn answer(&mut self, words: &str) {
        self.answers.push_str(words);
        self.answers.push('\n');
    }

    pub fn remark(&mut self, words: &str) {
        self.call(&format!("# {words}"));
        self.answer(&format!("# {words}"));
    }

    /// Fields on as many lines as are needed.
    fn fields(&mut self, letter: &str, fields: &[String], most: usize) {
        for some in fields.chunks(most) {
            self.call(&format!("{letter} {}", some.join(" ")));
        }
    }

    /// A receiver's calls and what they answered. A case has one call at
    /// least, so that a refused rate is seen by none that ran.
    pub fn receiver(&mut self, case: &ReceiverCase, heard: &Heard, remarks: &[Remark]) {
        let refused = u8::from(heard.calls == 0);
        self.call(&format!("R {} {}", case.rate, case.role));
        self.answer(&format!("receiver {} {}: {refused}", case.rate, case.role));
        let (mut sample, mut byte, mut event) = (0, 0, 0);
        let answers = heard.answers.chunks_exact(HEARD).take(heard.calls);
        for (i, (call, answer)) in case.script.chunks_exact(CALL).zip(answers).enumerate() {
            for (_, words) in remarks.iter().filter(|(at, _)| *at == i) {
                self.remark(words);
            }
            let end = case.samples.len().min(sample + call[0] as usize);
            self.samples(&case.samples[sample..end]);
            self.call(&format!("W {} {}", call[1], call[2]));
            let mut line = format!(
                "write {}: {}, carrier {}, errors {}, bytes",
                end - sample,
                answer[0],
                answer[3],
                answer[4]
            );
            sample = end;
            for b in &heard.bytes[byte..byte + answer[1] as usize] {
                let _ = write!(line, " {b:02x}");
            }
            byte += answer[1] as usize;
            line += ", events";
            for &e in &heard.events[event..event + answer[2] as usize] {
                line += if e == 1 { " up" } else { " down" };
            }
            event += answer[2] as usize;
            self.answer(&line);
        }
    }

    fn samples(&mut self, samples: &[f32]) {
        let bits: Vec<u32> = samples.iter().map(|s| s.to_bits()).collect();
        let mut rest = &bits[..];
        while !rest.is_empty() {
            let n = match form_of(rest) {
                Form::Counted(n) => {
                    self.call(&format!("N {:08x} {n}", rest[0]));
                    n
                }
                Form::Bits(n) => {
                    let size = rest[0] & SIZE;
                    self.call(&format!("B {size:08x} {}", digits(&rest[..n], size)));
                    n
                }
                Form::Whole => {
                    // Up to the next place that another form can take.
                    let most = rest.len().min(32);
                    let other = |&i: &usize| !matches!(form_of(&rest[i..]), Form::Whole);
                    let n = (1..most).find(other).unwrap_or(most);
                    let some: Vec<String> = rest[..n].iter().map(|x| format!("{x:08x}")).collect();
                    self.fields("S", &some, 32);
                    n
                }
            };
            rest = &rest[n..];
        }
    }

    /// A resampler's calls and what they answered. A case has one call at
    /// least, as above.
    pub fn resampler(&mut self, case: &ResamplerCase, resampled: &Resampled) {
        let refused = u8::from(resampled.calls == 0);
        self.call(&format!("Z {} {}", case.src, case.dst));
        self.answer(&format!("resampler {} {}: {refused}", case.src, case.dst));
        let (mut read, mut written) = (0, 0);
        let answers = resampled.answers.chunks_exact(TOLD).take(resampled.calls);
        for (&len, told) in case.lengths.iter().zip(answers) {
            let end = case.input.len().min(read + len as usize);
            self.input(&case.input[read..end]);
            let room = case.room - written;
            self.call(&format!("P {room}"));
            self.answer(&format!("process {}, room {room}: {}", end - read, counted(told)));
            read = end;
            let end = written + told[1] as usize;
            for y in &resampled.output[written..end] {
                self.answer(&bits_of(*y));
            }
            written = end;
        }
    }

    /// The bound on an output's length; `told` is empty where the rates are
    /// refused, and that is no case here.
    pub fn longest(&mut self, src: u32, dst: u32, len: u32, told: &[u64]) {
        self.call(&format!("M {src} {dst} {len}"));
        self.answer(&format!("longest {src} {dst} {len}: {}", counted(told)));
    }

    fn input(&mut self, input: &[f64]) {
        let bits: Vec<u64> = input.iter().map(|x| x.to_bits()).collect();
        for equal in bits.chunk_by(|a, b| a == b) {
            if equal.len() >= COUNTED {
                self.call(&format!("N {:016x} {}", equal[0], equal.len()));
            } else {
                self.joined(equal.iter().map(|x| format!("{x:016x}")));
            }
        }
    }

    /// Joins samples or bytes to the last line, if it has such and room.
    fn joined(&mut self, fields: impl Iterator<Item = String>) {
        for field in fields {
            let last = self.calls.lines().last().unwrap_or("");
            if last.starts_with('S') && last.len() < 16 * 17 {
                self.calls.pop();
                let _ = writeln!(self.calls, " {field}");
            } else {
                self.call(&format!("S {field}"));
            }
        }
    }

    /// A sender's steps and what they answered, up to the last one that ran. A
    /// case has one step at least, as above.
    pub fn sender(&mut self, case: &SenderCase, sent: &Sent) {
        let refused = u8::from(sent.steps == 0);
        self.call(&format!("T {} {}", case.rate, case.role));
        self.answer(&format!("sender {} {}: {refused}", case.rate, case.role));
        let (mut byte, mut sample) = (0, 0);
        let answers = sent.answers.chunks_exact(SENT).take(sent.steps);
        for (step, told) in case.script.chunks_exact(STEP).zip(answers) {
            let (n, number, wait) = (step[1], told[0], told[2]);
            match step[0] {
                WRITE => {
                    let end = end_of(byte, n, case.data.len());
                    self.bytes(&case.data[byte..end]);
                    self.call("K");
                    self.answer(&format!("send {}: {number}, wait {wait}", end - byte));
                    byte = end;
                }
                IDLE_MARK => {
                    self.call(&format!("I {n}"));
                    self.answer(&format!("idle mark {n}: {number}, wait {wait}"));
                }
                AMPLITUDE => {
                    let x = format!("{:08x}", n as u32);
                    self.call(&format!("A {x}"));
                    self.answer(&format!("amplitude {x}: {number}, wait {wait}"));
                }
                READ => {
                    let end = end_of(sample, n, case.room);
                    self.read(&sent.samples[sample..end], number, wait);
                    sample = end;
                }
                _ => {
                    self.call(&format!("L {n}"));
                    let count = counted(&told[..TOLD]);
                    self.answer(&format!("samples for {n} bits: {count}, wait {wait}"));
                }
            }
        }
    }

    /// Few samples each, more by their sum.
    fn read(&mut self, samples: &[f32], number: u64, wait: u64) {
        let n = samples.len();
        let few = n <= LISTED;
        self.call(&format!("{} {n}", if few { "G" } else { "H" }));
        if number != 0 || few {
            self.answer(&format!("read {n}: {number}, wait {wait}"));
        } else {
            let sum = sum_of(samples);
            self.answer(&format!("read {n}: {number}, wait {wait}, sum {sum:08x}"));
        }
        if number == 0 && few {
            for y in samples {
                self.answer(&format!("{:08x}", y.to_bits()));
            }
        }
    }

    fn bytes(&mut self, bytes: &[u8]) {
        for equal in bytes.chunk_by(|a, b| a == b) {
            if equal.len() >= COUNTED {
                self.call(&format!("N {:02x} {}", equal[0], equal.len()));
            } else {
                self.joined(equal.iter().map(|b| format!("{b:02x}")));
            }
        }
    }
}

/// `H`'s sum of the samples' bits.
fn sum_of(samples: &[f32]) -> u32 {
    samples.iter().fold(0, |sum: u32, y| sum.wrapping_mul(31).wrapping_add(y.to_bits()))
}

/// An answer of two numbers: the count, or the number of the refusal.
fn counted(told: &[u64]) -> String {
    match told[0] {
        0 => told[1].to_string(),
        number => format!("refused {number}"),
    }
}

fn bits_of(y: f64) -> String {
    format!("{:016x}", y.to_bits())
}

/// The bits of an f32 without its sign.
const SIZE: u32 = 0x7FFF_FFFF;

/// How the next samples are written.
enum Form {
    /// So many equal ones.
    Counted(usize),
    /// So many of two values, as bits.
    Bits(usize),
    Whole,
}

fn form_of(rest: &[u32]) -> Form {
    let equal = equal_from(rest);
    let of_two_values =
        rest.iter().take(ON_A_LINE).take_while(|&&x| x & SIZE == rest[0] & SIZE).count();
    if equal >= 64 || (equal >= COUNTED && of_two_values < AS_BITS) {
        return Form::Counted(equal);
    }
    if of_two_values < AS_BITS {
        return Form::Whole;
    }
    // Bits end where many equal ones begin.
    let end = (1..of_two_values).find(|&i| equal_from(&rest[i..]) >= 64).unwrap_or(of_two_values);
    match end / 4 * 4 {
        0 => Form::Whole,
        n => Form::Bits(n),
    }
}

/// How many samples are equal from here on.
fn equal_from(rest: &[u32]) -> usize {
    rest.iter().take_while(|&&x| x == rest[0]).count()
}

/// Four samples to a digit, highest bit first: 1 where the sample is positive.
fn digits(samples: &[u32], size: u32) -> String {
    samples
        .chunks_exact(4)
        .map(|four| {
            let digit = four.iter().fold(0, |d, &x| 2 * d + u32::from(x == size));
            format!("{digit:x}")
        })
        .collect()
}
