//! A recording as calls: what a receiver is to hear in it, and the original's
//! answers, in the text of the vectors.

use std::path::Path;
use std::process::ExitCode;

use crate::cases::ReceiverCase;
use crate::layout::*;
use crate::side::ORIGINAL;
use crate::text::Text;

/// Reads f32 samples, lowest byte first, and writes `stdin` and `stdout` into
/// the folder: full calls, everything taken after each.
pub fn run(file: &str, rate: u32, role: u32, folder: &str) -> ExitCode {
    let bytes = match std::fs::read(file) {
        Ok(bytes) => bytes,
        Err(e) => return failed(file, e),
    };
    let samples: Vec<f32> = bytes
        .chunks_exact(4)
        .map(|four| f32::from_le_bytes(four.try_into().expect("four bytes")))
        .collect();
    let script = [1_024, 600, 64].repeat(samples.len().div_ceil(1_024));
    let case = ReceiverCase { rate, role: role.min(ANSWER), samples, script };
    let mut text = Text::new();
    text.receiver(&case, &case.run(&ORIGINAL), &[]);
    for (name, text) in [("stdin", &text.calls), ("stdout", &text.answers)] {
        if let Err(e) = std::fs::write(Path::new(folder).join(name), text) {
            return failed(folder, e);
        }
    }
    ExitCode::SUCCESS
}

fn failed(what: &str, e: std::io::Error) -> ExitCode {
    eprintln!("{what}: {e}");
    ExitCode::FAILURE
}
