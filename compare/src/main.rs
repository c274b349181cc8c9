//! Holds the port against the Rust original, bit for bit.
//!
//!     compare [--cases N] [--seed S] [--only K] [--part P] [--quick]
//!     speed [resampler|receiver|sender|table|board]
//!     rates STEP
//!     digits
//!     soak SAMPLES LINES [--seed S] [--program P] [--only receiver|sender|loops|lines]
//!     loops STEP BYTES
//!     loudest FROM TO STEP
//!     vectors FOLDER
//!     replay
//!     hear FILE RATE ROLE FOLDER
//!     render RATE ROLE pcm|float
//!     call FILE RATE ROLE pcm|float
//!     changes

mod boards;
mod broken;
mod cases;
mod charges;
mod clicks;
mod clock;
mod compare;
mod difference;
mod digits;
mod durations;
#[cfg(test)]
mod facts;
mod frames;
mod hear;
mod hearing;
mod judge;
mod layout;
mod lines;
mod loudest;
mod oracle;
mod pool;
mod port;
mod random;
mod refused;
mod render;
mod replay;
mod rooms;
mod scenes;
mod settings;
mod shrink;
mod side;
mod signal;
mod soak;
mod speed;
mod table;
mod tally;
mod text;
mod vectors;
mod wild;
mod workers;

use std::process::ExitCode;

const USAGE: &str = "\
usage: compare [--cases N] [--seed S]   the same calls to both sides
               [--only K]               receiver case K alone
               [--part P]               the parts alone whose names begin with P
               [--quick]                no search for a smaller case
       speed [resampler|receiver|sender|table|board]
                                        the time of both sides
       rates STEP                       the same of the sender in blocks of 64, at each STEPth rate
       digits                           the instructions of the digit test
       soak SAMPLES LINES [--seed S]    both sides on so many samples, and the
               [--program P]            program P on so many lines
               [--only PART]            receiver, sender, loops or lines alone
       loops STEP BYTES                 so many bytes from sender to receiver, at each STEPth rate
       loudest FROM TO STEP             the sender's largest sample, at each STEPth rate
       vectors FOLDER                   the original's answers as text
       replay                           the calls of that text on both sides
       hear FILE RATE ROLE FOLDER       likewise, to a recording of f32 samples
       render RATE ROLE pcm|float       a call as a WAV file on standard output
       call FILE RATE ROLE pcm|float    the call that `send` makes of a file's bytes
       changes                          what the build changed in the original";

fn main() -> ExitCode {
    let words: Vec<String> = std::env::args().skip(1).collect();
    let words: Vec<&str> = words.iter().map(String::as_str).collect();
    match words[..] {
        ["compare", ref options @ ..] => match compare::Options::from(options) {
            Some(options) => compare::run(&options),
            None => usage(),
        },
        ["speed"] => speed::run(""),
        ["speed", part @ ("resampler" | "receiver" | "sender" | "table" | "board")] => {
            speed::run(part)
        }
        ["rates", step] => match step.parse() {
            Ok(step @ 1..=40_000) => speed::rates(step),
            _ => usage(),
        },
        ["digits"] => digits::run(),
        ["soak", ref options @ ..] => match soak::Options::from(options) {
            Some(options) => soak::run(&options),
            None => usage(),
        },
        ["loops", step, bytes] => match (step.parse(), bytes.parse()) {
            (Ok(step @ 1..), Ok(bytes)) => soak::loops_at(step, bytes),
            _ => usage(),
        },
        ["loudest", from, to, step] => match (from.parse(), to.parse(), step.parse()) {
            (Ok(from), Ok(to), Ok(step)) => loudest::run(from, to, step),
            _ => usage(),
        },
        ["vectors", folder] => vectors::run(folder),
        ["replay"] => replay::run(),
        ["hear", file, rate, role, folder] => match (rate.parse(), role.parse()) {
            (Ok(rate), Ok(role)) => hear::run(file, rate, role, folder),
            _ => usage(),
        },
        ["render", rate, role, format @ ("pcm" | "float")] => match (rate.parse(), role.parse()) {
            (Ok(rate @ 8_000..=48_000), Ok(role)) => render::run(rate, role, format == "float"),
            _ => usage(),
        },
        ["call", file, rate, role, format @ ("pcm" | "float")] => {
            match (rate.parse(), role.parse()) {
                (Ok(rate @ 8_000..=48_000), Ok(role)) => {
                    render::call(file, rate, role, format == "float")
                }
                _ => usage(),
            }
        }
        ["changes"] => {
            print!("{}", original::CHANGES);
            ExitCode::SUCCESS
        }
        _ => usage(),
    }
}

fn usage() -> ExitCode {
    eprintln!("{USAGE}");
    ExitCode::from(2)
}
