//! A call as a WAV file on standard output, for programs that hear recordings:
//! two tide lines for station 7, or what `send` makes of a file's bytes.

use std::io::Write;
use std::process::ExitCode;

use crate::cases::{bits_of, SenderCase};
use crate::layout::*;
use crate::side::ORIGINAL;
use crate::signal::{Modulation, Tape, Tones, Wave};

/// Two of document 01's lines: one that is shown, one for newer readers.
const LINES: &[u8] = b"\n01010D000700C0000005019C88\n03020E000700C0000005019C5A2A\n";

/// Mono, as a board of this role hears it: 32-bit floats or 16-bit PCM.
pub fn run(rate: u32, role: u32, float: bool) -> ExitCode {
    let tones = Tones::heard_by(role);
    let how = Modulation {
        mark: tones.mark,
        space: tones.space,
        level: 0.5,
        offset: 0.0,
        wave: Wave::Sine,
    };
    let mut tape = Tape::new(rate);
    tape.preamble(how);
    tape.bytes(how, LINES);
    tape.idle(how, 12);
    print(&wav(rate, float, &tape.finish()))
}

/// The call that the program `send` makes of a file's bytes, 64 at most, as the
/// original's sender sends it: idle mark, a training character, idle mark, a
/// line end, the bytes, idle mark.
pub fn call(file: &str, rate: u32, role: u32, float: bool) -> ExitCode {
    let text = match std::fs::read(file) {
        Ok(text) if text.len() <= 64 => text,
        Ok(_) => return failed("more than 64 bytes"),
        Err(e) => return failed(&format!("{file}: {e}")),
    };
    let bits = 300 + 10 + 60 + 10 + 10 * text.len() + 60;
    let samples = (bits * rate as usize + 150) / 300;
    let mut script =
        vec![AMPLITUDE, bits_of(0.5), IDLE_MARK, 300, WRITE, 1, IDLE_MARK, 60, WRITE, 1];
    script.extend([WRITE, text.len() as u64]);
    script.extend([READ, 1_000].repeat(samples.div_ceil(1_000)));
    let data = [b"\x55\n", &text[..]].concat();
    let case = SenderCase::whole(rate, role, data, script, samples);
    let sent = case.run(&ORIGINAL);
    print(&wav(rate, float, &sent.samples))
}

fn print(wav: &[u8]) -> ExitCode {
    match std::io::stdout().write_all(wav) {
        Ok(()) => ExitCode::SUCCESS,
        Err(e) => failed(&e.to_string()),
    }
}

fn failed(words: &str) -> ExitCode {
    eprintln!("{words}");
    ExitCode::FAILURE
}

fn wav(rate: u32, float: bool, samples: &[f32]) -> Vec<u8> {
    let (format, width): (u16, u16) = if float { (3, 4) } else { (1, 2) };
    let frames = samples.len() as u32;
    let size = frames * u32::from(width);
    // Floats have an extension of no bytes, and a chunk with their number.
    let (more, format_size): (u32, u32) = if float { (50, 18) } else { (36, 16) };
    let mut wav = b"RIFF".to_vec();
    wav.extend((more + size).to_le_bytes());
    wav.extend(b"WAVEfmt ");
    wav.extend(format_size.to_le_bytes());
    wav.extend(format.to_le_bytes());
    wav.extend(1u16.to_le_bytes());
    wav.extend(rate.to_le_bytes());
    wav.extend((rate * u32::from(width)).to_le_bytes());
    wav.extend(width.to_le_bytes());
    wav.extend((8 * width).to_le_bytes());
    if float {
        wav.extend(0u16.to_le_bytes());
        wav.extend(b"fact");
        wav.extend(4u32.to_le_bytes());
        wav.extend(frames.to_le_bytes());
    }
    wav.extend(b"data");
    wav.extend(size.to_le_bytes());
    for s in samples {
        if float {
            wav.extend(s.to_le_bytes());
        } else {
            wav.extend(((f64::from(*s) * 32_767.0).round() as i16).to_le_bytes());
        }
    }
    wav
}
