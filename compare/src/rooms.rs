//! Lent memory of every length, from none to more than is needed: each function
//! for C writes what has room, and leaves the rest as it was.

use crate::cases::bits_of;
use crate::layout::*;
use crate::random::Random;
use crate::side::{Side, ORIGINAL, PORT};
use crate::signal::{Modulation, Tape, Tones, Wave};

/// What lent memory holds beforehand.
const UNTOUCHED: u64 = 0xA5;

/// What a call returned, and then all memory that it was lent, as bits.
type Left = Vec<u64>;

fn of_numbers(returned: usize, lent: &[&[u64]]) -> Left {
    [&[returned as u64], &lent.concat()[..]].concat()
}

fn of_f64(list: &[f64]) -> Left {
    list.iter().map(|x| x.to_bits()).collect()
}

fn of_f32(list: &[f32]) -> Left {
    list.iter().map(|x| u64::from(x.to_bits())).collect()
}

fn of_bytes(list: &[u8]) -> Left {
    list.iter().map(|&x| u64::from(x)).collect()
}

/// The calls made so far.
struct Rooms(usize);

impl Rooms {
    fn same(
        &mut self,
        name: &str,
        lengths: &[usize],
        run: &dyn Fn(&Side) -> Left,
    ) -> Result<(), String> {
        self.0 += 1;
        let (a, b) = (run(&ORIGINAL), run(&PORT));
        match a.iter().zip(&b).position(|(a, b)| a != b) {
            None => Ok(()),
            Some(0) => Err(format!("{name}, lengths {lengths:?}: returned {} and {}", a[0], b[0])),
            Some(at) => Err(format!(
                "{name}, lengths {lengths:?}, place {} of what was lent: {:X} from the original, {:X} from the port",
                at - 1, a[at], b[at]
            )),
        }
    }
}

/// The number of calls made.
pub fn compare() -> Result<usize, String> {
    let mut rooms = Rooms(0);
    max_output_len(&mut rooms)?;
    resample(&mut rooms)?;
    resampler_state(&mut rooms)?;
    receive(&mut rooms)?;
    receiver_state(&mut rooms)?;
    send(&mut rooms)?;
    sender_state(&mut rooms)?;
    frame_bytes(&mut rooms)?;
    deframe(&mut rooms)?;
    listen(&mut rooms)?;
    Ok(rooms.0)
}

fn max_output_len(rooms: &mut Rooms) -> Result<(), String> {
    let lengths = [0, 1_024, 2_048, 2_049];
    for answers in 0..=TOLD * lengths.len() + 2 {
        for count in 0..=lengths.len() {
            rooms.same("max_output_len", &[count, answers], &|side| {
                let mut told = vec![UNTOUCHED; answers];
                let calls = (side.max_output_len)(48_000, 8_000, &lengths[..count], &mut told);
                of_numbers(calls, &[&told])
            })?;
        }
    }
    Ok(())
}

/// Output and answers in all combinations, and the input cut short.
fn resample(rooms: &mut Rooms) -> Result<(), String> {
    let mut random = Random::new(5);
    let input: Vec<f64> = (0..60).map(|_| random.between(-1.0, 1.0)).collect();
    let lengths = [10, 0, 25, 7, 30];
    for (src, dst) in [(8_000, 8_000), (48_000, 8_000), (8_000, 44_100)] {
        let enough = input.len() * dst as usize / src as usize + 3 * lengths.len();
        let most_answers = TOLD * lengths.len() + 3;
        let mut one = |given: usize, output: usize, answers: usize| {
            rooms.same("resample", &[given, output, answers], &|side| {
                let mut written = vec![f64::from_bits(UNTOUCHED); output];
                let mut told = vec![UNTOUCHED; answers];
                let run = side.resample;
                let calls = run(src, dst, &input[..given], &lengths, &mut written, &mut told);
                of_numbers(calls, &[&of_f64(&written), &told])
            })
        };
        for output in 0..=enough {
            for answers in 0..=most_answers {
                one(input.len(), output, answers)?;
            }
        }
        for given in 0..=input.len() {
            one(given, enough, most_answers)?;
        }
    }
    Ok(())
}

/// Output, answers and state in some combinations.
fn resampler_state(rooms: &mut Rooms) -> Result<(), String> {
    let input: Vec<f64> = (0..60).map(|i| f64::from(i % 7) / 7.0).collect();
    let script = [PROCESS, 10, 1, 0, PROCESS, 30, 7, 30, PROCESS, 9, PROCESS];
    for (src, dst) in [(8_000, 8_000), (48_000, 8_000), (8_000, 11_025), (8_001, 8_002)] {
        let mut one = |numbers: usize, output: usize, answers: usize, places: usize| {
            rooms.same("resampler_state", &[numbers, output, answers, places], &|side| {
                let mut written = vec![f64::from_bits(UNTOUCHED); output];
                let mut told = vec![UNTOUCHED; answers];
                let mut state = vec![f64::from_bits(UNTOUCHED); places];
                let (run, some) = (side.resampler_state, &script[..numbers]);
                let calls = run(src, dst, &input, some, &mut written, &mut told, &mut state);
                of_numbers(calls, &[&of_f64(&written), &told, &of_f64(&state)])
            })
        };
        let most_answers = TOLD * (script.len() / TURN) + 2;
        for output in 0..=90 {
            for answers in 0..=most_answers {
                one(script.len(), output, answers, RESAMPLER_LEN)?;
            }
        }
        for places in 0..=RESAMPLER_LEN + 3 {
            one(script.len(), 90, most_answers, places)?;
        }
        for numbers in 0..=script.len() {
            one(numbers, 90, most_answers, RESAMPLER_LEN)?;
        }
    }
    Ok(())
}

fn clear(role: u32) -> Modulation {
    let tones = Tones::heard_by(role);
    Modulation { mark: tones.mark, space: tones.space, level: 0.4, offset: 0.0, wave: Wave::Sine }
}

/// A text behind a preamble, as this role hears it.
fn heard(rate: u32, role: u32, text: &[u8]) -> Vec<f32> {
    let mut tape = Tape::new(rate);
    tape.preamble(clear(role));
    tape.bytes(clear(role), text);
    tape.idle(clear(role), 12);
    tape.finish()
}

/// Bytes, events and answers in all combinations, and the script cut short.
fn receive(rooms: &mut Rooms) -> Result<(), String> {
    for (rate, block) in [(8_000, 400), (11_025, 550)] {
        let samples = heard(rate, ANSWER, b"41\n");
        let script = [block, 1, 1].repeat(samples.len().div_ceil(block as usize) + 2);
        let most_answers = script.len() / CALL * HEARD + 6;
        let mut one = |numbers: usize, bytes: usize, events: usize, answers: usize| {
            rooms.same("receive", &[numbers, bytes, events, answers], &|side| {
                let mut read = vec![UNTOUCHED as u8; bytes];
                let mut drained = vec![UNTOUCHED as u8; events];
                let mut told = vec![UNTOUCHED; answers];
                let (run, some) = (side.receive, &script[..numbers]);
                let calls = run(rate, ANSWER, &samples, some, &mut read, &mut drained, &mut told);
                of_numbers(calls, &[&of_bytes(&read), &of_bytes(&drained), &told])
            })
        };
        for answers in 0..=most_answers {
            for bytes in 0..=7 {
                for events in 0..=2 {
                    one(script.len(), bytes, events, answers)?;
                }
            }
        }
        for numbers in 0..=script.len() {
            one(numbers, 7, 2, most_answers)?;
        }
    }
    Ok(())
}

fn receiver_state(rooms: &mut Rooms) -> Result<(), String> {
    let samples = heard(8_000, ORIGINATE, b"");
    for rate in [8_000, 48_000, 48_001] {
        for places in 0..=STATE_LEN + 3 {
            rooms.same("receiver_state", &[places], &|side| {
                let mut state = vec![f64::from_bits(UNTOUCHED); places];
                let run = side.receiver_state;
                let ran = run(rate, ORIGINATE, &samples, &[700, 1, 1, 900], &mut state);
                of_numbers(ran as usize, &[&of_f64(&state)])
            })?;
        }
    }
    Ok(())
}

/// Samples and answers in all combinations, and data and script cut short.
fn send(rooms: &mut Rooms) -> Result<(), String> {
    let script = [
        [AMPLITUDE, bits_of(0.5)],
        [IDLE_MARK, 2],
        [READ, 60],
        [WRITE, 2],
        [READ, 70],
        [SAMPLES_FOR_BITS, 3],
        [WRITE, 2],
        [READ, 50],
    ]
    .concat();
    for rate in [8_000, 44_100] {
        let most_answers = script.len() / STEP * SENT + 4;
        let mut one = |given: usize, numbers: usize, places: usize, answers: usize| {
            rooms.same("send", &[given, numbers, places, answers], &|side| {
                let mut samples = vec![f32::from_bits(UNTOUCHED as u32); places];
                let mut told = vec![UNTOUCHED; answers];
                let (data, some) = (&b"A\0\xFFu"[..given], &script[..numbers]);
                let steps = (side.send)(rate, ORIGINATE, data, some, &mut samples, &mut told);
                of_numbers(steps, &[&of_f32(&samples), &told])
            })
        };
        for places in 0..=182 {
            for answers in 0..=most_answers {
                one(4, script.len(), places, answers)?;
            }
        }
        for given in 0..=4 {
            for numbers in 0..=script.len() {
                one(given, numbers, 182, most_answers)?;
            }
        }
    }
    Ok(())
}

/// The state's places, and samples and answers in some combinations.
fn sender_state(rooms: &mut Rooms) -> Result<(), String> {
    let script = [AMPLITUDE, bits_of(0.5), WRITE, 3, READ, 41, IDLE_MARK, 70, READ, 1];
    for rate in [8_000, 44_100, 48_001] {
        let mut one = |numbers: usize, places: usize, answers: usize, state: usize| {
            rooms.same("sender_state", &[numbers, places, answers, state], &|side| {
                let mut samples = vec![f32::from_bits(UNTOUCHED as u32); places];
                let mut told = vec![UNTOUCHED; answers];
                let mut shown = vec![f64::from_bits(UNTOUCHED); state];
                let (run, some) = (side.sender_state, &script[..numbers]);
                let steps = run(rate, ANSWER, b"u\0A", some, &mut samples, &mut told, &mut shown);
                of_numbers(steps, &[&of_f32(&samples), &told, &of_f64(&shown)])
            })
        };
        let most_answers = script.len() / STEP * SENT + 2;
        for state in 0..=SENDER_LEN + 3 {
            one(script.len(), 43, most_answers, state)?;
        }
        for places in 0..=43 {
            for answers in 0..=most_answers {
                one(script.len(), places, answers, SENDER_LEN)?;
            }
        }
        for numbers in 0..=script.len() {
            one(numbers, 43, most_answers, SENDER_LEN)?;
        }
    }
    Ok(())
}

fn frame_bytes(rooms: &mut Rooms) -> Result<(), String> {
    for given in 0..=4 {
        for room in 0..=4 * FRAME + 3 {
            rooms.same("frame_bytes", &[given, room], &|side| {
                let mut bits = vec![UNTOUCHED as u8; room];
                let frames = (side.frame_bytes)(&b"A\0\xFFu"[..given], &mut bits);
                of_numbers(frames, &[&of_bytes(&bits)])
            })?;
        }
    }
    Ok(())
}

fn deframe(rooms: &mut Rooms) -> Result<(), String> {
    // A byte, a bad stop, and the start of another byte.
    let bits = [0, 1, 0, 0, 1, 1, 0, 1, 0, 1, 0, 1, 0, 0, 1, 1, 0, 1, 0, 0, 0, 0];
    for given in 0..=bits.len() {
        for answers in 0..=PUSHED * bits.len() + 7 {
            rooms.same("deframe", &[given, answers], &|side| {
                let mut told = vec![UNTOUCHED; answers];
                let pushed = (side.deframe)(0, 0, 0, 7, &bits[..given], &mut told);
                of_numbers(pushed, &[&told])
            })?;
        }
    }
    Ok(())
}

/// Answers and what is shown in all combinations, and the list cut short.
fn listen(rooms: &mut Rooms) -> Result<(), String> {
    let samples = heard(8_000, ANSWER, b"\n01010D000700C0000005019C88\n");
    let lengths = vec![1_000; samples.len().div_ceil(1_000) + 1];
    let most_answers = JUDGED * lengths.len() + 5;
    let mut one = |count: usize, answers: usize, shown: usize| {
        rooms.same("listen", &[count, answers, shown], &|side| {
            let mut told = vec![UNTOUCHED; answers];
            let mut shows = vec![UNTOUCHED; shown];
            let some = &lengths[..count];
            let writes = (side.listen)(8_000, 7, ANSWER, &samples, some, &mut told, &mut shows);
            of_numbers(writes, &[&told, &shows])
        })
    };
    for answers in 0..=most_answers {
        for shown in 0..=SHOWN + 2 {
            one(lengths.len(), answers, shown)?;
        }
    }
    for count in 0..=lengths.len() {
        one(count, most_answers, SHOWN)?;
    }
    Ok(())
}

#[cfg(test)]
mod tests {
    use super::*;
    use crate::oracle;

    /// Else there would be no bytes and no reading to leave out.
    #[test]
    fn what_is_lent_is_needed() {
        for (rate, block) in [(8_000, 400), (11_025, 550)] {
            let samples = heard(rate, ANSWER, b"41\n");
            let script = [block, 1, 1].repeat(samples.len().div_ceil(block as usize) + 2);
            let (mut bytes, mut events) = ([0; 7], [7; 2]);
            let mut answers = vec![0; script.len() / CALL * HEARD];
            let lent = (&mut bytes, &mut events, &mut answers);
            oracle::receive(rate, ANSWER, &samples, &script, lent.0, lent.1, lent.2);
            assert_eq!(bytes, *b"UU41\n\0\0");
            assert_eq!(events, [1, 7]);
        }
        let samples = heard(8_000, ANSWER, b"\n01010D000700C0000005019C88\n");
        let lengths = vec![1_000; samples.len().div_ceil(1_000)];
        let (mut answers, mut shown) = (vec![0; JUDGED * lengths.len()], [0; SHOWN]);
        (ORIGINAL.listen)(8_000, 7, ANSWER, &samples, &lengths, &mut answers, &mut shown);
        assert_eq!(shown[..3], [1, 12_582_907, 412]);
    }
}
