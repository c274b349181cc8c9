//! How a list of calls and its answers lie in the slices that are passed to
//! either side. `oracle.rs` (the original) and `port.rs` (the C functions)
//! follow it; `again` compiles this file too.

/// The two roles as numbers.
pub const ORIGINATE: u32 = 0;
pub const ANSWER: u32 = 1;

// The answer to a call of the resampler is two numbers: 0 or the number of the
// refusal; then the count, 0 where there is none.
pub const TOLD: usize = 2;

// A resampler's script has two numbers for each call: 0 and how many samples to
// process; or another number and any, a reset.
pub const TURN: usize = 2;
pub const PROCESS: u32 = 0;

// A receiver's script has three numbers for each call: the samples to write,
// then at most how many bytes to read and how many events to drain.
pub const CALL: usize = 3;

// A receiver's answers are six numbers for each call: 0 or the number of the
// refusal, bytes read, events drained, carrier (0 or 1), framing errors since
// fresh, bad stops of this write.
pub const HEARD: usize = 6;

// A board's answers are five numbers for each write: 0 or the number of the
// refusal, bytes heard, lines ended, the last line's answer, bad stops.
pub const JUDGED: usize = 5;

/// A board has a count for each line answer: 0, 11 to 20, 34.
pub const COUNTS: usize = 12;

/// What a board shows, 1, water minute and the level's sixteen bits or three
/// times 0, and behind them its counts.
pub const SHOWN: usize = 3 + COUNTS;

// A sender's script has two numbers for each step: one of the kinds below, and
// its number n.
pub const STEP: usize = 2;
/// Write n bytes, the next ones of the data, or as many as are left.
pub const WRITE: u64 = 0;
/// Write n bits of idle mark.
pub const IDLE_MARK: u64 = 1;
/// Set the amplitude to the f32 with the lowest 32 bits of n.
pub const AMPLITUDE: u64 = 2;
/// Read into the next n places of the samples, or as many as are left.
pub const READ: u64 = 3;
/// Ask how many samples n bits take; every other kind asks it too.
pub const SAMPLES_FOR_BITS: u64 = 4;

// A sender's answers are three numbers for each step: 0 or the number of the
// refusal; the number asked for, or the places that a read filled, else 0; and
// whether bits wait afterwards (0 or 1).
pub const SENT: usize = 3;

/// The bits of a byte's frame: 1 for mark, 0 for space.
pub const FRAME: usize = 10;

// A deframer's answers are six numbers for each bit: one of the kinds below, and
// the byte where the bit yielded one, else 0; then its state behind the bit: in a
// frame (0 or 1), bits so far, byte so far, errors.
pub const PUSHED: usize = 6;
/// Neither of the other two.
pub const WAITING: u64 = 0;
/// The bit yielded a byte.
pub const BYTE: u64 = 1;
/// A space in stop position.
pub const BAD_STOP: u64 = 2;

/// Places of a receiver's filter, used in full at 48,000.
pub const TAPS: usize = 373;
/// Places of each ring of the correlator.
pub const WINDOW: usize = 27;

/// A receiver's state as a list of f64: each part's name and number of places.
/// Whole numbers stand as themselves, yes and no as 1.0 and 0.0, and places
/// that a rate does not use as 0.0. Rings stand in the order in which they are
/// summed: the filter's history newest first, the correlator's in place order.
pub const STATE: [(&str, usize); 39] = [
    ("taps", TAPS),
    ("fir_hist, newest first", TAPS),
    ("herm_hist", 4),
    ("frac_pos", 1),
    ("n_pushed", 1),
    ("step", 1),
    ("pos", 1),
    ("filled", 1),
    ("mark_i", WINDOW),
    ("mark_q", WINDOW),
    ("space_i", WINDOW),
    ("space_q", WINDOW),
    ("phase_m", 1),
    ("phase_s", 1),
    ("inc_m", 1),
    ("inc_s", 1),
    ("sym_phase", 1),
    ("sym_inc", 1),
    ("last_sym", 1),
    ("mid_sym", 1),
    ("have_mid", 1),
    ("in_frame", 1),
    ("bit_count", 1),
    ("acc", 1),
    ("errors", 1),
    ("level", 1),
    ("floor", 1),
    ("detected", 1),
    ("holdoff", 1),
    ("mark probes: coeff, s1, s2 of each", 15),
    ("own probes: coeff, s1, s2 of each", 6),
    ("wideband", 1),
    ("count", 1),
    ("gate_open", 1),
    ("qualified", 1),
    ("qualified_ever", 1),
    ("bytes waiting", 1),
    ("events waiting", 1),
    ("samples accepted", 1),
];

/// The parts of a receiver's state that are its resampler's.
pub const RESAMPLER_PARTS: usize = 6;

/// The most bits that wait in a sender, and the places of its samples.
pub const WAITING_BITS: usize = 4_096;
pub const WAITING_SAMPLES: usize = 64;

/// A sender's state likewise, behind its resampler's parts. An f32 stands as the
/// f64 of its value; what waits stands oldest first.
pub const SENDER: [(&str, usize); 10] = [
    ("phase", 1),
    ("inc", 1),
    ("sym_pos", 1),
    ("current", 1),
    ("amplitude", 1),
    ("samples given", 1),
    ("bits waiting", 1),
    ("samples waiting", 1),
    ("bits", WAITING_BITS),
    ("pending", WAITING_SAMPLES),
];

/// The number of f64 in a receiver's state, in a resampler's and in a sender's.
pub const STATE_LEN: usize = places_of(&STATE, STATE.len());
pub const RESAMPLER_LEN: usize = places_of(&STATE, RESAMPLER_PARTS);
pub const SENDER_LEN: usize = RESAMPLER_LEN + places_of(&SENDER, SENDER.len());

/// Where a sender's state counts what waits.
pub const BITS_COUNTED: usize = RESAMPLER_LEN + places_of(&SENDER, 6);
pub const SAMPLES_COUNTED: usize = BITS_COUNTED + 1;

/// The places of the first so many parts.
const fn places_of(state: &[(&str, usize)], parts: usize) -> usize {
    let mut sum = 0;
    let mut i = 0;
    while i < parts {
        sum += state[i].1;
        i += 1;
    }
    sum
}
