/* The quay board's modem for hosts in C: the functions of the static library
 * libffi.a (`.ci/build ffi`).
 *
 * Each function runs a whole list of calls from a fresh state and keeps nothing
 * afterwards. What it answers, and all memory that it is lent, are proved equal
 * to a definition for every argument (specs/ of the crates calls, snapshot and
 * ffi); the text below says that definition in words. A function
 * never fails, and any number may be passed. The host answers for the pointers
 * alone:
 *
 *   - a slice is a pointer and then its number of elements;
 *   - the pointer is not NULL and is aligned for its type, also where the number
 *     is 0, and that many elements can be read (and written, if not const);
 *   - a slice that is written overlaps no other slice of the same call.
 *
 * Answers. Each call of the resampler is answered by two numbers, in the order
 * of the calls: first the number of the refusal, 0 where the call is accepted;
 * then the count, 0 where it is refused. The numbers:
 *
 *   3  more than 2,048 samples
 *   5  output shorter than max_output_len
 *
 * Rates that are refused (number 1: a rate outside 8,000 to 48,000, or neither
 * rate 8,000) run no call: the function returns 0 and writes nothing.
 *
 * A function returns the number of calls that it ran: one for each length, as
 * long as the answers have room for two more numbers. Elements of the answers
 * and of the output behind what was written are as they were.
 *
 * The receiver runs a script of three numbers a call (a last one or two that
 * make no whole call are passed over): the samples in the write, then at most
 * how many bytes to read and how many events to take. Each call is answered by
 * six numbers:
 *
 *   the number of the write's refusal, 0 where it is accepted
 *   bytes read
 *   events taken
 *   carrier: 1 or 0
 *   framing errors since fresh
 *   bad stops in this write alone (a space where a frame's stop bit should be),
 *     0 where it is refused
 *
 * A write is refused by the first of these that applies:
 *
 *   3   more than 1,024 samples
 *   4   a sample not finite or beyond -1 to 1
 *   31  it would pass 4,294,967,296 samples for this receiver
 *   32  more than 409 of 512 received bytes wait
 */
#ifndef MORKHETTA_H
#define MORKHETTA_H

#include <stddef.h>
#include <stdint.h>

#ifdef __cplusplus
extern "C" {
#endif

/* max_output_len of a resampler from src to dst for each of the lengths: the
 * most samples that a call of so many can write, round(n * dst / src) + 2, or n
 * where the rates are equal. More than 2,048 get 3.
 */
size_t morkhetta_max_output_len(
    uint32_t src,
    uint32_t dst,
    const uint32_t *lengths, size_t lengths_len,
    uint64_t *answers, size_t answers_len
);

/* A fresh resampler from src to dst, and one call of `process` for each of the
 * lengths. A call takes the next `length` samples of the input, or what is left
 * of it where that is less. It is lent the output behind the samples that the
 * earlier calls wrote, writes to the front of that, and its count is the number
 * of samples written. A call is refused by the first of these that applies:
 *
 *   3   more than 2,048 samples
 *   43  a sample not finite or beyond -1 to 1
 *   5   the rest of the output is shorter than max_output_len
 *
 * Refused, it writes no sample and leaves the resampler as it was; its samples
 * are passed over.
 */
size_t morkhetta_resample(
    uint32_t src,
    uint32_t dst,
    const double *input, size_t input_len,
    const uint32_t *lengths, size_t lengths_len,
    double *output, size_t output_len,
    uint64_t *answers, size_t answers_len
);

/* A fresh resampler from src to dst, the calls of the script, and its state behind
 * them, for comparisons bit for bit. The script has two numbers for each call,
 * its kind and n (a last one that makes no whole call is passed over):
 *
 *   0  process of the next n samples of the input, as in morkhetta_resample
 *   any other number: reset; n is passed over, and it is answered by 0 and 0
 *
 * Output and answers as in morkhetta_resample. Returns the number of calls run:
 * those of the script, as long as the answers have room for two more numbers.
 *
 * The state's 753 numbers go to the front of `state`, if there is room for 753;
 * where it is shorter nothing of it is written, where it is longer the rest is as
 * it was. The order:
 *
 *   373  the taps, and 0.0 in the places that the rates do not use
 *   373  the filter's history, newest first, and 0.0 likewise
 *     7  window of four, oldest first; place; count; step
 */
size_t morkhetta_resampler_state(
    uint32_t src,
    uint32_t dst,
    const double *input, size_t input_len,
    const uint32_t *script, size_t script_len,
    double *output, size_t output_len,
    uint64_t *answers, size_t answers_len,
    double *state, size_t state_len
);

/* A fresh receiver at the device rate `rate` and for the role 0 (the end that
 * dials) or any other number (the end that picks up), and the calls of the
 * script, as long as the answers have room for six more numbers. Returns the
 * number of calls run. A rate outside 8,000 to 48,000 runs none: the function
 * returns 0 and writes nothing.
 *
 * A call writes the next samples, as many as the script says or what is left of
 * them; those of a refused write are passed over. Then it reads, oldest first,
 * the bytes that wait, at most as many as the script says and as have room
 * behind the bytes of the earlier calls; and it takes, oldest first, the carrier
 * events that wait, 1 for up and 0 for down, at most as many as the script says
 * and as have room behind those of the earlier calls. Both happen after a
 * refused write too. Bytes, events and answers behind what was written are as
 * they were.
 */
size_t morkhetta_receive(
    uint32_t rate,
    uint32_t role,
    const float *samples, size_t samples_len,
    const uint32_t *script, size_t script_len,
    uint8_t *bytes, size_t bytes_len,
    uint8_t *events, size_t events_len,
    uint64_t *answers, size_t answers_len
);

/* A fresh sender at the device rate `rate` and for the role 0 (the end that
 * dials) or any other number (the end that picks up), and the calls of the
 * script, two numbers for each, its kind and n (a last one that makes no whole
 * call is passed over):
 *
 *   0  write of the next n bytes of the data, or of what is left of them
 *   1  write_idle_mark of n bit periods
 *   2  set_amplitude to the float whose bits are n modulo 2^32
 *   3  read into the next n places of the samples, or what is left of them
 *   any other number: samples_for_bits of n
 *
 * Each call is answered by three numbers:
 *
 *   the number of the refusal, 0 where the call is accepted:
 *      3  a read of more than 1,024 samples
 *      6  an amplitude not in 0 to 1
 *      7  samples_for_bits of more than 1,048,576
 *     31  a read that would pass 4,294,967,296 samples for this sender
 *     33  more than 4,096 bits would wait; a byte has ten
 *   the value: of a read the number of places filled, of samples_for_bits the
 *     number of samples; 0 of other calls and of a refused one
 *   1 where bits wait after the call, else 0
 *
 * A refused call changes nothing. The bytes of a refused write and the places of
 * a refused read are passed over, the places as they were. An accepted read fills
 * its places whole.
 *
 * Returns the number of calls run: those of the script, as long as the answers
 * have room for three more numbers. A rate outside 8,000 to 48,000 runs none: the
 * function returns 0 and writes nothing. Samples and answers behind what was
 * written are as they were.
 */
size_t morkhetta_send(
    uint32_t rate,
    uint32_t role,
    const uint8_t *data, size_t data_len,
    const uint64_t *script, size_t script_len,
    float *samples, size_t samples_len,
    uint64_t *answers, size_t answers_len
);

/* A fresh sender, the calls of the script, and its state behind them, for
 * comparisons bit for bit. Rate, role, data, script, samples, answers and the
 * number returned as in morkhetta_send.
 *
 * The state's 4,921 numbers go to the front of `state`, if there is room for
 * 4,921; where it is shorter nothing of it is written, where it is longer the
 * rest is as it was. Whole numbers stand as themselves, mark and space as 1.0 and
 * 0.0, an f32 as the f64 of its value. The order:
 *
 *    373  the resampler's taps, and 0.0 in the places that the rate does not use
 *    373  its filter's history, newest first, and 0.0 likewise
 *      7  window of four, oldest first; place; count; step
 *      4  the oscillator's phase and its increment; how much of the symbol is
 *         over; the bit that sounds
 *      4  amplitude; samples given; bits that wait; samples that wait
 *   4096  the bits that wait, oldest first, and 0.0 in the places behind them
 *     64  the samples that were made and not yet read, oldest first, and 0.0
 *         likewise
 */
size_t morkhetta_sender_state(
    uint32_t rate,
    uint32_t role,
    const uint8_t *data, size_t data_len,
    const uint64_t *script, size_t script_len,
    float *samples, size_t samples_len,
    uint64_t *answers, size_t answers_len,
    double *state, size_t state_len
);

/* A fresh sender that has no floats, at 8,000 a second, for the role 0 (the end
 * that dials) or any other number (the end that picks up), and the calls of the
 * script, two numbers for each, its kind and n (a last one that makes no whole
 * call is passed over):
 *
 *   0  write of the next n bytes of the data, or of what is left of them
 *   1  write_idle_mark of n bit periods
 *   any other number: read into the next n places of the samples, or what is left
 *      of them
 *
 * A sample is a whole number from -32,767 to 32,767, an entry of a table of 1,600
 * places of the sine; a host that wants floats divides by 32,768. Each call is
 * answered by three numbers:
 *
 *   the number of the refusal, 0 where the call is accepted: of a read 3 and 31,
 *     of the others 33, as in morkhetta_send
 *   of a read the number of places filled; 0 of other calls and of a refused one
 *   1 where bits wait after the call, else 0
 *
 * Refused calls, passed-over bytes and places, and the number returned as in
 * morkhetta_send.
 */
size_t morkhetta_table_send(
    uint32_t role,
    const uint8_t *data, size_t data_len,
    const uint64_t *script, size_t script_len,
    int32_t *samples, size_t samples_len,
    uint64_t *answers, size_t answers_len
);

/* The state of a receiver behind all calls of a script, for comparisons bit for
 * bit: its 909 numbers at the front of `state`, the rest of which is as it was.
 * The calls are those of morkhetta_receive, with room for 512 bytes and 64
 * events, as many as can wait; what they read and take is dropped. Returns 1; or
 * 0, with nothing written, where `state` has fewer than 909 elements or the rate
 * is refused.
 *
 * Whole numbers stand as themselves, yes and no as 1.0 and 0.0. The order:
 *
 *   373  the resampler's taps, and 0.0 in the places that the rate does not use
 *   373  its filter's history, newest first, and 0.0 likewise
 *     7  window of four, oldest first; place; count; step
 *     2  the correlator's next place; whether its rings are filled
 *   108  its four rings of 27 in place order: mark i, mark q, space i, space q
 *     4  phases of mark and space; their increments
 *     5  symbol phase; its increment; last symbol; mid symbol; whether there is one
 *     4  deframer: in a frame; bits so far; byte so far; errors
 *     4  detector: level; floor; detected; hold-off
 *    21  five probes around the mark, two at the own tones: coefficient and two
 *        states of each
 *     2  wideband power; samples in the block
 *     3  gate open; qualified; ever qualified
 *     3  bytes waiting; events waiting; samples accepted
 */
uint32_t morkhetta_receiver_state(
    uint32_t rate,
    uint32_t role,
    const float *samples, size_t samples_len,
    const uint32_t *script, size_t script_len,
    double *state, size_t state_len
);

/* The frame of each byte: a space, the eight data bits lowest first, a mark; ten
 * numbers of `bits`, 1 for mark and 0 for space. As many bytes as have room for
 * ten more numbers. Returns how many these are; `bits` behind the last frame are
 * as they were.
 */
size_t morkhetta_frame_bytes(
    const uint8_t *bytes, size_t bytes_len,
    uint8_t *bits, size_t bits_len
);

/* A deframer in any state, and one call of `push_bit` for each of the bits, 0 for
 * space and any other number for mark. The state: in_frame 0 is idle, any other
 * number in a frame; bit_count, the bits of the frame so far, and acc, the byte so
 * far, are taken modulo 256; errors, the framing errors so far. Each bit is
 * answered by six numbers:
 *
 *   1 and the byte where the bit yielded one; 2 and 0 where it is a bad stop, a
 *     space where the stop bit should be; 0 and 0 where more bits are to come
 *   in a frame, 1 or 0; bit_count; acc; errors: the state behind the bit
 *
 * Returns the number of bits pushed: all, as long as the answers have room for
 * six more numbers. Answers behind the last are as they were.
 */
size_t morkhetta_deframe(
    uint32_t in_frame,
    uint32_t bit_count,
    uint32_t acc,
    uint32_t errors,
    const uint8_t *bits, size_t bits_len,
    uint64_t *answers, size_t answers_len
);

/* Why a board of this rate and station is refused: 1 for a rate outside 8,000 to
 * 48,000; 2 for station 0; 0 where it is not refused. Where both apply it is 1.
 */
uint32_t morkhetta_board_refusal(uint32_t rate, uint16_t station);

/* A fresh board, and one write for each of the lengths. A write takes the next
 * `length` samples, or what is left of them where that is less. Role 0
 * originates, any other number answers: the board listens on the other role's
 * tones.
 *
 * Each write is answered by five numbers, in the order of the writes:
 *
 *   - the number of the refusal, 0 where the write is accepted:
 *      3  more than 1,024 samples
 *      4  a sample that is not finite, or beyond 1 or -1
 *     31  more than 4,294,967,296 samples would have been accepted
 *     The first that applies is given. A refused write changes nothing, and its
 *     other four numbers are 0; its samples are passed over.
 *   - the number of bytes heard in this write;
 *   - the number of lines that ended in it;
 *   - the answer of the last of these lines, 0 also where none ended:
 *      0  it is shown from now on
 *     11  it has more than 64 characters
 *     12  it has fewer than 26, or an odd number of them
 *     13  a character that is not 0-9 or A-F
 *     14  the frame does not have as many bytes as it says
 *     15  its sum is not divisible by 256
 *     16  version or least reader is 0, the least reader is greater than the
 *         version, or the version is 1 and the frame does not have 13 bytes
 *     17  it is for newer readers
 *     18  it is of another station
 *     19  its age is not known, or greater than its stamp
 *     20  its level is missing
 *     34  it is good, but its water minute is not greater than that of the
 *         reading
 *     The first that applies is given.
 *   - the number of bad stops in this write: frames whose stop bit was a space,
 *     which are no bytes.
 *
 * The function returns the number of writes that it ran: one for each length, as
 * long as the answers have room for five more numbers. Elements of the answers
 * behind what was written are as they were.
 *
 * What the board shows after the writes goes to the front of `shown`, fifteen
 * numbers, if there is room for fifteen:
 *
 *   - 1, the water minute (minutes since 2000-01-01 00:00 UTC) and the level in
 *     centimetres, as its sixteen bits (a level below zero has 65,536 added);
 *     or three times 0 where the board shows no reading;
 *   - how many lines got each answer since the board was fresh: 0, 11 to 20 and
 *     34, in this order.
 *
 * Where `shown` is shorter nothing of it is written; where it is longer, the
 * rest is as it was.
 *
 * A rate or a station that is refused (morkhetta_board_refusal says why) runs no
 * write: the function returns 0 and writes nothing. It also returns 0 where
 * there is no length, or no room for an answer: then `shown` has the fresh
 * board.
 */
size_t morkhetta_listen(
    uint32_t rate,
    uint16_t station,
    uint32_t role,
    const float *samples, size_t samples_len,
    const uint32_t *lengths, size_t lengths_len,
    uint64_t *answers, size_t answers_len,
    uint64_t *shown, size_t shown_len
);

/* Settings that outlive a power switch: a store of lines in the first 256 bytes
 * of a buffer, or in all of a shorter one. A line has version 1, rate, station
 * and role as fourteen uppercase hexadecimal digits with a check byte, and ends
 * with 0A. Bytes behind the last 0A, or all where there is none, are unused: an
 * erased page, 256 bytes FF, is an empty store.
 *
 * The settings of the last good line. They go to the front of `settings`, four
 * numbers, if there is room for four: rate, station, role (0 originates, 1
 * answers), and how many lines of an unknown version were passed over. Damaged
 * lines are passed over too. Returns 0; or 40 where no line is good, and then
 * `settings` is as it was.
 */
uint32_t morkhetta_settings_read(
    const uint8_t *buffer, size_t buffer_len,
    uint64_t *settings, size_t settings_len
);

/* Writes one line of these settings at the first unused byte; every other byte
 * of the buffer stays as it was. Role 0 originates, any other number answers.
 * Returns 0; or, with nothing written, the first of these that applies:
 *
 *    1  a rate outside 8,000 to 48,000
 *    2  station 0
 *   41  fewer than 15 bytes are unused
 *
 * The function stores front to back, the 0A last: a buffer with only the first
 * bytes of the line reads as before. That is the order of its stores; a host
 * whose buffer is a copy of a page of flash brings the fifteen bytes there in
 * the same order.
 */
uint32_t morkhetta_settings_write(
    uint8_t *buffer, size_t buffer_len,
    uint32_t rate,
    uint16_t station,
    uint32_t role
);

/* The digit test of tide and settings lines: the place, counted from 0, of the
 * first character that is not 0-9 or A-F. Where all are digits it returns how
 * many there are. It ends at the first wrong one.
 */
size_t morkhetta_test_digits(const uint8_t *characters, size_t characters_len);

/* How many samples n bits last at a rate, without drift. Three numbers go to
 * the front of `out`, if there is room for three: the quotient and the remainder
 * of n x rate by 300, which are whole samples and three-hundredths of one, and
 * the count rounded to the nearest sample, half away from zero, which is that of
 * a sender's samples_for_bits. Returns 0; or, with `out` as it was, the first of
 * these that applies:
 *
 *    1  a rate outside 8,000 to 48,000
 *    7  n above 1,048,576
 */
uint32_t morkhetta_exact(
    uint32_t rate,
    uint64_t n,
    uint64_t *out, size_t out_len
);

/* The same for lengths one behind the other, each a number of bits. Two numbers
 * go to the front of `out`, if there is room for two: the quotient and the
 * remainder of the total x rate by 300. Sums of rounded counts drift by up to
 * half a sample a length; this one doesn't, and two of them joined, with a whole
 * sample carried where the remainders make one, are that of both lists. Returns
 * 0; or, with `out` as it was, the first of these that applies:
 *
 *    1  a rate outside 8,000 to 48,000
 *   42  more than 1,000 lengths
 *    7  a length above 1,048,576
 */
uint32_t morkhetta_exact_sum(
    uint32_t rate,
    const uint64_t *lengths, size_t lengths_len,
    uint64_t *out, size_t out_len
);

/* The line charge, in thousandths of a penny: 0 for a call of no samples, else
 * 4,000 and 1,250 for each started 30 seconds (30 x rate samples).
 *
 * The charge of one call goes to the front of `charge`, if there is room for
 * one number. Returns 0; or, with nothing written, the first of these that
 * applies:
 *
 *    1  a rate outside 8,000 to 48,000
 *   45  more than 4,294,967,296 samples
 */
uint32_t morkhetta_call_charge(
    uint32_t rate,
    uint64_t samples,
    uint64_t *charge, size_t charge_len
);

/* The charge of a month's calls, all at one rate. Three numbers go to the front
 * of `charge`, if there is room for three: the sum in thousandths of a penny,
 * the pence, half a penny going up, and what was rounded away, sum - 1,000 x
 * pence, from -500 to 499. Returns 0; or, with nothing written, the first of
 * these that applies:
 *
 *    1  a rate outside 8,000 to 48,000
 *   44  more than 5,000 calls
 *   45  a call of more than 4,294,967,296 samples
 */
uint32_t morkhetta_month_charge(
    uint32_t rate,
    const uint64_t *calls, size_t calls_len,
    int64_t *charge, size_t charge_len
);

/* Three gauges, one level: the readings of three gauges of one basin, each a
 * water minute and a level in centimetres; the level -32768 says that the
 * reading is missing. Readings more than 5 minutes older than the newest are
 * dropped. What is shown goes to the front of `pooled`, two numbers, if there is
 * room for two: the oldest water minute of those kept, and of three kept the
 * middle level, of two the lower, of one that one. Returns 0; or 46 where all
 * three are missing, and then `pooled` is as it was.
 */
uint32_t morkhetta_pool(
    uint32_t water1, int16_t level1,
    uint32_t water2, int16_t level2,
    uint32_t water3, int16_t level3,
    int64_t *pooled, size_t pooled_len
);

#ifdef __cplusplus
}
#endif

#endif
