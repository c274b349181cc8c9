/* Hears a recording as the quay board does and prints what the board shows.
 *
 *     hear_wav FILE STATION ROLE
 *
 * FILE is a WAV recording with one channel, of 16-bit PCM or 32-bit floats, at
 * 8,000 to 48,000 samples a second. ROLE is the board's: `originate` or 0 dials,
 * `answer` or 1 picks up; the board listens to the other end's tones.
 *
 * It prints one line with the reading, `R` with station, water minute and level
 * or `R` alone, and one line for each answer that lines got, with their number.
 */
#include <stdint.h>
#include <stdio.h>
#include <stdlib.h>
#include <string.h>

#include "morkhetta.h"

enum { BLOCK = 1024, ANSWERS = 5, SHOWN = 15, COUNTS = 12 };

struct recording {
    uint32_t rate;
    float *samples;
    size_t len;
};

static void fail(const char *words)
{
    fprintf(stderr, "hear_wav: %s\n", words);
    exit(1);
}

/* Never NULL, also for nothing: the library takes no NULL. */
static void *room(size_t count, size_t size)
{
    void *p = calloc(count + 1, size);
    if (p == NULL)
        fail("no memory");
    return p;
}

static uint32_t little(const uint8_t *b, int n)
{
    uint32_t value = 0;
    while (n > 0)
        value = value << 8 | b[--n];
    return value;
}

static uint8_t *read_file(const char *name, size_t *len)
{
    FILE *file = fopen(name, "rb");
    long end = -1;
    uint8_t *bytes;
    if (file != NULL && fseek(file, 0, SEEK_END) == 0)
        end = ftell(file);
    if (end < 0)
        fail("the file can't be read");
    rewind(file);
    bytes = room((size_t)end, 1);
    *len = fread(bytes, 1, (size_t)end, file);
    fclose(file);
    return bytes;
}

/* The chunk of this name behind the header, and its length; NULL if there is none. */
static const uint8_t *chunk(const uint8_t *wav, size_t len, const char *name, size_t *size)
{
    size_t at = 12;
    while (at + 8 <= len) {
        size_t rest = len - at - 8;
        size_t said = little(wav + at + 4, 4);
        if (memcmp(wav + at, name, 4) == 0) {
            *size = said < rest ? said : rest;
            return wav + at + 8;
        }
        if (said >= rest)
            break;
        at += 8 + said + said % 2;
    }
    return NULL;
}

static float sample(const uint8_t *b, int width)
{
    uint32_t bits = little(b, width);
    float x;
    if (width == 2)
        return (float)(int16_t)bits / 32768.0f;
    memcpy(&x, &bits, sizeof x);
    return x;
}

static struct recording read_wav(const char *name)
{
    struct recording r;
    size_t len, format_len, data_len, i;
    uint8_t *wav = read_file(name, &len);
    const uint8_t *format, *data;
    int width = 0;
    if (len < 12 || memcmp(wav, "RIFF", 4) != 0 || memcmp(wav + 8, "WAVE", 4) != 0)
        fail("not a WAV file");
    format = chunk(wav, len, "fmt ", &format_len);
    data = chunk(wav, len, "data", &data_len);
    if (format == NULL || format_len < 16 || data == NULL)
        fail("its format or its data is missing");
    if (little(format + 2, 2) != 1)
        fail("more than one channel");
    if (little(format, 2) == 1 && little(format + 14, 2) == 16)
        width = 2;
    else if (little(format, 2) == 3 && little(format + 14, 2) == 32)
        width = 4;
    else
        fail("neither 16-bit PCM nor 32-bit floats");
    r.rate = little(format + 4, 4);
    r.len = data_len / (size_t)width;
    r.samples = room(r.len, sizeof *r.samples);
    for (i = 0; i < r.len; i++)
        r.samples[i] = sample(data + i * (size_t)width, width);
    free(wav);
    return r;
}

/* The whole word is a decimal number up to `most`. */
static unsigned long number(const char *word, unsigned long most, const char *words)
{
    unsigned long value = 0;
    const char *c;
    for (c = word; *c >= '0' && *c <= '9' && value <= most; c++)
        value = 10 * value + (unsigned long)(*c - '0');
    if (c == word || *c != '\0' || value > most)
        fail(words);
    return value;
}

static uint32_t role_of(const char *word)
{
    if (strcmp(word, "originate") == 0)
        return 0;
    if (strcmp(word, "answer") == 0)
        return 1;
    return (uint32_t)number(word, 1, "ROLE is originate or answer, 0 or 1");
}

static void print_shown(uint16_t station, const uint64_t *shown)
{
    static const int answers[COUNTS] = {0, 11, 12, 13, 14, 15, 16, 17, 18, 19, 20, 34};
    int i;
    if (shown[0] == 1) {
        long level = (long)shown[2];
        if (level >= 32768)
            level -= 65536;
        printf("R %u %llu %ld\n", station, (unsigned long long)shown[1], level);
    } else {
        printf("R\n");
    }
    for (i = 0; i < COUNTS; i++)
        if (shown[3 + i] > 0)
            printf("answer %d: %llu\n", answers[i], (unsigned long long)shown[3 + i]);
}

int main(int argc, char **argv)
{
    struct recording r;
    uint16_t station;
    uint32_t role;
    size_t writes, run, i;
    uint32_t *lengths;
    uint64_t *answers, shown[SHOWN];
    int refused = 0;
    if (argc != 4)
        fail("usage: hear_wav FILE STATION ROLE");
    station = (uint16_t)number(argv[2], 65535, "STATION is a number from 1 to 65535");
    role = role_of(argv[3]);
    r = read_wav(argv[1]);
    if (morkhetta_board_refusal(r.rate, station) != 0)
        fail("the rate is not from 8,000 to 48,000, or the station is 0");

    writes = (r.len + BLOCK - 1) / BLOCK;
    lengths = room(writes, sizeof *lengths);
    answers = room(writes, ANSWERS * sizeof *answers);
    for (i = 0; i < writes; i++)
        lengths[i] = BLOCK;
    run = morkhetta_listen(r.rate, station, role, r.samples, r.len, lengths, writes,
                           answers, ANSWERS * writes, shown, SHOWN);
    for (i = 0; i < run; i++)
        if (answers[ANSWERS * i] != 0) {
            fprintf(stderr, "hear_wav: write %lu refused: %llu\n", (unsigned long)i,
                    (unsigned long long)answers[ANSWERS * i]);
            refused = 1;
        }
    print_shown(station, shown);
    free(answers);
    free(lengths);
    free(r.samples);
    return refused;
}
