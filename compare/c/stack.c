/* How much stack each function of the library needs: each is run on a stack that
 * was painted beforehand, and the paint that is gone afterwards is counted.
 */
#define _GNU_SOURCE
#include <pthread.h>
#include <stdint.h>
#include <stdio.h>
#include <stdlib.h>
#include <string.h>
#include <sys/mman.h>

#include "morkhetta.h"

enum { STACK = 4 << 20, PAINT = 0xA5, SAMPLES = 48000, BLOCK = 1024, CALLS = 64 };

static float samples[SAMPLES];
static double wide[SAMPLES], output[8 * SAMPLES], state[20000];
static uint8_t data[4096], bytes[4096], events[4096];
static uint32_t lengths[CALLS], script[3 * CALLS], resampling[2 * CALLS];
static int32_t places[SAMPLES];
static uint64_t sending[2 * CALLS], answers[6 * CALLS], shown[64];

static void *nothing(void *unused)
{
    return unused;
}

static void *resample(void *unused)
{
    morkhetta_resample(48000, 8000, wide, SAMPLES, lengths, CALLS, output, 8 * SAMPLES, answers, 2 * CALLS);
    morkhetta_resample(8000, 48000, wide, SAMPLES, lengths, CALLS, output, 8 * SAMPLES, answers, 2 * CALLS);
    return unused;
}

static void *receive(void *unused)
{
    morkhetta_receive(48000, 0, samples, SAMPLES, script, 3 * CALLS, bytes, 4096, events, 4096, answers, 6 * CALLS);
    morkhetta_receive(8000, 1, samples, SAMPLES, script, 3 * CALLS, bytes, 4096, events, 4096, answers, 6 * CALLS);
    return unused;
}

static void *receiver_state(void *unused)
{
    morkhetta_receiver_state(48000, 0, samples, SAMPLES, script, 3 * CALLS, state, 20000);
    return unused;
}

static void *resampler_state(void *unused)
{
    morkhetta_resampler_state(
        48000, 8000, wide, SAMPLES, resampling, 2 * CALLS, output, 8 * SAMPLES, answers, 2 * CALLS, state, 20000);
    morkhetta_resampler_state(
        8000, 48000, wide, SAMPLES, resampling, 2 * CALLS, output, 8 * SAMPLES, answers, 2 * CALLS, state, 20000);
    return unused;
}

static void *deframe(void *unused)
{
    morkhetta_frame_bytes(data, 100, bytes, 1000);
    morkhetta_deframe(0, 0, 0, 0, bytes, 50, answers, 6 * CALLS);
    return unused;
}

static void *transmit(void *unused)
{
    morkhetta_send(48000, 0, data, 4096, sending, 2 * CALLS, samples, SAMPLES, answers, 3 * CALLS);
    morkhetta_send(8000, 1, data, 4096, sending, 2 * CALLS, samples, SAMPLES, answers, 3 * CALLS);
    return unused;
}

static void *transmit_table(void *unused)
{
    morkhetta_table_send(0, data, 4096, sending, 2 * CALLS, places, SAMPLES, answers, 3 * CALLS);
    return unused;
}

static void *sender_state(void *unused)
{
    morkhetta_sender_state(
        48000, 0, data, 4096, sending, 2 * CALLS, samples, SAMPLES, answers, 3 * CALLS, state, 20000);
    morkhetta_sender_state(
        8000, 1, data, 4096, sending, 2 * CALLS, samples, SAMPLES, answers, 3 * CALLS, state, 20000);
    return unused;
}

static void *hear(void *unused)
{
    morkhetta_listen(48000, 7, 0, samples, SAMPLES, lengths, CALLS, answers, 5 * CALLS, shown, 64);
    morkhetta_listen(8000, 7, 1, samples, SAMPLES, lengths, CALLS, answers, 5 * CALLS, shown, 64);
    return unused;
}

/* The bytes of a painted stack that a run of the function changed. */
static size_t used(void *(*run)(void *))
{
    pthread_attr_t attributes;
    pthread_t thread;
    size_t left = 0;
    uint8_t *stack = mmap(NULL, STACK, PROT_READ | PROT_WRITE, MAP_PRIVATE | MAP_ANONYMOUS, -1, 0);
    if (stack == MAP_FAILED)
        exit(1);
    memset(stack, PAINT, STACK);
    pthread_attr_init(&attributes);
    if (pthread_attr_setstack(&attributes, stack, STACK) != 0
        || pthread_create(&thread, &attributes, run, NULL) != 0)
        exit(1);
    pthread_join(thread, NULL);
    while (left < STACK && stack[left] == PAINT)
        left++;
    munmap(stack, STACK);
    return STACK - left;
}

int main(void)
{
    static const struct {
        const char *name;
        void *(*run)(void *);
    } functions[] = {
        {"morkhetta_resample", resample},
        {"morkhetta_receive", receive},
        {"morkhetta_receiver_state", receiver_state},
        {"morkhetta_resampler_state", resampler_state},
        {"morkhetta_frame_bytes, morkhetta_deframe", deframe},
        {"morkhetta_send", transmit},
        {"morkhetta_table_send", transmit_table},
        {"morkhetta_sender_state", sender_state},
        {"morkhetta_listen", hear},
    };
    size_t thread = used(nothing);
    int i;
    for (i = 0; i < CALLS; i++) {
        lengths[i] = script[3 * i] = BLOCK;
        resampling[2 * i] = i % 8 == 7;
        resampling[2 * i + 1] = BLOCK;
        script[3 * i + 1] = 512;
        script[3 * i + 2] = 64;
        sending[2 * i] = i % 2 == 0 ? 0 : 3;
        sending[2 * i + 1] = i % 2 == 0 ? 64 : BLOCK;
    }
    for (i = 0; i < SAMPLES; i++)
        samples[i] = (float)(wide[i] = i % 6 < 3 ? 0.5 : -0.5);
    for (i = 0; i < (int)(sizeof functions / sizeof *functions); i++)
        printf("%s: %zu bytes\n", functions[i].name, used(functions[i].run) - thread);
    return 0;
}
