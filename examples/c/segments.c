/*
 * Three band segments on one processor, each with a bank and a gate of its own n, windows and levels, fed from one loop: at each
 * tick wolfcloak_dispatch names the segment whose hop is heard. Nothing in it divides.
 */
#include <math.h>
#include <stdint.h>
#include <stdio.h>
#include <stdlib.h>

#include "wolfcloak.h"

/* A receiver acts as technician. */
enum { ROLE = WOLFCLOAK_TECHNICIAN };

enum { SEGMENTS = 3, MOST = 40, TICKS = 6000 };

struct segment {
    /* what it listens to: a tone on one channel, from one hop to another; and a hop that its front end garbles */
    size_t n, tone;
    long from, to, garbled;
    /* its gate: levels in eighths of a dB over the floor, no early rise */
    int32_t on, off;
    uint16_t lengths[2];
    /* its stores */
    size_t bank_len, bank_f_len, gate_f_len;
    uint16_t *bank, gate[WOLFCLOAK_GATE_LEN];
    double *bank_f, *gate_f;
    /* the hop that is waiting, if there is one */
    int waiting;
    double power_db[MOST];
    float power[MOST];
    /* which hop that is, how many were served, and which channels are alive */
    long hop, served;
    uint8_t alive[MOST];
};

static struct segment segments[SEGMENTS] = {
    {.n = 8, .tone = 3, .from = 600, .to = 1100, .garbled = -1, .on = 48, .off = 24, .lengths = {15, 75}},
    {.n = 40, .tone = 33, .from = 700, .to = 900, .garbled = 450, .on = 64, .off = 32, .lengths = {75, 75}},
    {.n = 3, .tone = 0, .from = 300, .to = 1200, .garbled = -1, .on = 40, .off = 40, .lengths = {15, 15}},
};

static void stop(const char *call, uint16_t refusal)
{
    fprintf(stderr, "%s: refused with %u\n", call, refusal);
    exit(1);
}

static void make(struct segment *s)
{
    s->bank_len = wolfcloak_bank_len(s->n);
    s->bank_f_len = wolfcloak_bank_f_len(s->n);
    s->gate_f_len = wolfcloak_gate_f_len(s->n, s->lengths, 2);
    s->bank = malloc(s->bank_len * sizeof *s->bank);
    s->bank_f = malloc(s->bank_f_len * sizeof *s->bank_f);
    s->gate_f = malloc(s->gate_f_len * sizeof *s->gate_f);
    if (!s->bank || !s->bank_f || !s->gate_f)
        exit(1);
    uint16_t r = wolfcloak_bank_new(ROLE, s->bank, s->bank_len, s->bank_f, s->bank_f_len, s->n);
    if (r)
        stop("bank_new", r);
    r = wolfcloak_gate_new(ROLE, s->gate, WOLFCLOAK_GATE_LEN, s->gate_f, s->gate_f_len, s->n, s->on, s->off, WOLFCLOAK_NO_EARLY,
                           s->lengths, 2);
    if (r)
        stop("gate_new", r);
    s->hop = -1;
}

/* A small generator, so that the program prints the same everywhere. */
static uint32_t state = 1;

static double noise(void)
{
    state = state * 1664525u + 1013904223u;
    return (double)(state >> 16) * 0x1p-16;
}

/* A hop arrives: about -100 dB everywhere, the tone 20 dB over it. */
static void arrive(struct segment *s)
{
    if (s->waiting) {
        fprintf(stderr, "a hop came before the one before was served\n");
        exit(1);
    }
    s->waiting = 1;
    s->hop++;
    for (size_t k = 0; k < s->n; k++) {
        int tone = k == s->tone && s->hop >= s->from && s->hop < s->to;
        s->power_db[k] = (tone ? -80.0 : -100.0) + 4.0 * (noise() - 0.5);
        s->power[k] = tone ? 1e-8f : 1e-10f;
    }
    if (s->hop == s->garbled)
        s->power_db[0] = (double)NAN;
}

/* The bank update and the gate update of the segment's hop; then it waits no longer, refused or not. */
static void serve(int i)
{
    struct segment *s = &segments[i];
    uint8_t rise[MOST], drop[MOST];
    s->waiting = 0;
    s->served++;
    uint16_t r = wolfcloak_bank_update(ROLE, s->bank, s->bank_len, s->bank_f, s->bank_f_len, s->power_db, s->n, s->power, s->n);
    if (!r)
        r = wolfcloak_gate_update(ROLE, s->bank, s->bank_len, s->bank_f, s->bank_f_len, s->gate, WOLFCLOAK_GATE_LEN,
                                  s->gate_f, s->gate_f_len, s->power_db, s->n, s->power, s->n, rise, s->n, drop, s->n);
    if (r) {
        printf("segment %d  hop %4ld  refused with %u\n", i, s->hop, r);
        return;
    }
    for (size_t k = 0; k < s->n; k++) {
        uint8_t now = s->alive[k] ? !(drop[k] && !rise[k]) : rise[k];
        if (now != s->alive[k])
            printf("segment %d  hop %4ld  channel %2zu  %s\n", i, s->hop, k, now ? "rise" : "drop");
        s->alive[k] = now;
    }
}

int main(void)
{
    size_t last = SEGMENTS - 1;
    long idle = 0;
    for (int i = 0; i < SEGMENTS; i++)
        make(&segments[i]);

    /* With every fourth tick comes a hop of each segment. Of three each is served within three ticks, so none comes too soon. */
    for (long tick = 0; tick < TICKS; tick++) {
        uint8_t waiting = 0;
        for (int i = 0; i < SEGMENTS; i++) {
            if ((tick & 3) == 0)
                arrive(&segments[i]);
            waiting |= (uint8_t)(segments[i].waiting << i);
        }
        uint16_t r = wolfcloak_dispatch(ROLE, SEGMENTS, waiting, &last);
        if (r == WOLFCLOAK_OK)
            serve((int)last);
        else if (r == WOLFCLOAK_NONE_WAITING)
            idle++;
        else
            stop("dispatch", r);
    }
    for (int i = 0; i < SEGMENTS; i++) {
        printf("segment %d  %zu channels, %ld hops served\n", i, segments[i].n, segments[i].served);
        free(segments[i].bank);
        free(segments[i].bank_f);
        free(segments[i].gate_f);
    }
    printf("%ld of %d ticks with none waiting\n", idle, TICKS);
    return 0;
}
