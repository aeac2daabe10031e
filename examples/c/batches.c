/*
 * A receiver that collects hops: it hands 25 of them over in one call, as a run, so that the stores are tested 15 times a second and not 750
 * times. Noise on eight channels, a tone that comes and goes on one of them, a static crash, which is held, and one garbled hop: the run that
 * has it is refused as a whole, and its hops are fed by single calls, which refuse that one alone.
 */
#include <math.h>
#include <stdint.h>
#include <stdio.h>
#include <stdlib.h>

#include "wolfcloak.h"

/* A receiver acts as technician. */
enum { ROLE = WOLFCLOAK_TECHNICIAN };

enum { CHANNELS = 8, TONE = 3, BATCH = 25, BATCHES = 60, GARBLED = 765 };
enum { BANK_LEN = 3 + 1 + 573 * CHANNELS, BANK_F_LEN = 4 * CHANNELS + 2, GATE_F_LEN = 187 * CHANNELS };

/* The set's stores. */
static uint16_t bank[BANK_LEN], gate[WOLFCLOAK_GATE_LEN];
static double bank_f[BANK_F_LEN], gate_f[GATE_F_LEN];

/* The hops that were collected, one after another, and the places of their marks. */
static uint8_t hold[BATCH], rise[BATCH * CHANNELS], drop[BATCH * CHANNELS];
static double power_db[BATCH * CHANNELS];
static float power[BATCH * CHANNELS];

static void stop(const char *call, uint16_t refusal)
{
    fprintf(stderr, "%s: refused with %u\n", call, refusal);
    exit(1);
}

/* Hop i of the batch: about -150 dB everywhere, the tone at -130 dB from hop 600 to hop 1,100, and in the crash -110 dB everywhere. */
static void collect(int hop, int i)
{
    static uint32_t state = 1;

    hold[i] = hop >= 300 && hop < 310;
    for (int k = 0; k < CHANNELS; k++) {
        int tone = k == TONE && hop >= 600 && hop < 1100;
        state = state * 1664525u + 1013904223u;
        power_db[i * CHANNELS + k] = (hold[i] ? -110.0 : tone ? -130.0 : -150.0) + 4.0 * ((state >> 16) / 65536.0 - 0.5);
        power[i * CHANNELS + k] = hold[i] ? 1e-11f : tone ? 1e-13f : 1e-15f;
    }
    if (hop == GARBLED)
        power_db[i * CHANNELS] = (double)NAN;
}

/* The whole batch at once. */
static uint16_t feed_run(void)
{
    return wolfcloak_receive(ROLE, bank, BANK_LEN, bank_f, BANK_F_LEN, gate, WOLFCLOAK_GATE_LEN, gate_f, GATE_F_LEN, hold, BATCH,
                             power_db, BATCH * CHANNELS, power, BATCH * CHANNELS, rise, BATCH * CHANNELS, drop, BATCH * CHANNELS);
}

/* Hop i of the batch by single calls. */
static uint16_t feed_hop(int i)
{
    double *its_db = power_db + i * CHANNELS;
    float *its_power = power + i * CHANNELS;
    uint8_t *its_rise = rise + i * CHANNELS, *its_drop = drop + i * CHANNELS;
    uint16_t r = wolfcloak_bank_update_holding_reference(ROLE, bank, BANK_LEN, bank_f, BANK_F_LEN, its_db, CHANNELS, its_power, CHANNELS,
                                                         hold[i] != 0);
    if (r)
        return r;
    if (hold[i])
        return wolfcloak_gate_hold(ROLE, bank, BANK_LEN, bank_f, BANK_F_LEN, gate, WOLFCLOAK_GATE_LEN, gate_f, GATE_F_LEN,
                                   its_rise, CHANNELS, its_drop, CHANNELS);
    return wolfcloak_gate_update(ROLE, bank, BANK_LEN, bank_f, BANK_F_LEN, gate, WOLFCLOAK_GATE_LEN, gate_f, GATE_F_LEN,
                                 its_db, CHANNELS, its_power, CHANNELS, its_rise, CHANNELS, its_drop, CHANNELS);
}

/* What the marks of hop i of the batch change. */
static void tell(int hop, int i)
{
    static int alive[CHANNELS];

    for (int k = 0; k < CHANNELS; k++) {
        int rises = rise[i * CHANNELS + k], drops = drop[i * CHANNELS + k];
        int now = alive[k] ? !(drops && !rises) : rises;
        if (now != alive[k])
            printf("%7.3f s  channel %d  %s\n", hop / 375.0, k, now ? "rise" : "drop");
        alive[k] = now;
    }
}

int main(void)
{
    static const uint16_t lengths[2] = {15, 75};
    int runs = 0;

    /* on 6 dB, off 3 dB over the floor, in eighths; no early rise */
    uint16_t r = wolfcloak_bank_new(ROLE, bank, BANK_LEN, bank_f, BANK_F_LEN, CHANNELS);
    if (r)
        stop("bank_new", r);
    r = wolfcloak_gate_new(ROLE, gate, WOLFCLOAK_GATE_LEN, gate_f, GATE_F_LEN, CHANNELS, 48, 24, WOLFCLOAK_NO_EARLY, lengths, 2);
    if (r)
        stop("gate_new", r);

    for (int first = 0; first < BATCHES * BATCH; first += BATCH) {
        for (int i = 0; i < BATCH; i++)
            collect(first + i, i);
        uint16_t run = feed_run();
        if (run && run != WOLFCLOAK_REFUSED_GARBLED)
            stop("receive", run);
        if (run)
            printf("hops %d to %d  the run is refused with %u\n", first, first + BATCH - 1, run);
        runs += !run;
        for (int i = 0; i < BATCH; i++) {
            r = run ? feed_hop(i) : WOLFCLOAK_OK;
            if (r)
                printf("hop %d  refused with %u\n", first + i, r);
            else
                tell(first + i, i);
        }
    }
    printf("%d hops in %d runs, %d one by one\n", BATCHES * BATCH, runs, (BATCHES - runs) * BATCH);
    return 0;
}
