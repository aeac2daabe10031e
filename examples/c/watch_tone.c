/*
 * A complete small receiver loop over libwolfcloak.a: noise on eight channels, and a tone that comes and goes on one of them. At the end a
 * keeper reads a floor, and has no right to feed a hop.
 */
#include <stdint.h>
#include <stdio.h>
#include <stdlib.h>

#include "wolfcloak.h"

/* A receiver acts as technician. */
enum { ROLE = WOLFCLOAK_TECHNICIAN };

enum { CHANNELS = 8, HOPS = 1500, TONE = 3 };

/* Where an effective floor comes from, by WOLFCLOAK_EFFECTIVE_OWN_QUARTILE and what follows it. */
static const char *const rules[] = {"own quartile", "block plus 3", "seed"};

/* A small generator, so that the program prints the same everywhere. */
static uint32_t state = 1;

static double noise(void)
{
    state = state * 1664525u + 1013904223u;
    return (double)(state >> 16) / 65536.0;
}

/* One hop: about -150 dB everywhere, and the tone at -130 dB from hop 600 to hop 1,100. Linear power is 10^(dB/10). */
static void hear(int hop, double *power_db, float *power)
{
    for (int k = 0; k < CHANNELS; k++) {
        int tone = k == TONE && hop >= 600 && hop < 1100;
        power_db[k] = (tone ? -130.0 : -150.0) + 4.0 * (noise() - 0.5);
        power[k] = tone ? 1e-13f : 1e-15f;
    }
}

static void stop(const char *call, uint16_t refusal)
{
    fprintf(stderr, "%s: refused with %u\n", call, refusal);
    exit(1);
}

int main(void)
{
    const uint16_t lengths[] = {15, 75};
    size_t bank_len = wolfcloak_bank_len(CHANNELS), bank_f_len = wolfcloak_bank_f_len(CHANNELS);
    size_t gate_f_len = wolfcloak_gate_f_len(CHANNELS, lengths, 2);
    uint16_t *bank = malloc(bank_len * sizeof *bank), gate[WOLFCLOAK_GATE_LEN];
    double *bank_f = malloc(bank_f_len * sizeof *bank_f), *gate_f = malloc(gate_f_len * sizeof *gate_f);
    if (!bank || !bank_f || !gate_f)
        return 1;

    /* on 6 dB, off 3 dB over the floor, in eighths; no early rise */
    uint16_t r = wolfcloak_bank_new(ROLE, bank, bank_len, bank_f, bank_f_len, CHANNELS);
    if (r)
        stop("bank_new", r);
    r = wolfcloak_gate_new(ROLE, gate, WOLFCLOAK_GATE_LEN, gate_f, gate_f_len, CHANNELS, 48, 24, WOLFCLOAK_NO_EARLY, lengths, 2);
    if (r)
        stop("gate_new", r);

    int alive[CHANNELS] = {0};
    for (int hop = 0; hop < HOPS; hop++) {
        double power_db[CHANNELS];
        float power[CHANNELS];
        uint8_t rise[CHANNELS], drop[CHANNELS];
        hear(hop, power_db, power);
        r = wolfcloak_bank_update(ROLE, bank, bank_len, bank_f, bank_f_len, power_db, CHANNELS, power, CHANNELS);
        if (r)
            stop("bank_update", r);
        r = wolfcloak_gate_update(ROLE, bank, bank_len, bank_f, bank_f_len, gate, WOLFCLOAK_GATE_LEN, gate_f, gate_f_len,
                                  power_db, CHANNELS, power, CHANNELS, rise, CHANNELS, drop, CHANNELS);
        if (r)
            stop("gate_update", r);
        for (int k = 0; k < CHANNELS; k++) {
            int now = alive[k] ? !(drop[k] && !rise[k]) : rise[k];
            double floor_db, rise_floor_db;
            uint8_t rule, rise_rule;
            if (now == alive[k])
                continue;
            alive[k] = now;
            r = wolfcloak_explain(ROLE, bank, bank_len, bank_f, bank_f_len, (size_t)k,
                                  &rule, &floor_db, &rise_rule, &rise_floor_db);
            if (r)
                stop("explain", r);
            printf("%7.3f s  channel %d  %s  floor %.2f dB, %s\n", hop / 375.0, k, now ? "rise" : "drop", floor_db, rules[rule]);
        }
    }
    double floor_db, power_db[CHANNELS] = {0};
    float power[CHANNELS] = {0};
    r = wolfcloak_effective_floor_db(WOLFCLOAK_KEEPER, bank, bank_len, bank_f, bank_f_len, TONE, &floor_db);
    if (r)
        stop("effective_floor_db", r);
    r = wolfcloak_bank_update(WOLFCLOAK_KEEPER, bank, bank_len, bank_f, bank_f_len, power_db, CHANNELS, power, CHANNELS);
    printf("a keeper reads the floor, %.2f dB; a keeper's hop is refused with %u\n", floor_db, r);
    free(bank);
    free(bank_f);
    free(gate_f);
    return 0;
}
