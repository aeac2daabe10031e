/*
 * The main board's loop over the registers: it sets masks, looks at the wire, and where that is up reads the flags and clears what it has read by
 * writing it back. Hops go on meanwhile: here one comes between each read and its write, and what that one marks stays.
 */
#include <stdint.h>
#include <stdio.h>
#include <stdlib.h>

#include "wolfcloak.h"

/* The receiver acts as technician; a leader may write registers too, and a keeper only read them. */
enum { ROLE = WOLFCLOAK_TECHNICIAN };

enum { N = 12, W = (N + 7) / 8, HOPS = 1500 };

/* The set: it listens to three tones, of which that on channel 10 is of no interest to the board. */
static const struct { size_t channel; long from; } tones[3] = {{3, 600}, {4, 601}, {10, 700}};
static const uint16_t lengths[1] = {15};
static uint16_t *bank, gate[WOLFCLOAK_GATE_LEN];
static double *bank_f, *gate_f;
static size_t bank_len, bank_f_len, gate_f_len;
static uint8_t map[3 * W], rose[N];
static long hop;

static void must(const char *call, uint16_t refusal)
{
    if (refusal) {
        fprintf(stderr, "%s: refused with %u\n", call, refusal);
        exit(1);
    }
}

/* A gate that drops only far below the floor: each drop mark sets a flag too, and silence is no reason to call the board. */
static void make(void)
{
    bank_len = wolfcloak_bank_len(N);
    bank_f_len = wolfcloak_bank_f_len(N);
    gate_f_len = wolfcloak_gate_f_len(N, lengths, 1);
    bank = malloc(bank_len * sizeof *bank);
    bank_f = malloc(bank_f_len * sizeof *bank_f);
    gate_f = malloc(gate_f_len * sizeof *gate_f);
    if (!bank || !bank_f || !gate_f || wolfcloak_map_len(N) != sizeof map)
        exit(1);
    must("bank_new", wolfcloak_bank_new(ROLE, bank, bank_len, bank_f, bank_f_len, N));
    must("gate_new", wolfcloak_gate_new(ROLE, gate, WOLFCLOAK_GATE_LEN, gate_f, gate_f_len, N, 48, -800, WOLFCLOAK_NO_EARLY, lengths, 1));
    must("map_new", wolfcloak_map_new(ROLE, gate, WOLFCLOAK_GATE_LEN, gate_f, gate_f_len, map, sizeof map));
}

/* One hop: the bank's update, and the gate's with the map. */
static void hear(void)
{
    double power_db[N];
    float power[N];
    uint8_t rise[N], drop[N];
    for (size_t k = 0; k < N; k++) {
        power_db[k] = -100;
        power[k] = 1e-10f;
    }
    for (int i = 0; i < 3; i++)
        if (hop >= tones[i].from && hop < tones[i].from + 200) {
            power_db[tones[i].channel] = -80;
            power[tones[i].channel] = 1e-8f;
        }
    must("bank_update", wolfcloak_bank_update(ROLE, bank, bank_len, bank_f, bank_f_len, power_db, N, power, N));
    must("gate_update_map", wolfcloak_gate_update_map(ROLE, bank, bank_len, bank_f, bank_f_len, gate, WOLFCLOAK_GATE_LEN, gate_f, gate_f_len,
                                                      map, sizeof map, power_db, N, power, N, rise, N, drop, N));
    for (size_t k = 0; k < N; k++)
        rose[k] |= rise[k];
    hop++;
}

/* ---- the main board: it knows registers and the wire, and no channel but by its bit ---- */

static uint8_t reg(size_t address)
{
    uint8_t value = 0;
    must("map_read", wolfcloak_map_read(ROLE, gate, WOLFCLOAK_GATE_LEN, gate_f, gate_f_len, map, sizeof map, address, &value));
    return value;
}

static void set_reg(size_t address, uint8_t value)
{
    must("map_write", wolfcloak_map_write(ROLE, gate, WOLFCLOAK_GATE_LEN, gate_f, gate_f_len, map, sizeof map, address, value));
}

static uint8_t wire(void)
{
    uint8_t up = 0;
    must("map_wire", wolfcloak_map_wire(ROLE, gate, WOLFCLOAK_GATE_LEN, gate_f, gate_f_len, map, sizeof map, &up));
    return up;
}

/* What rose in a byte of flags: it is told, and its mask bits go, so that it does not call again. */
static void attend(size_t byte)
{
    uint8_t flags = reg(byte), mask = reg(2 * W + byte);
    hear(); /* this hop's marks are not in flags: they stay */
    set_reg(byte, flags);
    for (int j = 0; j < 8; j++)
        if (flags & mask & 1 << j)
            printf("hop %4ld  the wire is up: channel %2zu rose\n", hop, 8 * byte + (size_t)j);
    set_reg(2 * W + byte, mask & (uint8_t)~flags);
}

int main(void)
{
    make();
    /* all channels but 10; what is written past n stays 0 */
    set_reg(2 * W, 0xff);
    set_reg(2 * W + 1, 0xff & (uint8_t)~(1 << (10 - 8)));
    printf("masks %02x %02x\n", reg(2 * W), reg(2 * W + 1));
    while (hop < HOPS) {
        hear();
        if (wire())
            for (size_t byte = 0; byte < W; byte++)
                attend(byte);
    }
    printf("masks %02x %02x, rise flags %02x %02x; rose:", reg(2 * W), reg(2 * W + 1), reg(0), reg(1));
    for (size_t k = 0; k < N; k++)
        if (rose[k])
            printf(" %zu", k);
    puts("");
    free(bank);
    free(bank_f);
    free(gate_f);
    return 0;
}
