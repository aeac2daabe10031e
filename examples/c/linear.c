/* A receiver that delivers linear power only: the set works the dB out itself. Noise on four channels, and a tone that comes and goes on one. */
#include <stdint.h>
#include <stdio.h>
#include <stdlib.h>

#include "wolfcloak.h"

/* A receiver acts as technician. */
enum { ROLE = WOLFCLOAK_TECHNICIAN };

enum { CHANNELS = 4, HOPS = 1500, TONE = 2, BANK_LEN = 3 + 1 + 573 * CHANNELS, BANK_F_LEN = 4 * CHANNELS + 2, GATE_F_LEN = 35 * CHANNELS };

/* One hop: 1e-15 more or less everywhere, and the tone at 1e-13 from hop 600 to hop 1,100. */
static void hear(int hop, float *power)
{
    static uint32_t state = 1;

    for (int k = 0; k < CHANNELS; k++) {
        state = state * 1664525u + 1013904223u;
        power[k] = (k == TONE && hop >= 600 && hop < 1100 ? 1e-13f : 1e-15f) * (0.5f + (float)(state >> 16) / 65536.0f);
    }
}

static void take(const char *call, uint16_t refusal)
{
    if (refusal == WOLFCLOAK_OK)
        return;
    fprintf(stderr, "%s: refused with %u\n", call, refusal);
    exit(1);
}

int main(void)
{
    static const uint16_t lengths[1] = {15};
    static uint16_t bank[BANK_LEN], gate[WOLFCLOAK_GATE_LEN];
    static double bank_f[BANK_F_LEN], gate_f[GATE_F_LEN];
    int alive[CHANNELS] = {0};

    take("bank_new", wolfcloak_bank_new(ROLE, bank, BANK_LEN, bank_f, BANK_F_LEN, CHANNELS));
    take("gate_new", wolfcloak_gate_new(ROLE, gate, WOLFCLOAK_GATE_LEN, gate_f, GATE_F_LEN, CHANNELS, 72, 48, WOLFCLOAK_NO_EARLY, lengths, 1));
    for (int hop = 0; hop < HOPS; hop++) {
        float power[CHANNELS];
        uint8_t rise[CHANNELS], drop[CHANNELS];
        hear(hop, power);
        take("bank_update_linear", wolfcloak_bank_update_linear(ROLE, bank, BANK_LEN, bank_f, BANK_F_LEN, power, CHANNELS, false));
        take("gate_update_linear", wolfcloak_gate_update_linear(ROLE, bank, BANK_LEN, bank_f, BANK_F_LEN, gate, WOLFCLOAK_GATE_LEN, gate_f, GATE_F_LEN,
                                                                power, CHANNELS, rise, CHANNELS, drop, CHANNELS));
        for (int k = 0; k < CHANNELS; k++) {
            int now = alive[k] ? !(drop[k] && !rise[k]) : rise[k];
            if (now != alive[k])
                printf("%7.3f s  channel %d  %s  at %.3f dB\n", hop / 375.0, k, now ? "rise" : "drop", wolfcloak_power_db(power[k]));
            alive[k] = now;
        }
    }
    return 0;
}
