/* Makes banks and gates, feeds hops and reads floors and marks as firmware does; d and h are bench values of document 01. */
#include "wolfcloak.h"
#include <math.h>
#include <stdio.h>
#include <stdlib.h>
#include <string.h>

/* The receiver acts as technician. */
static const uint16_t me = WOLFCLOAK_TECHNICIAN;

static int wrong;

static void expect(const char *what, double got, double want)
{
    if (got != want) {
        printf("tests/link: %s is %.17g, and %.17g is due\n", what, got, want);
        wrong++;
    }
}

/* The u16 stores of one and of two channels; and of one channel as it was before R-11. */
enum { CHANNEL_LEN = 573, ONE = 3 + 1 + CHANNEL_LEN, TWO = 3 + 1 + 2 * CHANNEL_LEN, OLD_ONE = 3 + 1 + 533 };

/* One channel: the raw floor before a push, and after one of -200; and a store from before. */
static void bench_d(void)
{
    uint16_t bank[ONE];
    double bank_f[6], db = -200, value = 0;
    float power = 0;

    expect("bank_len(1)", wolfcloak_bank_len(1), ONE);
    expect("bank_f_len(1)", wolfcloak_bank_f_len(1), 6);
    expect("bank_new", wolfcloak_bank_new(me, bank, ONE, bank_f, 6, 1), WOLFCLOAK_OK);
    expect("channel_floor_db", wolfcloak_channel_floor_db(me, bank, ONE, bank_f, 6, 0, &value), WOLFCLOAK_OK);
    expect("d, before a push", value, -160);
    expect("bank_update", wolfcloak_bank_update(me, bank, ONE, bank_f, 6, &db, 1, &power, 1), WOLFCLOAK_OK);
    expect("channel_floor_db", wolfcloak_channel_floor_db(me, bank, ONE, bank_f, 6, 0, &value), WOLFCLOAK_OK);
    expect("d, after a push of -200", value, -159.75);
    expect("a store from before", wolfcloak_channel_floor_db(me, bank, OLD_ONE, bank_f, 6, 0, &value),
           WOLFCLOAK_REFUSED_STORE_SIZE);
}

/* Two channels, one hop of -100 and -60. */
static void bench_h(void)
{
    size_t len = wolfcloak_bank_len(2), f_len = wolfcloak_bank_f_len(2), start, count;
    uint16_t *bank = malloc(len * sizeof *bank);
    double *bank_f = malloc(f_len * sizeof *bank_f), db[2] = {-100, -60}, value, effective, rise, raw;
    float power[2] = {1e-10f, 1e-6f};
    uint8_t effective_origin = 9, rise_origin = 9;

    if (!bank || !bank_f)
        exit(1);
    expect("bank_new", wolfcloak_bank_new(me, bank, len, bank_f, f_len, 2), WOLFCLOAK_OK);
    expect("bank_update_holding_reference",
           wolfcloak_bank_update_holding_reference(me, bank, len, bank_f, f_len, db, 2, power, 2, true), WOLFCLOAK_OK);
    expect("h, block floor", bank_f[8], -79.75);
    expect("effective_floor_db", wolfcloak_effective_floor_db(me, bank, len, bank_f, f_len, 0, &value), WOLFCLOAK_OK);
    expect("h, effective floor of the first", value, -80 - 3.8);
    expect("effective_floor_db", wolfcloak_effective_floor_db(me, bank, len, bank_f, f_len, 1, &value), WOLFCLOAK_OK);
    expect("h, effective floor of the second", value, -76.75);
    expect("rise_floor_db", wolfcloak_rise_floor_db(me, bank, len, bank_f, f_len, 0, &value), WOLFCLOAK_OK);
    expect("h, rise floor of the first", value, -79.75);
    expect("floors", wolfcloak_floors(me, bank, len, bank_f, f_len, 0, &effective, &rise, &raw), WOLFCLOAK_OK);
    expect("effective of floors", effective, -80 - 3.8);
    expect("rise of floors", rise, -79.75);
    expect("raw of floors", raw, -99.75);
    expect("explain", wolfcloak_explain(me, bank, len, bank_f, f_len, 0, &effective_origin, &effective, &rise_origin, &rise),
           WOLFCLOAK_OK);
    expect("origin of the first's effective floor", effective_origin, WOLFCLOAK_EFFECTIVE_SEED);
    expect("effective floor explained", effective, -80 - 3.8);
    expect("origin of the first's rise floor", rise_origin, WOLFCLOAK_RISE_BLOCK);
    expect("rise floor explained", rise, -79.75);
    expect("explain", wolfcloak_explain(me, bank, len, bank_f, f_len, 1, &effective_origin, &effective, &rise_origin, &rise),
           WOLFCLOAK_OK);
    expect("origin of the second's effective floor", effective_origin, WOLFCLOAK_EFFECTIVE_BLOCK_PLUS_3);
    expect("origin of the second's rise floor", rise_origin, WOLFCLOAK_RISE_EFFECTIVE_FLOOR);
    expect("rise floor explained", rise, -76.75);
    expect("a channel too many",
           wolfcloak_explain(me, bank, len, bank_f, f_len, 2, &effective_origin, &effective, &rise_origin, &rise),
           WOLFCLOAK_REFUSED_CHANNEL);
    expect("origin after a refusal", rise_origin, WOLFCLOAK_RISE_EFFECTIVE_FLOOR);
    expect("spectral_reference", wolfcloak_spectral_reference(me, bank, len, bank_f, f_len, 1, &value), WOLFCLOAK_OK);
    expect("spectral reference of the second", value, (double)power[0] + 1e-20);
    expect("ring", wolfcloak_ring(me, bank, len, bank_f, f_len, 1, &start, &count), WOLFCLOAK_OK);
    expect("ring's start", start, 3 + 1 + CHANNEL_LEN);
    expect("ring's length", count, 250);
    expect("bin of -60", bank[start], 200);
    expect("a channel too many", wolfcloak_ring(me, bank, len, bank_f, f_len, 2, &start, &count), WOLFCLOAK_REFUSED_CHANNEL);
    free(bank);
    free(bank_f);
}

/* A bank of two channels that has heard noise of -100 dB, and the hops that the gates below hear: a strong tone in the second. */
static uint16_t bank[TWO];
static double bank_f[10];
static const double tone_db[2] = {-100, -60};
static const float tone[2] = {1e-10f, 1e-6f};

static void hear_noise(void)
{
    static const double db[2] = {-100, -100};
    static const float power[2] = {1e-10f, 1e-10f};

    expect("bank_new", wolfcloak_bank_new(me, bank, TWO, bank_f, 10, 2), WOLFCLOAK_OK);
    expect("bank_update", wolfcloak_bank_update(me, bank, TWO, bank_f, 10, db, 2, power, 2), WOLFCLOAK_OK);
}

static void expect_marks(const char *what, const uint8_t *marks, int first, int second)
{
    expect(what, marks[0], first);
    expect(what, marks[1], second);
}

/* Windows of 2 hops, on 6 dB and off 2 dB: the tone rises with its fourth hop, when two windows are full. */
static void window_rise(void)
{
    static const uint16_t lengths[2] = {2, 2};
    uint16_t gate[WOLFCLOAK_GATE_LEN];
    double gate_f[18], value = 0; /* 2 + (8 + 2 + 2), once, + 2 + 2 */
    uint8_t rise[2] = {9, 9}, drop[2] = {9, 9};

    expect("gate_f_len", wolfcloak_gate_f_len(2, lengths, 2), 18);
    expect("gate_new", wolfcloak_gate_new(me, gate, 30, gate_f, 18, 2, 48, 16, WOLFCLOAK_NO_EARLY, lengths, 2), WOLFCLOAK_OK);
    expect("gate_hold", wolfcloak_gate_hold(me, bank, TWO, bank_f, 10, gate, 30, gate_f, 18, rise, 2, drop, 2), WOLFCLOAK_OK);
    expect_marks("rise before the first hop", rise, 0, 0);
    expect_marks("drop before the first hop", drop, 0, 0);
    for (int hop = 1; hop <= 4; hop++) {
        expect("gate_update", wolfcloak_gate_update(me, bank, TWO, bank_f, 10, gate, 30, gate_f, 18, tone_db, 2, tone, 2,
                                                    rise, 2, drop, 2), WOLFCLOAK_OK);
        expect_marks("window rise", rise, 0, hop == 4);
        expect_marks("drop", drop, 1, 0);
    }
    rise[1] = 9;
    expect("gate_hold", wolfcloak_gate_hold(me, bank, TWO, bank_f, 10, gate, 30, gate_f, 18, rise, 2, drop, 2), WOLFCLOAK_OK);
    expect_marks("rise of a hold", rise, 0, 1);
    expect("smoothed_db", wolfcloak_smoothed_db(me, gate, 30, gate_f, 18, 1, &value), WOLFCLOAK_OK);
    expect("smoothed dB of the tone", value, -60);
    expect("ema_rise", wolfcloak_ema_rise(me, bank, TWO, bank_f, 10, gate, 30, gate_f, 18, 1, &value), WOLFCLOAK_OK);
    expect("early rise that is absent", value, 0);
    expect("a channel too many", wolfcloak_smoothed_db(me, gate, 30, gate_f, 18, 2, &value), WOLFCLOAK_REFUSED_CHANNEL);
    expect("a rise too short", wolfcloak_gate_hold(me, bank, TWO, bank_f, 10, gate, 30, gate_f, 18, rise, 1, drop, 2),
           WOLFCLOAK_REFUSED_HOP_SIZE);
}

/* Early at 10 dB: the tone rises with its first hop, long before the windows are full. */
static void early_rise(void)
{
    static const uint16_t lengths[1] = {1}, none[1] = {0};
    uint16_t gate[WOLFCLOAK_GATE_LEN];
    double gate_f[14], other_f[7], value = 7; /* 2 + (4 + 2 + 2) + 2 + 2, 1 + (2 + 1 + 1) + 1 + 1 */
    uint8_t rise[2], drop[2];

    expect("gate_new", wolfcloak_gate_new(me, gate, 30, gate_f, 14, 2, 800, -800, 80, lengths, 1), WOLFCLOAK_OK);
    expect("ema_rise", wolfcloak_ema_rise(me, bank, TWO, bank_f, 10, gate, 30, gate_f, 14, 1, &value), WOLFCLOAK_OK);
    expect("early rise before the first hop", value, 0);
    expect("gate_update", wolfcloak_gate_update(me, bank, TWO, bank_f, 10, gate, 30, gate_f, 14, tone_db, 2, tone, 2,
                                                rise, 2, drop, 2), WOLFCLOAK_OK);
    expect_marks("early rise", rise, 0, 1);
    expect_marks("drop far below", drop, 0, 0);
    expect("ema_rise", wolfcloak_ema_rise(me, bank, TWO, bank_f, 10, gate, 30, gate_f, 14, 1, &value), WOLFCLOAK_OK);
    expect("early rise alone", value, 1);
    expect("no lengths", wolfcloak_gate_new(me, gate, 30, gate_f, 14, 2, 801, 0, 0, none, 0), WOLFCLOAK_REFUSED_LENGTHS);
    expect("a level too high", wolfcloak_gate_new(me, gate, 30, gate_f, 14, 2, 801, 0, 0, lengths, 1), WOLFCLOAK_REFUSED_LEVEL);
    expect("gate_new", wolfcloak_gate_new(me, gate, 30, other_f, 7, 1, 0, 0, 0, lengths, 1), WOLFCLOAK_OK);
    expect("a gate of another n", wolfcloak_gate_hold(me, bank, TWO, bank_f, 10, gate, 30, other_f, 7, rise, 2, drop, 2),
           WOLFCLOAK_REFUSED_MISMATCH);
}

/* Three segments: each in turn, going round, past those that have nothing; none waiting and a refusal leave the last served. */
static void ticks(void)
{
    size_t last = 2;

    expect("dispatch", wolfcloak_dispatch(me, 3, 7, &last), WOLFCLOAK_OK);
    expect("the first tick's segment", last, 0);
    expect("dispatch", wolfcloak_dispatch(me, 3, 5, &last), WOLFCLOAK_OK);
    expect("the next that is waiting", last, 2);
    expect("dispatch", wolfcloak_dispatch(me, 3, 6, &last), WOLFCLOAK_OK);
    expect("the first one going round", last, 1);
    expect("dispatch", wolfcloak_dispatch(me, 3, 2, &last), WOLFCLOAK_OK);
    expect("the last served, alone", last, 1);
    expect("no hop", wolfcloak_dispatch(me, 3, 0, &last), WOLFCLOAK_NONE_WAITING);
    expect("a bit past count", wolfcloak_dispatch(me, 3, 8, &last), WOLFCLOAK_REFUSED_SEGMENTS);
    expect("a last served not below count", wolfcloak_dispatch(me, 1, 1, &last), WOLFCLOAK_REFUSED_SEGMENTS);
    expect("no segments", wolfcloak_dispatch(me, 0, 0, &last), WOLFCLOAK_REFUSED_SEGMENTS);
    expect("nine segments, no hop", wolfcloak_dispatch(me, 9, 0, &last), WOLFCLOAK_REFUSED_SEGMENTS);
    expect("the last served as it was", last, 1);
}

/* A hop of two channels, of which one changes, and one in which nothing does: written, and read back. */
static void hop_log(void)
{
    const uint64_t db[4] = {0, 0xfff8000000000001, 0, 0xfff8000000000001};
    const uint32_t power[4] = {0, 7, 0, 7};
    static const uint8_t due[16] = {2, 0, 2, 1, 0, 0, 0, 0, 0, 0xf8, 0xff, 7, 0, 0, 0, 0};
    uint8_t log[17] = {0};
    uint64_t db_bits[2] = {0, 0};
    uint32_t power_bits[2] = {0, 0};
    size_t len = 0, n = 0, position = 2;

    log[16] = 9;
    expect("a log that is too long", wolfcloak_log_write(me, 2, db, 4, power, 4, log, 15, &len), WOLFCLOAK_REFUSED_STORE_SIZE);
    expect("log_write", wolfcloak_log_write(me, 2, db, 4, power, 4, log, 17, &len), WOLFCLOAK_OK);
    expect("the log's length", len, 16);
    expect("the log's bytes", memcmp(log, due, 16), 0);
    expect("the byte after it", log[16], 9);
    expect("log_channels", wolfcloak_log_channels(me, log, len, &n), WOLFCLOAK_OK);
    expect("the log's channels", n, 2);
    for (int hop = 0; hop < 2; hop++) {
        expect("log_read", wolfcloak_log_read(me, log, len, &position, db_bits, 2, power_bits, 2), WOLFCLOAK_OK);
        expect("the hop's dB bits", memcmp(db_bits, db + 2 * hop, sizeof db_bits), 0);
        expect("the hop's power bits", memcmp(power_bits, power + 2 * hop, sizeof power_bits), 0);
        expect("the position", position, hop == 0 ? 15 : 16);
    }
    expect("log_read", wolfcloak_log_read(me, log, len, &position, db_bits, 2, power_bits, 2), WOLFCLOAK_END);
    position = 2;
    expect("a pair that did not change", wolfcloak_log_read(me, log, len, &position, db_bits, 2, power_bits, 2),
           WOLFCLOAK_REFUSED_DAMAGED);
    expect("a log that is cut", wolfcloak_log_read(me, log, 14, &position, db_bits, 2, power_bits, 2), WOLFCLOAK_REFUSED_CUT);
    expect("the position of a refusal", position, 2);
}

/* The last 2 slow hops of one channel: none yet, the first floor, and the highest of two as the noise falls away. */
static void worst_of_late(void)
{
    size_t len = wolfcloak_bank_len(1), f_len = wolfcloak_bank_f_len(1);
    uint16_t *one = malloc(len * sizeof *one), worst[WOLFCLOAK_WORST_LEN];
    double *one_f = malloc(f_len * sizeof *one_f), worst_f[2], db = -60, value = 7;
    float power = 0;

    if (!one || !one_f)
        exit(1);
    expect("worst_f_len", wolfcloak_worst_f_len(1, 2), 2);
    expect("worst_f_len of a span too long", wolfcloak_worst_f_len(1, 601), 0);
    expect("a span too long", wolfcloak_worst_new(me, worst, 4, worst_f, 2, 1, 601), WOLFCLOAK_REFUSED_SPAN);
    expect("worst_new", wolfcloak_worst_new(me, worst, 4, worst_f, 2, 1, 2), WOLFCLOAK_OK);
    expect("bank_new", wolfcloak_bank_new(me, one, len, one_f, f_len, 1), WOLFCLOAK_OK);
    expect("none yet", wolfcloak_worst_floor(me, one, len, one_f, f_len, worst, 4, worst_f, 2, 0, &value), WOLFCLOAK_NONE_YET);
    expect("a value that none yet leaves", value, 7);
    for (int hop = 0; hop < 16; hop++) {
        expect("bank_update_worst",
               wolfcloak_bank_update_worst(me, one, len, one_f, f_len, worst, 4, worst_f, 2, &db, 1, &power, 1, false), WOLFCLOAK_OK);
        expect("worst_floor", wolfcloak_worst_floor(me, one, len, one_f, f_len, worst, 4, worst_f, 2, 0, &value), WOLFCLOAK_OK);
        expect("the worst floor of late", value, -59.75);
        db = -100;
    }
    expect("effective_floor_db", wolfcloak_effective_floor_db(me, one, len, one_f, f_len, 0, &value), WOLFCLOAK_OK);
    expect("an effective floor that has fallen", value < -59.75, 1);
    expect("a channel too many", wolfcloak_worst_floor(me, one, len, one_f, f_len, worst, 4, worst_f, 2, 1, &value), WOLFCLOAK_REFUSED_CHANNEL);
    expect("a bank of another n", wolfcloak_worst_floor(me, bank, wolfcloak_bank_len(2), bank_f, wolfcloak_bank_f_len(2), worst, 4, worst_f, 2,
                                                        0, &value), WOLFCLOAK_REFUSED_MISMATCH);
    free(one);
    free(one_f);
}

/* One hop of one channel on two antennas: the pair with the larger power, and the checks in their order. */
static void two_antennas(void)
{
    static const uint8_t first[15] = {1, 0, 1, 5, 0, 0, 0, 0, 0, 0, 0, 0, 0, 0x80, 0x3f};
    static const uint8_t second[15] = {1, 0, 1, 6, 0, 0, 0, 0, 0, 0, 0, 0, 0, 0, 0x40};
    static const uint8_t other_n[2] = {9, 0};
    uint8_t log[16];
    size_t len = 77;

    log[15] = 9;
    expect("a first log that is cut", wolfcloak_log_combine(me, first, 14, other_n, 1, log, 0, &len), WOLFCLOAK_REFUSED_CUT);
    expect("a second log that is cut", wolfcloak_log_combine(me, first, 15, other_n, 1, log, 0, &len), WOLFCLOAK_REFUSED_CUT);
    expect("unequal n", wolfcloak_log_combine(me, first, 15, other_n, 2, log, 0, &len), WOLFCLOAK_REFUSED_UNLIKE);
    expect("unequal numbers of hops", wolfcloak_log_combine(me, first, 15, second, 2, log, 0, &len), WOLFCLOAK_REFUSED_UNLIKE);
    expect("too short for both", wolfcloak_log_combine(me, first, 15, second, 15, log, 14, &len), WOLFCLOAK_REFUSED_STORE_SIZE);
    expect("the length of a refusal", len, 77);
    expect("log_combine", wolfcloak_log_combine(me, first, 15, second, 15, log, 16, &len), WOLFCLOAK_OK);
    expect("the length of both", len, 15);
    expect("the larger power's pair", memcmp(log, second, 15), 0);
    expect("the byte after both", log[15], 9);
    expect("log_combine", wolfcloak_log_combine(me, second, 15, first, 15, log, 16, &len), WOLFCLOAK_OK);
    expect("the larger power's pair, first", memcmp(log, second, 15), 0);
}

/* Nine channels, six registers: an update that carries the map, the flags, the masks, the wire; then each refusal. */
static void registers(void)
{
    static const uint16_t lengths[1] = {1};
    static const double db[9] = {0, 0, 0, 0, 0, 0, 0, 0, 0};
    static const float power[9] = {0, 0, 0, 0, 0, 0, 0, 0, 0};
    size_t u = wolfcloak_bank_len(9), f = wolfcloak_bank_f_len(9), g = wolfcloak_gate_f_len(9, lengths, 1);
    uint16_t *nine = malloc(u * sizeof *nine), gate[WOLFCLOAK_GATE_LEN];
    double *nine_f = malloc(f * sizeof *nine_f), *gate_f = malloc(g * sizeof *gate_f);
    uint8_t map[7], rise[9], drop[9], value = 7;

    if (!nine || !nine_f || !gate_f)
        exit(1);
    expect("map_len", wolfcloak_map_len(9), 6);
    expect("map_len of none", wolfcloak_map_len(0), 0);
    expect("map_len of 513", wolfcloak_map_len(513), 0);
    expect("bank_new", wolfcloak_bank_new(me, nine, u, nine_f, f, 9), WOLFCLOAK_OK);
    expect("gate_new", wolfcloak_gate_new(me, gate, 30, gate_f, g, 9, 0, 800, 0, lengths, 1), WOLFCLOAK_OK);
    expect("a map too long", wolfcloak_map_new(me, gate, 30, gate_f, g, map, 7), WOLFCLOAK_REFUSED_STORE_SIZE);
    expect("map_new", wolfcloak_map_new(me, gate, 30, gate_f, g, map, 6), WOLFCLOAK_OK);
    expect("bank_update", wolfcloak_bank_update(me, nine, u, nine_f, f, db, 9, power, 9), WOLFCLOAK_OK);
    expect("gate_update_map", wolfcloak_gate_update_map(me, nine, u, nine_f, f, gate, 30, gate_f, g, map, 6, db, 9, power, 9,
                                                        rise, 9, drop, 9), WOLFCLOAK_OK);
    expect("gate_hold_map", wolfcloak_gate_hold_map(me, nine, u, nine_f, f, gate, 30, gate_f, g, map, 6, rise, 9, drop, 9), WOLFCLOAK_OK);
    for (size_t k = 0; k < 9; k++)
        expect("rise and drop flags", (map[k / 8] >> k % 8 & 1) + 2 * (map[2 + k / 8] >> k % 8 & 1), rise[k] + 2 * drop[k]);
    expect("some flag", map[0] + map[2] > 0, 1);
    expect("map_wire", wolfcloak_map_wire(me, gate, 30, gate_f, g, map, 6, &value), WOLFCLOAK_OK);
    expect("the wire without a mask", value, 0);
    expect("map_write", wolfcloak_map_write(me, gate, 30, gate_f, g, map, 6, 4, 255), WOLFCLOAK_OK);
    expect("map_write", wolfcloak_map_write(me, gate, 30, gate_f, g, map, 6, 5, 255), WOLFCLOAK_OK);
    expect("map_read", wolfcloak_map_read(me, gate, 30, gate_f, g, map, 6, 5, &value), WOLFCLOAK_OK);
    expect("a mask byte, no bit past n", value, 1);
    expect("map_wire", wolfcloak_map_wire(me, gate, 30, gate_f, g, map, 6, &value), WOLFCLOAK_OK);
    expect("the wire", value, 1);
    for (size_t a = 0; a < 4; a++) {
        expect("map_write", wolfcloak_map_write(me, gate, 30, gate_f, g, map, 6, a, 254), WOLFCLOAK_OK);
        expect("a flag byte, but for its lowest bit", map[a] & 254, 0);
        expect("map_write", wolfcloak_map_write(me, gate, 30, gate_f, g, map, 6, a, 1), WOLFCLOAK_OK);
        expect("a flag byte", map[a], 0);
    }
    expect("map_wire", wolfcloak_map_wire(me, gate, 30, gate_f, g, map, 6, &value), WOLFCLOAK_OK);
    expect("the wire, all cleared", value, 0);
    value = 7;
    expect("address 6", wolfcloak_map_read(me, gate, 30, gate_f, g, map, 6, 6, &value), WOLFCLOAK_REFUSED_ADDRESS);
    expect("what a refusal leaves", value, 7);
    map[0] = 1;
    expect("a keeper's write", wolfcloak_map_write(WOLFCLOAK_KEEPER, gate, 30, gate_f, g, map, 6, 0, 255), WOLFCLOAK_REFUSED_RIGHT);
    expect("the flag that it would have cleared", map[0], 1);
    expect("a leader's write", wolfcloak_map_write(WOLFCLOAK_LEADER, gate, 30, gate_f, g, map, 6, 0, 255), WOLFCLOAK_OK);
    expect("the flag that it has cleared", map[0], 0);
    map[5] = 2;
    expect("a bit past n", wolfcloak_map_write(me, gate, 30, gate_f, g, map, 6, 6, 0), WOLFCLOAK_REFUSED_UNSOUND);
    free(nine);
    free(nine_f);
    free(gate_f);
}

/* the same hops from linear power alone leave what the hops with their rungs leave; a NaN power is no NaN dB. */
static void linear_hops(void)
{
    static const uint16_t lengths[1] = {1};
    const float loud[2] = {1e-10f, 1e-6f}, garbled[2] = {NAN, 1};
    const double db[2] = {wolfcloak_power_db(loud[0]), wolfcloak_power_db(loud[1])};
    uint16_t with_db[TWO], linear[TWO], gate[2][WOLFCLOAK_GATE_LEN];
    double with_db_f[10], linear_f[10], gate_f[2][14];
    uint8_t rise[2][2] = {{9, 9}, {8, 8}}, drop[2][2] = {{9, 9}, {8, 8}}, map[3];
    uint16_t worst[2][WOLFCLOAK_WORST_LEN];
    double worst_f[2][4];

    expect("dB of no power", wolfcloak_power_db(0), -200);
    expect("dB of 1", wolfcloak_power_db(1), 0);
    expect("dB of 2", wolfcloak_power_db(2), 3);
    expect("dB of infinity", wolfcloak_power_db(INFINITY), 400);
    expect("dB of a NaN", wolfcloak_power_db(NAN), -260);
    expect("dB below no power", wolfcloak_power_db(-1), -260);
    expect("bank_new", wolfcloak_bank_new(me, with_db, TWO, with_db_f, 10, 2), WOLFCLOAK_OK);
    expect("bank_new", wolfcloak_bank_new(me, linear, TWO, linear_f, 10, 2), WOLFCLOAK_OK);
    for (int g = 0; g < 2; g++)
        expect("gate_new", wolfcloak_gate_new(me, gate[g], 30, gate_f[g], 14, 2, 8, 8, 80, lengths, 1), WOLFCLOAK_OK);
    for (int hop = 0; hop < 20; hop++) {
        expect("bank_update", wolfcloak_bank_update_holding_reference(me, with_db, TWO, with_db_f, 10, db, 2, loud, 2, hop % 3 == 0), WOLFCLOAK_OK);
        expect("bank_update_linear", wolfcloak_bank_update_linear(me, linear, TWO, linear_f, 10, loud, 2, hop % 3 == 0), WOLFCLOAK_OK);
        expect("gate_update", wolfcloak_gate_update(me, with_db, TWO, with_db_f, 10, gate[0], 30, gate_f[0], 14, db, 2, loud, 2,
                                                    rise[0], 2, drop[0], 2), WOLFCLOAK_OK);
        expect("gate_update_linear", wolfcloak_gate_update_linear(me, linear, TWO, linear_f, 10, gate[1], 30, gate_f[1], 14, loud, 2,
                                                                  rise[1], 2, drop[1], 2), WOLFCLOAK_OK);
    }
    expect("the bank's words", memcmp(with_db, linear, sizeof linear), 0);
    expect("the bank's floats", memcmp(with_db_f, linear_f, sizeof linear_f), 0);
    expect("the gate's words", memcmp(gate[0], gate[1], sizeof gate[0]), 0);
    expect("the gate's floats", memcmp(gate_f[0], gate_f[1], sizeof gate_f[0]), 0);
    expect("rise", memcmp(rise[0], rise[1], 2), 0);
    expect("drop", memcmp(drop[0], drop[1], 2), 0);
    expect("map_new", wolfcloak_map_new(me, gate[1], 30, gate_f[1], 14, map, 3), WOLFCLOAK_OK);
    expect("gate_update_linear_map", wolfcloak_gate_update_linear_map(me, linear, TWO, linear_f, 10, gate[1], 30, gate_f[1], 14, map, 3, loud, 2,
                                                                      rise[1], 2, drop[1], 2), WOLFCLOAK_OK);
    expect("rise flags", map[0], rise[1][0] + 2 * rise[1][1]);
    expect("drop flags", map[1], drop[1][0] + 2 * drop[1][1]);
    for (int w = 0; w < 2; w++)
        expect("worst_new", wolfcloak_worst_new(me, worst[w], 4, worst_f[w], 4, 2, 2), WOLFCLOAK_OK);
    for (int hop = 0; hop < 20; hop++) {
        expect("bank_update_worst", wolfcloak_bank_update_worst(me, with_db, TWO, with_db_f, 10, worst[0], 4, worst_f[0], 4, db, 2, loud, 2, false),
               WOLFCLOAK_OK);
        expect("bank_update_linear_worst",
               wolfcloak_bank_update_linear_worst(me, linear, TWO, linear_f, 10, worst[1], 4, worst_f[1], 4, loud, 2, false), WOLFCLOAK_OK);
    }
    expect("the bank's words, carrying", memcmp(with_db, linear, sizeof linear), 0);
    expect("the worst floor's words", memcmp(worst[0], worst[1], sizeof worst[0]), 0);
    expect("the worst floor's floats", memcmp(worst_f[0], worst_f[1], sizeof worst_f[0]), 0);
    expect("the worst floor's slow hops", worst[1][3] > 0, 1);
    linear[1] = 0;
    expect("a NaN power on a slow hop", wolfcloak_bank_update_linear(me, linear, TWO, linear_f, 10, garbled, 2, false), WOLFCLOAK_OK);
    expect("a power too few", wolfcloak_bank_update_linear(me, linear, TWO, linear_f, 10, loud, 1, false), WOLFCLOAK_REFUSED_HOP_SIZE);
}

/* Two sets of three channels: one is fed runs, the other the same hops by single calls. */
enum { RUN_N = 3, RUN_HOPS = 20, RUN_ALL = RUN_HOPS * RUN_N, RUN_LEN = 3 + 1 + RUN_N * CHANNEL_LEN, RUN_F = 14, RUN_GATE_F = 27 };
static struct set {
    uint16_t bank[RUN_LEN], gate[WOLFCLOAK_GATE_LEN];
    double bank_f[RUN_F], gate_f[RUN_GATE_F];
    uint8_t rise[RUN_ALL], drop[RUN_ALL];
} by_runs, by_calls, kept;
static uint8_t run_hold[RUN_HOPS];
static double run_db[RUN_ALL];
static float run_power[RUN_ALL];

/* So many hops, from hop `from` on. */
static uint16_t receive(uint16_t role, struct set *s, size_t from, size_t hops)
{
    size_t at = from * RUN_N, all = hops * RUN_N;
    return wolfcloak_receive(role, s->bank, RUN_LEN, s->bank_f, RUN_F, s->gate, 30, s->gate_f, RUN_GATE_F, run_hold + from, hops,
                             run_db + at, all, run_power + at, all, s->rise + at, all, s->drop + at, all);
}

/* Any lengths. */
static uint16_t receive_any(struct set *s, size_t hops, size_t db, size_t power, size_t rise, size_t drop)
{
    return wolfcloak_receive(me, s->bank, RUN_LEN, s->bank_f, RUN_F, s->gate, 30, s->gate_f, RUN_GATE_F, run_hold, hops,
                             run_db, db, run_power, power, s->rise, rise, s->drop, drop);
}

static void hear_one_by_one(struct set *s, size_t hops)
{
    for (size_t i = 0, at = 0; i < hops; i++, at += RUN_N) {
        bool held = run_hold[i] != 0;
        expect("bank_update_holding_reference",
               wolfcloak_bank_update_holding_reference(me, s->bank, RUN_LEN, s->bank_f, RUN_F, run_db + at, RUN_N, run_power + at, RUN_N, held),
               WOLFCLOAK_OK);
        if (held)
            expect("gate_hold", wolfcloak_gate_hold(me, s->bank, RUN_LEN, s->bank_f, RUN_F, s->gate, 30, s->gate_f, RUN_GATE_F,
                                                    s->rise + at, RUN_N, s->drop + at, RUN_N), WOLFCLOAK_OK);
        else
            expect("gate_update", wolfcloak_gate_update(me, s->bank, RUN_LEN, s->bank_f, RUN_F, s->gate, 30, s->gate_f, RUN_GATE_F,
                                                        run_db + at, RUN_N, run_power + at, RUN_N, s->rise + at, RUN_N, s->drop + at, RUN_N),
                   WOLFCLOAK_OK);
    }
}

static void expect_equal(const char *what, const struct set *a, const struct set *b)
{
    expect(what, memcmp(a->bank, b->bank, sizeof a->bank), 0);
    expect(what, memcmp(a->bank_f, b->bank_f, sizeof a->bank_f), 0);
    expect(what, memcmp(a->gate, b->gate, sizeof a->gate), 0);
    expect(what, memcmp(a->gate_f, b->gate_f, sizeof a->gate_f), 0);
    expect(what, memcmp(a->rise, b->rise, sizeof a->rise), 0);
    expect(what, memcmp(a->drop, b->drop, sizeof a->drop), 0);
}

/* A tone on the second channel from the seventh hop on, static now and then. Two runs leave what the single calls of their hops leave. */
static void runs_of_hops(void)
{
    static const uint16_t lengths[1] = {2};
    struct set *sets[2] = {&by_runs, &by_calls};
    int rises = 0, drops = 0;

    for (int i = 0; i < RUN_ALL; i++) {
        int tone = i % RUN_N == 1 && i / RUN_N >= 6;
        run_hold[i / RUN_N] = i / RUN_N % 7 == 3 ? (uint8_t)(1 + i) : 0;
        run_db[i] = tone ? -60 : -100 - i % 5;
        run_power[i] = tone ? 1e-6f : 1e-10f;
    }
    for (int i = 0; i < 2; i++) {
        memset(sets[i]->rise, 9, RUN_ALL);
        memset(sets[i]->drop, 9, RUN_ALL);
        expect("bank_new", wolfcloak_bank_new(me, sets[i]->bank, RUN_LEN, sets[i]->bank_f, RUN_F, RUN_N), WOLFCLOAK_OK);
        expect("gate_new", wolfcloak_gate_new(me, sets[i]->gate, 30, sets[i]->gate_f, RUN_GATE_F, RUN_N, 48, 16, WOLFCLOAK_NO_EARLY, lengths, 1),
               WOLFCLOAK_OK);
    }
    expect("receive", receive(me, &by_runs, 0, 13), WOLFCLOAK_OK);
    expect("a mark behind the run", by_runs.rise[13 * RUN_N], 9);
    expect("receive", receive(me, &by_runs, 13, 7), WOLFCLOAK_OK);
    hear_one_by_one(&by_calls, RUN_HOPS);
    expect_equal("runs beside single calls", &by_runs, &by_calls);
    for (int i = 0; i < RUN_ALL; i++) {
        rises += by_runs.rise[i];
        drops += by_runs.drop[i];
    }
    expect("some rise, and not everywhere", rises > 0 && rises < RUN_ALL, 1);
    expect("some drop, and not everywhere", drops > 0 && drops < RUN_ALL, 1);
}

/* Refusals, each of which leaves the whole run undone; 5 hops have passed since the last slow one, so that of the next run hop 10 is slow. */
static void refused_runs(void)
{
    kept = by_runs;
    expect("a keeper's run", receive(WOLFCLOAK_KEEPER, &by_runs, 0, RUN_HOPS), WOLFCLOAK_REFUSED_RIGHT);
    expect("a leader's run", receive(WOLFCLOAK_LEADER, &by_runs, 0, 0), WOLFCLOAK_REFUSED_RIGHT);
    expect("a hold byte too many", receive_any(&by_runs, 3, 6, 6, 6, 6), WOLFCLOAK_REFUSED_HOP_SIZE);
    expect("a dB too many", receive_any(&by_runs, 2, 7, 6, 6, 6), WOLFCLOAK_REFUSED_HOP_SIZE);
    expect("a power too few", receive_any(&by_runs, 2, 6, 5, 6, 6), WOLFCLOAK_REFUSED_HOP_SIZE);
    expect("a rise too few", receive_any(&by_runs, 2, 6, 6, 5, 6), WOLFCLOAK_REFUSED_HOP_SIZE);
    expect("a drop too many", receive_any(&by_runs, 2, 6, 6, 6, 7), WOLFCLOAK_REFUSED_HOP_SIZE);
    expect("no hops, and places for marks", receive_any(&by_runs, 0, 0, 0, 3, 3), WOLFCLOAK_REFUSED_HOP_SIZE);
    /* three times as many is 2 where a size_t wraps; what is lent ends before, and none of it may be read */
    expect("more hops than can be counted", receive_any(&by_runs, SIZE_MAX / 3 + 1, 2, 2, 2, 2), WOLFCLOAK_REFUSED_HOP_SIZE);
    run_db[10 * RUN_N + 2] = NAN;
    run_hold[10] = 0;
    expect("a garbled hop", receive(me, &by_runs, 0, RUN_HOPS), WOLFCLOAK_REFUSED_GARBLED);
    run_hold[10] = 1;
    expect("a garbled hop that is held", receive(me, &by_runs, 0, 11), WOLFCLOAK_REFUSED_GARBLED);
    by_runs.gate[0] = 2;
    expect("a gate that is none, and a garbled hop", receive(me, &by_runs, 0, 11), WOLFCLOAK_REFUSED_STORE_SIZE);
    by_runs.gate[0] = RUN_N;
    expect_equal("after refusals", &by_runs, &kept);
    expect("a run of no hops", receive(me, &by_runs, 0, 0), WOLFCLOAK_OK);
    expect_equal("after a run of no hops", &by_runs, &kept);
    by_runs.bank[1] = 15;
    expect("a run of no hops, and a bank that is none", receive(me, &by_runs, 0, 0), WOLFCLOAK_REFUSED_UNSOUND);
    by_runs.bank[1] = kept.bank[1];
    expect("the hops before the garbled one", receive(me, &by_runs, 0, 10), WOLFCLOAK_OK);
    hear_one_by_one(&by_calls, 10);
    expect_equal("the hops before the garbled one", &by_runs, &by_calls);
}

/* A leader remakes a gate that has heard a tone: it is as if it had been made with the new levels. The checks in their order before. */
static void remade(void)
{
    static const uint16_t lengths[3] = {2, 1, 2};
    uint16_t gate[WOLFCLOAK_GATE_LEN], fresh[WOLFCLOAK_GATE_LEN];
    double gate_f[26], fresh_f[26]; /* 2 + (8 + 2 + 2) + (4 + 2 + 2) + 2 + 2 */
    uint8_t rise[2], drop[2];

    expect("gate_new", wolfcloak_gate_new(me, gate, 30, gate_f, 26, 2, 48, 16, 80, lengths, 3), WOLFCLOAK_OK);
    expect("gate_update", wolfcloak_gate_update(me, bank, TWO, bank_f, 10, gate, 30, gate_f, 26, tone_db, 2, tone, 2, rise, 2, drop, 2),
           WOLFCLOAK_OK);
    memcpy(fresh, gate, sizeof gate);
    memcpy(fresh_f, gate_f, sizeof gate_f);
    expect("a keeper's remake", wolfcloak_gate_remake(WOLFCLOAK_KEEPER, gate, 29, gate_f, 26, 801, 0, 0), WOLFCLOAK_REFUSED_RIGHT);
    expect("a leader's of a short gate", wolfcloak_gate_remake(WOLFCLOAK_LEADER, gate, 29, gate_f, 26, 801, 0, 0), WOLFCLOAK_REFUSED_STORE_SIZE);
    expect("a level too high", wolfcloak_gate_remake(WOLFCLOAK_LEADER, gate, 30, gate_f, 26, 801, 0, 0), WOLFCLOAK_REFUSED_LEVEL);
    expect("words after a refusal", memcmp(gate, fresh, sizeof gate), 0);
    expect("floats after a refusal", memcmp(gate_f, fresh_f, sizeof gate_f), 0);
    expect("gate_remake", wolfcloak_gate_remake(WOLFCLOAK_LEADER, gate, 30, gate_f, 26, 8, -8, WOLFCLOAK_NO_EARLY), WOLFCLOAK_OK);
    expect("gate_new", wolfcloak_gate_new(me, fresh, 30, fresh_f, 26, 2, 8, -8, WOLFCLOAK_NO_EARLY, lengths, 3), WOLFCLOAK_OK);
    expect("a remade gate's words", memcmp(gate, fresh, sizeof gate), 0);
    expect("a remade gate's floats", memcmp(gate_f, fresh_f, sizeof gate_f), 0);
}

/* A role that lacks the right gets 16 before what else is due, and nothing is written. */
static void roles(void)
{
    uint16_t gate[WOLFCLOAK_GATE_LEN] = {0};
    double value = 7;
    uint8_t rise[2] = {9, 9}, drop[2] = {9, 9};
    size_t last = 5;

    expect("a keeper's reading", wolfcloak_channel_floor_db(WOLFCLOAK_KEEPER, bank, TWO, bank_f, 10, 1, &value), WOLFCLOAK_OK);
    value = 7;
    expect("a reading in role 3", wolfcloak_channel_floor_db(3, bank, TWO, bank_f, 10, 2, &value), WOLFCLOAK_REFUSED_RIGHT);
    expect("its value", value, 7);
    expect("a keeper's hold, with a store that is no gate",
           wolfcloak_gate_hold(WOLFCLOAK_KEEPER, bank, TWO, bank_f, 10, gate, 30, &value, 1, rise, 2, drop, 2),
           WOLFCLOAK_REFUSED_RIGHT);
    expect("a technician's", wolfcloak_gate_hold(me, bank, TWO, bank_f, 10, gate, 30, &value, 1, rise, 2, drop, 2),
           WOLFCLOAK_REFUSED_UNSOUND);
    expect_marks("rise", rise, 9, 9);
    expect("a leader's update", wolfcloak_bank_update(WOLFCLOAK_LEADER, bank, TWO, bank_f, 10, tone_db, 2, tone, 2),
           WOLFCLOAK_REFUSED_RIGHT);
    expect("a leader's tick", wolfcloak_dispatch(WOLFCLOAK_LEADER, 0, 0, &last), WOLFCLOAK_REFUSED_RIGHT);
    expect("the last served as it was", last, 5);
}

int main(void)
{
    bench_d();
    bench_h();
    hear_noise();
    window_rise();
    early_rise();
    linear_hops();
    hop_log();
    two_antennas();
    worst_of_late();
    ticks();
    registers();
    remade();
    runs_of_hops();
    refused_runs();
    roles();
    puts(wrong ? "tests/link: failed" : "tests/link: ok");
    return wrong != 0;
}
