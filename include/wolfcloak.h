/*
 * Wolfcloak: noise floors, rises and drops for a Morse watch handset.
 *
 * Link with libwolfcloak.a. Nothing here allocates or keeps anything: all that a bank or a gate knows lies in two stores that the
 * caller lends to each call. A slice is a pointer and then its length in elements. No pointer may be NULL, that of an empty
 * slice neither, and what a call writes may not overlap anything else lent to it.
 *
 * Every call takes first the role of who makes it, and answers 0 or the number of the first refusal that is due: 16 before all others, for
 * a role that lacks the right. (Those that only say a length, and wolfcloak_power_db, refuse nothing and take no role.) A refusal changes
 * nothing: stores, outputs and values hold what they held before. Any contents of a store and any bits of a float may be handed in; a call tests
 * the whole of each store that it is lent first.
 *
 * A bank is made once, by wolfcloak_bank_new, and fed one hop at a time (375 a second). Every 15th hop, the first among
 * them, is a slow hop: it steps the floors. A gate of the same n is made once, by wolfcloak_gate_new, and fed the same hops after
 * the bank: it marks which channels rise and drop. The stores may be copied or kept over a power loss; the two of a bank belong
 * together, and the two of a gate. Both at once are fed many hops in one call by wolfcloak_receive, which tests the stores once for all of them.
 */
#ifndef WOLFCLOAK_H
#define WOLFCLOAK_H

#include <stdbool.h>
#include <stddef.h>
#include <stdint.h>

#ifdef __cplusplus
extern "C" {
#endif

/* The refusals. */
#define WOLFCLOAK_OK 0
#define WOLFCLOAK_REFUSED_BAND 1       /* making: n outside 1..512 */
#define WOLFCLOAK_REFUSED_STORE_SIZE 2 /* a store's length isn't the one for its n */
#define WOLFCLOAK_REFUSED_LENGTHS 3    /* making a gate: no window length, over 8, or one outside 1..375 */
#define WOLFCLOAK_REFUSED_LEVEL 4      /* making or remaking a gate: a level outside -800..800 eighths of a dB, and not an absent early */
#define WOLFCLOAK_REFUSED_HOP_SIZE 5   /* a hop or output slice isn't n long; of a run, n times its number of hops */
#define WOLFCLOAK_REFUSED_GARBLED 6    /* a slow hop with a NaN dB in a block of two or more channels */
#define WOLFCLOAK_REFUSED_CHANNEL 7    /* channel number n or more */
#define WOLFCLOAK_REFUSED_MISMATCH 8   /* stores lent together differ in n */
#define WOLFCLOAK_REFUSED_UNSOUND 9    /* a store doesn't hold what these calls can leave in one */
#define WOLFCLOAK_REFUSED_CUT 10       /* a log ends inside its header or a hop; a position below 2 or past the log */
#define WOLFCLOAK_REFUSED_DAMAGED 11   /* a log has a set bit past n, or a pair that did not change */
#define WOLFCLOAK_REFUSED_SPAN 12      /* making a store of the worst floor of late: w outside 1..600 */
#define WOLFCLOAK_REFUSED_UNLIKE 13    /* two logs that differ in n or in their number of hops */
#define WOLFCLOAK_REFUSED_SEGMENTS 14  /* a tick: count outside 1..8, a bit set past count, or a last served not below count */
#define WOLFCLOAK_REFUSED_ADDRESS 15   /* a register's address past the map */
#define WOLFCLOAK_REFUSED_RIGHT 16     /* a role above 2, or one that lacks the right to this call */

/* Answers that are no refusals, with which nothing is written either. */
#define WOLFCLOAK_END 100              /* the log has no further hop */
#define WOLFCLOAK_NONE_YET 101         /* the worst floor of late: no slow hop has carried the store yet */
#define WOLFCLOAK_NONE_WAITING 102     /* a tick: no segment has a hop waiting */

/*
 * Who may turn what. A set is shared between a watch keeper, a team leader and a service technician; the receiver itself acts as
 * technician. A role is one of the three numbers below, and each may do what those before it may. Every call stands here once, without the
 * wolfcloak_ of its name, in the row of the least role that has the right.
 *
 *   keeper        reads: channel_floor_db, effective_floor_db, rise_floor_db, spectral_reference, floors, ring, smoothed_db, ema_rise,
 *                 worst_floor, map_read, map_wire; and explain
 *   leader        writes masks and clears flags: map_write; remakes a gate: gate_remake
 *   technician    makes: bank_new, gate_new, worst_new, map_new
 *                 updates: bank_update, bank_update_holding_reference, bank_update_worst, bank_update_linear, bank_update_linear_worst,
 *                 gate_update, gate_update_map, gate_update_linear, gate_update_linear_map
 *                 holds: gate_hold, gate_hold_map
 *                 updates and holds, a run of hops at once: receive
 *                 reads, writes and combines logs: log_channels, log_read, log_write, log_combine
 *                 serves segments: dispatch
 *   no role       bank_len, bank_f_len, gate_f_len, worst_f_len, map_len; power_db
 *
 * So calls by keepers alone leave every store as it was, and calls by leaders alone change no bank, no worst floor and no log. A call that is
 * stopped counts for nothing: it is no hop that was heard.
 */
#define WOLFCLOAK_KEEPER 0
#define WOLFCLOAK_LEADER 1
#define WOLFCLOAK_TECHNICIAN 2

/* ---- the bank: a noise floor for each of n channels, 1 to 512 ---- */

/*
 * How many uint16_t and how many double a bank of n channels takes; 0 where making refuses n. With B = ceil(n / 32) they are
 * 3 + B + 573 n and 4 n + 2 B: for 32 channels 18,340 and 130, for 512 channels 293,395 and 2,080. A bank's store from before
 * its floors reached down to -160 dB is shorter, 533 a channel: every call refuses it with 2, and it has to be made anew.
 */
size_t wolfcloak_bank_len(size_t n);
size_t wolfcloak_bank_f_len(size_t n);

/*
 * Makes a fresh bank of n channels in the two stores, whatever they held: bank has to be wolfcloak_bank_len(n) long and bank_f
 * wolfcloak_bank_f_len(n). Every floor is -160 dB until the first update. Refuses with 1, then 2.
 */
uint16_t wolfcloak_bank_new(uint16_t role, uint16_t *bank, size_t bank_len, double *bank_f, size_t bank_f_len, size_t n);

/*
 * One hop: power_db and power are the power of each channel in that hop, in dB and linear, both n long. power steps the
 * smoothed powers behind the spectral reference; power_db steps the floors, on a slow hop only.
 * Refuses with 2 or 9 for the stores, then 5, then 6 (on a slow hop only; such a hop doesn't count, so the next is the slow one).
 */
uint16_t wolfcloak_bank_update(uint16_t role, uint16_t *bank, size_t bank_len, double *bank_f, size_t bank_f_len,
                               const double *power_db, size_t power_db_len, const float *power, size_t power_len);

/*
 * The same; with hold_reference the smoothed powers stay as they are, for a hop of static. The first hop of a bank always sets
 * them.
 */
uint16_t wolfcloak_bank_update_holding_reference(uint16_t role, uint16_t *bank, size_t bank_len, double *bank_f, size_t bank_f_len,
                                                 const double *power_db, size_t power_db_len,
                                                 const float *power, size_t power_len, bool hold_reference);

/*
 * Readings of channel k, 0 to n - 1. Each writes *value where it answers 0, and refuses with 2 or 9 for the stores, then 7.
 */

/* The raw floor in dB: the lower quartile of the channel's last 250 slow hops, in bins of half a dB from -160 to 0. */
uint16_t wolfcloak_channel_floor_db(uint16_t role, const uint16_t *bank, size_t bank_len, const double *bank_f, size_t bank_f_len,
                                    size_t k, double *value);

/* The effective floor in dB, by which drops and signal-to-noise ratios are judged: at most 3 dB over the floor of the
 * channel's block of 32, and in the first second not below the block's seed. */
uint16_t wolfcloak_effective_floor_db(uint16_t role, const uint16_t *bank, size_t bank_len, const double *bank_f, size_t bank_f_len,
                                      size_t k, double *value);

/* The rise floor in dB, by which window rises are judged: the effective floor, not below the floor of the block. */
uint16_t wolfcloak_rise_floor_db(uint16_t role, const uint16_t *bank, size_t bank_len, const double *bank_f, size_t bank_f_len,
                                 size_t k, double *value);

/* The spectral reference, linear: the least smoothed power of the channels k±2, k±3, k±4, wrapping; NaNs are passed over, and
 * +infinity is the answer where there is nothing else. */
uint16_t wolfcloak_spectral_reference(uint16_t role, const uint16_t *bank, size_t bank_len, const double *bank_f, size_t bank_f_len,
                                      size_t k, double *value);

/* The effective, rise and raw floor at once; all three are written, or none. */
uint16_t wolfcloak_floors(uint16_t role, const uint16_t *bank, size_t bank_len, const double *bank_f, size_t bank_f_len,
                          size_t k, double *effective, double *rise, double *raw);

/* Where the effective floor comes from .. */
#define WOLFCLOAK_EFFECTIVE_OWN_QUARTILE 0 /* the quartile of the channel's own slow hops */
#define WOLFCLOAK_EFFECTIVE_BLOCK_PLUS_3 1 /* 3 dB over the floor of its block of 32 */
#define WOLFCLOAK_EFFECTIVE_SEED 2         /* the block's seed: what its first slow hops had in the middle, less 3.8 dB */

/* .. and the rise floor. */
#define WOLFCLOAK_RISE_EFFECTIVE_FLOOR 0 /* the effective floor */
#define WOLFCLOAK_RISE_BLOCK 1           /* the floor of the block */
#define WOLFCLOAK_RISE_SEED 2            /* the block's seed */

/*
 * Why the floors of channel k are what they are: the origin of its effective floor and of its rise floor, each with the dB that this
 * rule yields; all four are written, or none. Where two rules give the same, the first in the order above is named. Both floors are
 * worked out from the stores for this: after wolfcloak_bank_new and updates alone they are the readings above.
 */
uint16_t wolfcloak_explain(uint16_t role, const uint16_t *bank, size_t bank_len, const double *bank_f, size_t bank_f_len, size_t k,
                           uint8_t *effective_origin, double *effective, uint8_t *rise_origin, double *rise);

/* Where in bank the ring of channel k lies: bank[*start] to bank[*start + *len - 1], its last 250 bins, 0 to 319. */
uint16_t wolfcloak_ring(uint16_t role, const uint16_t *bank, size_t bank_len, const double *bank_f, size_t bank_f_len,
                        size_t k, size_t *start, size_t *len);

/* ---- the gate: rise and drop marks for each channel of a bank ---- */

/* A gate's first store is always this many uint16_t. */
#define WOLFCLOAK_GATE_LEN 30

/* An early level that is absent: no early rise. */
#define WOLFCLOAK_NO_EARLY 65535

/* How many double a gate of n channels and these window lengths takes; 0 where making refuses n or the lengths. */
size_t wolfcloak_gate_f_len(size_t n, const uint16_t *lengths, size_t lengths_len);

/*
 * Makes a fresh gate of n channels in the two stores, whatever they held: gate has to be WOLFCLOAK_GATE_LEN long and gate_f
 * wolfcloak_gate_f_len(n, ..). The levels on, off and early are in eighths of a dB over the floor, -800 to 800; early may be
 * WOLFCLOAK_NO_EARLY. lengths has 1 to 8 window lengths of 1 to 375 hops; doubles are dropped.
 * Refuses with 1, then 3, 4, 2.
 */
uint16_t wolfcloak_gate_new(uint16_t role, uint16_t *gate, size_t gate_len, double *gate_f, size_t gate_f_len, size_t n,
                            int32_t on, int32_t off, int32_t early, const uint16_t *lengths, size_t lengths_len);

/*
 * Makes a gate that is there anew with other levels, as wolfcloak_gate_new takes them: its n and its window lengths stay, and the rest is
 * as that leaves it, fresh. No map is lent, so one beside the gate stays as it is, flags included. Refuses with 2 or 9 for the gate's
 * stores, then 4.
 */
uint16_t wolfcloak_gate_remake(uint16_t role, uint16_t *gate, size_t gate_len, double *gate_f, size_t gate_f_len,
                               int32_t on, int32_t off, int32_t early);

/*
 * One hop, after the bank's update with the same hop: steps the smoothed dB and the windows, works out the threshold of each channel
 * whose rise floor has moved (the gate remembers the others), then writes for each channel 1 or 0 to rise and to drop, both n long. A
 * channel rises where two whole windows of some length both reach the on level over its rise floor and no neighbour within two
 * channels is stronger, or where its smoothed dB reaches the early level over its effective floor; it drops where its smoothed dB is
 * below the off level over its effective floor. Between two eighths of a dB, the on level over the rise floor is the upper one.
 * Refuses with 2 or 9 for the bank's stores, then for the gate's, then 8, then 5.
 */
uint16_t wolfcloak_gate_update(uint16_t role, const uint16_t *bank, size_t bank_len, const double *bank_f, size_t bank_f_len,
                               uint16_t *gate, size_t gate_len, double *gate_f, size_t gate_f_len,
                               const double *power_db, size_t power_db_len, const float *power, size_t power_len,
                               uint8_t *rise, size_t rise_len, uint8_t *drop, size_t drop_len);

/*
 * The marks as the gate stands, without a step: for a hop of static. The bank's floors may have moved since the last update, so it
 * brings the thresholds that the gate remembers up to date, and with them gate_f. Before the first update it writes zeros to rise
 * and drop, and nothing to gate_f.
 * Refuses as the update does.
 */
uint16_t wolfcloak_gate_hold(uint16_t role, const uint16_t *bank, size_t bank_len, const double *bank_f, size_t bank_f_len,
                             const uint16_t *gate, size_t gate_len, double *gate_f, size_t gate_f_len,
                             uint8_t *rise, size_t rise_len, uint8_t *drop, size_t drop_len);

/* The smoothed dB of channel k; 0 before the first update. Refuses with 2 or 9 for the gate's stores, then 7. */
uint16_t wolfcloak_smoothed_db(uint16_t role, const uint16_t *gate, size_t gate_len, const double *gate_f, size_t gate_f_len,
                               size_t k, double *value);

/* The early rise of channel k alone, 1.0 or 0.0; 0.0 before the first update and where early is absent.
 * Refuses with 2 or 9 for the bank's stores, then for the gate's, then 8, then 7. */
uint16_t wolfcloak_ema_rise(uint16_t role, const uint16_t *bank, size_t bank_len, const double *bank_f, size_t bank_f_len,
                            const uint16_t *gate, size_t gate_len, const double *gate_f, size_t gate_f_len,
                            size_t k, double *value);

/* ---- a run of hops: bank and gate fed many hops in one call ---- */

/*
 * A run of hold_len hops; the other slices are hold_len times n long, hop after hop: channel k of hop i is at i * n + k. For each hop in
 * turn, where hold[i] is 0: wolfcloak_bank_update and then wolfcloak_gate_update with that hop; where it is anything else, for a hop of
 * static: wolfcloak_bank_update_holding_reference, holding, and then wolfcloak_gate_hold. The marks of each hop go to its n places of
 * rise and drop. Stores and marks are what those single calls would leave. So a run may begin and end at any hop, and runs and single calls
 * may follow one another on the same stores.
 *
 * Refuses with 2 or 9 for the bank's stores, then for the gate's, then 8, then 5 for the length of any slice, then 6 if the bank would
 * refuse one of the run's slow hops, held or not. A refusal changes nothing of the whole run: no hop of it was heard. After a 6, feed its
 * hops by single calls, which refuse the garbled one alone, or leave that hop out and hand in the run again. A run of no hops makes the
 * same checks, changes nothing and answers 0.
 *
 * When to use which: most of a single call's time is the test of the stores, and the two single calls of a hop test the bank twice; a run tests
 * each store once for all its hops. Feed runs of many hops where hops can be collected first: from a recording, or from a buffer of 25 hops or
 * more, whose first hop's marks then come 1/15 of a second late. Where every hop's marks are wanted at once, feed runs of one hop, or single calls.
 * Single calls are for what a run does not do: a bank without a gate, linear power alone, and what follows here.
 *
 * A run carries neither the store of the worst floor of late nor a map of registers, both below. A set that uses one of them is fed by
 * single calls: hops of a run would be missing in it.
 */
uint16_t wolfcloak_receive(uint16_t role, uint16_t *bank, size_t bank_len, double *bank_f, size_t bank_f_len,
                           uint16_t *gate, size_t gate_len, double *gate_f, size_t gate_f_len,
                           const uint8_t *hold, size_t hold_len,
                           const double *power_db, size_t power_db_len, const float *power, size_t power_len,
                           uint8_t *rise, size_t rise_len, uint8_t *drop, size_t drop_len);

/* ---- the worst floor of late: how bad the noise has been ---- */

/*
 * A store of its own beside a bank keeps, for each channel, the effective floors after the last w slow hops, w from 1 to 600 (600 slow
 * hops are 24 seconds). To lend it:
 *   - make it once, by wolfcloak_worst_new, with the n of its bank, when the bank is made;
 *   - from then on feed the bank by wolfcloak_bank_update_worst, which is lent both. A hop fed by the bank's other updates is heard by
 *     the bank as ever, but this store does not see it;
 *   - ask wolfcloak_worst_floor of a channel whenever it is wanted.
 * It makes no difference to the bank. Its two stores belong together and to that bank: copy or keep all four at once.
 */

/* Its first store is always this many uint16_t. */
#define WOLFCLOAK_WORST_LEN 4

/* How many double the second takes, for n channels and the last w slow hops; 0 where making refuses n or w. */
size_t wolfcloak_worst_f_len(size_t n, size_t w);

/*
 * Makes a fresh one in the two stores, whatever they held: worst has to be WOLFCLOAK_WORST_LEN long and worst_f
 * wolfcloak_worst_f_len(n, w). Refuses with 1, then 12, then 2.
 */
uint16_t wolfcloak_worst_new(uint16_t role, uint16_t *worst, size_t worst_len, double *worst_f, size_t worst_f_len, size_t n, size_t w);

/*
 * The bank's update of one hop, held or not, that carries the store: on a slow hop each channel's effective floor, as it is after
 * the hop, enters. Refuses with 2 or 9 for the bank's stores, then for these, then 8, then 5, then 6.
 */
uint16_t wolfcloak_bank_update_worst(uint16_t role, uint16_t *bank, size_t bank_len, double *bank_f, size_t bank_f_len,
                                     uint16_t *worst, size_t worst_len, double *worst_f, size_t worst_f_len,
                                     const double *power_db, size_t power_db_len, const float *power, size_t power_len,
                                     bool hold_reference);

/*
 * The highest effective floor of channel k in dB over the last w slow hops that carried the store, or over those so far; before the
 * first it answers WOLFCLOAK_NONE_YET. Refuses with 2 or 9 for the bank's stores, then for these, then 8, then 7.
 */
uint16_t wolfcloak_worst_floor(uint16_t role, const uint16_t *bank, size_t bank_len, const double *bank_f, size_t bank_f_len,
                               const uint16_t *worst, size_t worst_len, const double *worst_f, size_t worst_f_len,
                               size_t k, double *value);

/* ---- registers for the main processor: flags of rises and drops in bytes, and one wire for attention ---- */

/*
 * A map beside a gate keeps the marks of its updates and holds until they are cleared. It is one slice of bytes; with
 * w = (n + 7) / 8 for the gate's n, a register's address is its place in that slice:
 *
 *   address        register          read                        written
 *   0 .. w-1       rise flags        1: the channel rose         the bits written as 1 are cleared, the others stay
 *   w .. 2w-1      drop flags        1: the channel dropped      the same
 *   2w .. 3w-1     mask              as it was written           replaced
 *   3w and more    none              refused with 15             refused with 15
 *
 * Channel k is bit k % 8, the lowest being bit 0, of byte k / 8 of each group; bits past n are 0 and stay 0 whatever is written.
 * A flag is set by each accepted update or hold that carries the map and marks its channel, and cleared by a write alone; so what was
 * read, written back, clears just that, and a mark that comes between the two is kept.
 *
 * The calls below are lent the map with its gate, which they only read: they refuse with 2 or 9 for the gate's stores, then with 2 for a map
 * of another length, then (all but making) with 9 for one with a bit past n.
 */

/* How many bytes the map of a gate of n channels takes: 3 * ((n + 7) / 8), or 0 where n is outside 1..512. */
size_t wolfcloak_map_len(size_t n);

/* Makes a fresh map for the gate, all 0, whatever it held. */
uint16_t wolfcloak_map_new(uint16_t role, const uint16_t *gate, size_t gate_len, const double *gate_f, size_t gate_f_len,
                           uint8_t *map, size_t map_len);

/*
 * As wolfcloak_gate_update and wolfcloak_gate_hold, with the map: besides, the flag of each mark that is 1 is set, and no other bit changes.
 * They refuse with 2 or 9 for the bank's stores, then for the gate's, then for the map, then 8, then 5.
 */
uint16_t wolfcloak_gate_update_map(uint16_t role, const uint16_t *bank, size_t bank_len, const double *bank_f, size_t bank_f_len,
                                   uint16_t *gate, size_t gate_len, double *gate_f, size_t gate_f_len,
                                   uint8_t *map, size_t map_len,
                                   const double *power_db, size_t power_db_len, const float *power, size_t power_len,
                                   uint8_t *rise, size_t rise_len, uint8_t *drop, size_t drop_len);
uint16_t wolfcloak_gate_hold_map(uint16_t role, const uint16_t *bank, size_t bank_len, const double *bank_f, size_t bank_f_len,
                                 const uint16_t *gate, size_t gate_len, double *gate_f, size_t gate_f_len,
                                 uint8_t *map, size_t map_len,
                                 uint8_t *rise, size_t rise_len, uint8_t *drop, size_t drop_len);

/* The register at an address, read to *value or written; after the stores, 15 for an address of 3w or more. */
uint16_t wolfcloak_map_read(uint16_t role, const uint16_t *gate, size_t gate_len, const double *gate_f, size_t gate_f_len,
                            const uint8_t *map, size_t map_len, size_t address, uint8_t *value);
uint16_t wolfcloak_map_write(uint16_t role, const uint16_t *gate, size_t gate_len, const double *gate_f, size_t gate_f_len,
                             uint8_t *map, size_t map_len, size_t address, uint8_t value);

/* The wire: *up becomes 1 where some flag, rise or drop, and its channel's mask bit are both 1, else 0. */
uint16_t wolfcloak_map_wire(uint16_t role, const uint16_t *gate, size_t gate_len, const double *gate_f, size_t gate_f_len,
                            const uint8_t *map, size_t map_len, uint8_t *up);

/* ---- linear power alone: for a receiver that delivers no dB ---- */

/*
 * The dB of a linear power, in eighths: the highest rung of a ladder from -260 to 400 dB whose power is at most power + 1e-20.
 * -260 if none is or power is NaN; -200 for a power of 0; 400 for an infinite one.
 */
double wolfcloak_power_db(float power);

/*
 * One hop as for wolfcloak_bank_update_holding_reference, with the dB of each power as wolfcloak_power_db gives it.
 * Refuses with 2 or 9 for the stores, then 5: none of these dB is a NaN, so never with 6.
 */
uint16_t wolfcloak_bank_update_linear(uint16_t role, uint16_t *bank, size_t bank_len, double *bank_f, size_t bank_f_len,
                                      const float *power, size_t power_len, bool hold_reference);

/* One hop as for wolfcloak_gate_update, with the same dB. Refuses as that does. */
uint16_t wolfcloak_gate_update_linear(uint16_t role, const uint16_t *bank, size_t bank_len, const double *bank_f, size_t bank_f_len,
                                      uint16_t *gate, size_t gate_len, double *gate_f, size_t gate_f_len,
                                      const float *power, size_t power_len,
                                      uint8_t *rise, size_t rise_len, uint8_t *drop, size_t drop_len);

/* One hop as for wolfcloak_gate_update_map, with the same dB. Refuses as that does. */
uint16_t wolfcloak_gate_update_linear_map(uint16_t role, const uint16_t *bank, size_t bank_len, const double *bank_f, size_t bank_f_len,
                                          uint16_t *gate, size_t gate_len, double *gate_f, size_t gate_f_len,
                                          uint8_t *map, size_t map_len, const float *power, size_t power_len,
                                          uint8_t *rise, size_t rise_len, uint8_t *drop, size_t drop_len);

/* One hop as for wolfcloak_bank_update_worst, with the same dB. Refuses as that does, but never with 6. */
uint16_t wolfcloak_bank_update_linear_worst(uint16_t role, uint16_t *bank, size_t bank_len, double *bank_f, size_t bank_f_len,
                                            uint16_t *worst, size_t worst_len, double *worst_f, size_t worst_f_len,
                                            const float *power, size_t power_len, bool hold_reference);

/* ---- the hop log: what a set heard, hop by hop, only what changed ---- */

/*
 * A log is n in two bytes, the low one first; then for each hop a map of (n + 7) / 8 bytes, channel 0 in the lowest bit of the
 * first, and for each set bit, in rising order, the dB (8 bytes) and the power (4 bytes) of that channel, low byte first. A bit is
 * set exactly where the pair is another than in the hop before; before the first hop all are zero. So a hop takes at most
 * (n + 7) / 8 + 12 * n bytes, and (n + 7) / 8 where nothing changed.
 *
 * dB and powers pass as the bit patterns of their floats (memcpy a double to a uint64_t, a float to a uint32_t), so that the
 * payload of a NaN and the sign of a zero are kept. What is written reads back bit for bit, and nothing else reads to its end.
 */

/*
 * Writes the log of the hops of n channels that stand one after another in db_bits and power_bits, hop by hop n patterns each, and
 * *len becomes its length; bytes of log after it stay as they are. No hops make a log of two bytes.
 * Refuses with 1 for n, with 5 unless both slices are equally long and a multiple of n, with 2 where log is too short.
 */
uint16_t wolfcloak_log_write(uint16_t role, size_t n, const uint64_t *db_bits, size_t db_bits_len,
                             const uint32_t *power_bits, size_t power_bits_len, uint8_t *log, size_t log_len, size_t *len);

/* The number of channels of a log, written to *n. Refuses with 10 for a log of less than two bytes, then with 1. */
uint16_t wolfcloak_log_channels(uint16_t role, const uint8_t *log, size_t log_len, size_t *n);

/*
 * One hop on: the two slices, n patterns each, hold a hop and become the next one, and *position, where that one begins, becomes
 * where the one after it begins. Start with *position = 2 and both slices all zero, and hand in what the call before left.
 * Answers WOLFCLOAK_END, with nothing written, after the last hop.
 * Refuses with 10 for a log of less than two bytes, 1 for its n, 5 for slices of another length, 10 for a position below 2 or past the
 * log; then for the hop at *position alone with 10 for a cut map, 11 for a set bit past n, 10 for cut pairs, 11 for a pair that is the
 * one that the slices hold.
 */
uint16_t wolfcloak_log_read(uint16_t role, const uint8_t *log, size_t log_len, size_t *position,
                            uint64_t *db_bits, size_t db_bits_len, uint32_t *power_bits, size_t power_bits_len);

/*
 * Two antennas, one log: writes the log in which each channel of each hop has the pair of the two logs with the larger power, and *len
 * becomes its length. The first's on a tie, zeros of either sign tie; a NaN loses to a number, and of two NaNs the first's stays, with
 * its bits. Bytes of log after it stay as they are; it takes at most 2 + hops * ((n + 7) / 8 + 12 * n) bytes. A log with itself gives
 * that same log. log must not overlap the two.
 * Refuses as the reader would that reads first to its end, hop by hop; then likewise for second; then with 13 for another n or another
 * number of hops, then with 2 where log is too short.
 */
uint16_t wolfcloak_log_combine(uint16_t role, const uint8_t *first, size_t first_len, const uint8_t *second, size_t second_len,
                               uint8_t *log, size_t log_len, size_t *len);

/* ---- several band segments, 1 to 8, each with a bank and a gate of its own, on one processor ---- */

/*
 * One tick: names the segment whose hop is heard next. Bit i of waiting is 1 where segment i has a hop waiting. The named one is
 * the first of these after the last served, going round; so a segment that is waiting at count ticks in a row is served in one of
 * them, whatever the others do.
 *
 * The caller keeps one number for all segments, last, which is count - 1 at first, so that segment 0 comes first. At each tick it
 *   - sets the bit of each segment that has a hop waiting, and hands in the same count and the number that the tick before left;
 *   - where the answer is 0: makes the bank update and the gate update of segment *last with its hop, on that segment's stores;
 *     the hop waits no longer, and if it is refused there it counts as served all the same;
 *   - where the answer is WOLFCLOAK_NONE_WAITING: has nothing to do, and *last is what it was.
 *
 * Refuses with 14, also where none is waiting: count outside 1..8, a set bit numbered count or more, or *last not below count.
 */
uint16_t wolfcloak_dispatch(uint16_t role, size_t count, uint8_t waiting, size_t *last);

#ifdef __cplusplus
}
#endif

#endif
