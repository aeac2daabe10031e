/*
 * hoplog write RECORDING LOG    makes a hop log of a recording
 * hoplog read LOG RECORDING     makes a recording of a hop log
 * hoplog combine A B OUT        makes one log of two antennas' logs
 *
 * A recording is as `watch --help` has it: n in two bytes, then for each hop a flag byte, n dB values (f64) and n powers (f32), low
 * byte first. A log keeps no flag: a recording that is read from one has 0 for each. Floats are moved as the bits that they are.
 */
#include <stdint.h>
#include <stdio.h>
#include <stdlib.h>
#include <string.h>

#include "wolfcloak.h"

/* Who reads and writes logs acts as technician. */
enum { ROLE = WOLFCLOAK_TECHNICIAN };

static void stop(const char *name, const char *why)
{
    fprintf(stderr, "hoplog: %s: %s\n", name, why);
    exit(1);
}

static void *room(size_t bytes)
{
    void *p = malloc(bytes ? bytes : 1);
    if (!p)
        stop("memory", "there is not enough of it");
    return p;
}

/* A whole file. */
static uint8_t *load(const char *name, size_t *len)
{
    size_t most = 1 << 16, got;
    uint8_t *bytes = room(most);
    FILE *file = fopen(name, "rb");
    if (!file)
        stop(name, "it cannot be opened");
    *len = 0;
    while ((got = fread(bytes + *len, 1, most - *len, file)) > 0) {
        *len += got;
        if (*len == most && !(bytes = realloc(bytes, most *= 2)))
            stop("memory", "there is not enough of it");
    }
    if (ferror(file))
        stop(name, "it cannot be read");
    fclose(file);
    return bytes;
}

static void save(const char *name, const uint8_t *bytes, size_t len)
{
    FILE *file = fopen(name, "wb");
    if (!file)
        stop(name, "it cannot be made");
    size_t put = fwrite(bytes, 1, len, file);
    if (fclose(file) != 0 || put != len)
        stop(name, "it cannot be written");
}

/* Numbers of so many bytes, the lowest first. */
static uint64_t number(const uint8_t *bytes, int count)
{
    uint64_t x = 0;
    while (count-- > 0)
        x = x << 8 | bytes[count];
    return x;
}

static void put_number(uint8_t *bytes, int count, uint64_t x)
{
    for (int i = 0; i < count; i++, x >>= 8)
        bytes[i] = (uint8_t)x;
}

static void write_log(const char *recording, const char *log_name)
{
    size_t size, len;
    uint8_t *bytes = load(recording, &size);
    size_t n = size < 2 ? 0 : (size_t)number(bytes, 2), hop = 1 + 12 * n;
    if (n < 1 || n > 512 || (size - 2) % hop != 0)
        stop(recording, "it is no recording of whole hops");
    size_t hops = (size - 2) / hop, count = hops * n;
    uint64_t *db = room(count * sizeof *db);
    uint32_t *power = room(count * sizeof *power);
    for (size_t i = 0; i < count; i++) {
        const uint8_t *from = bytes + 2 + i / n * hop + 1;
        db[i] = number(from + 8 * (i % n), 8);
        power[i] = (uint32_t)number(from + 8 * n + 4 * (i % n), 4);
    }
    size_t most = 2 + hops * ((n + 7) / 8) + 12 * count;
    uint8_t *log = room(most);
    uint16_t no = wolfcloak_log_write(ROLE, n, db, count, power, count, log, most, &len);
    if (no)
        stop(recording, "the writer refused it");
    save(log_name, log, len);
    printf("%zu hops of %zu channels: %zu bytes, the recording %zu\n", hops, n, len, size);
}

static void read_log(const char *log_name, const char *recording)
{
    size_t size, n, position = 2, len = 2, most = 1 << 16, hops = 0;
    uint8_t *log = load(log_name, &size), *bytes = room(most);
    uint64_t db[512] = {0};
    uint32_t power[512] = {0};
    uint16_t no = wolfcloak_log_channels(ROLE, log, size, &n);
    if (no) {
        fprintf(stderr, "hoplog: %s: its header is refused with %u\n", log_name, no);
        exit(1);
    }
    put_number(bytes, 2, n);
    while ((no = wolfcloak_log_read(ROLE, log, size, &position, db, n, power, n)) == WOLFCLOAK_OK) {
        if (len + 1 + 12 * n > most && !(bytes = realloc(bytes, most *= 2)))
            stop("memory", "there is not enough of it");
        bytes[len++] = 0;
        for (size_t k = 0; k < n; k++, len += 8)
            put_number(bytes + len, 8, db[k]);
        for (size_t k = 0; k < n; k++, len += 4)
            put_number(bytes + len, 4, power[k]);
        hops++;
    }
    /* What came before the damage is kept. */
    save(recording, bytes, len);
    printf("%zu hops of %zu channels: %zu bytes, the log %zu\n", hops, n, len, size);
    if (no != WOLFCLOAK_END) {
        fprintf(stderr, "hoplog: %s: hop %zu, byte %zu: refused with %u\n", log_name, hops, position, no);
        exit(1);
    }
}

static void combine_logs(const char *first_name, const char *second_name, const char *out)
{
    size_t first_len, second_len, len;
    uint8_t *first = load(first_name, &first_len), *second = load(second_name, &second_len);
    /* A hop of both takes no more pairs than the two take together. */
    size_t most = first_len + second_len;
    uint8_t *log = room(most);
    uint16_t no = wolfcloak_log_combine(ROLE, first, first_len, second, second_len, log, most, &len);
    if (no) {
        fprintf(stderr, "hoplog: %s and %s: refused with %u\n", first_name, second_name, no);
        exit(1);
    }
    save(out, log, len);
    printf("logs of %zu and %zu bytes: %zu bytes\n", first_len, second_len, len);
}

int main(int argc, char **argv)
{
    if (argc == 4 && strcmp(argv[1], "write") == 0)
        write_log(argv[2], argv[3]);
    else if (argc == 4 && strcmp(argv[1], "read") == 0)
        read_log(argv[2], argv[3]);
    else if (argc == 5 && strcmp(argv[1], "combine") == 0)
        combine_logs(argv[2], argv[3], argv[4]);
    else {
        fputs("hoplog write RECORDING LOG    makes a hop log of a recording\n"
              "hoplog read LOG RECORDING     makes a recording of a hop log\n"
              "hoplog combine A B OUT        makes one log of two antennas' logs\n", stderr);
        return 2;
    }
    return 0;
}
