/*
 * A host of the plan engine. It runs a plan on a chip that is kept in a file, may be killed at any
 * moment, and goes on from the last whole save when it is started again.
 *
 *   host [-p] PLAN CHIP READINGS [PAUSE]
 *
 * -p        the chip is a page chip, which stores 16 bytes as a unit; else it is a byte chip
 * PLAN      the plan's bytes
 * CHIP      the chip: a file as long as the chip, all FF before the plan's first start
 * READINGS  signed 32-bit numbers, little-endian: reading n stands at byte 4 n. Readings may be
 *           appended, and none altered: after a restart those since the last save are taken again
 * PAUSE     microseconds that the chip takes for a byte, or a page, 0 if it is missing
 *
 * Standard output gets a line for each output, its number and its value. After a restart the
 * outputs since the last save come again, with the same numbers and values: a reader drops the
 * numbers that it has. Standard error gets a line that says how the run ended. The exit status is 0
 * where the plan has stopped or no reading is left, else 1.
 *
 * A chip that is not this plan's to go on with is left as it is, and standard error says why. Where
 * its marks are old ones, which name no plan (15), a byte chip has to be folded onto a blank one
 * first (fold.c), and the host goes on with that. Where they name another plan (16), it is the wrong
 * chip or the wrong plan.
 *
 * Nothing is lost in a cut since the engine works on a copy of the chip, and after each call
 * - the outputs are handed on before a byte is written to the chip,
 * - the bytes, or pages, are written in the order of the steps that changed them. A page is one
 *   write: a kill leaves it done, or not begun.
 *
 * A kill leaves to the system what was written to it, so a plain write is enough here. Against a
 * cut of this machine's own power each write would have to reach the disk (fsync) before the next.
 */

/* For pread, pwrite and nanosleep. */
#define _POSIX_C_SOURCE 200809L

#include "pitskelo.h"

#include <errno.h>
#include <fcntl.h>
#include <inttypes.h>
#include <stdio.h>
#include <stdlib.h>
#include <string.h>
#include <time.h>
#include <unistd.h>

/*
 * The steps of one call. With 1 an output is handed on as soon as it is given; more are faster,
 * since every call checks plan and state. A step takes one reading and gives one output at most.
 */
#ifndef BUDGET
#define BUDGET 1
#endif

#define NUMBER_SIZE 4

/* What a recovery answers of a chip whose marks are old, and of one whose marks name another plan. */
#define OLD_MARKS 15
#define OTHER_PLAN 16

/* A kind of chip: the bytes that it stores or erases as a unit, and its calls. */
struct kind {
    uint32_t unit;
    uint32_t (*recover)(const uint8_t *plan, size_t plan_len, const uint8_t *sets, size_t sets_len,
                        const uint8_t *chip, size_t chip_len, uint8_t *state, size_t state_len);
    uint32_t (*run)(const uint8_t *plan, size_t plan_len, const uint8_t *sets, size_t sets_len,
                    uint8_t *chip, size_t chip_len, uint8_t *state, size_t state_len,
                    const uint8_t *readings, size_t readings_len,
                    uint8_t *outputs, size_t outputs_len, uint64_t budget,
                    uint32_t *ended, uint64_t *steps, uint64_t *taken, uint64_t *given);
};

static const struct kind byte_chip = {1, pitskelo_recover, pitskelo_run};
static const struct kind page_chip = {PITSKELO_PAGE_SIZE, pitskelo_page_recover, pitskelo_page_run};

/* An erased page; the first byte of it is an erased byte. */
static const uint8_t erased[PITSKELO_PAGE_SIZE] = {
    0xFF, 0xFF, 0xFF, 0xFF, 0xFF, 0xFF, 0xFF, 0xFF, 0xFF, 0xFF, 0xFF, 0xFF, 0xFF, 0xFF, 0xFF, 0xFF,
};

/*
 * What the host lends to the engine, and its files. A file longer than a plan or a chip may be is
 * read one byte too far, so that the engine sees it and refuses it.
 */
struct host {
    const struct kind *kind;
    uint8_t plan[PITSKELO_PLAN_MAX + 1];
    size_t plan_len;
    uint8_t sets[PITSKELO_SETS_SIZE];
    uint8_t chip[PITSKELO_CHIP_MAX + 1]; /* the copy that the engine works on */
    size_t chip_len;
    uint8_t state[PITSKELO_STATE_SIZE];
    int chip_file;
    int readings_file;
    long pause;
};

static void fail(const char *what)
{
    fprintf(stderr, "host: %s: %s\n", what, strerror(errno));
    exit(EXIT_FAILURE);
}

/* Ends the host where a call was refused. */
static void must_accept(const char *call, uint32_t result)
{
    if (result == 0)
        return;
    fprintf(stderr, "host: %s: refused %" PRIu32 "\n", call, result);
    exit(EXIT_FAILURE);
}

static uint32_t number_at(const uint8_t *bytes)
{
    return (uint32_t)bytes[0] | (uint32_t)bytes[1] << 8 | (uint32_t)bytes[2] << 16 |
           (uint32_t)bytes[3] << 24;
}

static int64_t signed_at(const uint8_t *bytes)
{
    int64_t number = number_at(bytes);
    return number <= INT32_MAX ? number : number - ((int64_t)UINT32_MAX + 1);
}

/* A number of the state, by its PITSKELO_STATE_... offset. */
static uint32_t in_state(const struct host *host, size_t offset)
{
    return number_at(host->state + offset);
}

static int open_file(const char *path, int flags)
{
    int file = open(path, flags);
    if (file < 0)
        fail(path);
    return file;
}

/* Reads a file from a byte on, as far as there is room, and gives the number of bytes. */
static size_t read_from(int file, const char *name, off_t from, uint8_t *to, size_t room)
{
    size_t len = 0;
    while (len < room) {
        ssize_t got = pread(file, to + len, room - len, from + (off_t)len);
        if (got < 0)
            fail(name);
        if (got == 0)
            break;
        len += (size_t)got;
    }
    return len;
}

static void load(struct host *host, char **paths)
{
    int plan_file = open_file(paths[0], O_RDONLY);
    host->plan_len = read_from(plan_file, paths[0], 0, host->plan, sizeof host->plan);
    close(plan_file);
    host->chip_file = open_file(paths[1], O_RDWR);
    host->chip_len = read_from(host->chip_file, paths[1], 0, host->chip, sizeof host->chip);
    host->readings_file = open_file(paths[2], O_RDONLY);
}

/* Finds the plan's sets. Recovery and runs need DE and RO; the dead sets are dropped. */
static void analyse(struct host *host)
{
    static uint8_t dead[PITSKELO_DEAD_SIZE];
    must_accept("analyse",
                pitskelo_analyse(host->plan, host->plan_len, dead, sizeof dead,
                                 host->sets, sizeof host->sets));
}

/* Tells what is to be done with a chip that is not this plan's to go on with. */
static void tell_owner(const struct host *host, uint32_t result)
{
    if (result == OTHER_PLAN)
        fprintf(stderr, "host: the chip belongs to another plan\n");
    if (result == OLD_MARKS && host->kind == &byte_chip)
        fprintf(stderr, "host: the chip has old marks: fold it onto a blank one\n");
    if (result == OLD_MARKS && host->kind == &page_chip)
        fprintf(stderr, "host: the chip has old marks: no page chip is folded, erase it\n");
}

/* Sets the state by the whole saves on the chip, whatever a cut has left behind them. */
static void recover(struct host *host)
{
    uint32_t result =
        host->kind->recover(host->plan, host->plan_len, host->sets, sizeof host->sets,
                            host->chip, host->chip_len, host->state, sizeof host->state);

    tell_owner(host, result);
    must_accept("recover", result);
}

/*
 * Gets the readings from the next untaken one on, by its number, and gives their bytes. The end of
 * the file may leave a part of a number: the engine leaves that unused.
 */
static size_t next_readings(const struct host *host, uint8_t *to, size_t room)
{
    off_t number = in_state(host, PITSKELO_STATE_READINGS);
    return read_from(host->readings_file, "the readings", number * NUMBER_SIZE, to, room);
}

/* Hands on an output. When this returns, a kill of this process no longer takes it back. */
static void hand_on(uint32_t number, int64_t value)
{
    if (printf("%" PRIu32 " %" PRId64 "\n", number, value) < 0 || fflush(stdout) != 0)
        fail("standard output");
}

/* Writes one unit, by one write: a page is stored whole or not at all. */
static void write_chip(const struct host *host, uint32_t address, const uint8_t *bytes)
{
    uint32_t unit = host->kind->unit;
    struct timespec pause = {
        .tv_sec = host->pause / 1000000,
        .tv_nsec = host->pause % 1000000 * 1000,
    };
    if (pwrite(host->chip_file, bytes, unit, (off_t)address) != (ssize_t)unit)
        fail("the chip");
    if (host->pause > 0)
        nanosleep(&pause, NULL);
}

/*
 * Writes to the chip what a call changed on the copy. write and erase are what the state had before
 * the call: the write position, and the number of torn bytes from there on. The engine erases these
 * from the highest address down, and then stores saves upward. On a page chip the state's addresses
 * and numbers of bytes are whole pages.
 */
static void update_chip(const struct host *host, uint32_t write, uint32_t erase)
{
    uint32_t end = in_state(host, PITSKELO_STATE_WRITE);
    uint32_t left = in_state(host, PITSKELO_STATE_ERASE);
    uint32_t unit = host->kind->unit;
    uint32_t at;

    for (at = write + erase; at > write + left; at -= unit)
        write_chip(host, at - unit, erased);
    for (at = write; at < end; at += unit)
        write_chip(host, at, host->chip + at);
}

/* Runs the plan on for one call, and gives how the call ended. */
static uint32_t run_on(struct host *host)
{
    uint32_t number = in_state(host, PITSKELO_STATE_OUTPUTS);
    uint32_t write = in_state(host, PITSKELO_STATE_WRITE);
    uint32_t erase = in_state(host, PITSKELO_STATE_ERASE);
    uint8_t readings[BUDGET * NUMBER_SIZE], outputs[BUDGET * NUMBER_SIZE];
    size_t readings_len = next_readings(host, readings, sizeof readings);
    uint32_t ended;
    uint64_t steps, taken, given, k;

    must_accept("run",
                host->kind->run(host->plan, host->plan_len, host->sets, sizeof host->sets,
                                host->chip, host->chip_len, host->state, sizeof host->state,
                                readings, readings_len, outputs, sizeof outputs, BUDGET,
                                &ended, &steps, &taken, &given));
    for (k = 0; k < given; k++)
        hand_on(number + (uint32_t)k, signed_at(outputs + k * NUMBER_SIZE));
    update_chip(host, write, erase);
    return ended;
}

static const char *how_it_ended(uint32_t ended)
{
    switch (ended) {
    case PITSKELO_STOPPED_ENDED:
        return "stopped: ended";
    case PITSKELO_STOPPED_DIVISOR:
        return "stopped: divisor";
    case PITSKELO_STOPPED_COUNT_FULL:
        return "stopped: count full";
    case PITSKELO_NO_READING:
        return "no reading left";
    default: /* never: there is room for an output of every step */
        return "outputs full";
    }
}

int main(int argc, char **argv)
{
    /* Static, since a chip is large for a stack. */
    static struct host host;
    uint32_t ended;

    host.kind = &byte_chip;
    if (argc > 1 && strcmp(argv[1], "-p") == 0) {
        host.kind = &page_chip;
        argc--;
        argv++;
    }
    if (argc != 4 && argc != 5) {
        fprintf(stderr, "use: host [-p] PLAN CHIP READINGS [PAUSE]\n");
        return EXIT_FAILURE;
    }
    host.pause = argc == 5 ? atol(argv[4]) : 0;
    load(&host, argv + 1);
    analyse(&host);
    recover(&host);
    do
        ended = run_on(&host);
    while (ended == PITSKELO_BUDGET_SPENT);
    fprintf(stderr, "host: %s\n", how_it_ended(ended));
    return EXIT_SUCCESS;
}
