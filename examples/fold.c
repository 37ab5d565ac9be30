/*
 * Folds a byte chip onto a blank one, both kept in files. It may be killed at any moment, and goes
 * on from the bytes that stand on the new chip when it is started again.
 *
 *   fold PLAN OLD NEW [PAUSE]
 *
 * PLAN   the plan's bytes
 * OLD    the old chip, which is only read
 * NEW    the new chip: a file as long as that chip, all FF before the first start
 * PAUSE  microseconds that the new chip takes for a byte, 0 if it is missing
 *
 * Once it has finished, a host goes on with the new chip as it would with the old one, and finds
 * room for more saves on it. Until then the old chip is the one to keep.
 *
 * It also brings an old chip to today's marks. A chip whose marks name no plan (they begin with A2)
 * is refused by a recovery with 15; this tool reads it as any other, and the mark that it writes
 * names PLAN. So PLAN has to be the one that wrote the chip: nothing on such a chip tells. A chip
 * whose marks name another plan is refused with 16, and so is one folded with the wrong plan when it
 * is recovered with the right one.
 *
 * Standard error gets a line that says how it ended. The exit status is 0 where the new chip is
 * finished, else 1.
 *
 * The engine works on a copy of the new chip, and after each call the bytes that it stored are
 * written to the file upward, one write each: a kill leaves a beginning of the save. Against a cut
 * of this machine's own power each write would have to reach the disk (fsync) before the next.
 */

/* For pread, pwrite and nanosleep. */
#define _POSIX_C_SOURCE 200809L

#include "pitskelo.h"

#include <errno.h>
#include <fcntl.h>
#include <inttypes.h>
#include <stdio.h>
#include <stdlib.h>
#include <string.h>
#include <time.h>
#include <unistd.h>

/* The bytes of one call. More are faster, since every call reads the old chip and the new one. */
#ifndef BUDGET
#define BUDGET 1
#endif

/* What a fold answers of a chip whose marks name another plan. */
#define OTHER_PLAN 16

/*
 * What the tool lends to the engine, and its file. A file longer than a plan or a chip may be is
 * read one byte too far, so that the engine sees it and refuses it.
 */
struct fold {
    uint8_t plan[PITSKELO_PLAN_MAX + 1];
    size_t plan_len;
    uint8_t sets[PITSKELO_SETS_SIZE];
    uint8_t old_chip[PITSKELO_CHIP_MAX + 1];
    size_t old_len;
    uint8_t new_chip[PITSKELO_CHIP_MAX + 1]; /* the copy that the engine works on */
    size_t new_len;
    int new_file;
    long pause;
};

static void fail(const char *what)
{
    fprintf(stderr, "fold: %s: %s\n", what, strerror(errno));
    exit(EXIT_FAILURE);
}

/* Ends the tool where a call was refused. */
static void must_accept(const char *call, uint32_t result)
{
    if (result == 0)
        return;
    fprintf(stderr, "fold: %s: refused %" PRIu32 "\n", call, result);
    exit(EXIT_FAILURE);
}

/* Opens a file and reads it as far as there is room. */
static int read_file(const char *path, int flags, uint8_t *to, size_t room, size_t *len)
{
    int file = open(path, flags);
    ssize_t got = 1;

    if (file < 0)
        fail(path);
    for (*len = 0; got > 0 && *len < room; *len += (size_t)got) {
        got = pread(file, to + *len, room - *len, (off_t)*len);
        if (got < 0)
            fail(path);
    }
    return file;
}

static void load(struct fold *fold, char **paths)
{
    close(read_file(paths[0], O_RDONLY, fold->plan, sizeof fold->plan, &fold->plan_len));
    close(read_file(paths[1], O_RDONLY, fold->old_chip, sizeof fold->old_chip, &fold->old_len));
    fold->new_file =
        read_file(paths[2], O_RDWR, fold->new_chip, sizeof fold->new_chip, &fold->new_len);
}

/* Finds the plan's sets, of which a fold asks the length alone. */
static void analyse(struct fold *fold)
{
    static uint8_t dead[PITSKELO_DEAD_SIZE];
    must_accept("analyse",
                pitskelo_analyse(fold->plan, fold->plan_len, dead, sizeof dead,
                                 fold->sets, sizeof fold->sets));
}

/*
 * The number of bytes that stand on the new chip: its length without the FF bytes at its end. This
 * is right also where the last bytes stored were FF, since the chip is the same without them.
 */
static uint64_t stored_on(const struct fold *fold)
{
    size_t stored = fold->new_len;
    while (stored > 0 && fold->new_chip[stored - 1] == 0xFF)
        stored--;
    return stored;
}

static void write_chip(const struct fold *fold, uint64_t address)
{
    struct timespec pause = {
        .tv_sec = fold->pause / 1000000,
        .tv_nsec = fold->pause % 1000000 * 1000,
    };
    if (pwrite(fold->new_file, fold->new_chip + address, 1, (off_t)address) != 1)
        fail("the new chip");
    if (fold->pause > 0)
        nanosleep(&pause, NULL);
}

/* Stores the bytes of one call, from this number on, and gives the new one. */
static uint64_t fold_on(struct fold *fold, uint64_t stored, uint32_t *finished)
{
    uint64_t now_stored;
    uint32_t result = pitskelo_fold(fold->plan, fold->plan_len, fold->sets, sizeof fold->sets,
                                    fold->old_chip, fold->old_len, fold->new_chip, fold->new_len,
                                    stored, BUDGET, &now_stored, finished);

    if (result == OTHER_PLAN)
        fprintf(stderr, "fold: the chip belongs to another plan\n");
    must_accept("fold", result);
    for (; stored < now_stored; stored++)
        write_chip(fold, stored);
    return now_stored;
}

int main(int argc, char **argv)
{
    /* Static, since two chips are large for a stack. */
    static struct fold fold;
    uint64_t stored;
    uint32_t finished;

    if (argc != 4 && argc != 5) {
        fprintf(stderr, "use: fold PLAN OLD NEW [PAUSE]\n"
                        "folds OLD, whose marks are today's or old ones of PLAN, onto NEW\n");
        return EXIT_FAILURE;
    }
    fold.pause = argc == 5 ? atol(argv[4]) : 0;
    load(&fold, argv + 1);
    analyse(&fold);
    stored = stored_on(&fold);
    do
        stored = fold_on(&fold, stored, &finished);
    while (!finished);
    fprintf(stderr, "fold: finished, %" PRIu64 " bytes\n", stored);
    return EXIT_SUCCESS;
}
