/*
 * Lists where the service desk may put a repair note on a chip that is kept in a file.
 *
 *   notes [-p] PLAN CHIP
 *
 * -p     the chip is a page chip; without it a byte chip
 * PLAN   the plan's bytes
 * CHIP   the chip, which is only read
 *
 * Each line of standard output is a place where a note may stand, by rising offset:
 *
 *   OFFSET cell CELL value V
 *
 * OFFSET  where on the chip the first of the note's four bytes stands
 * CELL    the spent cell whose value they are
 * V       what they hold now, the lowest byte first, as an unsigned number
 *
 * All four bytes may become anything, at any number of these places. A chip on which no save is
 * whole, or whose saves hold no spent cell, has no line. The answer is for the chip as it is: once
 * the batch goes on, or the chip is folded, ask again.
 *
 * Standard error gets a line where the chip or the plan is refused. The exit status is 0 where the
 * list is whole, else 1.
 */

#include "pitskelo.h"

#include <errno.h>
#include <inttypes.h>
#include <stdio.h>
#include <stdlib.h>
#include <string.h>

/* A record: its first byte, then the cell, then four bytes of value. */
#define RECORD 0xA1
#define VALUE_AT 2
#define VALUE_SIZE 4

/* What a recovery answers of a chip with the marks that name no plan, and of another plan's. */
#define OLD_MARKS 15
#define OTHER_PLAN 16

typedef uint32_t spent_call(const uint8_t *plan, size_t plan_len,
                            const uint8_t *chip, size_t chip_len,
                            uint64_t place, uint32_t *may);

/*
 * What the tool lends to the engine. A file longer than a plan or a chip may be is read one byte
 * too far, so that the engine sees it and refuses it.
 */
struct notes {
    spent_call *spent; /* the entry for this kind of chip */
    uint8_t plan[PITSKELO_PLAN_MAX + 1];
    size_t plan_len;
    uint8_t chip[PITSKELO_CHIP_MAX + 1];
    size_t chip_len;
};

static void fail(const char *what)
{
    fprintf(stderr, "notes: %s: %s\n", what, strerror(errno));
    exit(EXIT_FAILURE);
}

/* Ends the tool where a call was refused. */
static void must_accept(uint32_t result)
{
    if (result == 0)
        return;
    if (result == OLD_MARKS)
        fprintf(stderr, "notes: the chip has old marks: fold it onto a blank one\n");
    if (result == OTHER_PLAN)
        fprintf(stderr, "notes: the chip belongs to another plan\n");
    fprintf(stderr, "notes: spent: refused %" PRIu32 "\n", result);
    exit(EXIT_FAILURE);
}

/* Reads a file as far as there is room. */
static void load(const char *path, uint8_t *to, size_t room, size_t *len)
{
    FILE *file = fopen(path, "rb");

    if (file == NULL)
        fail(path);
    *len = fread(to, 1, room, file);
    if (ferror(file))
        fail(path);
    fclose(file);
}

/* Whether a note may stand from this place on. */
static int is_spent(const struct notes *notes, uint64_t place)
{
    uint32_t may;

    must_accept(notes->spent(notes->plan, notes->plan_len, notes->chip, notes->chip_len, place,
                             &may));
    return may == 1;
}

/* The number that stands in four bytes. */
static uint32_t number_at(const uint8_t *bytes)
{
    return bytes[0] | (uint32_t)bytes[1] << 8 | (uint32_t)bytes[2] << 16 | (uint32_t)bytes[3] << 24;
}

/*
 * Asks for each place whose record would begin with the right byte. The others need no call, since
 * a value stands behind such a byte.
 */
static void list(const struct notes *notes)
{
    size_t at;

    for (at = VALUE_AT; at + VALUE_SIZE <= notes->chip_len; at++) {
        const uint8_t *record = notes->chip + at - VALUE_AT;

        if (record[0] == RECORD && is_spent(notes, at))
            printf("%zu cell %d value %" PRIu32 "\n", at, record[1], number_at(notes->chip + at));
    }
}

int main(int argc, char **argv)
{
    /* Static, since a chip is large for a stack. */
    static struct notes notes;

    notes.spent = pitskelo_spent;
    if (argc > 1 && strcmp(argv[1], "-p") == 0) {
        notes.spent = pitskelo_page_spent;
        argc--;
        argv++;
    }
    if (argc != 3) {
        fprintf(stderr, "use: notes [-p] PLAN CHIP\n"
                        "lists where on CHIP a note may stand; -p: it is a page chip\n");
        return EXIT_FAILURE;
    }
    load(argv[1], notes.plan, sizeof notes.plan, &notes.plan_len);
    load(argv[2], notes.chip, sizeof notes.chip, &notes.chip_len);
    /* A chip on which no place is asked for is refused too, where it has to be. */
    is_spent(&notes, 0);
    list(&notes);
    if (fflush(stdout) != 0)
        fail("standard output");
    return EXIT_SUCCESS;
}
