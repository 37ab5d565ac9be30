/*
 * Checks, analyses, recovers and runs the plan on standard input, on either kind of chip, asks
 * where a note may stand on it, folds a byte chip, then what is refused, and prints what the calls
 * give.
 */

/* First, so that the header is seen to need nothing before it. */
#include "pitskelo.h"

#include <stdio.h>
#include <string.h>

/* A pointer of this type shows a wrong type in the header where a call might convert it. */
static uint32_t (*const check)(const uint8_t *, size_t,
                               uint32_t *, uint32_t *, uint32_t *) = pitskelo_check;
static uint32_t (*const analyse)(const uint8_t *, size_t,
                                 uint8_t *, size_t, uint8_t *, size_t) = pitskelo_analyse;
static uint32_t (*const fold)(const uint8_t *, size_t, const uint8_t *, size_t,
                              const uint8_t *, size_t, uint8_t *, size_t, uint64_t, uint64_t,
                              uint64_t *, uint32_t *) = pitskelo_fold;

/* A kind of chip: what stands before the names of its calls, and these. */
struct kind {
    const char *prefix;
    uint32_t (*recover)(const uint8_t *, size_t, const uint8_t *, size_t,
                        const uint8_t *, size_t, uint8_t *, size_t);
    uint32_t (*run)(const uint8_t *, size_t, const uint8_t *, size_t,
                    uint8_t *, size_t, uint8_t *, size_t,
                    const uint8_t *, size_t, uint8_t *, size_t, uint64_t,
                    uint32_t *, uint64_t *, uint64_t *, uint64_t *);
    uint32_t (*spent)(const uint8_t *, size_t, const uint8_t *, size_t, uint64_t, uint32_t *);
};

static const struct kind byte_chip = {"", pitskelo_recover, pitskelo_run, pitskelo_spent};
static const struct kind page_chip = {
    "page ", pitskelo_page_recover, pitskelo_page_run, pitskelo_page_spent,
};

/* The kind that is called. */
static const struct kind *kind;

/* What the calls of recover, run and fold share. */
static uint8_t plan[PITSKELO_PLAN_MAX], sets[PITSKELO_SETS_SIZE], state[PITSKELO_STATE_SIZE];
static size_t plan_len;

static void print_check(const char *name, const uint8_t *bytes, size_t len)
{
    uint32_t cells = 1001, commands = 1002, excludes = 1003;
    uint32_t result = check(bytes, len, &cells, &commands, &excludes);
    printf("check %s: %lu, %lu %lu %lu\n", name, (unsigned long)result, (unsigned long)cells,
           (unsigned long)commands, (unsigned long)excludes);
}

/* Prints the first byte of each of the first sets. Where a length is 0, lends a null pointer. */
static void print_analyse(const char *name, const uint8_t *bytes, size_t len,
                          size_t dead_len, size_t sets_len)
{
    static uint8_t dead[PITSKELO_DEAD_SIZE];
    uint32_t result;
    size_t set;

    memset(dead, 0xA5, sizeof dead);
    memset(sets, 0x5A, sizeof sets);
    result = analyse(bytes, len, dead_len > 0 ? dead : NULL, dead_len,
                     sets_len > 0 ? sets : NULL, sets_len);
    printf("analyse %s: %lu,", name, (unsigned long)result);
    for (set = 0; set < 8; set++)
        printf(" %02X", dead[32 * set]);
    printf(",");
    for (set = 0; set < 3; set++)
        printf(" %02X", sets[32 * set]);
    printf("\n");
}

static unsigned long number_at(const uint8_t *bytes)
{
    return bytes[0] | (unsigned long)bytes[1] << 8 | (unsigned long)bytes[2] << 16 |
           (unsigned long)bytes[3] << 24;
}

/* Whether the bytes still hold what they were filled with. */
static int filled(const uint8_t *bytes, size_t len)
{
    while (len > 0 && bytes[len - 1] == 0xA5)
        len--;
    return len == 0;
}

/* Prints the result and unless the state is as it was, cell 0 and the numbers from the place on. */
static void print_recover(const char *name, size_t sets_len, const uint8_t *chip, size_t chip_len,
                          size_t state_len)
{
    uint32_t result;
    size_t at;

    memset(state, 0xA5, sizeof state);
    result = kind->recover(plan, plan_len, sets, sets_len, chip, chip_len, state, state_len);
    printf("%srecover %s: %lu", kind->prefix, name, (unsigned long)result);
    if (!filled(state, sizeof state)) {
        printf(", %lu,", number_at(state));
        for (at = 1280; at < sizeof state; at += 4)
            printf(" %lu", number_at(state + at));
    }
    printf("\n");
}

/* Prints the result, the four numbers, and the outputs up to those that are as they were. */
static void print_run(const char *name, uint8_t *chip, size_t chip_len, const uint8_t *readings,
                      size_t readings_len, size_t outputs_len, uint64_t budget)
{
    uint8_t outputs[16];
    uint32_t ended = 1001;
    uint64_t steps = 1002, taken = 1003, given = 1004;
    uint32_t result;
    size_t at;

    memset(outputs, 0xA5, sizeof outputs);
    result = kind->run(plan, plan_len, sets, sizeof sets, chip, chip_len, state, sizeof state,
                       readings, readings_len, outputs_len > 0 ? outputs : NULL, outputs_len,
                       budget, &ended, &steps, &taken, &given);
    printf("%srun %s: %lu, %lu %lu %lu %lu,", kind->prefix, name, (unsigned long)result,
           (unsigned long)ended, (unsigned long)steps, (unsigned long)taken, (unsigned long)given);
    for (at = 0; !filled(outputs + at, sizeof outputs - at); at += 4)
        printf(" %lu", number_at(outputs + at));
    printf("\n");
}

/* Fills a chip with three saves, of so many bytes and steps; recovers from it, whole and cut. */
static void recover_and_run(size_t save_len, uint64_t save_steps, size_t cut)
{
    static const uint8_t readings[] = {5, 0, 0, 0, 7, 0, 0, 0, 0xFE, 0xFF, 0xFF, 0xFF, 9};
    uint8_t chip[96];
    size_t chip_len = 3 * save_len;
    size_t at;

    memset(chip, 0xFF, sizeof chip);
    print_recover("erased", sizeof sets, chip, chip_len, sizeof state);
    print_run("no room", chip, chip_len, readings, sizeof readings, 0, 1000);
    print_run("some steps", chip, chip_len, readings + 4, sizeof readings - 4, 7, save_steps + 4);
    print_run("no readings", chip, chip_len, NULL, 0, 16, 1000);
    print_run("the rest", chip, chip_len, readings + 4, sizeof readings - 4, 16, 1000);
    print_recover("whole", sizeof sets, chip, chip_len, sizeof state);
    for (at = 0; at < save_len; at++)
        printf(at == 0 ? "%02X" : " %02X", chip[at]);
    printf("\n");
    memset(chip + cut, 0xFF, chip_len - cut);
    print_recover("cut", sizeof sets, chip, chip_len, sizeof state);
}

/* What is refused leaves everything as it was. */
static void refuse(void)
{
    static uint8_t long_chip[PITSKELO_CHIP_MAX + 1];
    uint8_t damaged[PITSKELO_PAGE_SIZE];

    memset(long_chip, 0xFF, sizeof long_chip);
    memset(damaged, 0xFF, sizeof damaged);
    damaged[0] = 0x00;
    print_recover("short sets", sizeof sets - 1, NULL, 0, sizeof state);
    print_recover("short state", sizeof sets, NULL, 0, sizeof state - 1);
    print_recover("long chip", sizeof sets, long_chip, sizeof long_chip, sizeof state);
    print_recover("damaged", sizeof sets, damaged, sizeof damaged, sizeof state);
    print_run("no state", damaged, sizeof damaged, NULL, 0, 16, 1);
    print_recover("null", sizeof sets, NULL, 0, sizeof state);
    print_run("long chip", long_chip, sizeof long_chip, NULL, 0, 16, 1);
    state[PITSKELO_STATE_WRITE] = 1;
    print_run("past the end", NULL, 0, NULL, 0, 16, 1);
}

/* What a page chip alone is refused for. */
static void refuse_pages(void)
{
    static const uint8_t mark[] = {0xA3, 17, 0, 15, 0, 1, 0, 0, 0, 1, 0, 0, 0, 20, 0, 68, 0, 0x5A};
    uint8_t chip[2 * PITSKELO_PAGE_SIZE + 1];

    memset(chip, 0xFF, sizeof chip);
    memcpy(chip, mark, sizeof mark);
    print_recover("part of a page", sizeof sets, chip, sizeof chip, sizeof state);
    print_recover("one save", sizeof sets, chip, 2 * PITSKELO_PAGE_SIZE, sizeof state);
    print_run("part of a page", chip, sizeof chip, NULL, 0, 16, 1);
    state[PITSKELO_STATE_WRITE] = 1;
    print_run("within a page", chip, 2 * PITSKELO_PAGE_SIZE, NULL, 0, 16, 1);
    chip[sizeof mark] = 0;
    print_recover("filled with 00", sizeof sets, chip, 2 * PITSKELO_PAGE_SIZE, sizeof state);
}

/* Prints the result and the number. */
static void print_spent(const char *name, const uint8_t *chip, size_t chip_len, uint64_t place)
{
    uint32_t may = 1001;
    uint32_t result = kind->spent(plan, plan_len, chip, chip_len, place, &may);

    printf("%sspent %s: %lu, %lu\n", kind->prefix, name, (unsigned long)result,
           (unsigned long)may);
}

/* An A2 mark, as until request Q-8, and a mark of another sum, on either kind of chip. */
static void refuse_marks(void)
{
    static const uint8_t old_mark[] = {0xA2, 17, 0, 15, 0, 1, 0, 0, 0, 1, 0, 0, 0, 0x5A};
    static const uint8_t other[] = {0xA3, 17, 0, 15, 0, 1, 0, 0, 0, 1, 0, 0, 0, 20, 0, 69, 0, 0x5A};
    uint8_t chip[2 * PITSKELO_PAGE_SIZE];

    memset(chip, 0xFF, sizeof chip);
    memcpy(chip, old_mark, sizeof old_mark);
    print_recover("an old mark", sizeof sets, chip, sizeof chip, sizeof state);
    print_spent("an old mark", chip, sizeof chip, 2);
    memcpy(chip, other, sizeof other);
    print_recover("another plan's mark", sizeof sets, chip, sizeof chip, sizeof state);
}

/* Where a note may stand on a chip with a save of cell 0, which is live, and 1, which is dead. */
static void ask_places(void)
{
    static const uint8_t save[] = {
        0xA1, 0, 5, 0, 0, 0, 0xA1, 1, 7, 0, 0, 0, 0xA3, 17, 0, 15, 0, 1, 0, 0, 0, 1, 0, 0, 0,
        20, 0, 68, 0, 0x5A,
    };
    static uint8_t long_chip[PITSKELO_CHIP_MAX + 1];
    uint8_t chip[2 * PITSKELO_PAGE_SIZE];

    memset(long_chip, 0xFF, sizeof long_chip);
    memset(chip, 0xFF, sizeof chip);
    memcpy(chip, save, sizeof save);
    print_spent("a live cell", chip, sizeof chip, 2);
    print_spent("a dead cell", chip, sizeof chip, 8);
    print_spent("a cell number", chip, sizeof chip, 7);
    print_spent("far", chip, sizeof chip, UINT64_MAX);
    print_spent("null", NULL, 0, 8);
    print_spent("long chip", long_chip, sizeof long_chip, 8);
    chip[27] = 69;
    print_spent("another plan's mark", chip, sizeof chip, 8);
    chip[29] = 0;
    print_spent("damaged", chip, sizeof chip, 8);
}

/* Prints the result, the two numbers, and the new chip up to where FF begins. */
static void print_fold(const char *name, size_t sets_len, const uint8_t *old_chip, size_t old_len,
                       uint8_t *new_chip, size_t new_len, uint64_t stored, uint64_t budget)
{
    uint64_t now_stored = 1001;
    uint32_t finished = 1002;
    uint32_t result = fold(plan, plan_len, sets, sets_len, old_chip, old_len, new_chip, new_len,
                           stored, budget, &now_stored, &finished);
    size_t at;

    printf("fold %s: %lu, %lu %lu,", name, (unsigned long)result, (unsigned long)now_stored,
           (unsigned long)finished);
    for (at = 0; at < new_len && new_chip[at] != 0xFF; at++)
        printf(" %02X", new_chip[at]);
    printf("\n");
}

/* Folds a chip in parts, and recovers from the new one. What is refused leaves that as it is. */
static void fold_chip(void)
{
    static const uint8_t old_chip[] = {
        0xA1, 0, 5, 0, 0, 0, 0xA3, 17, 0, 15, 0, 1, 0, 0, 0, 1, 0, 0, 0, 20, 0, 68, 0, 0x5A, 0xA1, 1,
    };
    static const uint8_t other[] = {0xA3, 17, 0, 15, 0, 1, 0, 0, 0, 1, 0, 0, 0, 20, 0, 69, 0, 0x5A};
    static uint8_t long_chip[PITSKELO_CHIP_MAX + 1];
    uint8_t new_chip[28];
    size_t old_len = sizeof old_chip, new_len = sizeof new_chip;

    memset(new_chip, 0xFF, sizeof new_chip);
    memset(long_chip, 0xFF, sizeof long_chip);
    print_fold("no save", sizeof sets, NULL, 0, NULL, 0, 0, 1000);
    print_fold("no budget", sizeof sets, old_chip, old_len, new_chip, new_len, 0, 0);
    print_fold("some bytes", sizeof sets, old_chip, old_len, new_chip, new_len, 0, 7);
    print_fold("short sets", sizeof sets - 1, old_chip, old_len, new_chip, new_len, 7, 1000);
    print_fold("long chip", sizeof sets, long_chip, sizeof long_chip, new_chip, new_len, 7, 1000);
    print_fold("damaged", sizeof sets, old_chip + 1, old_len - 1, new_chip, new_len, 7, 1000);
    print_fold("other plan", sizeof sets, other, sizeof other, new_chip, new_len, 8, 1000);
    print_fold("other number", sizeof sets, old_chip, old_len, new_chip, new_len, 8, 1000);
    print_fold("short chip", sizeof sets, old_chip, old_len, new_chip, 23, 7, 1000);
    print_fold("the rest", sizeof sets, old_chip, old_len, new_chip, new_len, 7, 1000);
    print_fold("again", sizeof sets, old_chip, old_len, new_chip, new_len, 24, 0);
    print_recover("old", sizeof sets, old_chip, old_len, sizeof state);
    print_recover("new", sizeof sets, new_chip, new_len, sizeof state);
}

/* Folds a chip with an A2 mark, which is refused before, and recovers from the new one. */
static void fold_old_marks(void)
{
    static const uint8_t old_chip[] = {
        0xA1, 0, 5, 0, 0, 0, 0xA2, 17, 0, 15, 0, 1, 0, 0, 0, 1, 0, 0, 0, 0x5A,
    };
    uint8_t new_chip[24];

    memset(new_chip, 0xFF, sizeof new_chip);
    print_recover("A2", sizeof sets, old_chip, sizeof old_chip, sizeof state);
    print_fold("A2", sizeof sets, old_chip, sizeof old_chip, new_chip, sizeof new_chip, 0, 1000);
    print_recover("A3", sizeof sets, new_chip, sizeof new_chip, sizeof state);
}

int main(void)
{
    static const uint8_t unknown[] = {0x00, 0x7F};

    plan_len = fread(plan, 1, sizeof plan, stdin);
    print_check("input", plan, plan_len);
    print_check("unknown", unknown, sizeof unknown);
    print_check("null", NULL, 0);
    print_analyse("unknown", unknown, sizeof unknown, PITSKELO_DEAD_SIZE, PITSKELO_SETS_SIZE);
    print_analyse("null", plan, plan_len, 0, 0);
    print_analyse("input", plan, plan_len, PITSKELO_DEAD_SIZE, PITSKELO_SETS_SIZE);
    kind = &byte_chip;
    recover_and_run(24, 24, 33);
    refuse();
    refuse_marks();
    ask_places();
    fold_chip();
    fold_old_marks();
    kind = &page_chip;
    recover_and_run(32, 2, 48);
    refuse();
    refuse_pages();
    refuse_marks();
    ask_places();
    return 0;
}
