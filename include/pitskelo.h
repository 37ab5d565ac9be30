/*
 * Pitskelo, the plan engine: its C interface. Link with libpitskelo.a.
 *
 * For every call:
 * - A slice is a pointer and then its length in bytes. A null pointer with length 0 is an empty
 *   slice; no other pointer may be null.
 * - What is lent to one call, the numbers that it fills included, must not overlap.
 * - A buffer of words holds little-endian 64-bit numbers; readings and outputs are little-endian
 *   signed 32-bit numbers. None need be aligned. A rest too short for a number is left unused.
 * - The result is 0 where the call is accepted, else the number of the refusal. A refused call
 *   alters nothing that was lent.
 * - Nothing is kept from call to call but in what is lent.
 *
 *   1  the plan is empty or over 2,048 bytes
 *   2  unknown command byte
 *   3  a command's operands pass the plan's end
 *   4  a cell doesn't exist
 *   5  a table has length 0 or passes the last cell, also where its base does
 *   6  over 512 commands, or over 64 EXCLUDEs
 *   7  no command, or the last is neither END nor JUMP
 *   8  a jump's target isn't a command's offset
 *   9  a buffer of words is too short
 *   10 the state has another length than PITSKELO_STATE_SIZE, or, for a run, is not sound; for one
 *      on a page chip also where its write position, its count of bytes to erase or its count of
 *      bytes stored of a save is not divisible by 16
 *   11 the chip is over 65,536 bytes; for a page chip also where its length is not divisible by 16
 *   12 the chip that is read is damaged: what follows its whole saves is neither erased nor begins
 *      a save; for a page chip also where a page of a whole save is filled with other bytes than FF
 *   13 the new chip of a fold is other than that many bytes of the save and then FF
 *   14 the save of a fold is longer than the new chip
 *   15 every save of the chip ends in the MARK in use until request Q-8, A2, which names no plan:
 *      pitskelo_fold makes a chip of it that recovery takes
 *   16 a whole save of the chip names another plan: its MARK, A3, has another length of plan or
 *      another sum of its bytes
 *
 * Several may hold at once. 1 is tried first, then 2 to 5 command by command, then 6 to 12 in this
 * order; then 15 and 16 in a recovery and in pitskelo_spent, and 16, 13 and 14 in a fold. 12 and 16
 * are given by recoveries, by pitskelo_spent (what is said of it holds for pitskelo_page_spent too)
 * and by folds, 15 by recoveries and by pitskelo_spent, 13 and 14 by folds alone.
 *
 * docs/C-API.md says what a host does with these calls, and in which order.
 */
#ifndef PITSKELO_H
#define PITSKELO_H

#include <stddef.h>
#include <stdint.h>

#ifdef __cplusplus
extern "C" {
#endif

/* Sizes in bytes. */
#define PITSKELO_PLAN_MAX 2048   /* a plan has 1 to so many */
#define PITSKELO_DEAD_SIZE 16384 /* dead has at least so many */
#define PITSKELO_SETS_SIZE 4096  /* sets has at least so many */
#define PITSKELO_STATE_SIZE 1312 /* the state has just so many */
#define PITSKELO_CHIP_MAX 65536  /* a chip has 0 to so many */
#define PITSKELO_PAGE_SIZE 16    /* a page chip stores so many as a unit */

/*
 * Where the state has the numbers that a host may want to know: little-endian, unsigned, 32 bits.
 * A host reads them and alters no byte of the state.
 */
#define PITSKELO_STATE_READINGS 1288 /* readings taken: the number of the next one */
#define PITSKELO_STATE_OUTPUTS 1292  /* outputs given: the number of the next one */
#define PITSKELO_STATE_WRITE 1300    /* the address of the chip's next byte to store */
#define PITSKELO_STATE_ERASE 1304    /* the torn bytes to erase, from that address on */

/* How a run ended. */
enum pitskelo_ended {
    PITSKELO_STOPPED_ENDED = 1,      /* the plan stopped: at END */
    PITSKELO_STOPPED_DIVISOR = 2,    /* it stopped: a DIV by 0 */
    PITSKELO_STOPPED_COUNT_FULL = 3, /* it stopped: a READ or EMIT at count 4,294,967,295 */
    PITSKELO_BUDGET_SPENT = 4,       /* all steps of the budget are done */
    PITSKELO_NO_READING = 5,         /* a READ is due and no reading is left */
    PITSKELO_OUTPUTS_FULL = 6        /* an EMIT is due and the output buffer is full */
};

/*
 * Checks a plan and answers its numbers of cells (1 to 256), commands (1 to 512) and, among these,
 * EXCLUDEs (0 to 64). Result: 0, or 1 to 8.
 */
uint32_t pitskelo_check(const uint8_t *plan, size_t plan_len,
                        uint32_t *cells, uint32_t *commands, uint32_t *excludes);

/*
 * Checks a plan and finds its sets. Result: 0, or 1 to 9.
 *
 * dead, of at least 2,048 words (16,384 bytes), gets one set for each command, in the order of the
 * offsets: the cells that are dead before it. sets, of at least 512 words (4,096 bytes), gets two
 * for each EXCLUDE, in that order too. First DE: the cells dead at every CHECKPOINT of its region,
 * none if the region has no CHECKPOINT. Then RO: the cells that no command of the region may write.
 * The region is the next command and all that can be reached from it without passing an EXCLUDE.
 *
 * A set is four words. Bit b of word w stands for cell 64 * w + b, b = 0 the lowest; bits of cells
 * that don't exist are 0. Bytes of the buffers after the last set remain as they are.
 */
uint32_t pitskelo_analyse(const uint8_t *plan, size_t plan_len,
                          uint8_t *dead, size_t dead_len,
                          uint8_t *sets, size_t sets_len);

/*
 * Reads the chip and fills the state from its whole saves: each cell's last saved value, or 0, and
 * place and counts of the last save, or the plan's beginning. It comes before the first run, on an
 * erased chip (all FF) too, and again after each power cut. Result: 0, or 1 to 12, 15, 16. A chip
 * that runs of this plan have written, from an erased one on, is never refused with 12, 15 or 16.
 *
 * sets are those that pitskelo_analyse found for this plan. The state may hold anything before the
 * call, which tests its length alone. The chip stays as it is: the bytes of a torn save are erased
 * by the first steps of the runs that follow.
 */
uint32_t pitskelo_recover(const uint8_t *plan, size_t plan_len,
                          const uint8_t *sets, size_t sets_len,
                          const uint8_t *chip, size_t chip_len,
                          uint8_t *state, size_t state_len);

/*
 * Runs the plan on from where the state stands, for at most budget steps, and alters the state, the
 * chip and the outputs. Result: 0, or 1 to 11.
 *
 * A step erases one torn byte, or stores one byte of a save, or executes one command. Before each
 * step the run ends where one of these holds, tried in this order: the plan has stopped; the budget
 * is spent; a READ is due and no reading is left; an EMIT is due and the output buffer is full.
 * ended says which (enum pitskelo_ended). steps, taken and given are the numbers of this call's
 * steps, readings taken and outputs written.
 *
 * readings begins with the next reading not yet taken: its number is the state's count of readings.
 * outputs gets this call's outputs from its start on, and its later bytes remain as they are. The
 * first output's number is the state's count of outputs before the call; each next one is one more.
 *
 * An output must be handed on before bytes of later steps reach the chip, and bytes must reach it
 * in the order of the steps. So lend a copy of the chip, and see docs/C-API.md for what comes then.
 */
uint32_t pitskelo_run(const uint8_t *plan, size_t plan_len,
                      const uint8_t *sets, size_t sets_len,
                      uint8_t *chip, size_t chip_len,
                      uint8_t *state, size_t state_len,
                      const uint8_t *readings, size_t readings_len,
                      uint8_t *outputs, size_t outputs_len,
                      uint64_t budget,
                      uint32_t *ended, uint64_t *steps, uint64_t *taken, uint64_t *given);

/*
 * The same on a page chip, which stores PITSKELO_PAGE_SIZE bytes as a unit: a step erases one page
 * of a torn save, or stores one page of a save, or executes one command. A save starts at an
 * address divisible by 16, and behind it its last page is filled with FF; it fits the chip where
 * its filled pages do. A page with any torn byte counts whole among the bytes to erase.
 *
 * The state does not say for which kind of chip it is: a host keeps to one kind, by the chip that
 * it has.
 */
uint32_t pitskelo_page_recover(const uint8_t *plan, size_t plan_len,
                               const uint8_t *sets, size_t sets_len,
                               const uint8_t *chip, size_t chip_len,
                               uint8_t *state, size_t state_len);

uint32_t pitskelo_page_run(const uint8_t *plan, size_t plan_len,
                           const uint8_t *sets, size_t sets_len,
                           uint8_t *chip, size_t chip_len,
                           uint8_t *state, size_t state_len,
                           const uint8_t *readings, size_t readings_len,
                           uint8_t *outputs, size_t outputs_len,
                           uint64_t budget,
                           uint32_t *ended, uint64_t *steps, uint64_t *taken, uint64_t *given);

/*
 * Folds an old byte chip onto a new one, which is blank (all FF) at first: the new chip gets one
 * save, with every cell whose recovered value is not 0, by rising number, and the last save's place
 * and counts. A chip without a whole save leaves the new one blank. Result: 0, or 1 to 9, 11 to 14,
 * 16; 11 covers both chips, 12 and 16 the old one. The old chip may have A2 saves, which recovery
 * refuses with 15; the new one names the plan.
 *
 * stored is the number of bytes of the save that stand on the new chip, at first 0. The call stores
 * the next ones upward, at most budget. now_stored gets the new number, and finished 1 where the
 * whole save stands there, else 0. Of sets only the length is tested, and the old chip is only
 * read.
 *
 * After a cut a host that has lost the number takes the length of the new chip without the FF bytes
 * at its end. Recovery finds the same state on a finished chip as on the old one, but for
 * PITSKELO_STATE_WRITE and PITSKELO_STATE_ERASE.
 */
uint32_t pitskelo_fold(const uint8_t *plan, size_t plan_len,
                       const uint8_t *sets, size_t sets_len,
                       const uint8_t *old_chip, size_t old_len,
                       uint8_t *new_chip, size_t new_len,
                       uint64_t stored, uint64_t budget,
                       uint64_t *now_stored, uint32_t *finished);

/*
 * Tells whether a note may stand on the chip, at the four bytes from place on: may gets 1 where it
 * may, else 0. Result: 0, or 1 to 8, 11, 12, 15, 16, as a recovery of the chip would be refused; no
 * words and no state are lent, so there is no 9 and no 10. Plan and chip are only read.
 *
 * It may where these are the value of a record, in a whole save, whose cell is dead at the
 * CHECKPOINT of the last whole save. place is then the offset on the chip of the first of the four,
 * 2 behind the record's A1. For every other number, up to 2^64 - 1, may gets 0: also for the other
 * bytes of a record, for a MARK, and for the bytes of a torn save.
 *
 * Any four bytes may be written there, on a chip that runs of this plan left, or that was folded
 * from such a one: recovery takes the chip still, and as the plan goes on from it no output is
 * skipped, and numbers, values and kind of stop are those of the plan never cut. After a note the
 * host recovers, since a state in memory is not the noted chip's.
 */
uint32_t pitskelo_spent(const uint8_t *plan, size_t plan_len,
                        const uint8_t *chip, size_t chip_len,
                        uint64_t place, uint32_t *may);

/* The same for a page chip. */
uint32_t pitskelo_page_spent(const uint8_t *plan, size_t plan_len,
                             const uint8_t *chip, size_t chip_len,
                             uint64_t place, uint32_t *may);

#ifdef __cplusplus
}
#endif

#endif
