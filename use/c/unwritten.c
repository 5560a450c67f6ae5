/*
 * Memory that was never written: a store into it, a put into a bank of it, a
 * clear of it, reads into outputs of it, register writes beside it, a window made
 * of it, and slips in it.  Run under valgrind's memcheck, which follows every bit
 * that nobody set: a call that looked at the old bytes of its target would hand
 * them on to the reading after it.
 *
 * The exit is 0, or the number of the step that is not as expected.
 */
#include "livomashen.h"

#include <stdlib.h>
#include <string.h>

enum { BLOCKS = 3, LENGTH = BLOCKS * LIVOMASHEN_BLOCK };

static const uint8_t MARKS[LIVOMASHEN_MARKS] = LIVOMASHEN_FRESH_MARKS;
static uint8_t record[LIVOMASHEN_RECORD] = "line 7, car 2, talking";
static uint8_t window[LIVOMASHEN_WINDOW] = LIVOMASHEN_FRESH_WINDOW;

/* Fresh from malloc: memcheck takes all of it as never written. */
static uint8_t *unwritten(size_t count)
{
    uint8_t *made = malloc(count);
    if (made == NULL)
        exit(100);
    return made;
}

/* Clean is the code 0, and then the output is the block itself. */
static int store_and_read(void)
{
    uint8_t *block = unwritten(45), *out = unwritten(45);
    int wrong = 0;
    if (livomashen_store(record, sizeof record, block, 45) != LIVOMASHEN_DONE)
        wrong = 1;
    else if (livomashen_read(block, 45, MARKS, sizeof MARKS, out, 45) != 0)
        wrong = 2;
    else if (memcmp(block, out, 45) != 0 || memcmp(out, record, sizeof record) != 0)
        wrong = 3;
    free(block);
    free(out);
    return wrong;
}

/* A put needs the bank's length and no byte of it; only block k is looked at. */
static int put_and_get(size_t k)
{
    uint8_t *bank = unwritten(LENGTH), *out = unwritten(45);
    int wrong = 0;
    if (livomashen_put(bank, LENGTH, k, record, sizeof record) != LIVOMASHEN_DONE)
        wrong = 11;
    else if (livomashen_get(bank, LENGTH, k, MARKS, sizeof MARKS, out, 45, window) != 0)
        wrong = 12;
    else if (memcmp(out, record, sizeof record) != 0)
        wrong = 13;
    else if (livomashen_patrol(bank, LENGTH, k, MARKS, sizeof MARKS, window) != 0)
        wrong = 14;
    else if (memcmp(bank + 45 * k, out, 45) != 0)
        wrong = 15;
    free(bank);
    free(out);
    return wrong;
}

static int clear_and_report(void)
{
    uint8_t *bank = unwritten(LENGTH);
    livomashen_totals t;
    int wrong = 0;
    if (livomashen_clear(bank, LENGTH) != LIVOMASHEN_DONE)
        wrong = 21;
    t = livomashen_split_report(livomashen_report(bank, LENGTH, MARKS, sizeof MARKS));
    if (wrong == 0 && (t.number != 0 || t.clean != BLOCKS))
        wrong = 22;
    free(bank);
    return wrong;
}

static int write_register(uint8_t *registers, uint32_t address, uint8_t value,
                          uint8_t *bank, uint8_t *out)
{
    return livomashen_write_register(registers, address, value, bank, LENGTH,
                                     out, 45, window) == LIVOMASHEN_DONE;
}

/* Marks and plain registers need no byte of bank and output; a get reads block
 * 1 alone, and a patrol of it not the output. */
static int registers_beside(void)
{
    uint8_t registers[LIVOMASHEN_REGISTERS] = LIVOMASHEN_FRESH_REGISTERS;
    uint8_t *bank = unwritten(LENGTH), *out = unwritten(45), *unused = unwritten(45);
    int wrong = 0;
    if (!write_register(registers, LIVOMASHEN_AT_BLOCK_LOW, 1, bank, unused)
        || !write_register(registers, LIVOMASHEN_AT_ENABLE, 3, bank, unused)
        || !write_register(registers, LIVOMASHEN_AT_COMMAND,
                           LIVOMASHEN_COMMAND_MARK_CHIP, bank, unused)
        || !write_register(registers, LIVOMASHEN_AT_PENDING, 255, bank, unused))
        wrong = 31;
    else if (livomashen_last_answer(registers).kind != LIVOMASHEN_MARKED
             || livomashen_interrupt(registers) != 0)
        wrong = 32;
    else if (livomashen_put(bank, LENGTH, 1, record, sizeof record) != LIVOMASHEN_DONE
             || !write_register(registers, LIVOMASHEN_AT_COMMAND,
                                LIVOMASHEN_COMMAND_GET, bank, out)
             || memcmp(out, record, sizeof record) != 0)
        wrong = 33;
    else if (!write_register(registers, LIVOMASHEN_AT_COMMAND,
                             LIVOMASHEN_COMMAND_PATROL, bank, unused)
             || livomashen_read_register(registers, LIVOMASHEN_AT_ANSWER) != 0
             || livomashen_interrupt(registers) != 1)
        wrong = 34;
    free(bank);
    free(out);
    free(unused);
    return wrong;
}

/* A clear needs no byte of the window; after it every byte is written. */
static int clear_and_propose(void)
{
    uint8_t *fresh = unwritten(LIVOMASHEN_WINDOW);
    livomashen_proposal p;
    int wrong = 0;
    if (livomashen_clear_window(fresh) != LIVOMASHEN_DONE
        || memcmp(fresh, window, LIVOMASHEN_WINDOW) != 0)
        wrong = 41;
    p = livomashen_split_proposal(livomashen_propose(fresh, MARKS, sizeof MARKS));
    if (wrong == 0 && (p.number != 0 || p.chip != LIVOMASHEN_NO_CHIP))
        wrong = 42;
    free(fresh);
    return wrong;
}

/* A write needs no byte of the slice, and a read those of its slip alone. */
static int write_and_read_slips(void)
{
    static const uint32_t answers[] = { 0, 0x02000100, 0x0B040200, 10, 0x0004000B };
    enum { COUNT = sizeof answers / sizeof answers[0] };
    size_t length = COUNT * LIVOMASHEN_LONGEST_SLIP, at = 0, k;
    uint8_t *slips = unwritten(length);
    int wrong = 0;
    for (k = 0; wrong == 0 && k < COUNT; k++) {
        livomashen_written w = livomashen_split_written(
            livomashen_write_slip(slips, length, at, 1000 + k, answers[k]), at);
        livomashen_slip s = livomashen_split_slip(
            livomashen_read_slip(slips, length, at), at, length);
        if (w.number != LIVOMASHEN_DONE)
            wrong = 51;
        else if (s.number != LIVOMASHEN_DONE || s.block != 1000 + k || s.offset != w.next
                 || livomashen_join_answer(s.answer) != answers[k])
            wrong = 52;
        at = w.next;
    }
    /* A map that is none, and behind it nothing was written. */
    if (wrong == 0) {
        slips[at] = 7;
        if (livomashen_read_slip(slips, length, at) != LIVOMASHEN_SLIP_RULES)
            wrong = 53;
    }
    free(slips);
    return wrong;
}

int main(void)
{
    size_t k;
    int wrong = store_and_read();
    for (k = 0; wrong == 0 && k < BLOCKS; k++)
        wrong = put_and_get(k);
    if (wrong == 0)
        wrong = clear_and_report();
    if (wrong == 0)
        wrong = registers_beside();
    if (wrong == 0)
        wrong = clear_and_propose();
    return wrong != 0 ? wrong : write_and_read_slips();
}
