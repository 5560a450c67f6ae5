/*
 * The library with no C library at all: gcc -nostdlib, with a start and a
 * memset of its own.  A card is pulled, the record is got, the bank mended; the
 * same by registers; a chip that is going is proposed; and a slip is written.
 * The exit is 0, or the number of the step that is not as expected.
 */
#include "livomashen.h"

enum { BLOCKS = 4, LENGTH = BLOCKS * LIVOMASHEN_BLOCK };

int steps(void);

/* Linux's way in and out: no argument is looked at; exit(steps()). */
__asm__(".globl _start\n"
        "_start:\n"
        "    xor %ebp, %ebp\n"
        "    and $-16, %rsp\n"
        "    call steps\n"
        "    mov %eax, %edi\n"
        "    mov $60, %eax\n"
        "    syscall\n");

static uint8_t bank[LENGTH];
static uint8_t registers[LIVOMASHEN_REGISTERS] = LIVOMASHEN_FRESH_REGISTERS;
static uint8_t window[LIVOMASHEN_WINDOW] = LIVOMASHEN_FRESH_WINDOW;

/* A card is pulled: the nine chips of card 1 in block 2 change. */
static void pull_card(void)
{
    size_t at;
    for (at = 0; at < LIVOMASHEN_CHIPS; at++)
        bank[2 * LIVOMASHEN_BLOCK + 9 + at] ^= 0x5A;
}

static uint32_t write_register(uint32_t address, uint8_t value)
{
    return livomashen_write_register(registers, address, value, bank, LENGTH, NULL, 0,
                                     window);
}

/* By commands: the number of the step, or 0. */
static int by_registers(void)
{
    livomashen_answer a;
    pull_card();
    if (write_register(LIVOMASHEN_AT_ENABLE, LIVOMASHEN_PENDING_DONE) != LIVOMASHEN_DONE
        || write_register(LIVOMASHEN_AT_BLOCK_LOW, 2) != LIVOMASHEN_DONE
        || write_register(LIVOMASHEN_AT_COMMAND, LIVOMASHEN_COMMAND_PATROL)
           != LIVOMASHEN_DONE)
        return 9;
    a = livomashen_last_answer(registers);
    if (a.number != 0 || a.kind != LIVOMASHEN_IN_CARD || a.card != 1 || a.n != 9)
        return 10;
    if (livomashen_interrupt(registers) != 1
        || livomashen_split_register(livomashen_read_register(
               registers, LIVOMASHEN_AT_PENDING)).byte != LIVOMASHEN_PENDING_DONE)
        return 11;
    return 0;
}

/* A chip goes bad four times, and is proposed: the number of the step, or 0. */
static int by_window(const uint8_t *marks)
{
    livomashen_proposal p;
    int times;
    if (livomashen_clear_window(window) != LIVOMASHEN_DONE)
        return 12;
    for (times = 0; times < 4; times++) {
        bank[2 * LIVOMASHEN_BLOCK + 20] ^= 0x5A;
        if (livomashen_split_answer(livomashen_patrol(bank, LENGTH, 2, marks,
                LIVOMASHEN_MARKS, window)).n != 1)
            return 13;
    }
    p = livomashen_split_proposal(livomashen_propose(window, marks, LIVOMASHEN_MARKS));
    return p.number == LIVOMASHEN_DONE && p.chip == 20 ? 0 : 14;
}

/* A reading goes into a slip, and comes out again: the number of the step, or 0. */
static int by_slip(const uint8_t *marks)
{
    uint8_t slips[LIVOMASHEN_LONGEST_SLIP];
    livomashen_slip s;
    uint32_t said;
    pull_card();
    said = livomashen_patrol(bank, LENGTH, 2, marks, LIVOMASHEN_MARKS, window);
    if (livomashen_split_written(livomashen_write_slip(slips, sizeof slips, 0, 2, said),
                                 0).next != sizeof slips)
        return 15;
    s = livomashen_split_slip(livomashen_read_slip(slips, sizeof slips, 0), 0, sizeof slips);
    return s.number == LIVOMASHEN_DONE && s.block == 2 && s.answer.card == 1
        && s.answer.n == 9 ? 0 : 16;
}

int steps(void)
{
    uint8_t marks[LIVOMASHEN_MARKS] = LIVOMASHEN_FRESH_MARKS;
    uint8_t record[LIVOMASHEN_RECORD], out[LIVOMASHEN_BLOCK];
    livomashen_totals t;
    size_t at;
    int wrong;

    for (at = 0; at < LENGTH; at++)
        bank[at] = 0xA5;
    for (at = 0; at < sizeof record; at++)
        record[at] = (uint8_t)(3 * at + 1);
    if (livomashen_clear(bank, LENGTH) != LIVOMASHEN_DONE)
        return 1;
    if (livomashen_put(bank, LENGTH, 2, record, sizeof record) != LIVOMASHEN_DONE)
        return 2;
    pull_card();
    if (livomashen_place_card(marks, sizeof marks, 1) != LIVOMASHEN_DONE)
        return 3;
    if (livomashen_split_answer(livomashen_get(bank, LENGTH, 2, marks, sizeof marks,
                                               out, sizeof out, window)).number != 0)
        return 4;
    for (at = 0; at < sizeof record; at++)
        if (out[at] != record[at])
            return 5;
    if (livomashen_split_answer(livomashen_patrol(bank, LENGTH, 2, marks,
                                                  sizeof marks, window)).number != 0)
        return 6;
    if (livomashen_lift_card(marks, sizeof marks) != LIVOMASHEN_DONE)
        return 7;
    t = livomashen_split_report(livomashen_report(bank, LENGTH, marks, sizeof marks));
    if (t.number != 0 || t.clean != BLOCKS)
        return 8;
    wrong = by_registers();
    if (wrong == 0)
        wrong = by_window(marks);
    return wrong != 0 ? wrong : by_slip(marks);
}
