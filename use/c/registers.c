/*
 * The corrector as twelve registers, in a small loop driven by its interrupt,
 * as a cabinet's firmware would have it.  Exits with 1 if anything is not as
 * expected.
 *
 *     cc -std=c99 registers.c liblivomashen.a -o registers && ./registers
 */
#include "livomashen.h"

#include <stdio.h>
#include <string.h>

enum { BLOCKS = 300, LENGTH = BLOCKS * LIVOMASHEN_BLOCK };

static uint8_t bank[LENGTH], out[LIVOMASHEN_BLOCK];
static uint8_t registers[LIVOMASHEN_REGISTERS] = LIVOMASHEN_FRESH_REGISTERS;
static uint8_t window[LIVOMASHEN_WINDOW] = LIVOMASHEN_FRESH_WINDOW;

/* Bytes 8 to 11 are the mark record itself: plain calls take it as theirs. */
static uint8_t *const marks = registers + LIVOMASHEN_AT_MARKS;

static int wrong = 0;

static void expect(int holds, const char *what)
{
    if (!holds) {
        printf("NOT AS EXPECTED: %s\n", what);
        wrong = 1;
    }
}

/* ------------------------------------------------------------- the handler */

/* What the handler leaves for the main loop. */
static livomashen_answer last;
static size_t last_block;
static unsigned done = 0, refused = 0;

/* Runs while the interrupt is raised.  It takes the answer out of the
 * registers, and acknowledges: the ones that it writes to byte 7 clear the bits
 * it has seen, and the interrupt falls. */
static void on_interrupt(void)
{
    uint8_t pending = livomashen_split_register(
        livomashen_read_register(registers, LIVOMASHEN_AT_PENDING)).byte;
    last = livomashen_last_answer(registers);
    last_block = registers[LIVOMASHEN_AT_BLOCK_LOW]
        + 256u * registers[LIVOMASHEN_AT_BLOCK_HIGH];
    if (pending & LIVOMASHEN_PENDING_REFUSED)
        refused++;
    else
        done++;
    /* No command: neither bank nor output is looked at, and the window stays. */
    expect(livomashen_write_register(registers, LIVOMASHEN_AT_PENDING, pending,
                                     NULL, 0, NULL, 0, window) == LIVOMASHEN_DONE,
           "the handler acknowledges");
}

/* ----------------------------------------------------------- the main loop */

/* Writes a register, and plays the interrupt line.  The handler is lent the same
 * registers and window, so that it must not run in the middle of the call:
 * firmware masks the interrupt for that time, and here it is looked at after. */
static void write_register(uint32_t address, uint8_t value)
{
    expect(livomashen_write_register(registers, address, value, bank, LENGTH,
                                     out, sizeof out, window) == LIVOMASHEN_DONE,
           "a register is written");
    while (livomashen_interrupt(registers))
        on_interrupt();
}

static void command_on_block(uint8_t command, size_t k)
{
    write_register(LIVOMASHEN_AT_BLOCK_LOW, k & 0xFFu);
    write_register(LIVOMASHEN_AT_BLOCK_HIGH, (k >> 8) & 0xFFu);
    write_register(LIVOMASHEN_AT_COMMAND, command);
}

static void command_on_marks(uint8_t command, uint8_t asked)
{
    write_register(LIVOMASHEN_AT_ASKED, asked);
    write_register(LIVOMASHEN_AT_COMMAND, command);
}

/* A patrol of every block.  One that is done needs nobody, so that only a
 * refusal is to interrupt.  Gives how many there were. */
static unsigned patrol_all(void)
{
    size_t k;
    refused = 0;
    write_register(LIVOMASHEN_AT_ENABLE, LIVOMASHEN_PENDING_REFUSED);
    for (k = 0; k < BLOCKS; k++)
        command_on_block(LIVOMASHEN_COMMAND_PATROL, k);
    printf("patrol: %d blocks, %u refused\n", BLOCKS, refused);
    return refused;
}

static void print_last(const char *when)
{
    printf("%-34s ", when);
    if (last.number != LIVOMASHEN_DONE)
        printf("refused %d, block %lu\n", last.number, (unsigned long)last_block);
    else if (last.kind == LIVOMASHEN_MARKED)
        printf("a mark placed or lifted: card %d, count %d, chips %d and %d\n",
               marks[0], marks[1], marks[2], marks[3]);
    else
        printf("block %lu: kind %d, card %d, %d bytes changed\n",
               (unsigned long)last_block, last.kind, last.card, last.n);
}

/* Card 1 has been changed, and one block has a bad chip on card 3 as well. */
static void after_a_change_of_card(size_t block)
{
    uint8_t before[LIVOMASHEN_REGISTERS];
    size_t k;
    for (k = 0; k < BLOCKS; k++)
        memset(bank + LIVOMASHEN_BLOCK * k + 9 * 1, 0xFF, LIVOMASHEN_CHIPS);
    bank[LIVOMASHEN_BLOCK * block + 9 * 3 + 4] ^= 0x55;
    expect(patrol_all() == 1, "one block is not mended");
    print_last("card 1 new, and a chip bad:");
    expect(last.number == LIVOMASHEN_NONE && last_block == block, "it is that one");

    /* We know which card was changed: mark it for this block, and lift the
     * mark at once.  From here on commands that are done interrupt too; the bit
     * of the patrols above still stands, and is cleared first. */
    write_register(LIVOMASHEN_AT_PENDING, LIVOMASHEN_PENDING_DONE);
    write_register(LIVOMASHEN_AT_ENABLE,
                   LIVOMASHEN_PENDING_DONE | LIVOMASHEN_PENDING_REFUSED);
    expect(done == 0, "no interrupt so far but that refusal's");
    command_on_marks(LIVOMASHEN_COMMAND_MARK_CARD, 1);
    print_last("card 1 marked:");
    expect(last.number == LIVOMASHEN_DONE && last.kind == LIVOMASHEN_MARKED
           && marks[0] == 1, "card 1 is marked");
    command_on_block(LIVOMASHEN_COMMAND_PATROL, block);
    print_last("the same block under the mark:");
    expect(last.number == LIVOMASHEN_DONE && last.kind == LIVOMASHEN_IN_CARD
           && last.card == 1 && last.n == 10, "the card and the chip are mended");
    write_register(LIVOMASHEN_AT_COMMAND, LIVOMASHEN_COMMAND_LIFT_CARD);
    print_last("the mark lifted:");
    expect(last.kind == LIVOMASHEN_MARKED && marks[0] == 255, "no card is marked");
    expect(done == 3, "an interrupt for each of the three");

    /* There is no mark to lift any more: a refused command, which changes only
     * registers.  7 is no command at all, and changes nothing. */
    write_register(LIVOMASHEN_AT_COMMAND, LIVOMASHEN_COMMAND_LIFT_CARD);
    expect(last.number == LIVOMASHEN_MARK_ABSENT, "lifted twice is refused");
    memcpy(before, registers, sizeof before);
    expect(livomashen_write_register(registers, LIVOMASHEN_AT_COMMAND, 7, bank,
                                     LENGTH, out, sizeof out, window)
           == LIVOMASHEN_COMMAND_UNKNOWN, "command 7 is refused");
    expect(memcmp(before, registers, sizeof before) == 0, "and nothing changes");
}

int main(void)
{
    const size_t block = 258;
    uint8_t record[LIVOMASHEN_RECORD] = "line 7, car 2, talking";
    livomashen_totals t;
    livomashen_proposal p;
    int times;

    /* Clear, put, report and proposals are plain calls: there is no command for
     * them. */
    expect(livomashen_clear(bank, LENGTH) == LIVOMASHEN_DONE, "clear");
    expect(livomashen_put(bank, LENGTH, block, record, sizeof record)
           == LIVOMASHEN_DONE, "put");
    expect(patrol_all() == 0, "a sound bank");
    after_a_change_of_card(block);
    t = livomashen_split_report(
        livomashen_report(bank, LENGTH, marks, LIVOMASHEN_MARKS));
    printf("report: clean %d of %d\n", t.clean, BLOCKS);
    expect(t.number == LIVOMASHEN_DONE && t.clean == BLOCKS, "all blocks are clean");

    /* A mark placed by a plain call is in the registers, and a command reads
     * under it and lifts it.  What card 1 did before its change is no sign of a
     * chip that is going, so the window starts again. */
    livomashen_clear_window(window);
    expect(livomashen_place_chip(marks, LIVOMASHEN_MARKS, 31) == LIVOMASHEN_DONE,
           "chip 31 is marked");
    bank[LIVOMASHEN_BLOCK * block + 31] ^= 0x55;
    bank[LIVOMASHEN_BLOCK * block] ^= 0x01;
    for (times = 0; times < 4; times++)
        command_on_block(LIVOMASHEN_COMMAND_GET, block);
    print_last("chip 31 marked, and chip 0 bad:");
    expect(last.kind == LIVOMASHEN_IN_CHIPS && last.n == 2, "two chips are mended");
    expect(memcmp(out, record, sizeof record) == 0, "the record is back");

    /* Four gets, so both chips stand there four times: the one that is not
     * marked is proposed. */
    p = livomashen_split_proposal(
        livomashen_propose(window, marks, LIVOMASHEN_MARKS));
    printf("proposed: chip %d\n", p.chip);
    expect(p.number == LIVOMASHEN_DONE && p.chip == 0, "chip 0 is proposed");
    command_on_marks(LIVOMASHEN_COMMAND_LIFT_CHIP, 31);
    print_last("and its mark lifted:");
    expect(last.kind == LIVOMASHEN_MARKED && marks[1] == 0, "no chip is marked");
    expect(livomashen_interrupt(registers) == 0, "nothing is left to acknowledge");
    return wrong;
}
