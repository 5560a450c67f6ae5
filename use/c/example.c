/*
 * A bank of four blocks, from clear to report, as a cabinet's firmware would
 * use it.  Exits with 1 if anything is not as expected.
 *
 *     cc -std=c99 example.c liblivomashen.a -o example && ./example
 */
#include "livomashen.h"

#include <stdio.h>
#include <string.h>

enum { BLOCKS = 4, LENGTH = BLOCKS * LIVOMASHEN_BLOCK };

static uint8_t bank[LENGTH], out[LIVOMASHEN_BLOCK];
static uint8_t marks[LIVOMASHEN_MARKS] = LIVOMASHEN_FRESH_MARKS;
static uint8_t window[LIVOMASHEN_WINDOW] = LIVOMASHEN_FRESH_WINDOW;

/* Block 2, and the record in it. */
static uint8_t *const block = bank + 2 * LIVOMASHEN_BLOCK;
static const uint8_t record[LIVOMASHEN_RECORD] = "line 7, car 2, talking";

/* What every get said, as slips one behind the other, up to this offset. */
static uint8_t slips[20 * LIVOMASHEN_LONGEST_SLIP];
static size_t slips_end = 0;

static int wrong = 0;

static void expect(int holds, const char *what)
{
    if (!holds) {
        printf("NOT AS EXPECTED: %s\n", what);
        wrong = 1;
    }
}

static void print_answer(const char *when, livomashen_answer a)
{
    printf("%-34s ", when);
    if (a.number == LIVOMASHEN_NONE)
        printf("none: no record fits\n");
    else if (a.number == LIVOMASHEN_SEVERAL)
        printf("several: more than one record fits, card %d is the lowest\n", a.card);
    else if (a.number != LIVOMASHEN_DONE)
        printf("refused %d\n", a.number);
    else if (a.kind == LIVOMASHEN_CLEAN)
        printf("clean\n");
    else if (a.kind == LIVOMASHEN_IN_CHIPS)
        printf("chips, %d bytes changed\n", a.n);
    else
        printf("card %d, %d bytes changed\n", a.card, a.n);
}

static void write_slip(size_t k, uint32_t said)
{
    livomashen_written w = livomashen_split_written(
        livomashen_write_slip(slips, sizeof slips, slips_end, k, said), slips_end);
    expect(w.number == LIVOMASHEN_DONE, "a slip is written");
    slips_end = w.next;
}

/* Gets block 2, says what was found and writes it on a slip; a record that comes
 * must be ours. */
static livomashen_answer get(const char *when)
{
    uint32_t said = livomashen_get(bank, LENGTH, 2, marks, sizeof marks, out, sizeof out,
                                   window);
    livomashen_answer a = livomashen_split_answer(said);
    print_answer(when, a);
    write_slip(2, said);
    expect(a.number != LIVOMASHEN_DONE || memcmp(out, record, sizeof record) == 0,
           "the record is back");
    return a;
}

static void patrol(size_t k)
{
    livomashen_answer a = livomashen_split_answer(
        livomashen_patrol(bank, LENGTH, k, marks, sizeof marks, window));
    expect(a.number == LIVOMASHEN_DONE, "patrol");
}

static void card_pulled(void)
{
    livomashen_answer a;
    size_t k;

    /* The nine chips of card 1 read as ones.  No mark is needed. */
    memset(block + 9 * 1, 0xFF, LIVOMASHEN_CHIPS);
    a = get("card 1 pulled:");
    expect(a.number == LIVOMASHEN_DONE && a.kind == LIVOMASHEN_IN_CARD
           && a.card == 1, "card 1 is found");

    /* A chip of card 3 goes bad as well.  No single card explains both, so the
     * reading refuses rather than guess. */
    block[9 * 3 + 4] ^= 0x55;
    a = get("and a chip of card 3 bad:");
    expect(a.number == LIVOMASHEN_NONE, "none without marks");

    /* We know which card we pulled: mark it. */
    expect(livomashen_place_card(marks, sizeof marks, 1) == LIVOMASHEN_DONE,
           "card 1 is marked");
    a = get("the same with card 1 marked:");
    expect(a.number == LIVOMASHEN_DONE && a.card == 1, "read under the mark");

    /* The card is changed: patrol every block, then lift the mark at once.
     * What the old card did says nothing of the new one, so the window starts
     * again. */
    for (k = 0; k < BLOCKS; k++)
        patrol(k);
    expect(livomashen_lift_card(marks, sizeof marks) == LIVOMASHEN_DONE,
           "the card mark is lifted");
    livomashen_clear_window(window);
    a = get("after a patrol, mark lifted:");
    expect(a.number == LIVOMASHEN_DONE && a.kind == LIVOMASHEN_CLEAN, "clean");
}

/* Position 31 (card 3, chip 4) is going: each patrol mends it, and at the fourth
 * time it is proposed.  To mark it is our choice; the library never does. */
static void chip_going(void)
{
    livomashen_proposal p;
    int times = 0;
    do {
        block[31] ^= 0x55;
        patrol(2);
        times++;
        p = livomashen_split_proposal(livomashen_propose(window, marks, sizeof marks));
        expect(p.number == LIVOMASHEN_DONE, "the marks are lawful");
    } while (p.chip == LIVOMASHEN_NO_CHIP && times < 10);
    printf("after %d patrols with it bad: chip %d is proposed\n", times, p.chip);
    expect(p.chip == 31 && times == 4, "chip 31 is proposed at the fourth time");
    expect(livomashen_place_chip(marks, sizeof marks, p.chip) == LIVOMASHEN_DONE,
           "chip 31 is marked");
}

/* The slips as a repairer's tool would read them.  A refusal would tell the
 * offset of its cause. */
static int read_slips(void)
{
    char when[48];
    size_t at = 0;
    int count = 0;
    while (at < slips_end) {
        livomashen_slip s = livomashen_split_slip(
            livomashen_read_slip(slips, slips_end, at), at, slips_end);
        if (s.number != LIVOMASHEN_DONE) {
            printf("refused %d at byte %lu\n", s.number, (unsigned long)s.offset);
            return -1;
        }
        snprintf(when, sizeof when, "slip at byte %lu, block %d:", (unsigned long)at,
                 s.block);
        print_answer(when, s.answer);
        at = s.offset;
        count++;
    }
    return count;
}

int main(void)
{
    livomashen_answer a;
    livomashen_totals t;

    /* An empty bank, then one record in block 2. */
    expect(livomashen_clear(bank, LENGTH) == LIVOMASHEN_DONE, "clear");
    expect(livomashen_put(bank, LENGTH, 2, record, sizeof record)
           == LIVOMASHEN_DONE, "put");
    card_pulled();
    chip_going();

    /* With the chip marked one further bad chip is still mended. */
    block[31] ^= 0x55;
    block[0] ^= 0x01;
    a = get("chip 31 marked, and chip 0 bad:");
    expect(a.number == LIVOMASHEN_DONE && a.kind == LIVOMASHEN_IN_CHIPS
           && a.n == 2, "two chips are mended");

    t = livomashen_split_report(
        livomashen_report(bank, LENGTH, marks, sizeof marks));
    printf("report: clean %d chips %d card %d none %d several %d\n",
           t.clean, t.chips, t.card, t.none, t.several);
    expect(t.number == LIVOMASHEN_DONE && t.clean == 3 && t.chips == 1,
           "three clean blocks and one with bad chips");

    /* A chip that is marked already may be marked again; a third chip mark is
     * refused.  Both leave the marks as they are. */
    expect(livomashen_place_chip(marks, sizeof marks, 0) == LIVOMASHEN_DONE,
           "chip 0 is marked");
    expect(livomashen_place_chip(marks, sizeof marks, 0) == LIVOMASHEN_DONE,
           "and marked again");
    expect(livomashen_place_chip(marks, sizeof marks, 5)
           == LIVOMASHEN_MARK_LIMIT, "a third chip mark is refused");
    printf("marks: card %d, count %d, chips %d and %d\n",
           marks[0], marks[1], marks[2], marks[3]);
    expect(read_slips() == 5, "a slip for each of the five gets");
    return wrong;
}
