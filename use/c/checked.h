/*
 * The calls on blocks, banks and marks, each checked: document 01's number
 * worked out anew in lent.h, and every byte compared that must not have changed.
 * Part of limits.c, and included there alone.
 */
#include "lent.h"

static lent record, block, out, bank, marks;

static int guards_hold(const lent *l)
{
    return memcmp(l->now, l->before, GUARD) == 0
        && memcmp(l->now + GUARD + l->len, l->before + GUARD + l->len, GUARD) == 0;
}

/* ------------------------------------------------------------- the compare */

static void fail(const char *call, unsigned got, unsigned wanted)
{
    printf("%s: got %u, wanted %u\n", call, got, wanted);
    printf("  lengths: record %lu, block %lu, output %lu, bank %lu, marks %lu",
           (unsigned long)record.len, (unsigned long)block.len,
           (unsigned long)out.len, (unsigned long)bank.len,
           (unsigned long)marks.len);
    if (marks.len == 4)
        printf("; marks before: %d %d %d %d", marks.before[GUARD],
               marks.before[GUARD + 1], marks.before[GUARD + 2],
               marks.before[GUARD + 3]);
    printf("\n");
    exit(1);
}

/* Every call ends here: the number, the guards, and on a refusal every byte.
 * `may_write` is the one buffer that a call not refused may write. */
static void check(const char *call, uint32_t code, unsigned wanted, const lent *may_write)
{
    const lent *all[6];
    unsigned got = code & 0xFFu;
    int at;
    all[0] = &record, all[1] = &block, all[2] = &out, all[3] = &bank, all[4] = &marks;
    all[5] = &window;
    calls++;
    if (got != wanted)
        fail(call, got, wanted);
    if (got != 0 && got != 11 && code != got)
        fail("unused parts of the code", code, got);
    for (at = 0; at < 6; at++) {
        if (!guards_hold(all[at]))
            fail("guard bytes written", got, wanted);
        if ((got != 0 || all[at] != may_write) && !as_before(all[at]))
            fail("bytes written that must stay", got, wanted);
    }
}

/* --------------------------------------------------- the calls, with checks
 *
 * Bank and blocks are lawful zeros wherever their lengths are right, so that
 * a call not refused is corrected, as clean, or done, and adds nothing to the
 * window. */

static void try_store(void)
{
    unsigned wanted = lowest(length_number(out.len, 45, 2),
                             length_number(record.len, 34, 3));
    uint32_t got = livomashen_store(record.bytes, record.len, out.bytes, out.len);
    check("store", got, wanted, &out);
    if (wanted == 0 && memcmp(out.bytes, record.bytes, 34) != 0)
        fail("a block that does not begin with its record", got, wanted);
    lend(&out, out.len);
}

static void try_read(void)
{
    unsigned wanted = lowest(length_number(block.len, 45, 1),
                             lowest(length_number(out.len, 45, 2),
                                    mark_number(marks.bytes, marks.len)));
    uint32_t got = livomashen_read(block.bytes, block.len, marks.bytes,
                                   marks.len, out.bytes, out.len);
    check("read", got, wanted, &out);
    if (wanted == 0 && (got != 0 || memcmp(out.bytes, block.bytes, 45) != 0))
        fail("a clean block read otherwise", got, wanted);
    lend(&out, out.len);
}

static void try_clear(void)
{
    uint32_t got = livomashen_clear(bank.bytes, bank.len);
    size_t at;
    check("clear", got, bank_number(bank.len), &bank);
    for (at = 0; got == 0 && at < bank.len; at++)
        if (bank.bytes[at] != 0)
            fail("a byte not cleared", got, 0);
}

static void try_put(size_t k)
{
    unsigned wanted = lowest(length_number(record.len, 34, 3),
                             lowest(bank_number(bank.len),
                                    block_number(bank.len, k)));
    uint32_t got = livomashen_put(bank.bytes, bank.len, k, record.bytes, record.len);
    check("put", got, wanted, &bank);
    if (wanted != 0)
        return;
    /* Take the block out again: all the rest must be as before. */
    if (memcmp(bank.bytes + 45 * k, record.bytes, 34) != 0)
        fail("a block that does not begin with its record", got, wanted);
    memcpy(bank.bytes + 45 * k, bank.before + GUARD + 45 * k, 45);
    if (!as_before(&bank))
        fail("put wrote beyond its block", got, wanted);
}

static void try_get(size_t k)
{
    unsigned wanted = lowest(length_number(out.len, 45, 2),
                             lowest(bank_number(bank.len),
                                    lowest(block_number(bank.len, k),
                                           mark_number(marks.bytes, marks.len))));
    uint32_t got = livomashen_get(bank.bytes, bank.len, k, marks.bytes, marks.len,
                                  out.bytes, out.len, window.bytes);
    check("get", got, wanted, &out);
    if (wanted == 0 && (got != 0 || memcmp(out.bytes, bank.bytes + 45 * k, 45) != 0))
        fail("a clean block got otherwise", got, wanted);
    lend(&out, out.len);
}

static void try_patrol(size_t k)
{
    unsigned wanted = lowest(bank_number(bank.len),
                             lowest(block_number(bank.len, k),
                                    mark_number(marks.bytes, marks.len)));
    uint32_t got = livomashen_patrol(bank.bytes, bank.len, k, marks.bytes, marks.len,
                                     window.bytes);
    /* The blocks are clean, so even a patrol that is done changes nothing. */
    check("patrol", got, wanted, NULL);
}

static void try_report(void)
{
    unsigned wanted = lowest(bank_number(bank.len),
                             mark_number(marks.bytes, marks.len));
    uint64_t code = livomashen_report(bank.bytes, bank.len, marks.bytes, marks.len);
    livomashen_totals t = livomashen_split_report(code);
    check("report", t.number, wanted, NULL);
    if (wanted != 0 && code != wanted)
        fail("totals with a refused report", t.number, wanted);
    if (wanted == 0 && (t.clean != bank.len / 45 || code >> 19 != 0))
        fail("totals of a clean bank", t.clean, (unsigned)(bank.len / 45));
}

/* After a mark call that was done, the record is compared with what 01 says
 * it becomes. */
static void marks_become(const char *call, uint32_t got, unsigned wanted, const uint8_t *after)
{
    check(call, got, wanted, &marks);
    if (wanted == 0 && memcmp(marks.bytes, after, 4) != 0)
        fail("the mark record after the call", got, wanted);
    memcpy(marks.now, marks.before, marks.len + 2 * GUARD);
}

static void try_place_chip(uint32_t position)
{
    uint8_t after[4] = { 0, 0, 0, 0 };
    unsigned wanted = chip_placed(marks.bytes, marks.len, position, after);
    marks_become("place chip", livomashen_place_chip(marks.bytes, marks.len, position),
                 wanted, after);
}

static void try_lift_chip(uint32_t position)
{
    uint8_t after[4] = { 0, 0, 0, 0 };
    unsigned wanted = chip_lifted(marks.bytes, marks.len, position, after);
    marks_become("lift chip", livomashen_lift_chip(marks.bytes, marks.len, position),
                 wanted, after);
}

static void try_place_card(uint32_t card)
{
    uint8_t after[4] = { 0, 0, 0, 0 };
    unsigned wanted = card_placed(marks.bytes, marks.len, card, after);
    marks_become("place card", livomashen_place_card(marks.bytes, marks.len, card),
                 wanted, after);
}

static void try_lift_card(void)
{
    uint8_t after[4] = { 0, 0, 0, 0 };
    unsigned wanted = card_lifted(marks.bytes, marks.len, after);
    marks_become("lift card", livomashen_lift_card(marks.bytes, marks.len), wanted, after);
}
