/*
 * The calls around the window, each checked: what a correction adds, by call or
 * by command, and what is proposed are worked out anew from order 2, and every
 * byte of the window, its guards and the marks is compared after each call.
 * Part of limits_window.c, and included there alone.
 */
#include "lent.h"

/* What is lent beside the window. */
static lent bank, out, marks, held;

/* What the block that is corrected becomes.  Most trials set bytes of zeros. */
static const uint8_t *mended = ZEROS;

/* ---------------------------------------------------------- what is lent */

static const uint8_t EMPTY[64] = LIVOMASHEN_FRESH_WINDOW;

/* Positions of every card, that stand in the window four times each. */
static const uint8_t SIXTEEN[16] = {
    0, 1, 8, 9, 10, 17, 18, 20, 26, 27, 28, 35, 36, 40, 43, 44
};

static void lend_window(const uint8_t *from, size_t from_len)
{
    lend_bytes(&window, 64, from, from_len);
}

static void lend_marks(uint8_t card, uint8_t count, uint8_t first, uint8_t second)
{
    uint8_t m[4];
    m[0] = card, m[1] = count, m[2] = first, m[3] = second;
    lend_bytes(&marks, 4, m, 4);
}

/* Block p has chip p bad and nothing else: its correction adds p. */
static void lend_chips(void)
{
    size_t p;
    lend_bytes(&bank, 45 * 45, ZERO, 1);
    for (p = 0; p < 45; p++)
        bank.bytes[45 * p + p] = 1;
    keep(&bank);
}

static void lend_all(void)
{
    lend_window(EMPTY, 64);
    lend_bytes(&marks, 4, FRESH, 4);
    lend(&out, 45);
    lend_chips();
    mended = ZEROS;
}

/* ------------------------------------------------------------ the compare */

static void fail(const char *what)
{
    printf("%s\n", what);
    print_bytes("window wanted", window.before + GUARD, 64);
    print_bytes("window found ", window.bytes, 64);
    print_bytes("marks", marks.before + GUARD, marks.len);
    exit(1);
}

static void same(const char *what, unsigned got, unsigned wanted)
{
    if (got != wanted) {
        printf("got %u, wanted %u: ", got, wanted);
        fail(what);
    }
}

/* Every call ends here: the window is as wanted, which stands in its bytes
 * before, and the marks are as they were. */
static void check(const char *call)
{
    calls++;
    if (!as_before(&window) || !as_before(&marks))
        fail(call);
}

/* --------------------------------------------------------- what a call adds */

enum { GET, PATROL, GET_COMMAND, PATROL_COMMAND, WAYS };

static unsigned by_call(int way, size_t k)
{
    uint32_t code = way == GET
        ? livomashen_get(bank.bytes, bank.len, k, marks.bytes, marks.len, out.bytes,
                         out.len, window.bytes)
        : livomashen_patrol(bank.bytes, bank.len, k, marks.bytes, marks.len, window.bytes);
    return code & 0xFFu;
}

/* The same by fresh registers, with these marks in them. */
static unsigned by_command(int way, size_t k)
{
    static const uint8_t start[12] = LIVOMASHEN_FRESH_REGISTERS;
    lend_bytes(&held, 12, start, 12);
    held.bytes[1] = k & 0xFFu;
    held.bytes[2] = (k >> 8) & 0xFFu;
    memcpy(held.bytes + 8, marks.bytes, 4);
    same("a command is run",
         livomashen_write_register(held.bytes, 0, way == GET_COMMAND ? 1 : 2, bank.bytes,
                                   bank.len, out.bytes, out.len, window.bytes), 0);
    return livomashen_last_answer(held.bytes).number;
}

/* Corrects block k, which is to give this number.  The window goes on from call
 * to call; a block that was patrolled gets its damage back. */
static void try_way(int way, size_t k, unsigned wanted)
{
    uint8_t before[64];
    same("the number of a call",
         way < GET_COMMAND ? by_call(way, k) : by_command(way, k), wanted);
    memcpy(before, window.before + GUARD, 64);
    if (wanted == 0)
        window_after(before, bank.before + GUARD + 45 * k, mended, window.before + GUARD);
    check("a get or patrol");
    memcpy(bank.bytes, bank.before + GUARD, bank.len);
}

/* --------------------------------------------------------------- proposals */

/* The lowest position that stands there four times, and is not marked. */
static unsigned to_propose(const uint8_t *w, const uint8_t *m)
{
    unsigned p, at;
    for (p = 0; p < 45; p++) {
        unsigned times = 0;
        for (at = 0; at < 64; at++)
            times += w[at] == p;
        if (times >= 4 && !chip_there(m, p) && m[0] != p / 9)
            return p;
    }
    return 255;
}

static void proposal_is(unsigned number, unsigned chip)
{
    uint32_t code = livomashen_propose(window.bytes, marks.bytes, marks.len);
    livomashen_proposal p = livomashen_split_proposal(code);
    same("the number of a proposal", p.number, number);
    same("the chip proposed", p.chip, chip);
    same("unused parts of the code", code >> 16, 0);
    check("a proposal");
}

static void try_propose(void)
{
    unsigned number = mark_number(marks.bytes, marks.len);
    proposal_is(number, number == 0 ? to_propose(window.bytes, marks.bytes) : 0);
}

/* ---------------------------------------------------------------- clearing */

static void try_clear_window(void)
{
    same("the window's clear", livomashen_clear_window(window.bytes), 0);
    memset(window.before + GUARD, 255, 64);
    check("the window's clear");
}
