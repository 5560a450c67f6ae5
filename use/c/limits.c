/*
 * Bad input to every call: empty slices, wrong lengths, every mark byte.  The
 * expected number is worked out in checked.h, anew, from document 01's table;
 * after each call, what must not have changed is compared byte by byte, and so
 * are the guard bytes around every buffer.  limits_registers.c has the calls of
 * the registers, limits_window.c what the window holds and the proposal.
 *
 * Prints how many calls were made, or the first that differs, and exit 1.
 */
#include "checked.h"

/* -------------------------------------------------------------- the trials */

/* Block numbers around each limit, and one whose product with 45 wraps. */
static const size_t NUMBERS[] = {
    0, 1, 2, 3, 1023, 1024, 1025, SIZE_MAX / 45, SIZE_MAX / 45 + 1,
    SIZE_MAX - 1, SIZE_MAX
};
enum { NUMBER_COUNT = sizeof NUMBERS / sizeof NUMBERS[0] };

static void lend_all(void)
{
    lend(&record, 34);
    lend_bytes(&block, 45, ZERO, 1);
    lend(&out, 45);
    lend_bytes(&bank, 90, ZERO, 1);
    lend_bytes(&marks, 4, FRESH, 4);
    lend(&window, 64);
}

/* Every length of every slice, each beside every length of the others that
 * can hide it. */
static void lengths(void)
{
    size_t a, b, c;
    for (a = 0; a <= 100; a++)
        for (b = 0; b <= 100; b++) {
            lend(&record, a);
            lend(&out, b);
            try_store();
        }
    lend_all();
    for (a = 0; a <= 92; a++)
        for (b = 0; b <= 92; b++)
            for (c = 0; c <= 9; c++) {
                lend_bytes(&block, a, ZERO, 1);
                lend(&out, b);
                lend_bytes(&marks, c, FRESH, 4);
                try_read();
            }
    lend_all();
}

static void bank_calls_at(size_t k)
{
    try_put(k);
    try_get(k);
    try_patrol(k);
}

/* Every length of a bank up to beyond the largest. */
static void bank_lengths(void)
{
    size_t len;
    for (len = 0; len <= 46080 + 135; len++) {
        lend_bytes(&bank, len, ZERO, 1);
        bank_calls_at(0);
        if (len >= 45) {
            bank_calls_at(len / 45 - 1);
            bank_calls_at(len / 45);
        }
        try_report();
        lend(&bank, len);
        try_clear();
    }
    lend_all();
}

/* Several causes at once: the lowest number is given. */
static void causes_together(void)
{
    static const size_t banks[] = { 0, 1, 44, 45, 46, 89, 90, 135, 46079, 46080, 46081, 46125 };
    static const size_t small[] = { 0, 1, 3, 4, 5, 33, 34, 35, 44, 45, 46, 90 };
    size_t b, s, k, m, len;
    for (b = 0; b < sizeof banks / sizeof banks[0]; b++) {
        lend_bytes(&bank, banks[b], ZERO, 1);
        for (s = 0; s < sizeof small / sizeof small[0]; s++)
            for (k = 0; k < NUMBER_COUNT; k++)
                for (m = 0; m < SHAPE_COUNT; m++)
                    for (len = 0; len <= 8; len += 2) {
                        lend_bytes(&marks, len, SHAPES[m], 4);
                        lend(&record, small[s]);
                        lend(&out, small[s]);
                        bank_calls_at(NUMBERS[k]);
                        if (k == 0)
                            try_report();
                    }
    }
    lend_all();
}

/* Blocks of zeros with bytes set that read as none and as several: 01's, and four
 * that two cards fit, of which order 6 names the lower one. */
static const struct unreadable {
    uint8_t marks[4];
    uint8_t bytes[3][2];             /* position and value; one again sets no more */
    uint32_t code;
} UNREADABLE[] = {
    { { 255, 0, 255, 255 }, { { 0, 1 }, { 9, 1 }, { 9, 1 } }, 10 },
    { { 255, 0, 255, 255 }, { { 0, 8 }, { 1, 6 }, { 2, 1 } }, 11 },
    { { 255, 2, 0, 9 }, { { 20, 7 }, { 20, 7 }, { 20, 7 } }, 11 + 2 * 65536 },
    { { 255, 1, 9, 255 }, { { 0, 1 }, { 2, 2 }, { 2, 2 } }, 11 },
    { { 255, 1, 0, 255 }, { { 10, 1 }, { 12, 1 }, { 12, 1 } }, 11 + 65536 },
    { { 255, 1, 0, 255 }, { { 20, 1 }, { 24, 1 }, { 24, 1 } }, 11 + 2 * 65536 },
    { { 255, 1, 7, 255 }, { { 36, 1 }, { 43, 7 }, { 43, 7 } }, 11 + 3 * 65536 }
};

/* The whole code, and that nothing is written. */
static void check_code(const char *call, uint32_t code, uint32_t wanted)
{
    check(call, code, wanted & 0xFFu, NULL);
    if (code != wanted)
        fail(call, code, wanted);
}

static void unreadable(void)
{
    size_t row, at;
    lend_all();
    for (row = 0; row < sizeof UNREADABLE / sizeof UNREADABLE[0]; row++) {
        const struct unreadable *u = UNREADABLE + row;
        uint8_t bytes[45] = { 0 };
        for (at = 0; at < 3; at++)
            bytes[u->bytes[at][0]] = u->bytes[at][1];
        lend_bytes(&marks, 4, u->marks, 4);
        lend_bytes(&block, 45, bytes, 45);
        lend_bytes(&bank, 90, bytes, 45);
        check_code("read", livomashen_read(block.bytes, 45, marks.bytes, 4, out.bytes, 45),
                   u->code);
        check_code("get", livomashen_get(bank.bytes, 90, 1, marks.bytes, 4, out.bytes, 45,
                                         window.bytes), u->code);
        check_code("patrol", livomashen_patrol(bank.bytes, 90, 1, marks.bytes, 4,
                                               window.bytes), u->code);
    }
    lend_all();
}

/* The pointer of an empty slice is not followed, so it may be null. */
static void null_pointers(void)
{
    lend_all();
    check("store, null", livomashen_store(NULL, 0, NULL, 0), 2, NULL);
    check("store, null record", livomashen_store(NULL, 0, out.bytes, 45), 3, NULL);
    check("read, null", livomashen_read(NULL, 0, NULL, 0, NULL, 0), 1, NULL);
    check("read, null output", livomashen_read(block.bytes, 45, NULL, 0, NULL, 0), 2, NULL);
    check("read, null marks", livomashen_read(block.bytes, 45, NULL, 0, out.bytes, 45), 6, NULL);
    check("clear, null", livomashen_clear(NULL, 0), 4, NULL);
    check("put, null", livomashen_put(NULL, 0, 0, NULL, 0), 3, NULL);
    check("put, null bank", livomashen_put(NULL, 0, 0, record.bytes, 34), 4, NULL);
    check("get, null", livomashen_get(NULL, 0, 0, NULL, 0, NULL, 0, window.bytes), 2, NULL);
    check("get, null bank", livomashen_get(NULL, 0, 0, NULL, 0, out.bytes, 45, window.bytes),
          4, NULL);
    check("patrol, null", livomashen_patrol(NULL, 0, 0, NULL, 0, window.bytes), 4, NULL);
    check("report, null", (uint32_t)livomashen_report(NULL, 0, NULL, 0), 4, NULL);
    check("place chip, null", livomashen_place_chip(NULL, 0, 0), 6, NULL);
    check("lift chip, null", livomashen_lift_chip(NULL, 0, 0), 6, NULL);
    check("place card, null", livomashen_place_card(NULL, 0, 0), 6, NULL);
    check("lift card, null", livomashen_lift_card(NULL, 0), 6, NULL);
}

static void every_call_with_marks(void)
{
    try_read();
    try_get(1);
    try_patrol(1);
    try_report();
    try_place_chip(44);
    try_place_card(4);
    try_lift_chip(marks.len == 4 ? marks.bytes[2] : 0);
    try_lift_card();
}

/* Every value of every mark byte, from every shape. */
static void mark_bytes(void)
{
    int shape, place, value;
    for (shape = 0; shape < SHAPE_COUNT; shape++)
        for (place = 0; place < 4; place++)
            for (value = 0; value < 256; value++) {
                uint8_t m[4];
                memcpy(m, SHAPES[shape], 4);
                m[place] = (uint8_t)value;
                lend_bytes(&marks, 4, m, 4);
                every_call_with_marks();
            }
    lend_all();
}

/* Every pair of chip places, under counts and cards on both sides of their
 * limits. */
static void mark_pairs(void)
{
    static const uint8_t cards[] = { 255, 0, 4, 5, 254 };
    static const uint8_t counts[] = { 0, 1, 2, 3, 255 };
    size_t c, u;
    int first, second;
    for (c = 0; c < sizeof cards; c++)
        for (u = 0; u < sizeof counts; u++)
            for (first = 0; first < 256; first++)
                for (second = 0; second < 256; second++) {
                    uint8_t m[4];
                    m[0] = cards[c], m[1] = counts[u];
                    m[2] = (uint8_t)first, m[3] = (uint8_t)second;
                    lend_bytes(&marks, 4, m, 4);
                    try_read();
                    try_place_chip((uint32_t)first);
                    try_place_chip((uint32_t)second);
                    try_lift_chip((uint32_t)second);
                }
    lend_all();
}

static void mark_calls_with(uint32_t asked)
{
    try_place_chip(asked);
    try_lift_chip(asked);
    try_place_card(asked);
    try_lift_card();
}

/* Cards and chips asked for, far beyond a byte's, under every shape and length
 * of marks. */
static void marks_asked_for(void)
{
    int shape, at;
    uint32_t asked;
    size_t len;
    for (shape = 0; shape < SHAPE_COUNT; shape++)
        for (len = 0; len <= 8; len++) {
            lend_bytes(&marks, len, SHAPES[shape], 4);
            for (asked = 0; asked <= 600; asked++)
                mark_calls_with(asked);
            for (at = 0; at < WIDE_COUNT; at++)
                mark_calls_with(WIDE[at]);
        }
    lend_all();
}

int main(void)
{
    lend_all();
    lengths();
    bank_lengths();
    causes_together();
    unreadable();
    null_pointers();
    mark_bytes();
    mark_pairs();
    marks_asked_for();
    printf("%lu calls as expected\n", calls);
    return 0;
}
