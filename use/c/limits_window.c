/*
 * The window at its limits: what is proposed, from every position and byte, under
 * every mark; what each correction adds, by call and by command; what adds
 * nothing; and what the 65th entry does.  What is expected is worked out in
 * checked_window.h, anew, from order 2; after each call the window is compared,
 * and so are the guard bytes around it.
 *
 * Prints how many calls were made, or the first that differs, and exit 1.
 */
#include "checked_window.h"

/* --------------------------------------------------------------- proposals */

/* Each position and each byte that is none, from no time to 64: from the front,
 * from the end, and spread over the window. */
static void times_held(void)
{
    static const unsigned steps[] = { 1, 63, 7 };
    unsigned value, times, at;
    size_t s;
    for (value = 0; value < 256; value++)
        for (times = 0; times <= 64; times++)
            for (s = 0; s < 3; s++) {
                lend_window(EMPTY, 64);
                for (at = 0; at < times; at++)
                    window.bytes[at * steps[s] % 64] = (uint8_t)value;
                keep(&window);
                proposal_is(0, times >= 4 && value < 45 ? value : 255);
            }
}

/* Each pair of positions, each at three, four and five times; the lower one is
 * the newer. */
static void two_positions(void)
{
    unsigned low, high, times;
    for (high = 0; high < 45; high++)
        for (low = 0; low < high; low++)
            for (times = 0; times < 9; times++) {
                unsigned of_low = 3 + times / 3, of_high = 3 + times % 3;
                lend_window(EMPTY, 64);
                memset(window.bytes, (int)high, of_high);
                memset(window.bytes + 64 - of_low, (int)low, of_low);
                keep(&window);
                proposal_is(0, of_low >= 4 ? low : of_high >= 4 ? high : 255);
            }
}

/* Every lawful mark record, beside windows of one position, of two neighbours
 * on two cards, and of sixteen. */
static void every_lawful_mark(void)
{
    static const uint8_t two[2] = { 26, 27 };
    uint8_t at, first, second;
    for (at = 0; at < 6; at++)
        for (first = 0; first < 45; first++) {
            uint8_t card = at < 5 ? at : 255;
            lend_marks(card, 0, 255, 255);
            lend_window(&first, 1);
            proposal_is(0, first / 9 == card ? 255 : first);
            for (second = 0; second < 45; second++) {
                uint8_t count = first == second ? 1 : 2;
                lend_marks(card, count, first, count == 2 ? second : 255);
                proposal_is(0, 255);
                lend_window(SIXTEEN, 16);
                try_propose();
                lend_window(two, 2);
                try_propose();
                lend_window(&first, 1);
            }
        }
}

/* Every value of every mark byte, from every shape; every length; none at all. */
static void unlawful_marks(void)
{
    int shape, place, value;
    size_t len;
    lend_window(SIXTEEN, 16);
    for (shape = 0; shape < SHAPE_COUNT; shape++) {
        for (place = 0; place < 4; place++)
            for (value = 0; value < 256; value++) {
                lend_bytes(&marks, 4, SHAPES[shape], 4);
                marks.bytes[place] = (uint8_t)value;
                keep(&marks);
                try_propose();
            }
        for (len = 0; len <= 9; len++) {
            lend_bytes(&marks, len, SHAPES[shape], 4);
            try_propose();
        }
    }
    marks.len = 0, marks.bytes = NULL;
    keep(&marks);
    proposal_is(6, 0);
}

/* Of every byte, and of any: then the window is as the header starts one. */
static void clearing(void)
{
    unsigned value;
    for (value = 0; value < 256; value++) {
        uint8_t fill = (uint8_t)value;
        lend_window(&fill, 1);
        try_clear_window();
    }
    lend(&window, 64);
    try_clear_window();
    if (memcmp(window.bytes, EMPTY, 64) != 0)
        fail("a fresh window");
    proposal_is(0, LIVOMASHEN_NO_CHIP);
}

/* -------------------------------------------------------- what a call adds */

/* Bytes of zeros that are set to 1, and the marks under which that is mended. */
static const struct damage {
    uint8_t marks[4];
    uint8_t count, positions[11];
} DAMAGES[] = {
    { { 255, 0, 255, 255 }, 0, { 0 } },
    { { 255, 0, 255, 255 }, 2, { 0, 1 } },
    { { 255, 0, 255, 255 }, 3, { 36, 37, 44 } },
    { { 255, 0, 255, 255 }, 9, { 9, 10, 11, 12, 13, 14, 15, 16, 17 } },
    { { 255, 1, 20, 255 }, 2, { 5, 20 } },
    { { 255, 1, 20, 255 }, 2, { 20, 40 } },
    { { 255, 2, 30, 3 }, 2, { 3, 30 } },
    /* A marked card, with a further chip before it and after it. */
    { { 2, 0, 255, 255 }, 10, { 17, 18, 19, 20, 21, 22, 23, 24, 25, 26 } },
    { { 2, 0, 255, 255 }, 10, { 18, 19, 20, 21, 22, 23, 24, 25, 26, 27 } },
    { { 4, 0, 255, 255 }, 3, { 0, 36, 44 } },
    { { 0, 0, 255, 255 }, 3, { 0, 8, 44 } },
    /* The most that one correction changes; the chips are marked high one first. */
    { { 2, 2, 44, 0 }, 11, { 0, 18, 19, 20, 21, 22, 23, 24, 25, 26, 44 } },
    { { 0, 2, 44, 9 }, 11, { 0, 1, 2, 3, 4, 5, 6, 7, 8, 9, 44 } },
    { { 4, 2, 1, 0 }, 11, { 0, 1, 36, 37, 38, 39, 40, 41, 42, 43, 44 } }
};

/* Block k, in each way, on windows that hold 0 to 64 positions, and on one of
 * any bytes. */
static void add_to_every_window(size_t k)
{
    size_t count, at;
    int way;
    for (way = 0; way < WAYS; way++) {
        for (count = 0; count <= 64; count++) {
            lend_window(EMPTY, 64);
            for (at = 0; at < count; at++)
                window.bytes[64 - count + at] = (uint8_t)(at * 7 % 45);
            keep(&window);
            try_way(way, k, 0);
        }
        lend(&window, 64);
        try_way(way, k, 0);
    }
}

/* 01's block that fits every card.  With card 1 marked its bytes 9 to 11 change. */
static const uint8_t THREE[45] = { 8, 6, 1 };

static void what_is_added(void)
{
    static const uint8_t on_card_1[45] = { 8, 6, 1, 0, 0, 0, 0, 0, 0, 8, 6, 1 };
    size_t p, row, at;
    for (p = 0; p < 45; p++)
        add_to_every_window(p);
    for (row = 0; row < sizeof DAMAGES / sizeof DAMAGES[0]; row++) {
        const struct damage *d = DAMAGES + row;
        lend_bytes(&marks, 4, d->marks, 4);
        lend_bytes(&bank, 300 * 45, ZERO, 1);
        for (at = 0; at < d->count; at++)
            bank.bytes[258 * 45 + d->positions[at]] = 1;
        keep(&bank);
        add_to_every_window(258);
    }
    lend_marks(1, 0, 255, 255);
    lend_bytes(&bank, 45, THREE, 45);
    mended = on_card_1;
    add_to_every_window(0);
}

/* Three times is not enough, four times is; with 64 held the first entry still
 * counts, with 65 it has left.  A block that is got again adds again. */
static void the_last_64(int way)
{
    size_t at;
    for (at = 0; at < 4; at++) {
        proposal_is(0, 255);
        try_way(way, 7, 0);
    }
    for (at = 0; at < 60; at++) {
        proposal_is(0, 7);
        try_way(way, 8 + at % 30, 0);
    }
    proposal_is(0, 7);
    try_way(way, 44, 0);
    proposal_is(0, 255);
}

/* ------------------------------------------------------- what adds nothing */

/* Each way, refused by this number, on a window of any bytes. */
static void refused(unsigned number, size_t k)
{
    int way;
    lend(&window, 64);
    for (way = 0; way < WAYS; way++)
        try_way(way, k, number);
}

static void refusals(void)
{
    static const uint8_t none[45] = { 1, 0, 0, 0, 0, 0, 0, 0, 0, 1 };
    static const size_t lengths[] = { 0, 44, 46, 45 * 1025 };
    int shape;
    size_t at;
    lend_bytes(&bank, 90, none, 45);
    refused(10, 1);
    lend_bytes(&bank, 90, THREE, 45);
    refused(11, 1);
    for (at = 0; at < sizeof lengths / sizeof lengths[0]; at++) {
        lend_bytes(&bank, lengths[at], THREE, 1);
        refused(4, 0);
    }
    lend_chips();
    refused(5, 45);
    refused(5, 65535);
    for (shape = SHAPE_COUNT - 3; shape < SHAPE_COUNT; shape++) {
        lend_bytes(&marks, 4, SHAPES[shape], 4);
        refused(mark_number(marks.bytes, 4), 7);
    }
    for (at = 0; at < 2; at++) {
        lend(&out, 44 + 2 * at);
        try_way(GET, 7, 2);
        try_way(GET_COMMAND, 7, 2);
    }
}

/* Reads, reports, puts, the bank's clear, and all calls on marks. */
static void other_calls(void)
{
    uint8_t record[34] = { 1, 2, 3 }, m[4] = LIVOMASHEN_FRESH_MARKS;
    lend_window(SIXTEEN, 16);
    try_way(GET, 7, 0);
    livomashen_read(bank.bytes + 45 * 7, 45, marks.bytes, 4, out.bytes, 45);
    check("a read");
    livomashen_report(bank.bytes, bank.len, marks.bytes, 4);
    check("a report");
    livomashen_store(record, 34, out.bytes, 45);
    livomashen_put(bank.bytes, bank.len, 7, record, 34);
    check("a store and a put");
    livomashen_clear(bank.bytes, bank.len);
    check("the bank's clear");
    livomashen_place_chip(m, 4, 7);
    livomashen_place_card(m, 4, 0);
    livomashen_lift_chip(m, 4, 7);
    livomashen_lift_card(m, 4);
    check("calls on marks");
}

/* Every write but of the commands get and patrol, and reading registers. */
static void other_writes(void)
{
    uint8_t r[12] = LIVOMASHEN_FRESH_REGISTERS;
    uint32_t address;
    unsigned value;
    lend(&window, 64);
    r[1] = 7;
    for (address = 0; address <= 12; address++)
        for (value = address == 0 ? 3 : 0; value < 256; value++) {
            livomashen_write_register(r, address, (uint8_t)value, bank.bytes, bank.len,
                                      out.bytes, 45, window.bytes);
            livomashen_read_register(r, address);
            livomashen_interrupt(r);
            check("a register, written and read");
        }
}

/* Each starts from an empty window, fresh marks and a bank of bad chips. */
static void (*const TRIALS[])(void) = {
    times_held, two_positions, every_lawful_mark, unlawful_marks, clearing,
    what_is_added, refusals, other_calls, other_writes
};

int main(void)
{
    size_t at;
    int way;
    for (at = 0; at < sizeof TRIALS / sizeof TRIALS[0]; at++) {
        lend_all();
        TRIALS[at]();
    }
    for (way = 0; way < WAYS; way++) {
        lend_all();
        the_last_64(way);
    }
    printf("%lu calls as expected\n", calls);
    return 0;
}
