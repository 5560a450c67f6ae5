/*
 * Slips at their limits: every outcome of every block written and read, every
 * refusal of writer and reader, bytes at the edges of what is lawful in every
 * mixture, cut at every length, offsets up to the last that there is, and a run
 * of slips.  What is expected is worked out in checked_slips.h, anew, from order
 * 8; after each call the slice is compared, and so are the guard bytes around it.
 *
 * Prints how many calls were made, or the first that differs, and exit 1.
 */
#include "checked_slips.h"

/* Beyond every slice: such as two bytes or four would be cut to an offset within
 * it, and the last that there are. */
static const size_t FAR[] = {
    1024, 0xFFFF, 0x10000, 0x10001, 0x7FFFFFFF, 0xFFFFFFFF, 0x100000000, 0x100000002,
    SIZE_MAX / 2, SIZE_MAX / 2 + 1, SIZE_MAX - 6, SIZE_MAX - 5, SIZE_MAX - 4,
    SIZE_MAX - 3, SIZE_MAX - 2, SIZE_MAX - 1, SIZE_MAX
};
enum { FAR_COUNT = sizeof FAR / sizeof FAR[0] };

/* ------------------------------------------------------------------- slips */

/* Written and read, in a slice of just its length, and within a longer one. */
static void every_slip(void)
{
    size_t k, which;
    for (k = 0; k < 1024; k++)
        for (which = 0; which < OUTCOMES; which++) {
            outcome o = of_block(which, k);
            lend(&slips, length_of(&o));
            same("the end of a slip", try_write(0, &o), slips.len, 0);
            same("the end, read", try_read(0).offset, slips.len, 0);
            lend(&slips, slips.len + 9);
            try_write(5, &o);
            try_read(5);
        }
}

/* Slips worked out by hand, byte for byte. */
static void worked_slips(void)
{
    static const struct worked {
        outcome o;
        size_t length;
        uint8_t bytes[LONGEST];
    } rows[] = {
        { { 0, 0, 0, 0, 0 }, 4, { 3, 0, 0, 0 } },
        { { 1023, 0, 0, 0, 0 }, 4, { 3, 255, 3, 0 } },
        { { 255, 0, 1, 0, 1 }, 5, { 11, 255, 0, 1, 1 } },
        { { 256, 0, 1, 0, 2 }, 5, { 11, 0, 1, 1, 2 } },
        { { 258, 0, 2, 1, 9 }, 6, { 15, 2, 1, 2, 1, 9 } },
        { { 7, 0, 2, 4, 11 }, 6, { 15, 7, 0, 2, 4, 11 } },
        { { 7, 10, 0, 0, 0 }, 4, { 17, 7, 0, 10 } },
        { { 513, 11, 0, 0, 0 }, 5, { 21, 1, 2, 0, 11 } },
        { { 513, 11, 0, 4, 0 }, 5, { 21, 1, 2, 4, 11 } }
    };
    size_t row;
    for (row = 0; row < sizeof rows / sizeof rows[0]; row++) {
        lend(&slips, LONGEST);
        same("a worked slip's end", try_write(0, &rows[row].o), rows[row].length, 0);
        if (memcmp(slips.bytes, rows[row].bytes, rows[row].length) != 0)
            fail("a worked slip", 0);
    }
}

/* -------------------------------------------------------------- the writer */

/* A write with space for it and without: a bad value is 16 in both. */
static void try_answer(const outcome *o)
{
    lend(&slips, LONGEST);
    try_write(0, o);
    lend(&slips, 3);
    try_write(0, o);
}

/* Every value of every byte of every reading's code, and all four at the edges. */
static void every_answer(void)
{
    static const unsigned cards[] = { 0, 1, 4, 5, 6, 255 };
    static const unsigned ns[] = { 0, 1, 2, 3, 10, 11, 12, 255 };
    size_t which, card, n;
    unsigned value, place, number, kind;
    outcome o = { 258, 0, 0, 0, 0 };
    for (which = 0; which < OUTCOMES; which++)
        for (place = 0; place < 32; place += 8)
            for (value = 0; value < 256; value++) {
                uint32_t code = code_of(every + which) & ~((uint32_t)0xFF << place);
                o = outcome_of(258, code + (value << place));
                try_answer(&o);
            }
    for (number = 0; number < 256; number++)
        for (kind = 0; kind < 5; kind++)
            for (card = 0; card < sizeof cards / sizeof cards[0]; card++)
                for (n = 0; n < sizeof ns / sizeof ns[0]; n++) {
                    o.number = number, o.kind = kind, o.card = cards[card], o.n = ns[n];
                    try_answer(&o);
                }
}

/* Around 1,024 and 65,536, and far beyond. */
static void block_numbers(void)
{
    size_t which, at;
    for (which = 0; which < OUTCOMES; which++) {
        outcome o = of_block(which, 1000);
        for (; o.k < 1300; o.k++)
            try_answer(&o);
        for (o.k = 65500; o.k < 65600; o.k++)
            try_answer(&o);
        for (at = 0; at < FAR_COUNT; at++) {
            o.k = FAR[at];
            try_answer(&o);
        }
    }
}

/* Every length up to two slips' with every offset in it and behind it. */
static void space(void)
{
    size_t which, len, at;
    for (which = 0; which < OUTCOMES; which++) {
        outcome o = of_block(which, 0x1A7), bad = of_block(which, 1024);
        for (len = 0; len <= 2 * LONGEST; len++)
            for (at = 0; at <= len + LONGEST + FAR_COUNT; at++) {
                size_t offset = at <= len + LONGEST ? at : FAR[at - len - LONGEST - 1];
                lend(&slips, len);
                try_write(offset, &bad);
                try_write(offset, &o);
                try_read(offset);
            }
    }
}

/* -------------------------------------------------------------- the reader */

/* A slip that is read is the only one of its outcome: written again it is the
 * same. */
static void read_and_write(size_t at)
{
    uint8_t kept[LONGEST];
    livomashen_slip s = try_read(at);
    outcome o = outcome_of(s.block, livomashen_join_answer(s.answer));
    if (s.number != 0)
        return;
    memcpy(kept, slips.bytes + at, s.offset - at);
    same("where it ends", try_write(at, &o), s.offset, at);
    if (memcmp(kept, slips.bytes + at, s.offset - at) != 0)
        fail("two slips of one outcome", at);
}

/* Values at the edges of every field, and beyond them. */
static const uint8_t EDGES[] = { 0, 1, 2, 3, 4, 5, 9, 10, 11, 12, 255 };
enum { EDGE_COUNT = sizeof EDGES };

/* Reads at the offset with the slice cut to each length; what is cut off still
 * stands behind the slice's end. */
static void cut_everywhere(size_t at, size_t most)
{
    for (slips.len = at; slips.len <= most; slips.len++) {
        keep(&slips);
        read_and_write(at);
    }
}

/* Five bytes behind each map, in every mixture of edges. */
static void every_mixture(void)
{
    enum { MIXTURES = EDGE_COUNT * EDGE_COUNT * EDGE_COUNT * EDGE_COUNT * EDGE_COUNT };
    size_t map, mixture, left, place;
    lend(&slips, LONGEST);
    for (map = 0; map < MAP_COUNT; map++)
        for (mixture = 0; mixture < MIXTURES; mixture++) {
            slips.bytes[0] = (uint8_t)MAPS[map].bits;
            for (place = 1, left = mixture; place < LONGEST; place++, left /= EDGE_COUNT)
                slips.bytes[place] = EDGES[left % EDGE_COUNT];
            cut_everywhere(0, LONGEST);
        }
}

/* Every value of every byte of every slip, the map's 256 among them. */
static void every_value(void)
{
    size_t which, place;
    unsigned value;
    for (which = 0; which < OUTCOMES; which++)
        for (place = 0; place < LONGEST; place++)
            for (value = 0; value < 256; value++) {
                outcome o = of_block(which, 0x2C9);
                lend(&slips, 2 + LONGEST + 1);
                try_write(2, &o);
                slips.bytes[2 + place] = (uint8_t)value;
                cut_everywhere(2, 2 + LONGEST + 1);
            }
}

/* Order 8's own cases, and each refusal's offset told in full. */
static void causes(void)
{
    static const struct cause {
        uint8_t len, bytes[LONGEST];
        unsigned number;
        size_t offset;
    } rows[] = {
        { 0, { 0 }, 15, 0 },
        { 1, { 3 }, 15, 1 },
        { 2, { 15, 0 }, 15, 2 },
        { 3, { 15, 0, 4 }, 16, 2 },
        { 4, { 3, 0, 0, 1 }, 16, 3 },
        { 1, { 7 }, 16, 0 },
        { 6, { 0, 0, 0, 0, 0, 0 }, 16, 0 },
        { 6, { 47, 0, 0, 2, 0, 1 }, 16, 0 },
        { 5, { 15, 255, 3, 2, 4 }, 15, 5 },
        { 6, { 15, 255, 3, 2, 4, 12 }, 16, 5 },
        { 6, { 15, 255, 3, 2, 4, 0 }, 16, 5 },
        { 6, { 15, 255, 3, 2, 5, 0 }, 16, 4 },
        { 6, { 15, 255, 3, 1, 5, 0 }, 16, 3 },
        { 6, { 15, 255, 4, 1, 5, 0 }, 16, 2 },
        { 5, { 11, 0, 0, 2, 1 }, 16, 3 },
        { 5, { 11, 0, 0, 1, 3 }, 16, 4 },
        { 4, { 17, 0, 0, 11 }, 16, 3 },
        { 5, { 21, 0, 0, 5, 10 }, 16, 3 },
        { 5, { 21, 0, 0, 4, 10 }, 16, 4 },
        { 4, { 21, 0, 0, 4 }, 15, 4 }
    };
    size_t row;
    for (row = 0; row < sizeof rows / sizeof rows[0]; row++) {
        livomashen_slip s;
        lend_bytes(&slips, rows[row].len, rows[row].bytes, LONGEST);
        s = try_read(0);
        same("the number of a cause", s.number, rows[row].number, 0);
        same("the offset of a cause", s.offset, rows[row].offset, 0);
    }
}

/* An empty slice may be a null pointer. */
static void null_pointers(void)
{
    outcome o = of_block(0, 0);
    size_t at;
    lend(&slips, 0);
    slips.bytes = NULL;
    for (at = 0; at < FAR_COUNT + 2; at++) {
        try_write(at < 2 ? at : FAR[at - 2], &o);
        try_read(at < 2 ? at : FAR[at - 2]);
    }
}

/* ------------------------------------------------------------------- a run */

/* The whole run, read from its begin to its end. */
static void read_run(size_t turn)
{
    size_t at = 0, which;
    for (which = 0; which < OUTCOMES; which++) {
        livomashen_slip s = try_read(at);
        same("the block of a run", s.block, 16 * which + turn, at);
        at = s.offset;
    }
    same("the end of a run", at, slips.len, at);
    same("behind the run", try_read(at).number, 15, at);
}

/* Every outcome, one behind the other, in a slice that is full then; each one
 * written again, the last first; and a read at every byte of it. */
static void run_of_slips(void)
{
    size_t starts[OUTCOMES], len = 0, at = 0, which;
    outcome o;
    for (which = 0; which < OUTCOMES; which++)
        len += length_of(every + which);
    lend(&slips, len);
    for (which = 0; which < OUTCOMES; which++) {
        o = of_block(which, 16 * which);
        starts[which] = at;
        at = try_write(at, &o);
    }
    same("a full slice", at, len, at);
    try_write(at, &o);
    read_run(0);
    for (which = OUTCOMES; which-- > 0;) {
        o = of_block(which, 16 * which + 1);
        try_write(starts[which], &o);
    }
    read_run(1);
    for (at = 0; at < len + LONGEST; at++)
        read_and_write(at);
}

/* --------------------------------------------------- what the library says */

/* Bytes of a block of zeros that are set to 1, and what is said of it. */
static const struct reading {
    uint8_t marks[4], count, positions[11];
    outcome o;
} READINGS[] = {
    { { 255, 0, 255, 255 }, 0, { 0 }, { 257, 0, 0, 0, 0 } },
    { { 255, 0, 255, 255 }, 1, { 20 }, { 257, 0, 1, 0, 1 } },
    { { 255, 1, 0, 255 }, 2, { 0, 9 }, { 257, 0, 1, 0, 2 } },
    { { 255, 0, 255, 255 }, 2, { 0, 1 }, { 257, 0, 2, 0, 2 } },
    { { 4, 2, 1, 0 }, 11, { 0, 1, 36, 37, 38, 39, 40, 41, 42, 43, 44 },
      { 257, 0, 2, 4, 11 } },
    { { 255, 0, 255, 255 }, 2, { 0, 9 }, { 257, 10, 0, 0, 0 } },
    { { 255, 2, 0, 9 }, 1, { 20 }, { 257, 11, 0, 2, 0 } },
    /* Refused, and so no reading. */
    { { 5, 0, 255, 255 }, 0, { 0 }, { 257, 6, 0, 0, 0 } },
    { { 255, 2, 9, 9 }, 0, { 0 }, { 257, 7, 0, 0, 0 } }
};

static uint8_t bank[258 * 45], out[45];

/* Block 257's get, read and patrol by call, and its get by command: the code is
 * taken as it is. */
static void say(const struct reading *r)
{
    uint8_t registers[12] = { 0, 1, 1, 0, 0, 0, 0, 0, 0, 0, 0, 0 };
    uint32_t codes[4];
    size_t at;
    memcpy(registers + 8, r->marks, 4);
    codes[0] = livomashen_get(bank, sizeof bank, 257, r->marks, 4, out, 45, window.bytes);
    codes[1] = livomashen_read(bank + 257 * 45, 45, r->marks, 4, out, 45);
    livomashen_write_register(registers, 0, 1, bank, sizeof bank, out, 45, window.bytes);
    codes[2] = livomashen_join_answer(livomashen_last_answer(registers));
    codes[3] = livomashen_patrol(bank, sizeof bank, 257, r->marks, 4, window.bytes);
    for (at = 0; at < 4; at++) {
        outcome o = outcome_of(257, codes[at]);
        same("what is said of a block", codes[at], code_of(&r->o), 0);
        try_answer(&o);
        lend(&slips, 9);
        if (try_write(2, &o) != 2)
            same("what a slip says of it", livomashen_join_answer(try_read(2).answer),
                 codes[at], 2);
    }
}

static void what_is_said(void)
{
    size_t row, at;
    lend(&window, 64);
    for (row = 0; row < sizeof READINGS / sizeof READINGS[0]; row++) {
        memset(bank, 0, sizeof bank);
        for (at = 0; at < READINGS[row].count; at++)
            bank[257 * 45 + READINGS[row].positions[at]] = 1;
        say(READINGS + row);
    }
}

int main(void)
{
    list_outcomes();
    every_slip();
    worked_slips();
    every_answer();
    block_numbers();
    space();
    every_mixture();
    every_value();
    causes();
    null_pointers();
    run_of_slips();
    what_is_said();
    printf("%lu calls as expected\n", calls);
    return 0;
}
