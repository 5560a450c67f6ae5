/*
 * Bad input to the calls of the registers: addresses, commands, mark bytes that
 * are not lawful, wrong lengths behind a command, and every bit of byte 7.  What
 * each call must leave is worked out in checked_registers.h, anew, from order 1;
 * after each call every byte is compared, and so are the guard bytes around
 * registers, bank, output and window.
 *
 * Prints how many calls were made, or the first that differs, and exit 1.
 */
#include "checked_registers.h"

static const uint8_t START[12] = LIVOMASHEN_FRESH_REGISTERS;

/* At the start; every bit set; one of each command's answers, and marks; a mark
 * record that is 6, and one that is 7. */
static const uint8_t STATES[][12] = {
    LIVOMASHEN_FRESH_REGISTERS,
    { 255, 255, 255, 255, 255, 255, 255, 255, 255, 255, 255, 255 },
    { 2, 1, 0, 4, 2, 27, 1, 2, 4, 1, 44, 255 },
    { 1, 0, 0, 44, 27, 64, 0xA5, 0x5A, 255, 2, 0, 44 },
    { 6, 1, 0, 0, 25, 0, 3, 0, 5, 0, 255, 255 },
    { 3, 0, 1, 9, 3, 0, 0, 3, 0, 2, 9, 9 }
};
enum { STATE_COUNT = sizeof STATES / sizeof STATES[0] };

static void lend_registers(const uint8_t *from)
{
    lend_bytes(&held, 12, from, 12);
}

static void lend_all(void)
{
    lend_registers(START);
    lend_bytes(&bank, 90, ZERO, 1);
    lend(&out, 45);
    lend(&window, 64);
    reads = CLEAN;
    mended = ZEROS;
}

static void every_command(void)
{
    uint8_t command;
    for (command = 1; command <= 6; command++)
        try_write(0, command);
}

/* Around 11 and 12, far beyond a byte's, and such as a byte or two would be cut
 * to; each written and read, from every state. */
static void addresses(void)
{
    static const uint8_t values[] = { 0, 1, 6, 7, 128, 255 };
    uint32_t address;
    size_t state, v;
    int at;
    for (state = 0; state < STATE_COUNT; state++) {
        lend_registers(STATES[state]);
        for (address = 0; address <= 600; address++)
            try_read(address);
        for (at = 0; at < WIDE_COUNT; at++)
            try_read(WIDE[at]);
        for (v = 0; v < sizeof values; v++) {
            for (address = 0; address <= 600; address++)
                try_write(address, values[v]);
            for (at = 0; at < WIDE_COUNT; at++)
                try_write(WIDE[at], values[v]);
        }
    }
    lend_all();
}

/* Every value at every address, commands among them, from every state: all 256
 * commands, and each value that a read-only byte must not take. */
static void values_written(void)
{
    uint32_t address;
    size_t state;
    unsigned value;
    for (state = 0; state < STATE_COUNT; state++) {
        lend_registers(STATES[state]);
        for (address = 0; address < 12; address++)
            for (value = 0; value < 256; value++)
                try_write(address, (uint8_t)value);
    }
    lend_all();
}

/* Every value of every byte, read. */
static void values_read(void)
{
    uint32_t address;
    unsigned value;
    for (address = 0; address < 12; address++)
        for (value = 0; value < 256; value++) {
            uint8_t r[12];
            memcpy(r, START, 12);
            r[address] = (uint8_t)value;
            lend_registers(r);
            try_read(address);
        }
    lend_all();
}

/* Every enable byte with every pending byte: the interrupt, a command that is
 * done and one that is refused (7 has no mark), and what is acknowledged. */
static void pending_bits(void)
{
    unsigned enabled, pending, value;
    uint8_t r[12];
    memcpy(r, START, 12);
    for (enabled = 0; enabled < 256; enabled++)
        for (pending = 0; pending < 256; pending++) {
            r[6] = (uint8_t)enabled, r[7] = (uint8_t)pending;
            lend_registers(r);
            try_interrupt();
            try_write(0, 2);
            try_write(0, 6);
        }
    for (pending = 0; pending < 256; pending++) {
        r[6] = (uint8_t)~pending, r[7] = (uint8_t)pending;
        lend_registers(r);
        for (value = 0; value < 256; value++)
            try_write(7, (uint8_t)value);
    }
    lend_all();
}

/* Lengths of bank and output behind each command, with block numbers around
 * the limits and every shape of marks; and none is looked at by a plain write. */
static void lengths(void)
{
    static const size_t banks[] = { 0, 1, 44, 45, 46, 89, 90, 46035, 46079, 46080, 46081, 46125 };
    static const size_t outs[] = { 0, 1, 44, 45, 46, 90 };
    static const uint8_t numbers[][2] = {
        { 0, 0 }, { 1, 0 }, { 2, 0 }, { 0, 1 }, { 254, 3 }, { 255, 3 }, { 0, 4 }, { 255, 255 }
    };
    size_t b, o, k, m;
    uint32_t address;
    for (b = 0; b < sizeof banks / sizeof banks[0]; b++) {
        lend_bytes(&bank, banks[b], ZERO, 1);
        for (o = 0; o < sizeof outs / sizeof outs[0]; o++) {
            lend(&out, outs[o]);
            for (k = 0; k < sizeof numbers / sizeof numbers[0]; k++)
                for (m = 0; m < SHAPE_COUNT; m++) {
                    uint8_t r[12] = { 0, 0, 0, 4, 0, 0, 0, 0, 0, 0, 0, 0 };
                    memcpy(r + 1, numbers[k], 2);
                    memcpy(r + 8, SHAPES[m], 4);
                    lend_registers(r);
                    every_command();
                    for (address = 1; address < 12; address++)
                        try_write(address, 5);
                }
        }
    }
    lend_all();
}

/* Every length up to three blocks, of one and then of the other. */
static void short_lengths(void)
{
    size_t len;
    lend_all();
    for (len = 0; len <= 140; len++) {
        lend_bytes(&bank, len, ZERO, 1);
        every_command();
    }
    lend_all();
    for (len = 0; len <= 140; len++) {
        lend(&out, len);
        every_command();
    }
    lend_all();
}

/* Every value of each of bytes 8 to 11, from every shape, behind each command;
 * byte 3 asks for a chip, a card, what is marked, and what no mark is. */
static void mark_bytes(void)
{
    int shape, place, value;
    size_t a;
    for (shape = 0; shape < SHAPE_COUNT; shape++)
        for (place = 0; place < 4; place++)
            for (value = 0; value < 256; value++) {
                uint8_t r[12], asked[4] = { 44, 4, 0, 255 };
                memcpy(r, START, 12);
                memcpy(r + 8, SHAPES[shape], 4);
                r[8 + place] = (uint8_t)value;
                asked[2] = r[10];
                for (a = 0; a < sizeof asked; a++) {
                    r[3] = asked[a];
                    lend_registers(r);
                    every_command();
                }
            }
    lend_all();
}

/* Every chip or card asked for, under every shape of marks. */
static void marks_asked_for(void)
{
    int shape, asked;
    for (shape = 0; shape < SHAPE_COUNT; shape++)
        for (asked = 0; asked < 256; asked++) {
            uint8_t r[12];
            memcpy(r, START, 12);
            r[3] = (uint8_t)asked;
            memcpy(r + 8, SHAPES[shape], 4);
            lend_registers(r);
            every_command();
        }
    lend_all();
}

/* The pointer of an empty slice is not followed, so it may be null. */
static void null_pointers(void)
{
    lend_all();
    bank.len = 0, bank.bytes = NULL;
    keep(&bank);
    every_command();
    try_write(1, 9);
    out.len = 0, out.bytes = NULL;
    keep(&out);
    every_command();
    try_write(7, 255);
    lend_all();
}

/* 01's worked blocks behind get and patrol: each of the answers, with its n and
 * card.  The block is number 258 of 300, so that both bytes of it count. */
static const struct worked {
    uint8_t marks[4];
    uint8_t bytes[3][2];             /* position and value; one again sets no more */
    said reads;
} WORKED[] = {
    { { 255, 0, 255, 255 }, { { 0, 0 }, { 0, 0 }, { 0, 0 } }, { 0, 0, 0, 0 } },
    { { 255, 0, 255, 255 }, { { 20, 7 }, { 0, 0 }, { 0, 0 } }, { 0, 1, 0, 1 } },
    { { 255, 0, 255, 255 }, { { 0, 8 }, { 1, 6 }, { 2, 1 } }, { 11, 0, 0, 0 } },
    { { 0, 0, 255, 255 }, { { 0, 8 }, { 1, 6 }, { 2, 1 } }, { 0, 2, 0, 3 } },
    { { 1, 0, 255, 255 }, { { 0, 8 }, { 1, 6 }, { 2, 1 } }, { 0, 2, 1, 3 } },
    { { 255, 0, 255, 255 }, { { 0, 1 }, { 9, 1 }, { 0, 1 } }, { 10, 0, 0, 0 } },
    { { 255, 0, 255, 255 }, { { 0, 1 }, { 1, 1 }, { 0, 1 } }, { 0, 2, 0, 2 } },
    { { 255, 0, 255, 255 }, { { 36, 1 }, { 37, 1 }, { 44, 1 } }, { 0, 2, 4, 3 } },
    { { 255, 1, 0, 255 }, { { 0, 1 }, { 9, 1 }, { 0, 1 } }, { 0, 1, 0, 2 } },
    { { 255, 2, 0, 9 }, { { 20, 7 }, { 20, 7 }, { 20, 7 } }, { 11, 0, 2, 0 } },
    { { 0, 0, 255, 255 }, { { 0, 1 }, { 9, 1 }, { 0, 1 } }, { 0, 2, 0, 2 } },
    /* Order 5: a marked chip of the marked card costs nothing; one off it does. */
    { { 0, 1, 1, 255 }, { { 9, 1 }, { 9, 1 }, { 9, 1 } }, { 0, 1, 0, 1 } },
    { { 0, 2, 1, 8 }, { { 9, 1 }, { 9, 1 }, { 9, 1 } }, { 0, 1, 0, 1 } },
    { { 0, 1, 10, 255 }, { { 9, 1 }, { 9, 1 }, { 9, 1 } }, { 10, 0, 0, 0 } },
    { { 0, 2, 1, 10 }, { { 9, 1 }, { 9, 1 }, { 9, 1 } }, { 10, 0, 0, 0 } },
    /* Order 6: two cards fit, and the lower one is named. */
    { { 255, 1, 9, 255 }, { { 0, 1 }, { 2, 2 }, { 2, 2 } }, { 11, 0, 0, 0 } },
    { { 255, 1, 0, 255 }, { { 10, 1 }, { 12, 1 }, { 12, 1 } }, { 11, 0, 1, 0 } },
    { { 255, 1, 0, 255 }, { { 20, 1 }, { 24, 1 }, { 24, 1 } }, { 11, 0, 2, 0 } },
    { { 255, 1, 7, 255 }, { { 36, 1 }, { 43, 7 }, { 43, 7 } }, { 11, 0, 3, 0 } }
};

static void worked_blocks(void)
{
    static const uint8_t on_card_1[45] = { 8, 6, 1, 0, 0, 0, 0, 0, 0, 8, 6, 1 };
    uint8_t r[12] = { 0, 2, 1, 0, 0, 0, 0, 0, 0, 0, 0, 0 };
    size_t row, at;
    for (row = 0; row < sizeof WORKED / sizeof WORKED[0]; row++) {
        const struct worked *w = WORKED + row;
        lend_bytes(&bank, 300 * 45, ZERO, 1);
        for (at = 0; at < 3; at++)
            bank.bytes[258 * 45 + w->bytes[at][0]] = w->bytes[at][1];
        keep(&bank);
        reads = w->reads;
        mended = w->marks[0] == 1 ? on_card_1 : ZEROS;
        memcpy(r + 8, w->marks, 4);
        lend_registers(r);
        every_command();
    }
    lend_all();
}

int main(void)
{
    lend_all();
    addresses();
    values_written();
    values_read();
    pending_bits();
    lengths();
    short_lengths();
    mark_bytes();
    marks_asked_for();
    null_pointers();
    worked_blocks();
    printf("%lu calls as expected\n", calls);
    return 0;
}
