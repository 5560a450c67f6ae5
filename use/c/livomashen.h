/*
 * livomashen.h - a memory of five cards of nine chips, corrected by proof.
 *
 * A record of 34 bytes is stored as a block of 45: card j (0 to 4), chip i
 * (0 to 8) is byte 9*j + i, and that number is the chip's position.  A reading
 * gives back the one record that fits the block within the changes that the
 * marks allow, or refuses, since none fits or several do.
 *
 * Lent bytes are passed as a pointer, then a length.  Any length may be
 * passed: a wrong one is refused by its number.  With a length of 0 the
 * pointer is not followed.  Registers and window alone are passed without a
 * length: they are twelve bytes and 64, always.  Bytes that a call may write
 * must not overlap any other bytes lent to the same call.  A refused call
 * writes nothing at all.
 *
 * No call allocates, keeps anything between calls, or fails to return: bank,
 * marks, registers, window and slips are the caller's.  Calls on different
 * bytes may run at the same time.
 *
 * C99 and C++.  See livomashen(3).
 */
#ifndef LIVOMASHEN_H
#define LIVOMASHEN_H

#include <stddef.h>
#include <stdint.h>

#ifdef __cplusplus
extern "C" {
#endif

/* The version: another MAJOR may need changes in a program that uses it. */
#define LIVOMASHEN_VERSION_MAJOR 2
#define LIVOMASHEN_VERSION_MINOR 4
#define LIVOMASHEN_VERSION_PATCH 1
#define LIVOMASHEN_VERSION "2.4.1"

/* Sizes. */
enum {
    LIVOMASHEN_CARDS = 5,
    LIVOMASHEN_CHIPS = 9,            /* of one card */
    LIVOMASHEN_BLOCK = 45,           /* bytes of a block, positions of chips */
    LIVOMASHEN_RECORD = 34,          /* bytes of a record: a block's first */
    LIVOMASHEN_MARKS = 4,            /* bytes of a mark record */
    LIVOMASHEN_REGISTERS = 12,       /* bytes of the registers */
    LIVOMASHEN_WINDOW = 64,          /* bytes of the window */
    LIVOMASHEN_LONGEST_SLIP = 6,     /* bytes of a slip, 4 to this many */
    LIVOMASHEN_MOST_BLOCKS = 1024,   /* blocks of the largest bank */
    LIVOMASHEN_LARGEST_BANK = 46080  /* its bytes */
};

/* Numbers: 0, or why a call is refused.  The lowest that holds is given; of 15
 * and 16 it is the one whose cause comes first in the slice. */
enum {
    LIVOMASHEN_DONE = 0,
    LIVOMASHEN_BLOCK_LENGTH = 1,     /* received block is not 45 bytes */
    LIVOMASHEN_OUTPUT_LENGTH = 2,    /* output is not 45 bytes */
    LIVOMASHEN_RECORD_LENGTH = 3,    /* record is not 34 bytes */
    LIVOMASHEN_BANK_LENGTH = 4,      /* bank is not 45*n bytes, n 1 to 1024 */
    LIVOMASHEN_BLOCK_NUMBER = 5,     /* block number is n or more */
    LIVOMASHEN_MARK_RANGE = 6,       /* mark record, or mark asked for, is
                                        outside its ranges or not 4 bytes */
    LIVOMASHEN_MARK_TWICE = 7,       /* both chip marks of the record equal */
    LIVOMASHEN_MARK_LIMIT = 8,       /* third chip mark, or another card */
    LIVOMASHEN_MARK_ABSENT = 9,      /* lifting a mark that is not there */
    LIVOMASHEN_NONE = 10,            /* no record fits the block */
    LIVOMASHEN_SEVERAL = 11,         /* two records or more fit it */
    LIVOMASHEN_REGISTER_ADDRESS = 12,   /* register's address is above 11 */
    LIVOMASHEN_REGISTER_READ_ONLY = 13, /* writing byte 4, 5 or 8 to 11 */
    LIVOMASHEN_COMMAND_UNKNOWN = 14,    /* writing byte 0: not 1 to 6 */
    LIVOMASHEN_SLIP_CUT = 15,        /* slice ends before the slip does */
    LIVOMASHEN_SLIP_RULES = 16,      /* bit or value that no slip has, read or
                                        to be written */
    LIVOMASHEN_SLIP_SPACE = 17       /* no space for the whole slip */
};

/* Kinds of a corrected block. */
enum {
    LIVOMASHEN_CLEAN = 0,            /* no byte was changed */
    LIVOMASHEN_IN_CHIPS = 1,         /* n bytes, in single chips */
    LIVOMASHEN_IN_CARD = 2,          /* n bytes, in a card, marked chips and, beside a
                                        marked card, one further chip */
    LIVOMASHEN_MARKED = 3            /* no block: livomashen_last_answer gives it
                                        where a mark was placed or lifted, or the
                                        one to place was already there */
};

/* A mark record is four bytes: card, count, first chip, second chip; an unused
 * place holds 255.  This starts one:
 *     uint8_t marks[LIVOMASHEN_MARKS] = LIVOMASHEN_FRESH_MARKS;           */
#define LIVOMASHEN_FRESH_MARKS { 255, 0, 255, 255 }

/* No chip: a proposal has it where no chip is proposed, and a window where no
 * position stands yet. */
enum { LIVOMASHEN_NO_CHIP = 255 };

/* The window holds the last 64 positions that gets and patrols corrected, one a
 * byte: the oldest first, the newest in byte 63, and 255 before them while
 * there are fewer.  This starts one, and so does livomashen_clear_window:
 *     uint8_t window[LIVOMASHEN_WINDOW] = LIVOMASHEN_FRESH_WINDOW;
 * Any 64 bytes may be lent: bytes of 45 and more are no positions.       */
#define LIVOMASHEN_FRESH_WINDOW { \
    255,255,255,255,255,255,255,255,255,255,255,255,255,255,255,255, \
    255,255,255,255,255,255,255,255,255,255,255,255,255,255,255,255, \
    255,255,255,255,255,255,255,255,255,255,255,255,255,255,255,255, \
    255,255,255,255,255,255,255,255,255,255,255,255,255,255,255,255 }

/* The corrector as registers: twelve bytes.  This starts them:
 *     uint8_t registers[LIVOMASHEN_REGISTERS] = LIVOMASHEN_FRESH_REGISTERS;
 * Bytes 8 to 11 are the mark record itself: the other calls take them as
 * marks, registers + LIVOMASHEN_AT_MARKS with a length of LIVOMASHEN_MARKS. */
#define LIVOMASHEN_FRESH_REGISTERS { 0, 0, 0, 0, 0, 0, 0, 0, 255, 0, 255, 255 }

/* Addresses of the registers. */
enum {
    LIVOMASHEN_AT_COMMAND = 0,       /* a write runs the command */
    LIVOMASHEN_AT_BLOCK_LOW = 1,     /* block number: this byte .. */
    LIVOMASHEN_AT_BLOCK_HIGH = 2,    /* .. plus 256 times this one */
    LIVOMASHEN_AT_ASKED = 3,         /* the chip or card asked for */
    LIVOMASHEN_AT_ANSWER = 4,        /* last answer: a kind, or 16 + number */
    LIVOMASHEN_AT_DETAIL = 5,        /* its n, plus 16 * card */
    LIVOMASHEN_AT_ENABLE = 6,        /* bits that may raise the interrupt */
    LIVOMASHEN_AT_PENDING = 7,       /* a write clears the bits it has set */
    LIVOMASHEN_AT_MARKS = 8          /* to 11: the mark record */
};

/* Commands.  Each does what a call does, with the block number, the chip or
 * card, and the marks in the registers. */
enum {
    LIVOMASHEN_COMMAND_GET = 1,
    LIVOMASHEN_COMMAND_PATROL = 2,
    LIVOMASHEN_COMMAND_MARK_CHIP = 3, /* livomashen_place_chip */
    LIVOMASHEN_COMMAND_MARK_CARD = 4, /* livomashen_place_card */
    LIVOMASHEN_COMMAND_LIFT_CHIP = 5,
    LIVOMASHEN_COMMAND_LIFT_CARD = 6  /* byte 3 is not looked at */
};

/* Bits of byte 7, and so of byte 6. */
enum {
    LIVOMASHEN_PENDING_DONE = 1,     /* a command was done */
    LIVOMASHEN_PENDING_REFUSED = 2   /* a command was refused */
};

/* A slip is one reading of one block: a map byte, then only the fields whose
 * bits stand in it, in the order of the bits.
 *     bit 0: block number, two bytes, low first, 0 to 1023
 *     bit 1: kind, 0 clean, 1 in chips, 2 in a card
 *     bit 2: card, 0 to 4
 *     bit 3: n, 1 to 2 in chips, 1 to 11 in a card
 *     bit 4: refusal, 10 or 11
 * The only maps are 3 (clean), 11 (in chips), 15 (in a card), 17 (none) and 21
 * (several), so that a slip is 4, 5, 6, 4 or 5 bytes.  Block 258 with 9 bytes
 * changed in card 1 is 15, 2, 1, 2, 1, 9. */

/* ------------------------------------------------------------ the library */

/* Stores a record in out as the only lawful block that begins with it.
 * Gives 0, or 2, 3. */
uint32_t livomashen_store(const uint8_t *rec, size_t rec_len,
                          uint8_t *out, size_t out_len);

/* Reads a block under marks; the corrected 45 bytes go into out, the record
 * first.  Gives an answer code: 0 and a kind, or 1, 2, 6, 7, 10, 11. */
uint32_t livomashen_read(const uint8_t *block, size_t block_len,
                         const uint8_t *marks, size_t marks_len,
                         uint8_t *out, size_t out_len);

/* Makes every block of a bank 45 zeros.  Gives 0, or 4. */
uint32_t livomashen_clear(uint8_t *bank, size_t bank_len);

/* Stores a record as block k of a bank.  Gives 0, or 3, 4, 5. */
uint32_t livomashen_put(uint8_t *bank, size_t bank_len, size_t k,
                        const uint8_t *rec, size_t rec_len);

/* Reads block k of a bank into out and leaves the bank as it is; the positions
 * of the bytes that were changed go into the window, lowest first.  Gives an
 * answer code: 0 and a kind, or 2, 4, 5, 6, 7, 10, 11. */
uint32_t livomashen_get(const uint8_t *bank, size_t bank_len, size_t k,
                        const uint8_t *marks, size_t marks_len,
                        uint8_t *out, size_t out_len, uint8_t *window);

/* Reads block k of a bank and puts the corrected bytes back, and the positions
 * of those that were changed into the window, lowest first.  Gives an answer
 * code: 0 and a kind, or 4, 5, 6, 7, 10, 11. */
uint32_t livomashen_patrol(uint8_t *bank, size_t bank_len, size_t k,
                           const uint8_t *marks, size_t marks_len,
                           uint8_t *window);

/* Counts the blocks of a bank by their readings.  Gives a report code: 0 and
 * the five totals, or 4, 6, 7. */
uint64_t livomashen_report(const uint8_t *bank, size_t bank_len,
                           const uint8_t *marks, size_t marks_len);

/* Places or lifts a mark in a mark record: a chip by its position 0 to 44, a
 * card by its number 0 to 4; any other number is 6, however large.  Placing
 * gives 0, or 6, 7, 8; lifting 0, or 6, 7, 9.  Placing a mark that is already
 * there gives 0 and changes nothing.  Lifting the first of two chip marks moves
 * the second down. */
uint32_t livomashen_place_chip(uint8_t *marks, size_t marks_len,
                               uint32_t position);
uint32_t livomashen_lift_chip(uint8_t *marks, size_t marks_len,
                              uint32_t position);
uint32_t livomashen_place_card(uint8_t *marks, size_t marks_len,
                               uint32_t card);
uint32_t livomashen_lift_card(uint8_t *marks, size_t marks_len);

/* Writes one of the twelve registers.  Byte 0: runs the command on bank, out
 * and window under the marks in bytes 8 to 11, and enters it and its answer.
 * Byte 7: clears the bits that are set in value.  Bytes 1, 2, 3 and 6: take the
 * value.  Bank and out are looked at only where the command's own call takes
 * them, and only a get or patrol changes the window.  Gives 0, or 12, 13, 14;
 * then registers, bank, out and window are as before.  A command that is
 * refused by another number is a write that was done: it changes only
 * registers, and its number stands in byte 4. */
uint32_t livomashen_write_register(uint8_t *registers, uint32_t address,
                                   uint8_t value,
                                   uint8_t *bank, size_t bank_len,
                                   uint8_t *out, size_t out_len,
                                   uint8_t *window);

/* Reads one of the twelve registers.  Gives a register code: 0 and the byte,
 * or 12. */
uint32_t livomashen_read_register(const uint8_t *registers, uint32_t address);

/* The interrupt: 1 while bytes 6 and 7 share a set bit, else 0. */
uint32_t livomashen_interrupt(const uint8_t *registers);

/* Empties the window: all 64 bytes become 255.  Gives 0. */
uint32_t livomashen_clear_window(uint8_t *window);

/* Proposes a chip to mark: the lowest position that stands in the window four
 * times or more and is not marked, nor its card.  Places no mark.  Gives a
 * proposal code: 0 and the chip, or LIVOMASHEN_NO_CHIP where there is none; or
 * 6, 7. */
uint32_t livomashen_propose(const uint8_t *window,
                            const uint8_t *marks, size_t marks_len);

/* Writes a slip at this offset of the slice: block k, and what read, get or
 * patrol said of it, as their answer code.  Any code but that of a corrected
 * block, of 10 or of 11 is 16, and so is a block number of 1024 or more; but the
 * 0 of any other call is the code of a clean block too.  Gives a written code: 0
 * and the slip's length, or 16, 17. */
uint32_t livomashen_write_slip(uint8_t *slips, size_t slips_len, size_t at,
                               size_t k, uint32_t answer);

/* Reads the slip that begins at this offset of the slice.  Gives a slip code: 0,
 * the slip's length and what it says; or 15, 16, and how far after the offset
 * the cause of 16 stands: at the map, at a block number's high byte, or at the
 * field that is wrong. */
uint64_t livomashen_read_slip(const uint8_t *slips, size_t slips_len,
                              size_t at);

/* ------------------------------------------------------- codes taken apart */

/* What read, get and patrol say, and the last command.  Parts that the number
 * or kind does not use are 0. */
typedef struct livomashen_answer {
    uint8_t number;   /* bits 0-7: 0 if corrected, else the refusal's number */
    uint8_t kind;     /* bits 8-15: clean, in chips or in a card; or marked */
    uint8_t card;     /* bits 16-23: the card; with 11, the lowest that fits,
                       * which need not be the bad one */
    uint8_t n;        /* bits 24-31: how many bytes were changed */
} livomashen_answer;

/* What report says: blocks of the bank by reading. */
typedef struct livomashen_totals {
    uint8_t number;   /* bits 0-7: 0 if counted, else the refusal's number */
    uint16_t clean;   /* bits 8-18 */
    uint16_t chips;   /* bits 19-29 */
    uint16_t card;    /* bits 30-40 */
    uint16_t none;    /* bits 41-51 */
    uint16_t several; /* bits 52-62 */
} livomashen_totals;

/* What read_register says. */
typedef struct livomashen_register {
    uint8_t number;   /* bits 0-7: 0, or 12 */
    uint8_t byte;     /* bits 8-15: the register; 0 with 12 */
} livomashen_register;

/* What propose says. */
typedef struct livomashen_proposal {
    uint8_t number;   /* bits 0-7: 0, or 6, 7 */
    uint8_t chip;     /* bits 8-15: its position, or LIVOMASHEN_NO_CHIP; 0
                         with a refusal */
} livomashen_proposal;

/* What write_slip says. */
typedef struct livomashen_written {
    uint8_t number;   /* bits 0-7: 0, or 16, 17 */
    size_t next;      /* where the next slip begins: bits 8-15 after the offset
                         of this one; with a refusal that offset itself */
} livomashen_written;

/* What read_slip says. */
typedef struct livomashen_slip {
    uint8_t number;   /* bits 0-7: 0, or 15, 16 */
    uint16_t block;   /* bits 16-31: the block number; 0 with a refusal */
    livomashen_answer answer; /* bits 32-63: what was said of the block; all 0
                                 with a refusal */
    size_t offset;    /* where the next slip begins, or with 16 where its cause
                         stands: bits 8-15 after the offset that was read at;
                         with 15 the slice's length */
} livomashen_slip;

static inline livomashen_answer livomashen_split_answer(uint32_t code)
{
    livomashen_answer a;
    a.number = code & 0xFFu;
    code >>= 8;
    a.kind = code & 0xFFu;
    code >>= 8;
    a.card = code & 0xFFu;
    code >>= 8;
    a.n = code & 0xFFu;
    return a;
}

static inline livomashen_totals livomashen_split_report(uint64_t code)
{
    livomashen_totals t;
    t.number = code & 0xFFu;
    t.clean = (code >> 8) & 0x7FFu;
    t.chips = (code >> 19) & 0x7FFu;
    t.card = (code >> 30) & 0x7FFu;
    t.none = (code >> 41) & 0x7FFu;
    t.several = (code >> 52) & 0x7FFu;
    return t;
}

static inline livomashen_register livomashen_split_register(uint32_t code)
{
    livomashen_register r;
    r.number = code & 0xFFu;
    r.byte = (code >> 8) & 0xFFu;
    return r;
}

static inline livomashen_proposal livomashen_split_proposal(uint32_t code)
{
    livomashen_proposal p;
    p.number = code & 0xFFu;
    p.chip = (code >> 8) & 0xFFu;
    return p;
}

/* `at` is the offset that the slip was written at. */
static inline livomashen_written livomashen_split_written(uint32_t code,
                                                          size_t at)
{
    livomashen_written w;
    w.number = code & 0xFFu;
    w.next = at + ((code >> 8) & 0xFFu);
    return w;
}

/* `at` and `slips_len` are those that the slip was read with. */
static inline livomashen_slip livomashen_split_slip(uint64_t code, size_t at,
                                                    size_t slips_len)
{
    livomashen_slip s;
    s.number = code & 0xFFu;
    s.block = (code >> 16) & 0xFFFFu;
    s.offset = s.number == LIVOMASHEN_SLIP_CUT ? slips_len
                                               : at + ((code >> 8) & 0xFFu);
    code >>= 32;
    s.answer = livomashen_split_answer(code & 0xFFFFFFFFu);
    return s;
}

/* The code of an answer, for write_slip after a get or patrol by command: there
 * the answer comes from livomashen_last_answer.  After a command that placed or
 * lifted a mark its kind is LIVOMASHEN_MARKED, which write_slip refuses with 16. */
static inline uint32_t livomashen_join_answer(livomashen_answer a)
{
    return a.number + 0x100u * a.kind + 0x10000u * a.card + 0x1000000u * a.n;
}

/* What the last command said, from bytes 4 and 5.  Before the first command
 * it is clean: whether one has run is in byte 7. */
static inline livomashen_answer livomashen_last_answer(const uint8_t *registers)
{
    unsigned answer = registers[LIVOMASHEN_AT_ANSWER];
    unsigned detail = registers[LIVOMASHEN_AT_DETAIL];
    livomashen_answer a;
    a.number = answer < 16 ? 0 : (answer - 16) & 0xFFu;
    a.kind = answer < 16 ? answer & 0xFFu : 0;
    a.card = (detail >> 4) & 0xFu;
    a.n = detail & 0xFu;
    return a;
}

#ifdef __cplusplus
}
#endif

#endif
