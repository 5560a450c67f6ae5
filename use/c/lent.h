/*
 * What the checked calls share: lent buffers between guard bytes, document 01's
 * numbers and order 2's window worked out anew, and mark records for the trials.
 * Part of checked.h, checked_registers.h, checked_window.h and checked_slips.h;
 * inline, since none of them uses all of it.
 */
#include "livomashen.h"

#include <stdio.h>
#include <stdlib.h>
#include <string.h>

enum { GUARD = 32, ROOM = 46400 };

/* A lent slice between guard bytes, with a copy of how it was before. */
typedef struct lent {
    size_t len;
    uint8_t *bytes;
    uint8_t now[ROOM + 2 * GUARD];
    uint8_t before[ROOM + 2 * GUARD];
} lent;

static unsigned long calls = 0;

/* The window: whatever call takes one is lent this. */
static lent window;

/* ------------------------------------------------------------- the buffers */

/* Remembers how the slice is now. */
static inline void keep(lent *l)
{
    memcpy(l->before, l->now, l->len + 2 * GUARD);
}

/* Makes the slice of this length, filled with a pattern that no call writes
 * by chance, and remembers it. */
static inline void lend(lent *l, size_t len)
{
    size_t at;
    l->len = len;
    l->bytes = l->now + GUARD;
    memset(l->now, 0xA7, len + 2 * GUARD);
    for (at = 0; at < len; at++)
        l->bytes[at] = (uint8_t)(at * 37 + 11);
    keep(l);
}

/* The same with given content, repeated to the length. */
static inline void lend_bytes(lent *l, size_t len, const uint8_t *from, size_t from_len)
{
    size_t at;
    lend(l, len);
    for (at = 0; at < len; at++)
        l->bytes[at] = from[at % from_len];
    keep(l);
}

/* The slice and the guard bytes around it. */
static inline int as_before(const lent *l)
{
    return memcmp(l->now, l->before, l->len + 2 * GUARD) == 0;
}

static inline void print_bytes(const char *what, const uint8_t *bytes, size_t count)
{
    size_t at;
    printf("  %s:", what);
    for (at = 0; at < count; at++)
        printf(" %d", bytes[at]);
    printf("\n");
}

/* ---------------------------------------------------- the expected numbers */

static inline unsigned lowest(unsigned a, unsigned b)
{
    if (a == 0)
        return b;
    return b == 0 || a < b ? a : b;
}

static inline unsigned length_number(size_t len, size_t right, unsigned number)
{
    return len == right ? 0 : number;
}

static inline unsigned bank_number(size_t len)
{
    return len >= 45 && len <= 46080 && len % 45 == 0 ? 0 : 4;
}

static inline unsigned block_number(size_t len, size_t k)
{
    return k < len / 45 ? 0 : 5;
}

/* A chip place below the count holds a position, any other 255. */
static inline int place_lawful(uint8_t place, int used)
{
    return used ? place <= 44 : place == 255;
}

static inline unsigned mark_number(const uint8_t *m, size_t len)
{
    if (len != 4)
        return 6;
    if ((m[0] > 4 && m[0] != 255) || m[1] > 2)
        return 6;
    if (!place_lawful(m[2], m[1] >= 1) || !place_lawful(m[3], m[1] == 2))
        return 6;
    return m[1] == 2 && m[2] == m[3] ? 7 : 0;
}

static inline int chip_there(const uint8_t *m, uint32_t position)
{
    return (m[1] >= 1 && m[2] == position) || (m[1] == 2 && m[3] == position);
}

/* ---------------------------------------------- the mark record after a call
 *
 * Each gives the number of its call; where that is 0, `after` is the record
 * that the call leaves. */

static inline unsigned chip_placed(const uint8_t *m, size_t len, uint32_t position,
                                   uint8_t *after)
{
    unsigned number = lowest(mark_number(m, len), position > 44 ? 6 : 0);
    if (number != 0)
        return number;
    memcpy(after, m, 4);
    if (chip_there(m, position))
        return 0;
    if (m[1] == 2)
        return 8;
    after[2 + m[1]] = (uint8_t)position;
    after[1]++;
    return 0;
}

static inline unsigned chip_lifted(const uint8_t *m, size_t len, uint32_t position,
                                   uint8_t *after)
{
    unsigned number = lowest(mark_number(m, len), position > 44 ? 6 : 0);
    if (number == 0 && !chip_there(m, position))
        number = 9;
    if (number == 0) {
        after[0] = m[0];
        after[1] = (uint8_t)(m[1] - 1);
        after[2] = m[2] == position ? m[3] : m[2];
        after[3] = 255;
    }
    return number;
}

static inline unsigned card_placed(const uint8_t *m, size_t len, uint32_t card,
                                   uint8_t *after)
{
    unsigned number = lowest(mark_number(m, len), card > 4 ? 6 : 0);
    if (number == 0 && m[0] != 255 && m[0] != card)
        number = 8;
    if (number == 0) {
        memcpy(after, m, 4);
        after[0] = (uint8_t)card;
    }
    return number;
}

static inline unsigned card_lifted(const uint8_t *m, size_t len, uint8_t *after)
{
    unsigned number = mark_number(m, len);
    if (number == 0 && m[0] == 255)
        number = 9;
    if (number == 0) {
        memcpy(after, m, 4);
        after[0] = 255;
    }
    return number;
}

/* ---------------------------------------------- the window after a correction
 *
 * The last 64 of what it held and of the positions in which the block and the
 * one that it was mended to differ. */

static inline void window_after(const uint8_t *held, const uint8_t *block,
                                const uint8_t *mended, uint8_t *after)
{
    uint8_t run[64 + 45];
    size_t count = 64, p;
    memcpy(run, held, 64);
    for (p = 0; p < 45; p++)
        if (block[p] != mended[p])
            run[count++] = (uint8_t)p;
    memcpy(after, run + count - 64, 64);
}

/* ------------------------------------------------- values for the trials */

static const uint8_t ZERO[1] = { 0 };
static const uint8_t ZEROS[45] = { 0 };
static const uint8_t FRESH[4] = LIVOMASHEN_FRESH_MARKS;

/* Lawful and unlawful records of every shape; the last three are 7, 6, 6. */
static const uint8_t SHAPES[][4] = {
    { 255, 0, 255, 255 }, { 255, 1, 7, 255 }, { 255, 2, 0, 44 },
    { 255, 2, 10, 9 }, { 0, 0, 255, 255 }, { 4, 0, 255, 255 },
    { 2, 1, 20, 255 }, { 2, 1, 0, 255 }, { 3, 2, 27, 28 }, { 3, 2, 27, 1 },
    { 1, 2, 44, 0 }, { 255, 2, 9, 9 }, { 9, 2, 9, 9 }, { 255, 3, 1, 2 }
};
enum { SHAPE_COUNT = sizeof SHAPES / sizeof SHAPES[0] };

/* Numbers whose low byte, or low two, would be a card or a chip. */
static const uint32_t WIDE[] = {
    0xFFFF, 0x10000, 0x10001, 0x1002C, 0x1000000, 0x1000007, 0x7FFFFFFF,
    0x80000000, 0x80000004, 0xFFFFFF00, 0xFFFFFF2C, 0xFFFFFFFE, 0xFFFFFFFF
};
enum { WIDE_COUNT = sizeof WIDE / sizeof WIDE[0] };
