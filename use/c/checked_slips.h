/*
 * The two calls on slips, each checked: what is written, what a slip says and
 * where a cause stands are worked out anew from order 8, field by field, and every
 * byte of the slice and its guards is compared after each call.
 * Part of limits_slips.c, and included there alone.
 */
#include "lent.h"

/* The slice that slips are written to and read from. */
static lent slips;

/* ---------------------------------------------------- the fields of a slip */

enum { LONGEST = 6 };

/* The maps of order 8, and the kind or refusal that goes with each. */
static const struct map {
    unsigned bits, kind, number;
} MAPS[] = {
    { 3, 0, 0 }, { 11, 1, 0 }, { 15, 2, 0 }, { 17, 0, 10 }, { 21, 0, 11 }
};
enum { MAP_COUNT = sizeof MAPS / sizeof MAPS[0] };

enum { BLOCK_FIELD, KIND_FIELD, CARD_FIELD, N_FIELD, REFUSAL_FIELD, FIELDS };

static const struct map *map_of(unsigned bits)
{
    size_t at;
    for (at = 0; at < MAP_COUNT; at++)
        if (MAPS[at].bits == bits)
            return MAPS + at;
    return NULL;
}

/* The values that a field may have beside this map; a block number has its high
 * byte looked at. */
static int fits(const struct map *m, int field, unsigned value)
{
    if (field == BLOCK_FIELD)
        return value < 4;
    if (field == KIND_FIELD)
        return value == m->kind;
    if (field == CARD_FIELD)
        return value < 5;
    if (field == N_FIELD)
        return value >= 1 && value <= (m->kind == 1 ? 2u : 11u);
    return value == m->number;
}

/* -------------------------------------------------------------- an outcome */

/* One reading of one block. */
typedef struct outcome {
    size_t k;
    unsigned number, kind, card, n;
} outcome;

static uint32_t code_of(const outcome *o)
{
    return o->number + (o->kind << 8) + (o->card << 16) + (o->n << 24);
}

static outcome outcome_of(size_t k, uint32_t code)
{
    livomashen_answer a = livomashen_split_answer(code);
    outcome o;
    o.k = k, o.number = a.number, o.kind = a.kind, o.card = a.card, o.n = a.n;
    return o;
}

/* The map whose reading this is, if it is one that has a slip. */
static const struct map *slip_for(const outcome *o)
{
    size_t at;
    for (at = 0; at < MAP_COUNT; at++) {
        const struct map *m = MAPS + at;
        int card = m->bits >> CARD_FIELD & 1, n = m->bits >> N_FIELD & 1;
        if (o->number == m->number && o->kind == m->kind && o->k < 1024
            && (card ? fits(m, CARD_FIELD, o->card) : o->card == 0)
            && (n ? fits(m, N_FIELD, o->n) : o->n == 0))
            return m;
    }
    return NULL;
}

/* Its bytes by order 8, and how many they are. */
static size_t made(const outcome *o, uint8_t *bytes)
{
    const struct map *m = slip_for(o);
    unsigned values[FIELDS];
    size_t count = 0;
    int field;
    values[BLOCK_FIELD] = o->k & 0xFFu, values[KIND_FIELD] = o->kind;
    values[CARD_FIELD] = o->card, values[N_FIELD] = o->n, values[REFUSAL_FIELD] = o->number;
    bytes[count++] = (uint8_t)m->bits;
    for (field = 0; field < FIELDS; field++) {
        if ((m->bits >> field & 1) == 0)
            continue;
        bytes[count++] = (uint8_t)values[field];
        if (field == BLOCK_FIELD)
            bytes[count++] = (uint8_t)(o->k >> 8);
    }
    return count;
}

static size_t length_of(const outcome *o)
{
    uint8_t bytes[LONGEST];
    return made(o, bytes);
}

/* ------------------------------------------------------------- the compare */

static void fail(const char *what, size_t at)
{
    printf("%s\n  length %lu, offset %lu\n", what, (unsigned long)slips.len,
           (unsigned long)at);
    print_bytes("slips wanted", slips.before + GUARD, slips.len < 64 ? slips.len : 64);
    print_bytes("slips found ", slips.bytes, slips.len < 64 ? slips.len : 64);
    exit(1);
}

/* Numbers are told as 64 bits, since an offset may be any. */
static void same(const char *what, uint64_t got, uint64_t wanted, size_t at)
{
    if (got != wanted) {
        printf("got %lu, wanted %lu: ", (unsigned long)got, (unsigned long)wanted);
        fail(what, at);
    }
}

/* Every call ends here: the slice is as wanted, which stands in its bytes before. */
static void check(const char *call, size_t at)
{
    calls++;
    if (!as_before(&slips))
        fail(call, at);
}

/* ----------------------------------------------------------- every outcome */

/* Clean, chips by their n, cards by theirs, none, and several by the card. */
enum { OUTCOMES = 1 + 2 + 5 * 11 + 1 + 5 };
static outcome every[OUTCOMES];

static void list_outcomes(void)
{
    static const outcome clean = { 0, 0, 0, 0, 0 };
    size_t count = 0;
    unsigned number, kind, card, n;
    for (number = 0; number < 12; number++)
        for (kind = 0; kind < 3; kind++)
            for (card = 0; card < 5; card++)
                for (n = 0; n < 12; n++) {
                    outcome o = clean;
                    o.number = number, o.kind = kind, o.card = card, o.n = n;
                    if (slip_for(&o) != NULL && count++ < OUTCOMES)
                        every[count - 1] = o;
                }
    same("the outcomes that have a slip", count, OUTCOMES, 0);
}

static outcome of_block(size_t which, size_t k)
{
    outcome o = every[which];
    o.k = k;
    return o;
}

/* -------------------------------------------------------------- the writer */

/* One write; what it wrote stays.  Gives the offset after it. */
static size_t try_write(size_t at, const outcome *o)
{
    uint8_t bytes[LONGEST];
    size_t count = 0;
    unsigned wanted = slip_for(o) == NULL ? 16 : 0;
    uint32_t code = livomashen_write_slip(slips.bytes, slips.len, at, o->k, code_of(o));
    livomashen_written w = livomashen_split_written(code, at);
    if (wanted == 0) {
        count = made(o, bytes);
        if (at > slips.len || slips.len - at < count)
            wanted = 17;
    }
    same("the number of a write", w.number, wanted, at);
    same("what is written of it", code, wanted == 0 ? count << 8 : wanted, at);
    same("where the next begins", w.next, wanted == 0 ? at + count : at, at);
    if (wanted == 0)
        memcpy(slips.before + GUARD + at, bytes, count);
    check("a write", at);
    return w.next;
}

/* -------------------------------------------------------------- the reader */

/* What a read is to say: the slip's outcome, or a number and where its cause
 * stands, behind the offset. */
typedef struct wanted_slip {
    unsigned number;
    size_t behind;
    outcome o;
} wanted_slip;

/* The slip at the bytes, of which there are `left`; byte by byte, so that the
 * first cause that is met is the one. */
static wanted_slip read_by_order(const uint8_t *bytes, size_t left)
{
    static const wanted_slip cut = { 15, 0, { 0, 0, 0, 0, 0 } };
    wanted_slip w = { 0, 0, { 0, 0, 0, 0, 0 } };
    unsigned values[FIELDS] = { 0, 0, 0, 0, 0 }, low = 0;
    const struct map *m;
    int field;
    if (left == 0)
        return cut;
    m = map_of(bytes[0]);
    for (field = 0; m != NULL && field < FIELDS; field++) {
        if ((m->bits >> field & 1) == 0)
            continue;
        w.behind++;
        if (field == BLOCK_FIELD && w.behind < left)
            low = bytes[w.behind++];
        if (w.behind >= left)
            return cut;
        values[field] = bytes[w.behind];
        if (!fits(m, field, values[field]))
            break;
    }
    if (m == NULL || field < FIELDS) {
        w.number = 16;
        return w;
    }
    w.behind++;
    w.o.k = low + 256u * values[BLOCK_FIELD];
    w.o.kind = values[KIND_FIELD];
    w.o.card = values[CARD_FIELD];
    w.o.n = values[N_FIELD];
    w.o.number = values[REFUSAL_FIELD];
    return w;
}

static void said_as(const livomashen_answer *a, const outcome *o, size_t at)
{
    same("the number that a slip says", a->number, o->number, at);
    same("the kind that a slip says", a->kind, o->kind, at);
    same("the card that a slip says", a->card, o->card, at);
    same("the n that a slip says", a->n, o->n, at);
    same("the code joined again", livomashen_join_answer(*a), code_of(o), at);
}

/* One read; gives what it said. */
static livomashen_slip try_read(size_t at)
{
    size_t left = at < slips.len ? slips.len - at : 0;
    wanted_slip w = read_by_order(left == 0 ? NULL : slips.bytes + at, left);
    uint64_t code = livomashen_read_slip(slips.bytes, slips.len, at);
    livomashen_slip s = livomashen_split_slip(code, at, slips.len);
    same("the number of a read", s.number, w.number, at);
    same("the offset with it", s.offset, w.number == 15 ? slips.len : at + w.behind, at);
    same("the code with a refusal", w.number == 0 ? 0 : code,
         w.number == 0 ? 0 : w.number + (w.behind << 8), at);
    same("the block of a slip", s.block, w.o.k, at);
    said_as(&s.answer, &w.o, at);
    check("a read", at);
    return s;
}
