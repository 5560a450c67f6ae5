/*
 * The calls of the registers, each checked: what a write leaves in the twelve
 * bytes is worked out anew from order 1, beside lent.h's numbers and window, and
 * every byte of registers, bank, output and window is compared after each call.
 * Part of limits_registers.c, and included there alone.
 */
#include "lent.h"

/* The twelve registers, and what is lent beside them. */
static lent held, bank, out;

/* What a command says. */
typedef struct said {
    unsigned number, kind, card, n;
} said;

/* What every block that a command asks for reads as where nothing refuses it,
 * and the 45 bytes that it is mended to.  Most trials have a bank of zeros. */
static const said CLEAN = { 0, 0, 0, 0 };
static said reads = { 0, 0, 0, 0 };
static const uint8_t *mended = ZEROS;

static void fail(const char *what, uint32_t address, unsigned value)
{
    printf("%s\n  address %lu, value %u; lengths: bank %lu, output %lu\n", what,
           (unsigned long)address, value, (unsigned long)bank.len,
           (unsigned long)out.len);
    print_bytes("registers before", held.before + GUARD, 12);
    print_bytes("registers after ", held.bytes, 12);
    print_bytes("window before", window.before + GUARD, 64);
    print_bytes("window after ", window.bytes, 64);
    exit(1);
}

/* ------------------------------------------------------ what is to be said */

static size_t block_asked(const uint8_t *r)
{
    return r[1] + 256u * r[2];
}

static said with_number(unsigned number)
{
    said s = { 0, 0, 0, 0 };
    s.number = number;
    return s;
}

static said patrol_says(const uint8_t *r)
{
    unsigned number = lowest(bank_number(bank.len),
                             lowest(block_number(bank.len, block_asked(r)),
                                    mark_number(r + 8, 4)));
    return number != 0 ? with_number(number) : reads;
}

/* A get has one cause more, and the lowest number. */
static said get_says(const uint8_t *r)
{
    unsigned number = length_number(out.len, 45, 2);
    return number != 0 ? with_number(number) : patrol_says(r);
}

/* A mark command's answer; the record after it goes into the registers. */
static said mark_says(uint8_t *r, uint8_t command)
{
    uint8_t m[4];
    said s;
    memcpy(m, r + 8, 4);
    if (command == 3)
        s = with_number(chip_placed(m, 4, r[3], r + 8));
    else if (command == 4)
        s = with_number(card_placed(m, 4, r[3], r + 8));
    else if (command == 5)
        s = with_number(chip_lifted(m, 4, r[3], r + 8));
    else
        s = with_number(card_lifted(m, 4, r + 8));
    s.kind = s.number == 0 ? 3 : 0;
    return s;
}

/* Makes of the registers before a command those after it. */
static said run_command(uint8_t *r, uint8_t command)
{
    said s = command == 1 ? get_says(r) : command == 2 ? patrol_says(r) : mark_says(r, command);
    r[0] = command;
    r[4] = (uint8_t)(s.number == 0 ? s.kind : 16 + s.number);
    r[5] = (uint8_t)(s.n + 16 * s.card);
    r[7] = (uint8_t)(r[7] | (s.number == 0 ? 1 : 2));
    return s;
}

static unsigned write_number(uint32_t address, uint8_t value)
{
    if (address > 11)
        return 12;
    if (address == 4 || address == 5 || address >= 8)
        return 13;
    return address == 0 && (value == 0 || value > 6) ? 14 : 0;
}

/* --------------------------------------------------- the calls, with checks */

/* 45 bytes of a slice that a command may write: they are the mended block, and
 * are put back as they were. */
static void take_back(lent *l, size_t from, uint32_t address, unsigned value)
{
    if (memcmp(l->bytes + from, mended, 45) != 0)
        fail("a block not mended", address, value);
    memcpy(l->bytes + from, l->before + GUARD + from, 45);
}

/* The window after a get or patrol command that was done; it is put back too. */
static void take_window_back(size_t k, unsigned value)
{
    uint8_t after[64];
    window_after(window.before + GUARD, bank.before + GUARD + 45 * k, mended, after);
    if (memcmp(window.bytes, after, 64) != 0)
        fail("the window after a command", 0, value);
    memcpy(window.bytes, window.before + GUARD, 64);
}

/* The header's reading of bytes 4 and 5. */
static void same_last_answer(said s, uint8_t command)
{
    livomashen_answer a = livomashen_last_answer(held.bytes);
    if (a.number != s.number || a.kind != s.kind || a.card != s.card || a.n != s.n)
        fail("last answer", 0, command);
}

/* A write; all that was lent is as before again at its end. */
static void try_write(uint32_t address, uint8_t value)
{
    uint8_t after[12];
    unsigned wanted = write_number(address, value);
    uint32_t got = livomashen_write_register(held.bytes, address, value, bank.bytes,
                                             bank.len, out.bytes, out.len, window.bytes);
    calls++;
    if (got != wanted)
        fail("the number of a write", address, value);
    memcpy(after, held.before + GUARD, 12);
    if (wanted == 0 && address == 0) {
        said s = run_command(after, value);
        same_last_answer(s, value);
        if (s.number == 0 && value <= 2)
            take_window_back(block_asked(after), value);
        if (s.number == 0 && value == 1)
            take_back(&out, 0, address, value);
        if (s.number == 0 && value == 2)
            take_back(&bank, 45 * block_asked(after), address, value);
    } else if (wanted == 0) {
        after[address] = (uint8_t)(address == 7 ? after[7] & ~value : value);
    }
    if (memcmp(held.bytes, after, 12) != 0)
        fail("the registers after a write", address, value);
    memcpy(held.bytes, held.before + GUARD, 12);
    if (!as_before(&held) || !as_before(&bank) || !as_before(&out) || !as_before(&window))
        fail("bytes written that must stay", address, value);
}

static void try_read(uint32_t address)
{
    livomashen_register wanted = { 12, 0 }, got;
    uint32_t code = livomashen_read_register(held.bytes, address);
    calls++;
    if (address < 12) {
        wanted.number = 0;
        wanted.byte = held.before[GUARD + address];
    }
    got = livomashen_split_register(code);
    if (got.number != wanted.number || got.byte != wanted.byte || code >> 16 != 0)
        fail("a register read", address, code);
    if (!as_before(&held))
        fail("a read that writes", address, code);
}

static void try_interrupt(void)
{
    uint32_t wanted = 0, got = livomashen_interrupt(held.bytes);
    int bit;
    calls++;
    for (bit = 0; bit < 8; bit++)
        if ((held.bytes[6] >> bit & 1) != 0 && (held.bytes[7] >> bit & 1) != 0)
            wanted = 1;
    if (got != wanted)
        fail("the interrupt", 0, got);
    if (!as_before(&held))
        fail("an interrupt that writes", 0, got);
}
