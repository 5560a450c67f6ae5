/*
 * How much stack each call takes.  A call runs on a painted stack of its own,
 * and then the lowest byte is sought that lost its paint.  That is done for
 * every call with seeded inputs of many kinds, right and wrong, each with two
 * paints, since a call may write the paint's own value.
 *
 * Prints a line for each call: its name and the most bytes below the caller's
 * stack pointer, return address and red zone included.  Linked with memset.c,
 * which takes no stack but its return address.
 */
#include "livomashen.h"

#include <stdio.h>
#include <stdlib.h>
#include <string.h>

enum { ROOM = 8192, ROUNDS = 20000, BLOCKS = 3, LENGTH = BLOCKS * 45 };

/* ------------------------------------------------------- the painted stack */

typedef void any_call(void);

/* Calls a function with eight arguments on the stack that ends at `top`. */
uint64_t call_on(void *top, any_call *function, const uint64_t *arguments);

__asm__(".globl call_on\n"
        "call_on:\n"
        "    push %rbp\n"
        "    mov %rsp, %rbp\n"
        "    mov %rsi, %rax\n"
        "    mov %rdx, %r10\n"
        "    lea -16(%rdi), %rsp\n"       /* two of them go by the stack */
        "    mov 48(%r10), %r11\n"
        "    mov %r11, (%rsp)\n"
        "    mov 56(%r10), %r11\n"
        "    mov %r11, 8(%rsp)\n"
        "    mov (%r10), %rdi\n"
        "    mov 8(%r10), %rsi\n"
        "    mov 16(%r10), %rdx\n"
        "    mov 24(%r10), %rcx\n"
        "    mov 32(%r10), %r8\n"
        "    mov 40(%r10), %r9\n"
        "    call *%rax\n"
        "    mov %rbp, %rsp\n"
        "    pop %rbp\n"
        "    ret\n");

static union {
    uint8_t bytes[ROOM];
    uint64_t words[ROOM / 8];
    long double aligned;
} room;

/* The bytes that one call takes of the stack, seen under one paint. */
static size_t taken(any_call *function, const uint64_t *arguments, uint8_t paint)
{
    size_t at = 0;
    memset(room.bytes, paint, ROOM);
    call_on(room.bytes + ROOM, function, arguments);
    while (at < ROOM && room.bytes[at] == paint)
        at++;
    if (at < 64) {
        printf("a call takes more than %d bytes\n", ROOM - 64);
        exit(1);
    }
    return ROOM - 16 - at;
}

/* ------------------------------------------------------------- the inputs */

static uint64_t seed = 1;

static unsigned below(unsigned limit)
{
    seed = seed * 6364136223846793005u + 1442695040888963407u;
    return (unsigned)(seed >> 33) % limit;
}

static uint8_t record[100], block[100], out[100], bank[LENGTH], kept[LENGTH];
static uint8_t marks[4], registers[LIVOMASHEN_REGISTERS], window[LIVOMASHEN_WINDOW];
static uint8_t slips[3 * LIVOMASHEN_LONGEST_SLIP];

static void fill(uint8_t *at, size_t count)
{
    while (count-- > 0)
        *at++ = (uint8_t)below(256);
}

/* The right length, or one time in sixteen any other. */
static size_t length(size_t right)
{
    return below(16) == 0 ? below(100) : right;
}

static void any_marks(void)
{
    unsigned count = below(3), place;
    marks[0] = (uint8_t)(below(2) == 0 ? 255 : below(5));
    marks[1] = (uint8_t)count;
    for (place = 0; place < 2; place++)
        marks[2 + place] = (uint8_t)(place < count ? below(45) : 255);
    if (below(16) == 0)
        marks[below(4)] = (uint8_t)below(256);
}

/* A block of the bank, a chip or card that may be marked, and the marks; or one
 * time in sixteen any bytes. */
static void any_registers(void)
{
    fill(registers, LIVOMASHEN_REGISTERS);
    if (below(16) == 0)
        return;
    registers[LIVOMASHEN_AT_BLOCK_LOW] = (uint8_t)below(BLOCKS + 1);
    registers[LIVOMASHEN_AT_BLOCK_HIGH] = 0;
    registers[LIVOMASHEN_AT_ASKED] = (uint8_t)(below(2) == 0 ? marks[2] : below(46));
    memcpy(registers + LIVOMASHEN_AT_MARKS, marks, 4);
}

/* Few positions, so that most windows have some to propose; now and then fresh,
 * or any bytes. */
static void any_window(void)
{
    unsigned sort = below(16), at;
    if (sort == 0)
        fill(window, LIVOMASHEN_WINDOW);
    else if (sort == 1)
        livomashen_clear_window(window);
    else
        for (at = 0; at < LIVOMASHEN_WINDOW; at++)
            window[at] = (uint8_t)(below(sort) * 7 % 45);
}

/* A code as read, get and patrol give it; one time in eight with a byte of any. */
static uint32_t any_answer(void)
{
    static const uint32_t shapes[] = { 0, 0x01000100, 0x01000200, 10, 11 };
    unsigned sort = below(5);
    uint32_t code = shapes[sort];
    if (sort == 1)
        code += below(2) << 24;
    if (sort == 2)
        code += below(11) << 24;
    if (sort == 2 || sort == 4)
        code += below(5) << 16;
    return below(8) == 0 ? code ^ (uint32_t)below(256) << 8 * below(4) : code;
}

/* Slips one behind the other; one time in four with a byte of any. */
static void any_slips(void)
{
    size_t at = 0;
    int times;
    for (times = 0; times < 5; times++)
        at = livomashen_split_written(livomashen_write_slip(
            slips, sizeof slips, at, below(1024), any_answer()), at).next;
    if (below(4) == 0)
        slips[below(sizeof slips)] = (uint8_t)below(256);
}

/* Damage to a stored block: marked chips, cards, chips, what fits every card,
 * or all of it. */
static void damage(uint8_t *at)
{
    unsigned sort = below(8), times = below(4);
    size_t card = 9u * (marks[0] < 5 && below(2) == 0 ? marks[0] : below(5));
    if (below(2) == 0 && marks[2] < 45)
        at[marks[2]] ^= (uint8_t)below(256);
    if (below(2) == 0 && marks[3] < 45)
        at[marks[3]] ^= (uint8_t)below(256);
    if (sort < 3)
        fill(at + card, 9);
    else if (sort == 3)
        fill(at, 45);
    else if (sort == 4)
        at[card] ^= 8, at[card + 1] ^= 6, at[card + 2] ^= 1;
    while (times-- > 0)
        at[below(45)] ^= (uint8_t)below(256);
}

static void any_input(void)
{
    size_t k;
    any_marks();
    any_registers();
    any_window();
    any_slips();
    for (k = 0; k < BLOCKS; k++) {
        fill(record, 34);
        livomashen_store(record, 34, bank + 45 * k, 45);
        damage(bank + 45 * k);
    }
    memcpy(block, bank, 45);
    memcpy(kept, bank, LENGTH);
}

/* --------------------------------------------------------------- the calls */

enum { MOST = 18 };
static const char *const NAMES[MOST] = {
    "store", "read", "clear", "put", "get", "patrol", "report", "place_chip",
    "lift_chip", "place_card", "lift_card", "write_register", "read_register",
    "interrupt", "clear_window", "propose", "write_slip", "read_slip"
};
static size_t deepest[MOST];

static uint64_t address(const void *at)
{
    return (uint64_t)(uintptr_t)at;
}

/* One call under both paints; bank, marks, registers, window and slips are as
 * before each time. */
static void measure(int call, any_call *function, const uint64_t *arguments)
{
    uint8_t marks_kept[4], registers_kept[LIVOMASHEN_REGISTERS];
    uint8_t window_kept[LIVOMASHEN_WINDOW], slips_kept[sizeof slips];
    int paint;
    memcpy(marks_kept, marks, sizeof marks);
    memcpy(registers_kept, registers, sizeof registers);
    memcpy(window_kept, window, sizeof window);
    memcpy(slips_kept, slips, sizeof slips);
    for (paint = 0; paint < 2; paint++) {
        size_t found = taken(function, arguments, paint == 0 ? 0x5A : 0xC3);
        if (found > deepest[call])
            deepest[call] = found;
        memcpy(bank, kept, LENGTH);
        memcpy(marks, marks_kept, sizeof marks);
        memcpy(registers, registers_kept, sizeof registers);
        memcpy(window, window_kept, sizeof window);
        memcpy(slips, slips_kept, sizeof slips);
    }
}

static void one_round(void)
{
    uint64_t r = address(record), b = address(block), o = address(out),
             n = address(bank), m = address(marks), g = address(registers),
             w = address(window), s = address(slips);
    size_t k = below(BLOCKS + 1), of_bank = below(16) == 0 ? below(LENGTH) : LENGTH;
    size_t of_marks = below(16) == 0 ? below(5) : 4, of_out = length(45);
    size_t of_record = length(34), of_block = length(45);
    uint64_t chip = below(46), card = below(6);
    /* Most writes are commands, and half of those a get or a patrol. */
    uint64_t at = below(4) == 0 ? below(14) : LIVOMASHEN_AT_COMMAND;
    uint64_t value = below(2) == 0 ? 1 + below(2) : below(8);
    /* Half of the slips begin where one does, the others anywhere. */
    uint64_t of_slips = below(8) == 0 ? below(sizeof slips) : sizeof slips;
    uint64_t slip = below(2) == 0 ? 0 : below(sizeof slips + 2), number = below(1100);
    const uint64_t lists[MOST][8] = {
        { r, of_record, o, of_out, 0, 0, 0, 0 },
        { b, of_block, m, of_marks, o, of_out, 0, 0 },
        { n, of_bank, 0, 0, 0, 0, 0, 0 },
        { n, of_bank, k, r, of_record, 0, 0, 0 },
        { n, of_bank, k, m, of_marks, o, of_out, w },
        { n, of_bank, k, m, of_marks, w, 0, 0 },
        { n, of_bank, m, of_marks, 0, 0, 0, 0 },
        { m, of_marks, chip, 0, 0, 0, 0, 0 },
        { m, of_marks, below(2) == 0 ? marks[2] : chip, 0, 0, 0, 0, 0 },
        { m, of_marks, card, 0, 0, 0, 0, 0 },
        { m, of_marks, 0, 0, 0, 0, 0, 0 },
        { g, at, value, n, of_bank, o, of_out, w },
        { g, at, 0, 0, 0, 0, 0, 0 },
        { g, 0, 0, 0, 0, 0, 0, 0 },
        { w, 0, 0, 0, 0, 0, 0, 0 },
        { w, m, of_marks, 0, 0, 0, 0, 0 },
        { s, of_slips, slip, number, any_answer(), 0, 0, 0 },
        { s, of_slips, slip, 0, 0, 0, 0, 0 }
    };
    any_call *const calls[MOST] = {
        (any_call *)livomashen_store, (any_call *)livomashen_read,
        (any_call *)livomashen_clear, (any_call *)livomashen_put,
        (any_call *)livomashen_get, (any_call *)livomashen_patrol,
        (any_call *)livomashen_report, (any_call *)livomashen_place_chip,
        (any_call *)livomashen_lift_chip, (any_call *)livomashen_place_card,
        (any_call *)livomashen_lift_card, (any_call *)livomashen_write_register,
        (any_call *)livomashen_read_register, (any_call *)livomashen_interrupt,
        (any_call *)livomashen_clear_window, (any_call *)livomashen_propose,
        (any_call *)livomashen_write_slip, (any_call *)livomashen_read_slip
    };
    int call;
    for (call = 0; call < MOST; call++)
        measure(call, calls[call], lists[call]);
}

int main(void)
{
    int at;
    for (at = 0; at < ROUNDS; at++) {
        any_input();
        one_round();
    }
    for (at = 0; at < MOST; at++)
        printf("%s %lu\n", NAMES[at], (unsigned long)deepest[at]);
    return 0;
}
