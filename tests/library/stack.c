/*
 * stack: how much stack rulefile_witness needs.
 *
 * Each call is made by a thread whose stack was painted before; the deepest byte that is no paint any more
 * says how much was needed. The types are nested as deep as they can be: sums, pairs, and both by turns, to
 * the left and to the right, with as many clauses as patterns for them; and behind seven bits, with 128 clauses.
 * Prints what the dearest calls need, a line for each failure, and the counts last.
 */
#define _DEFAULT_SOURCE /* MAP_ANONYMOUS */
#include "rulefile.h"

#include <pthread.h>
#include <stdarg.h>
#include <stdio.h>
#include <stdlib.h>
#include <string.h>
#include <sys/mman.h>

enum {
    STACK = 1 << 20, /* what the thread has */
    MOST = 1 << 16,  /* what a call may need */
    PAINT = 0xA5,
    NESTED = 63, /* two nodes each and a unit: 127 */
    BEHIND = 47, /* the same behind eight bits */
    BITS = 7,
    CLAUSES = 128, /* a value of seven bits for each */
    STEPS = 32,
    SIDES = 40
};

static size_t passed;
static size_t failed;

static void require(bool done)
{
    if (!done) {
        perror("stack");
        exit(2);
    }
}

/* The file that is built, line by line. */
static char file[RULEFILE_MAX_FILE_LENGTH];
static size_t length;

static void add(const char *form, ...)
{
    va_list numbers;
    va_start(numbers, form);
    int added = vsnprintf(file + length, sizeof file - length, form, numbers);
    va_end(numbers);
    require(added > 0 && (size_t)added < sizeof file - length);
    length += (size_t)added;
}

/* How the types are nested: T line n names line n - 1, and the unit. */
struct shape {
    const char *name;
    int even; /* the kinds, 1 a sum, 2 a product */
    int odd;
    bool right; /* the nested part is the second one */
};

static const struct shape shapes[] = {
    {"sums to the left", 1, 1, false},      {"sums to the right", 1, 1, true},
    {"pairs to the left", 2, 2, false},     {"pairs to the right", 2, 2, true},
    {"by turns, to the left", 1, 2, false}, {"by turns, to the right", 1, 2, true},
};

/* T lines 0 to 63, then the unit and the variable as P lines 0 and 1. */
static void begin(const struct shape *shape)
{
    length = 0;
    add("T,0,0,0\n");
    for (int type = 1; type <= NESTED; type++) {
        int kind = type % 2 == 0 ? shape->even : shape->odd;
        add("T,%d,%d,%d\n", kind, shape->right ? 0 : type - 1, shape->right ? type - 1 : 0);
    }
}

/*
 * P lines for sums: line 2 is the one side of a unit, and line 2 + n that n deep on the other side; lines 42 to
 * 81 have a unit so deep, 1 to 40.
 */
static void add_steps(const struct shape *shape)
{
    int deeper = shape->right ? 3 : 2;
    add("P,0,0,0\nP,1,0,0\nP,%d,0,0\n", 5 - deeper);
    for (int deep = 1; deep < SIDES; deep++)
        add("P,%d,%d,0\n", deeper, 1 + deep);
    add("P,%d,0,0\n", deeper);
    for (int deep = 2; deep <= SIDES; deep++)
        add("P,%d,%d,0\n", deeper, 40 + deep);
}

/* Sums: each clause a step of its own, but for what makes the fault. */
static void build_sums(const struct shape *shape, int number)
{
    int last = 1 + SIDES; /* the deepest step */
    begin(shape);
    add_steps(shape);
    /* T line 31 has 32 values, of which the last one is the unit 31 deep. */
    add("I,%d,%d\n", number == 14 ? STEPS - 1 : NESTED, NESTED);
    for (int clause = 0; clause < STEPS; clause++) {
        int step = 2 + clause;
        bool twice = clause >= STEPS - 2;
        int left = number == 11 && twice ? last : number == 14 && clause == STEPS - 1 ? 72 : step;
        add("C,%d,%d\n", left, number == 12 && twice ? last : step);
    }
    add("I,%d,%d\nC,0,1\nC,41,81\n", NESTED, NESTED); /* all lines are used, behind the fault */
}

/* P lines 4 to 66, where the types are pairs alone: they, and a variable as the innermost part; and an iso with it. */
static void add_deep_iso(const struct shape *shape)
{
    for (int nested = 1; shape->even == 2 && nested <= NESTED; nested++) {
        int below = nested == 1 ? 1 : 2 + nested;
        add("P,4,%d,%d\n", shape->right ? 0 : below, shape->right ? below : 0);
    }
    if (shape->even == 2)
        add("I,%d,%d\nC,%d,%d\n", NESTED, NESTED, 3 + NESTED, 3 + NESTED);
}

/* Other types: a variable in every clause, of one type or of both sides of a sum of smaller ones; or no clause. */
static void build_others(const struct shape *shape, int number)
{
    int half = NESTED / 2;
    begin(shape);
    if (number == 12)
        add("T,1,%d,%d\n", half, half);
    add("P,0,0,0\nP,1,0,0\nP,2,1,0\nP,3,1,0\n");
    add_deep_iso(shape);
    if (number == 12)
        add("I,%d,%d\nC,2,1\nC,3,1\n", NESTED + 1, half);
    else
        add("I,%d,%d\n", NESTED, NESTED);
    for (int clause = 0; number == 11 && clause < CLAUSES; clause++)
        add("C,1,1\n");
    add("I,%d,%d\nC,0,1\nC,2,3\n", NESTED, NESTED);
}

/* A unit or the nested type, of which the unit alone is covered. */
static void build_gap(const struct shape *shape)
{
    begin(shape);
    add("T,1,0,%d\nP,0,0,0\nP,2,0,0\nI,0,%d\nC,0,1\nI,%d,%d\n", NESTED - 1, NESTED + 1, NESTED, NESTED);
}

/* Behind P lines 0 to 3 those of all values of seven bits; gives the first of 128 in a row. */
static int add_values(void)
{
    int rest = 2;
    int next = 4;
    for (int values = 4; values <= CLAUSES; values *= 2) {
        for (int value = 0; value < values; value++)
            add("P,4,%d,%d\n", 2 + value / (values / 2), rest + value % (values / 2));
        rest = next;
        next += values;
    }
    return rest;
}

/* T lines behind those of `begin`: a bit, two bits and so on; seven of them before the nested type, and eight. */
static void add_bits(bool eight)
{
    int bit = NESTED + 1;
    add("T,1,0,0\n");
    for (int bits = 2; bits <= BITS + eight; bits++)
        add("T,2,%d,%d\n", bit, bit + bits - 2);
    for (int bits = BITS; bits <= BITS + eight; bits++)
        add("T,2,%d,%d\n", bit + bits - 1, BEHIND);
}

/*
 * 128 clauses, each with its own value of seven bits before a variable; but for 11 and 12 the last one has that of the
 * one before, and for 13 and 14 a left stands before the bits, so that the rights are left out.
 */
static void build_many(const struct shape *shape, int number)
{
    bool eight = number > 12;
    int seven = NESTED + 1 + BITS + eight; /* the T line of seven bits and the nested type */
    begin(shape);
    add_bits(eight);
    add("P,0,0,0\nP,1,0,0\nP,2,0,0\nP,3,0,0\n");
    int values = add_values();
    int sides = values + CLAUSES;
    for (int value = 0; value < CLAUSES; value++)
        add("P,4,%d,1\n", values + value);
    for (int value = 0; eight && value < CLAUSES; value++)
        add("P,4,2,%d\n", values + value);
    for (int value = 0; eight && value < CLAUSES; value++)
        add("P,4,%d,1\n", sides + CLAUSES + value);
    add("I,%d,%d\n", number == 13 ? seven + 1 : seven, number == 14 ? seven + 1 : seven);
    for (int clause = 0; clause < CLAUSES; clause++) {
        bool last = clause == CLAUSES - 1;
        int left = sides + clause - (number == 11 && last) + (number == 13 ? 2 * CLAUSES : 0);
        add("C,%d,%d\n", left, sides + clause - (number == 12 && last) + (number == 14 ? 2 * CLAUSES : 0));
    }
    add("I,%d,%d\nC,1,1\n", NESTED, NESTED);
}

static void build(const struct shape *shape, int number)
{
    if (shape->even == 1 && shape->odd == 1)
        build_sums(shape, number);
    else if (number == 14)
        build_gap(shape);
    else
        build_others(shape, number);
}

static uint16_t table[RULEFILE_TABLE_LENGTH];
static uint8_t work[RULEFILE_WORK_LENGTH];
static uint8_t result[RULEFILE_RESULT_LENGTH];

static struct rulefile_witness_answer answer;
static const uint8_t *top; /* of the call's stack */

static void *call(void *argument)
{
    uint8_t here = 0;
    (void)argument;
    top = &here;
    answer = rulefile_witness((const uint8_t *)file, length, table, RULEFILE_TABLE_LENGTH, work,
                              RULEFILE_WORK_LENGTH, result, sizeof result);
    return NULL;
}

/* Makes the call on a painted stack, with a page below it that may not be touched, and gives what it needed. */
static size_t needed(void)
{
    size_t guard = 1 << 16;
    uint8_t *base = mmap(NULL, guard + STACK, PROT_READ | PROT_WRITE, MAP_PRIVATE | MAP_ANONYMOUS, -1, 0);
    pthread_attr_t attributes;
    pthread_t thread;
    require(base != MAP_FAILED && mprotect(base, guard, PROT_NONE) == 0);
    memset(base + guard, PAINT, STACK);
    require(pthread_attr_init(&attributes) == 0);
    require(pthread_attr_setstack(&attributes, base + guard, STACK) == 0);
    require(pthread_create(&thread, &attributes, call, NULL) == 0);
    require(pthread_join(thread, NULL) == 0);
    require(pthread_attr_destroy(&attributes) == 0);
    const uint8_t *deepest = base + guard;
    while (*deepest == PAINT)
        deepest++;
    size_t bytes = (size_t)(top - deepest);
    require(munmap(base, guard + STACK) == 0);
    return bytes;
}

/* Whether the file that is built is refused with a number, shown by a setting; raises `most` to what the call needs. */
static void try_built(const char *name, uint32_t number, size_t *most)
{
    size_t bytes = needed();
    bool holds = answer.number == number && answer.length > 0 && bytes < MOST;
    if (!holds)
        printf("stack: %s: number %lu in place of %lu at line %zu, length %zu, %zu bytes\n", name,
               (unsigned long)answer.number, (unsigned long)number, answer.line, answer.length, bytes);
    passed += holds;
    failed += !holds;
    *most = bytes > *most ? bytes : *most;
}

int main(void)
{
    for (size_t i = 0; i < sizeof shapes / sizeof shapes[0]; i++) {
        size_t few = 0;
        size_t many = 0;
        for (uint32_t number = RULEFILE_OVERLAP_LEFT; number <= RULEFILE_GAP_RIGHT; number++) {
            build(&shapes[i], (int)number);
            try_built(shapes[i].name, number, &few);
            build_many(&shapes[i], (int)number);
            try_built(shapes[i].name, number, &many);
        }
        printf("stack: %s: %zu bytes at the most, %zu with 128 clauses\n", shapes[i].name, few, many);
    }
    printf("%zu passed, %zu failed\n", passed, failed);
    return failed == 0 ? 0 : 1;
}
