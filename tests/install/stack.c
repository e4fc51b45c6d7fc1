/*
 * How much stack each function of the library needs, on the deepest files: each call is made on a stack of its own that
 * was painted before, and what was painted over is counted. Prints `function bytes`, one line each; ends with 1 where
 * one needs more than the header says.
 */
#define _GNU_SOURCE
#include "rulefile.h"

#include <pthread.h>
#include <stdio.h>
#include <stdlib.h>
#include <string.h>

enum { STACK = 1 << 20, PAINT = 0xA5, LIMIT = 73728, ISOS = 32, CLAUSES = 128, BITS = 7 };

static uint8_t stack[STACK] __attribute__((aligned(4096)));
static uint16_t table[RULEFILE_TABLE_LENGTH];
static uint8_t work[RULEFILE_WORK_LENGTH], output[RULEFILE_MAX_FILE_LENGTH], letters[600 * 127], result[127];
static uint32_t numbers[1800];
static uint8_t list[RULEFILE_LIST_LENGTH], pairs[CLAUSES * sizeof "127,127"];
static char file[RULEFILE_MAX_FILE_LENGTH], value[128], query[256], script[64];
static size_t length, gap;
static uint32_t last_type, other_type, last_pattern, last_iso = ISOS - 1;
static int settings;

#define FILE_AREAS (const uint8_t *)file, length, table, sizeof table / sizeof table[0], work, sizeof work

static uint32_t none(void) { return 0; }
static uint32_t check(void) { return rulefile_check(FILE_AREAS).number; }
static uint32_t turn(void) { return rulefile_turn(FILE_AREAS, output, sizeof output).number; }
static uint32_t run_way(bool back)
{
    return rulefile_run(FILE_AREAS, last_iso, back, UINT32_MAX, (uint8_t *)value, strlen(value), result, 127).number;
}
static uint32_t run(void) { return run_way(false); }
static uint32_t run_back(void) { return run_way(true); }
static uint32_t sheet(void)
{
    size_t asked = strlen(query);
    return rulefile_sheet(FILE_AREAS, (uint8_t *)query, asked, numbers, 1800, letters, sizeof letters).number;
}
static uint32_t number_of(void)
{
    return rulefile_number_of(FILE_AREAS, last_type, (uint8_t *)value, strlen(value)).number;
}
static uint32_t setting_of(void) { return rulefile_setting_of(FILE_AREAS, last_type, 0, result, 127).number; }
static uint32_t overlap(void) { return rulefile_overlap(FILE_AREAS, last_pattern, last_pattern).number; }
static uint32_t witness(void)
{
    /* without its last clause the file has a gap */
    size_t whole = length;
    length = gap;
    uint32_t number = rulefile_witness(FILE_AREAS, result, 127).number;
    length = whole;
    return number == RULEFILE_GAP_LEFT ? 0 : 1;
}
static uint32_t export_list(void)
{
    return rulefile_export(FILE_AREAS, last_iso, UINT32_MAX, list, sizeof list).number;
}
static uint32_t import_list(void)
{
    size_t count = strlen((char *)pairs);
    return rulefile_import(FILE_AREAS, last_type, last_type, pairs, count, output, sizeof output).number;
}
static uint32_t bounds(void) { return rulefile_bounds(FILE_AREAS, last_iso).number; }
static uint32_t play(void)
{
    /* there and back, both done */
    uint32_t type = last_type, setting = (uint32_t)settings - 1;
    struct rulefile_tally tally;
    size_t played = strlen(script);
    uint32_t number =
        rulefile_play(FILE_AREAS, &type, 1, &setting, 1, (uint8_t *)script, played, UINT32_MAX, &tally).number;
    return number == 0 && tally.done == 2 ? 0 : 1;
}

static const struct {
    const char *name;
    uint32_t (*call)(void);
} calls[] = {
    {"nothing", none},
    {"rulefile_check", check},
    {"rulefile_turn", turn},
    {"rulefile_run", run},
    {"rulefile_run", run_back},
    {"rulefile_sheet", sheet},
    {"rulefile_witness", witness},
    {"rulefile_number_of", number_of},
    {"rulefile_setting_of", setting_of},
    {"rulefile_overlap", overlap},
    {"rulefile_bounds", bounds},
    {"rulefile_export", export_list},
    {"rulefile_import", import_list},
    {"rulefile_play", play},
};
/* Those that a file with lists answers stand first. */
enum { CALLS = sizeof calls / sizeof calls[0], RUNS = 7 };

static void *call(void *given)
{
    uint32_t (*const *function)(void) = given;
    return (*function)() == 0 ? NULL : given;
}

/* The bytes of stack that a call paints over; it must not be refused. */
static size_t used(size_t place)
{
    pthread_attr_t attributes;
    pthread_t thread;
    void *refused;
    uint32_t (*function)(void) = calls[place].call;
    memset(stack, PAINT, sizeof stack);
    if (pthread_attr_init(&attributes) != 0 || pthread_attr_setstack(&attributes, stack, sizeof stack) != 0 ||
        pthread_create(&thread, &attributes, call, &function) != 0 || pthread_join(thread, &refused) != 0)
        exit(2);
    if (refused != NULL) {
        printf("%s is refused\n", calls[place].name);
        exit(2);
    }
    size_t at = 0;
    while (at < sizeof stack && stack[at] == PAINT)
        at++;
    return sizeof stack - at;
}

static void line(const char *form, int a, int b, int c)
{
    length += (size_t)snprintf(file + length, sizeof file - length, form, a, b, c);
}

/* T lines, or P lines: a unit, and so many pairs nested on one side. */
static void add_pairs(char letter, int kind, int count, bool first)
{
    line("%c,0,0,0\n", letter, 0, 0);
    for (int i = 0; i < count; i++) {
        line("%c,%d,", letter, kind, 0);
        line("%d,%d\n", first ? i : 0, first ? 0 : i, 0);
    }
}

/* Behind the value's letters those of the pairs. */
static void add_letters(int count, bool first)
{
    size_t at = strlen(value);
    for (int i = 0; i <= 2 * count; i++)
        value[at + (size_t)i] = first ? (i < count ? 'P' : 'U') : (i % 2 == 0 && i < 2 * count ? 'P' : 'U');
}

/* A type and a pattern of 127 nodes. */
static void nested(bool first)
{
    add_pairs('T', 2, 63, first);
    add_pairs('P', 4, 63, first);
    add_letters(63, first);
    last_type = other_type = last_pattern = 63;
    settings = 1;
}

/* The same, but with a variable as the innermost part, and at the other end an equal type of T lines of its own. */
static void variable(bool first)
{
    add_pairs('T', 2, 63, first);
    line("T,0,0,0\n", 0, 0, 0);
    for (int i = 64; i < 127; i++)
        line("T,2,%d,%d\n", first ? i : 64, first ? 64 : i, 0);
    line("P,0,0,0\nP,1,0,0\n", 0, 0, 0);
    for (int i = 1; i < 64; i++)
        line("P,4,%d,%d\n", first ? i : 0, first ? 0 : i, 0);
    add_letters(63, first);
    last_type = 63;
    other_type = 127;
    last_pattern = 64;
    settings = 1;
}

/* A type of 31 sums, nested on one side; a setting of 31 left or right. */
static void sums(bool first)
{
    add_pairs('T', 1, 31, first);
    line("P,1,0,0\n", 0, 0, 0);
    last_type = other_type = 31;
    last_pattern = 0;
    settings = 32;
    memset(value, first ? 'L' : 'R', 31);
    value[31] = 'U';
}

/* Isos of one clause, the first with this number; with let steps, each of the others calls the one before it. */
static void isos(int first, int end, bool lets)
{
    for (int i = first; i < end; i++) {
        line("I,%d,%d\n", (int)last_type, (int)other_type, 0);
        gap = length;
        line("C,%d,%d\n", (int)last_pattern, (int)last_pattern, 0);
        if (lets && i > first)
            line("L,%d,%d,%d\n", (int)last_pattern, i - 1, (int)last_pattern);
    }
}

/* The values of seven bits: P lines behind so many, of which the first is a unit. Gives the first of 128 in a row. */
static int closed_bits(int lines)
{
    int rest = lines, next = lines + 2;
    line("P,2,0,0\nP,3,0,0\n", 0, 0, 0);
    for (int values = 4; values <= CLAUSES; values *= 2) {
        for (int i = 0; i < values; i++)
            line("P,4,%d,%d\n", lines + i / (values / 2), rest + i % (values / 2), 0);
        rest = next;
        next += values;
    }
    return rest;
}

/* An iso with a clause for each of 128 P lines; where one is to be called, with a let step on the pairs. */
static void clauses(int type, int patterns, int called)
{
    line("I,%d,%d\n", type, type, 0);
    for (int i = 0; i < CLAUSES; i++) {
        gap = length;
        line("C,%d,%d\n", patterns + i, patterns + i, 0);
        if (called > 0)
            line("L,%d,%d,%d\n", (int)last_pattern, called, (int)last_pattern);
    }
}

/*
 * Seven bits before pairs, 127 nodes: the last iso has 128 clauses, each of which calls isos on the pairs, and so has
 * the first, which calls none: without a clause of the last one all lines are used.
 */
static void many(bool first)
{
    enum { PAIRS = 49, BIT = PAIRS + 1, WHOLE = BIT + BITS };
    add_pairs('T', 2, PAIRS, first);
    line("T,1,0,0\n", 0, 0, 0);
    for (int i = 1; i < BITS; i++)
        line("T,2,%d,%d\n", BIT, BIT + i - 1, 0);
    line("T,2,%d,%d\n", WHOLE - 1, PAIRS, 0);
    add_pairs('P', 4, PAIRS, first);
    int closed = closed_bits(PAIRS + 1);
    for (int i = 0; i < CLAUSES; i++)
        line("P,4,%d,%d\n", closed + i, PAIRS, 0);
    last_type = other_type = last_pattern = PAIRS;
    clauses(WHOLE, closed + CLAUSES, 0);
    isos(1, ISOS - 1, true);
    clauses(WHOLE, closed + CLAUSES, ISOS - 2);
    last_type = WHOLE;
    last_pattern = (uint32_t)(closed + 2 * CLAUSES - 1);
    settings = CLAUSES;
    strcpy(value, "PPRUPRUPRUPRUPRUPRURU");
    add_letters(PAIRS, first);
}

/*
 * Request 14: lists nested in lists, 127 nodes; an iso that calls itself on the rest of a list, and a list for which 40
 * calls are nested; and one that without its last clause leaves out what is not empty.
 */
static void zones(void)
{
    enum { LISTS = 126, ELEMENTS = 39 };
    line("T,0,0,0\n", 0, 0, 0);
    for (int i = 0; i < LISTS; i++)
        line("T,3,%d,0\n", i, 0, 0);
    line("P,1,0,0\nP,1,1,0\nP,1,2,0\nP,5,0,0\nP,6,0,1\nP,6,0,2\n", 0, 0, 0);
    line("I,%d,%d\nC,3,3\nC,4,5\nL,2,0,1\n", LISTS, LISTS, 0);
    line("I,%d,%d\nC,3,3\n", LISTS, LISTS, 0);
    gap = length;
    line("C,4,4\n", 0, 0, 0);
    last_iso = 0;
    for (int i = 0; i < ELEMENTS; i++)
        strcat(value, "KN");
    strcat(value, "N");
}

static size_t most[CALLS];

/* Asks for the last iso with the value, there and back, and for a list of every setting to itself. */
static void ask(void)
{
    size_t at = 0;
    snprintf(query, sizeof query, "Q,%u,0,4294967295,%s\n", last_iso, value);
    snprintf(script, sizeof script, "S,0,%u,0\nS,0,%u,1\n", last_iso, last_iso);
    for (int i = 0; i < settings; i++)
        at += (size_t)snprintf((char *)pairs + at, sizeof pairs - at, "%d,%d\n", i, i);
}

/* The first so many calls. */
static void measure(size_t count)
{
    ask();
    for (size_t i = 0; i < count; i++) {
        size_t bytes = used(i);
        if (bytes > most[i])
            most[i] = bytes;
    }
    length = 0;
    memset(value, 0, sizeof value);
}

int main(void)
{
    for (int first = 0; first < 2; first++) {
        nested(first);
        isos(0, ISOS, true);
        measure(CALLS);
        sums(first);
        isos(0, ISOS, true);
        measure(CALLS);
        nested(first);
        isos(0, ISOS, false);
        measure(CALLS);
        variable(first);
        isos(0, ISOS, true);
        measure(CALLS);
        many(first);
        measure(CALLS);
    }
    /* what numbers settings refuses lists with 18 */
    settings = 0;
    zones();
    measure(RUNS);
    int over = 0;
    for (size_t i = 1; i < CALLS; i++) {
        size_t bytes = most[i] - most[0];
        printf("%s %zu\n", calls[i].name, bytes);
        over |= bytes > LIMIT;
    }
    return over;
}
