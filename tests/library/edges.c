/*
 * edges [quick]: the C interface at its edges.
 *
 * Every call is compared whole: its answer, and every byte of every area against what document 01 says
 * it holds afterwards. Areas lie in allocated memory of exactly their length, at odd addresses, and
 * against pages that may not be touched. Prints each failure with the line of its case, and the counts
 * last. With `quick` the longest loops take fewer rounds. Reads the stored examples, so it is run in the
 * folder that holds `examples`.
 */
#define _DEFAULT_SOURCE /* MAP_ANONYMOUS, barriers */
#include "rulefile.h"

#include <glob.h>
#include <pthread.h>
#include <stdio.h>
#include <stdlib.h>
#include <string.h>
#include <sys/mman.h>
#include <unistd.h>

#define COUNT_OF(array) (sizeof(array) / sizeof((array)[0]))

/* Counting */

static size_t passed;
static size_t failed;
static bool quick;

static bool record(bool holds, int at, const char *what)
{
    if (holds) {
        passed++;
    } else {
        failed++;
        printf("edges.c:%d: does not hold: %s\n", at, what);
    }
    return holds;
}

#define CHECK_AT(at, condition) record((condition), (at), #condition)
#define CHECK(condition) CHECK_AT(__LINE__, condition)

/* Ends the program where the test itself cannot be set up. */
static void *required(void *pointer)
{
    if (pointer == NULL || pointer == MAP_FAILED) {
        perror("edges");
        exit(2);
    }
    return pointer;
}

static void require(bool done)
{
    required(done ? &passed : NULL);
}

/* Areas */

enum place {
    HEAP,         /* allocated, exactly as long as stated */
    ODD,          /* the same, bytes at an odd address, wider numbers at one that only their width divides */
    BEFORE_GUARD, /* the last byte stands before a page that may not be touched */
    AFTER_GUARD,  /* the first byte stands behind such a page */
    NULL_IF_EMPTY /* as HEAP, but NULL where the length is 0 */
};

struct bytes {
    const uint8_t *start;
    size_t length;
};

#define TEXT(literal) {(const uint8_t *)(literal), sizeof(literal) - 1}

struct area {
    uint8_t *base; /* what was allocated or mapped */
    size_t mapped; /* bytes mapped, 0 where allocated */
    uint8_t *start;
    size_t length;   /* in bytes */
    uint8_t *mirror; /* what the area is to hold */
};

static uint8_t pattern[2 * RULEFILE_MAX_FILE_LENGTH];

/* No byte of the pattern is 0, and a moved piece of it is seen. */
static void fill_pattern(void)
{
    for (size_t i = 0; i < sizeof pattern; i++)
        pattern[i] = (uint8_t)(i % 251 + 1);
}

static uint8_t *allocate(size_t length)
{
    uint8_t *memory = malloc(length);
    require(memory != NULL || length == 0);
    return memory;
}

static size_t page_size(void)
{
    return (size_t)sysconf(_SC_PAGESIZE);
}

/* Maps an area between two pages that may not be touched. */
static void map_area(struct area *area, enum place place)
{
    size_t page = page_size();
    size_t inner = (area->length + page - 1) / page * page;
    area->mapped = inner + 2 * page;
    area->base = required(mmap(NULL, area->mapped, PROT_NONE, MAP_PRIVATE | MAP_ANONYMOUS, -1, 0));
    if (inner > 0)
        require(mprotect(area->base + page, inner, PROT_READ | PROT_WRITE) == 0);
    area->start = area->base + page;
    if (place == BEFORE_GUARD)
        area->start += inner - area->length;
}

static struct area make_area(enum place place, size_t length, size_t step, const uint8_t *content)
{
    struct area area = {.length = length, .mirror = allocate(length)};
    size_t shift = place == ODD ? step : 0;
    if (place == BEFORE_GUARD || place == AFTER_GUARD) {
        map_area(&area, place);
    } else if (place != NULL_IF_EMPTY || length > 0) {
        area.base = allocate(length + shift);
        area.start = area.base + shift;
    }
    if (length > 0) {
        memcpy(area.start, content, length);
        memcpy(area.mirror, content, length);
    }
    return area;
}

/* An area that is only read; between guards, writing to it is an error. */
static struct area make_input(enum place place, struct bytes content)
{
    struct area area = make_area(place, content.length, 1, content.start);
    size_t page = page_size();
    if (area.mapped > 2 * page)
        require(mprotect(area.base + page, area.mapped - 2 * page, PROT_READ) == 0);
    return area;
}

static void free_area(struct area *area)
{
    if (area->mapped > 0)
        require(munmap(area->base, area->mapped) == 0);
    else
        free(area->base);
    free(area->mirror);
}

static bool as_foreseen(const struct area *area)
{
    return area->length == 0 || memcmp(area->start, area->mirror, area->length) == 0;
}

/* Calls */

enum service {
    SERVICE_CHECK,
    SERVICE_TURN,
    SERVICE_RUN,
    SERVICE_SHEET,
    SERVICE_NUMBER_OF,
    SERVICE_SETTING_OF,
    SERVICE_OVERLAP,
    SERVICE_BOUNDS,
    SERVICE_WITNESS,
    SERVICE_EXPORT,
    SERVICE_IMPORT,
    SERVICE_PLAY,
    SERVICES
};

static const char *const service_names[SERVICES] = {"Check",   "Turn",   "Run",     "Sheet",  "Number of", "Setting of",
                                                    "Overlap", "Bounds", "Witness", "Export", "Import",    "Play"};

/* What a query of a sheet is to give. */
struct reply {
    uint32_t number;
    uint32_t count;
    struct bytes letters;
};

/* A list of query lines, and what each is to give. */
struct sheet {
    struct bytes list;
    size_t queries;
    const struct reply *replies;
};

/* A unit of a play. */
struct unit {
    uint32_t type; /* a T line */
    uint32_t setting;
};

/* The units before a play and, where it is not refused, after it; the lengths stated for their two areas; the tally. */
struct units {
    const struct unit *before;
    const struct unit *after;
    size_t types;
    size_t settings;
    struct rulefile_tally tally;
};

/*
 * Only a call of Sheet has queries, and only one of Play units. The type is that of a setting, which goes in as a
 * value or as a number. The value of an import is its list, that of a play its script.
 */
struct call {
    enum service service;
    struct bytes file;
    uint32_t iso;
    bool back;
    uint32_t budget;
    struct bytes value;
    struct sheet sheet;
    uint32_t type;
    uint32_t setting;
    uint32_t left; /* P lines to compare, or the T lines of an import */
    uint32_t right;
    struct units units;
};

struct answer {
    uint32_t number;
    size_t line;
    uint32_t count;
    size_t length;
    size_t queries;
    uint32_t setting;
    bool clash;
    uint32_t pairs;
    uint32_t least;
    uint32_t greatest;
    bool least_over;
    bool greatest_over;
};

/*
 * The areas that a call writes: the table and the work area; the output of Turn, an export or an import, the
 * result of Run, of a setting's number or of a witness, or the letters of a sheet; the numbers of a sheet; the units
 * and the tally of a play.
 */
struct lent {
    struct area table;
    struct area work;
    struct area out;
    struct area numbers;
    struct area types;
    struct area settings;
    struct area tally;
};

/* Work area and output in bytes, the tally in structs, the others in numbers. */
struct lengths {
    size_t table;
    size_t work;
    size_t out;
    size_t numbers;
    size_t types;
    size_t settings;
    size_t tally;
};

enum { LAST_NUMBER = RULEFILE_TOO_LARGE };

static const struct bytes nothing = {NULL, 0};
static bool hit[SERVICES][LAST_NUMBER + 1];
static bool hit_by_query[LAST_NUMBER + 1];

/* For a sheet of so many queries. */
static struct lengths sheet_lengths(size_t queries)
{
    return (struct lengths){.table = RULEFILE_TABLE_LENGTH,
                            .work = RULEFILE_WORK_LENGTH,
                            .out = RULEFILE_RESULT_LENGTH * queries,
                            .numbers = RULEFILE_NUMBERS_A_QUERY * queries};
}

static struct lengths exact_lengths(const struct call *call)
{
    struct lengths lengths = sheet_lengths(call->sheet.queries);
    if (call->service == SERVICE_TURN)
        lengths.out = call->file.length;
    if (call->service == SERVICE_RUN || call->service == SERVICE_SETTING_OF || call->service == SERVICE_WITNESS)
        lengths.out = RULEFILE_RESULT_LENGTH;
    if (call->service == SERVICE_EXPORT)
        lengths.out = RULEFILE_LIST_LENGTH;
    if (call->service == SERVICE_IMPORT)
        lengths.out = RULEFILE_MAX_FILE_LENGTH;
    lengths.types = call->units.types;
    lengths.settings = call->units.settings;
    lengths.tally = call->service == SERVICE_PLAY;
    return lengths;
}

static struct lent lend(enum place place, struct lengths lengths)
{
    struct lent lent = {
        make_area(place, 2 * lengths.table, 2, pattern),
        make_area(place, lengths.work, 1, pattern),
        make_area(place, lengths.out, 1, pattern),
        make_area(place, 4 * lengths.numbers, 4, pattern),
        make_area(place, 4 * lengths.types, 4, pattern),
        make_area(place, 4 * lengths.settings, 4, pattern),
        make_area(place, lengths.tally * sizeof(struct rulefile_tally), 4, pattern),
    };
    return lent;
}

static void give_back(struct lent *lent)
{
    free_area(&lent->table);
    free_area(&lent->work);
    free_area(&lent->out);
    free_area(&lent->numbers);
    free_area(&lent->types);
    free_area(&lent->settings);
    free_area(&lent->tally);
}

static uint16_t *rows_of(uint8_t *bytes)
{
    return (uint16_t *)(void *)bytes;
}

static uint32_t *numbers_of(uint8_t *bytes)
{
    return (uint32_t *)(void *)bytes;
}

static struct rulefile_tally *tally_of(uint8_t *bytes)
{
    return (struct rulefile_tally *)(void *)bytes;
}

static void put_types(uint8_t *bytes, const struct unit *units, size_t count)
{
    for (size_t i = 0; i < count; i++)
        numbers_of(bytes)[i] = units[i].type;
}

static void put_settings(uint8_t *bytes, const struct unit *units, size_t count)
{
    for (size_t i = 0; i < count; i++)
        numbers_of(bytes)[i] = units[i].setting;
}

/* Puts the units that a play begins with into their areas. */
static void lend_units(const struct units *units, const struct lent *lent)
{
    put_types(lent->types.start, units->before, units->types);
    put_types(lent->types.mirror, units->before, units->types);
    put_settings(lent->settings.start, units->before, units->settings);
    put_settings(lent->settings.mirror, units->before, units->settings);
}

/* The list of a sheet, or the value of another service. */
static struct bytes input_of(const struct call *call)
{
    return call->service == SERVICE_SHEET ? call->sheet.list : call->value;
}

/* The two ways of settings as numbers. */
static struct answer call_settings(const struct call *call, const struct area *file, const struct area *input,
                                   const struct lent *lent)
{
    uint16_t *table = rows_of(lent->table.start);
    size_t table_length = lent->table.length / 2;
    if (call->service == SERVICE_NUMBER_OF) {
        struct rulefile_number_answer a =
            rulefile_number_of(file->start, file->length, table, table_length, lent->work.start,
                               lent->work.length, call->type, input->start, input->length);
        return (struct answer){.number = a.number, .setting = a.setting};
    }
    struct rulefile_setting_answer a =
        rulefile_setting_of(file->start, file->length, table, table_length, lent->work.start, lent->work.length,
                            call->type, call->setting, lent->out.start, lent->out.length);
    return (struct answer){.number = a.number, .length = a.length};
}

static struct answer call_overlap(const struct call *call, const struct area *file, const struct lent *lent)
{
    struct rulefile_overlap_answer a =
        rulefile_overlap(file->start, file->length, rows_of(lent->table.start), lent->table.length / 2,
                         lent->work.start, lent->work.length, call->left, call->right);
    return (struct answer){.number = a.number, .line = a.line, .clash = a.clash, .pairs = a.pairs};
}

static struct answer call_bounds(const struct call *call, const struct area *file, const struct lent *lent)
{
    struct rulefile_bounds_answer a =
        rulefile_bounds(file->start, file->length, rows_of(lent->table.start), lent->table.length / 2,
                        lent->work.start, lent->work.length, call->iso);
    return (struct answer){.number = a.number,
                           .least = a.least,
                           .greatest = a.greatest,
                           .least_over = a.least_over,
                           .greatest_over = a.greatest_over};
}

static struct answer call_witness(const struct area *file, const struct lent *lent)
{
    struct rulefile_witness_answer a =
        rulefile_witness(file->start, file->length, rows_of(lent->table.start), lent->table.length / 2,
                         lent->work.start, lent->work.length, lent->out.start, lent->out.length);
    return (struct answer){.number = a.number, .line = a.line, .length = a.length};
}

/* The two ways of pair lists. */
static struct answer call_lists(const struct call *call, const struct area *file, const struct area *input,
                                const struct lent *lent)
{
    uint16_t *table = rows_of(lent->table.start);
    size_t table_length = lent->table.length / 2;
    if (call->service == SERVICE_EXPORT) {
        struct rulefile_export_answer a =
            rulefile_export(file->start, file->length, table, table_length, lent->work.start, lent->work.length,
                            call->iso, call->budget, lent->out.start, lent->out.length);
        return (struct answer){.number = a.number, .line = a.line, .length = a.length};
    }
    struct rulefile_import_answer a =
        rulefile_import(file->start, file->length, table, table_length, lent->work.start, lent->work.length,
                        call->left, call->right, input->start, input->length, lent->out.start, lent->out.length);
    return (struct answer){.number = a.number, .line = a.line, .length = a.length};
}

/* The lengths of the units are those stated, also where their areas are longer. */
static struct answer call_play(const struct call *call, const struct area *file, const struct area *input,
                               const struct lent *lent)
{
    struct rulefile_play_answer a =
        rulefile_play(file->start, file->length, rows_of(lent->table.start), lent->table.length / 2,
                      lent->work.start, lent->work.length, numbers_of(lent->types.start), call->units.types,
                      numbers_of(lent->settings.start), call->units.settings, input->start, input->length,
                      call->budget, tally_of(lent->tally.start));
    return (struct answer){.number = a.number, .line = a.line};
}

static struct answer make_call(const struct call *call, const struct area *file, const struct area *input,
                               const struct lent *lent)
{
    if (call->service == SERVICE_PLAY)
        return call_play(call, file, input, lent);
    if (call->service == SERVICE_OVERLAP)
        return call_overlap(call, file, lent);
    if (call->service == SERVICE_BOUNDS)
        return call_bounds(call, file, lent);
    if (call->service == SERVICE_WITNESS)
        return call_witness(file, lent);
    if (call->service == SERVICE_EXPORT || call->service == SERVICE_IMPORT)
        return call_lists(call, file, input, lent);
    if (call->service == SERVICE_NUMBER_OF || call->service == SERVICE_SETTING_OF)
        return call_settings(call, file, input, lent);
    uint16_t *table = rows_of(lent->table.start);
    size_t table_length = lent->table.length / 2;
    if (call->service == SERVICE_CHECK) {
        struct rulefile_check_answer a =
            rulefile_check(file->start, file->length, table, table_length, lent->work.start, lent->work.length);
        return (struct answer){.number = a.number, .line = a.line};
    }
    if (call->service == SERVICE_TURN) {
        struct rulefile_turn_answer a =
            rulefile_turn(file->start, file->length, table, table_length, lent->work.start, lent->work.length,
                          lent->out.start, lent->out.length);
        return (struct answer){.number = a.number, .line = a.line, .length = a.length};
    }
    if (call->service == SERVICE_SHEET) {
        struct rulefile_sheet_answer a =
            rulefile_sheet(file->start, file->length, table, table_length, lent->work.start, lent->work.length,
                           input->start, input->length, numbers_of(lent->numbers.start),
                           lent->numbers.length / 4, lent->out.start, lent->out.length);
        return (struct answer){.number = a.number, .line = a.line, .queries = a.queries};
    }
    struct rulefile_run_answer a =
        rulefile_run(file->start, file->length, table, table_length, lent->work.start, lent->work.length,
                     call->iso, call->back, call->budget, input->start, input->length,
                     lent->out.start, lent->out.length);
    return (struct answer){.number = a.number, .count = a.count, .length = a.length};
}

/* The size of a row: the nodes of a T or P line, which names earlier lines of its letter; `first` is its letter's first row. */
static uint16_t size_of(const uint16_t *row, const uint16_t *first)
{
    bool type = row[0] == 'T';
    if ((!type && row[0] != 'P') || row[1] == 0 || (!type && (row[1] == 1 || row[1] == 5)))
        return type || row[0] == 'P';
    bool two = type ? row[1] != 3 : row[1] == 4 || row[1] == 6;
    return (uint16_t)(1 + first[5 * row[2] + 4] + (two ? first[5 * row[3] + 4] : 0));
}

/* The table of an accepted file: five numbers a line. */
static void put_rows(struct bytes file, uint16_t *row)
{
    size_t field = 0;
    const uint16_t *first = row;
    for (size_t i = 0; i < file.length; i++) {
        uint8_t byte = file.start[i];
        if (byte == '\n') {
            if (row[0] != first[0])
                first = row;
            row[4] = size_of(row, first);
            row += 5;
            field = 0;
        } else if (byte == ',') {
            field++;
        } else if (field == 0) {
            row[0] = byte;
        } else if (byte != '\r') {
            row[field] = (uint16_t)(10 * row[field] + (byte - '0'));
        }
    }
}

/* The numbers and letters of a sheet: three numbers a query, and its letters at the front of its 127 bytes. */
static void put_replies(const struct sheet *sheet, uint32_t *three, uint8_t *place)
{
    for (size_t i = 0; i < sheet->queries; i++) {
        struct bytes letters = sheet->replies[i].letters;
        three[0] = sheet->replies[i].number;
        three[1] = sheet->replies[i].count;
        three[2] = (uint32_t)letters.length;
        if (letters.length > 0)
            memcpy(place, letters.start, letters.length);
        three += RULEFILE_NUMBERS_A_QUERY;
        place += RULEFILE_RESULT_LENGTH;
    }
}

/* Whether a call with this answer has accepted its file: the ceilings of an import name no line of it, and a witness
 * of too many letters is of a refused one. */
static bool accepted_file(const struct call *call, struct answer answer)
{
    bool of_import = call->service == SERVICE_IMPORT && answer.number == RULEFILE_CEILING && answer.line == 0;
    bool of_file = answer.number == RULEFILE_IDLE_LINE || answer.number == RULEFILE_RECURSION ||
                   (call->service == SERVICE_WITNESS && answer.number == RULEFILE_TOO_LARGE);
    bool of_call = answer.number >= RULEFILE_NO_ISO && !of_file;
    return answer.number == RULEFILE_ACCEPTED || of_call || of_import;
}

/* Makes the mirrors what the areas are to hold after a call with this answer. */
static void foresee(const struct call *call, struct lent *lent, struct answer answer, struct bytes text)
{
    if (answer.number == RULEFILE_SHORT_AREA || answer.number == RULEFILE_TOO_LONG)
        return;
    memset(lent->table.mirror, 0, 2 * RULEFILE_TABLE_LENGTH);
    memset(lent->work.mirror, 0, RULEFILE_WORK_LENGTH);
    if (accepted_file(call, answer))
        put_rows(call->file, rows_of(lent->table.mirror));
    if (answer.number == RULEFILE_ACCEPTED)
        put_replies(&call->sheet, numbers_of(lent->numbers.mirror), lent->out.mirror);
    if (answer.number == RULEFILE_ACCEPTED && call->service == SERVICE_PLAY) {
        put_types(lent->types.mirror, call->units.after, call->units.types);
        put_settings(lent->settings.mirror, call->units.after, call->units.settings);
        *tally_of(lent->tally.mirror) = call->units.tally;
    }
    if (text.length > 0)
        memcpy(lent->out.mirror, text.start, text.length);
}

/* An answer, and which areas hold what they are to hold. */
struct outcome {
    struct answer answer;
    bool table;
    bool work;
    bool out;
    bool numbers;
    bool units;
    bool tally;
    bool inputs;
};

static struct outcome perform(enum place place, struct lent *lent, const struct call *call,
                              struct answer expected, struct bytes text)
{
    struct area file = make_input(place, call->file);
    struct area input = make_input(place, input_of(call));
    lend_units(&call->units, lent);
    struct outcome outcome = {.answer = make_call(call, &file, &input, lent)};
    foresee(call, lent, expected, text);
    outcome.table = as_foreseen(&lent->table);
    outcome.work = as_foreseen(&lent->work);
    outcome.out = as_foreseen(&lent->out);
    outcome.numbers = as_foreseen(&lent->numbers);
    outcome.units = as_foreseen(&lent->types) && as_foreseen(&lent->settings);
    outcome.tally = as_foreseen(&lent->tally);
    outcome.inputs = as_foreseen(&file) && as_foreseen(&input);
    free_area(&file);
    free_area(&input);
    return outcome;
}

static bool same_answer(struct answer a, struct answer b)
{
    return a.number == b.number && a.line == b.line && a.count == b.count && a.length == b.length &&
           a.queries == b.queries && a.setting == b.setting && a.clash == b.clash && a.pairs == b.pairs &&
           a.least == b.least && a.greatest == b.greatest && a.least_over == b.least_over &&
           a.greatest_over == b.greatest_over;
}

static void print_answer(const char *label, struct answer a)
{
    printf("    %s: number %lu, line %zu, count %lu, length %zu, queries %zu, setting %lu, clash %d, pairs %lu\n",
           label, (unsigned long)a.number, a.line, (unsigned long)a.count, a.length, a.queries,
           (unsigned long)a.setting, a.clash, (unsigned long)a.pairs);
    printf("    %s: least %lu, greatest %lu, over %d and %d\n", label, (unsigned long)a.least,
           (unsigned long)a.greatest, a.least_over, a.greatest_over);
}

static void mark(bool *numbers, uint32_t number)
{
    if (number <= LAST_NUMBER)
        numbers[number] = true;
}

/* Records an outcome: six checks, and two more of a play. */
static void judge(int at, const struct call *call, struct outcome outcome, struct answer expected)
{
    struct answer found = outcome.answer;
    size_t before = failed;
    CHECK_AT(at, same_answer(found, expected));
    CHECK_AT(at, outcome.table);
    CHECK_AT(at, outcome.work);
    CHECK_AT(at, outcome.out);
    CHECK_AT(at, outcome.numbers);
    CHECK_AT(at, outcome.inputs);
    if (call->service == SERVICE_PLAY) {
        CHECK_AT(at, outcome.units);
        CHECK_AT(at, outcome.tally);
    }
    if (failed > before) {
        printf("  in %s:\n", service_names[call->service]);
        print_answer("expected", expected);
        print_answer("found", found);
    }
    mark(hit[call->service], found.number);
    for (size_t i = 0; failed == before && i < found.queries; i++)
        mark(hit_by_query, call->sheet.replies[i].number);
}

/* What a case is tried with: fresh areas, longer than exact by `extra`, or areas that are kept. */
struct setting {
    enum place place;
    size_t extra;
    struct lent *kept;
};

/* What an answer says of what was written: the text's length, and the queries of a sheet not refused. */
static struct answer with_lengths(struct answer answer, const struct call *call, struct bytes text)
{
    answer.length = text.length;
    answer.queries = answer.number == RULEFILE_ACCEPTED ? call->sheet.queries : 0;
    return answer;
}

/* One call, whose answer is given without lengths. */
static void try_call(int at, const struct setting *setting, const struct call *call, struct answer expected,
                     struct bytes text)
{
    struct lengths lengths = exact_lengths(call);
    struct lent fresh = {0};
    struct lent *lent = setting->kept;
    lengths.table += setting->extra;
    lengths.work += setting->extra;
    lengths.out += setting->extra;
    lengths.numbers += setting->extra;
    lengths.types += setting->extra;
    lengths.settings += setting->extra;
    if (lent == NULL) {
        fresh = lend(setting->place, lengths);
        lent = &fresh;
    }
    expected = with_lengths(expected, call, text);
    judge(at, call, perform(setting->place, lent, call, expected, text), expected);
    if (lent == &fresh)
        give_back(&fresh);
}

/* Cases */

/* Document 01's file S: lines 1 to 11, 12 to 14, 15 and 16, 17, 18. */
#define S_TREES "T,0,0,0\nT,1,0,0\nT,2,1,1\nP,0,0,0\nP,2,0,0\nP,3,0,0\nP,1,0,0\nP,1,1,0\nP,4,1,3\nP,4,1,4\nP,4,2,3\n"
#define S_TO_16 S_TREES "I,1,1\nC,1,2\nC,2,1\nI,2,2\nC,5,6\n"
#define S S_TO_16 "L,4,0,3\nC,7,7\n"
#define S_RETURNS S_TREES "I,1,1\r\nC,1,2\r\nC,2,1\nI,2,2\r\nC,5,6\nL,4,0,3\r\nC,7,7\r\n"
#define S_TURNED S_TREES "I,1,1\nC,2,1\nC,1,2\nI,2,2\nC,6,5\nL,3,0,4\nC,7,7\n"
#define SEVEN_TYPES "T,0,0,0\nT,2,0,0\nT,2,1,1\nT,2,2,2\nT,2,3,3\nT,2,4,4\nT,2,5,5\n"
#define SEVEN_USED SEVEN_TYPES "P,1,0,0\nI,6,6\nC,0,0\n"
#define TWO_UNITS "T,0,0,0\nT,0,0,0\nP,0,0,0\n"
#define IDLE_UNIT TWO_UNITS /* where no line names T line 1 */
#define LET_UNITS "T,0,0,0\nP,0,0,0\nP,0,0,0\nP,0,0,0\nI,0,0\nC,0,0\nI,0,0\nC,0,0\n"
#define BIT "T,0,0,0\nT,1,0,0\nP,0,0,0\nP,2,0,0\nP,3,0,0\n"

/* Three steps LU, RLU, RRU; iso 0: one further; 1: the first two exchanged; 2: 0, then 1; 3: 0 twice. */
#define STEPS_TREES                                                                                          \
    "T,0,0,0\nT,1,0,0\nT,1,0,1\n"                                                                            \
    "P,0,0,0\nP,2,0,0\nP,3,0,0\nP,3,1,0\nP,3,2,0\nP,1,0,0\nP,1,1,0\nP,1,2,0\n"
#define STEPS                                                                                                \
    STEPS_TREES "I,2,2\nC,1,3\nC,3,4\nC,4,1\nI,2,2\nC,1,3\nC,3,1\nC,4,4\n"                                   \
                "I,2,2\nC,5,7\nL,6,0,5\nL,7,1,6\nI,2,2\nC,5,7\nL,6,0,5\nL,7,0,6\n"
#define STEPS_TURNED                                                                                         \
    STEPS_TREES "I,2,2\nC,3,1\nC,4,3\nC,1,4\nI,2,2\nC,3,1\nC,1,3\nC,4,4\n"                                   \
                "I,2,2\nC,7,5\nL,6,1,7\nL,5,0,6\nI,2,2\nC,7,5\nL,6,0,7\nL,5,0,6\n"

/* A bit to a bit and a unit, so that the types of the two sides differ. */
#define WIDER_TREES "T,0,0,0\nT,1,0,0\nT,2,1,0\nP,0,0,0\nP,2,0,0\nP,3,0,0\nP,4,1,0\nP,4,2,0\n"
#define WIDER WIDER_TREES "I,1,2\nC,1,4\nC,2,3\n"
#define WIDER_TURNED WIDER_TREES "I,2,1\nC,4,1\nC,3,2\n"

#define S_QUERIES                                                                                            \
    "Q,1,0,9,PLURU\nQ,1,1,9,PLULU\nQ,1,0,2,PRULU\nQ,1,0,2,PLURU\n"                                           \
    "Q,1,0,1,PLURU\nQ,2,0,9,U\nQ,1,0,9,PLU\n"

/* Zones of a bit each: iso 0 exchanges them all, iso 1 exchanges one bit. */
#define ZONES_TREES                                                                                          \
    "T,0,0,0\nT,1,0,0\nT,3,1,0\nP,0,0,0\nP,2,0,0\nP,3,0,0\nP,5,0,0\nP,1,0,0\nP,1,1,0\n"                      \
    "P,6,1,4\nP,6,2,4\nP,6,1,5\nP,6,2,5\n"
#define ZONES ZONES_TREES "I,2,2\nC,3,3\nC,6,9\nL,5,0,4\nC,7,8\nL,5,0,4\nI,1,1\nC,1,2\nC,2,1\n"
#define ZONES_TURNED ZONES_TREES "I,2,2\nC,3,3\nC,9,6\nL,4,0,5\nC,8,7\nL,4,0,5\nI,1,1\nC,2,1\nC,1,2\n"
/* One that calls itself twice; P line 9 is named behind it. */
#define ZONES_TWICE                                                                                          \
    ZONES_TREES "I,2,2\nC,3,3\nC,6,6\nL,5,0,4\nL,4,0,5\nC,7,8\nL,5,0,4\nI,1,1\nC,9,2\nC,2,1\n"

/* Each unit of a list becomes a pair of units. */
#define PAIRED                                                                                               \
    "T,0,0,0\nT,3,0,0\nT,2,0,0\nT,3,2,0\nP,0,0,0\nP,5,0,0\nP,1,0,0\nP,1,1,0\nP,6,0,2\nP,4,0,0\nP,6,5,3\n"    \
    "I,1,3\nC,1,1\nC,4,6\nL,3,0,2\n"

/* Ten zones left, ten right; 31 units, and 31 pairs of them. */
#define LEFTS "KLUKLUKLUKLUKLUKLUKLUKLUKLUKLU"
#define RIGHTS "KRUKRUKRUKRUKRUKRUKRUKRUKRUKRU"
#define UNITS_LISTED "KUKUKUKUKUKUKUKUKUKUKUKUKUKUKUKUKUKUKUKUKUKUKUKUKUKUKUKUKUKUKU"
#define PAIRS_LISTED                                                                                         \
    "KPUUKPUUKPUUKPUUKPUUKPUUKPUUKPUUKPUUKPUUKPUUKPUUKPUUKPUUKPUUKPUU"                                         \
    "KPUUKPUUKPUUKPUUKPUUKPUUKPUUKPUUKPUUKPUUKPUUKPUUKPUUKPUUKPUU"

/* Lists of values of 31 or of 63 letters, of which those of two elements are not matched. */
#define LISTS_OF(types, number, list)                                                                        \
    "T,0,0,0\nT,2,0,0\nT,2,1,1\nT,2,2,2\nT,2,3,3\n" types "T,3," number ",0\nP,1,0,0\nP,5,0,0\nP,6,0,1\n"      \
    "I," list "," list "\nC,1,1\nC,2,2\n"

struct file_case {
    int at;
    uint32_t number;
    size_t line;
    struct bytes file;
    struct bytes turned; /* where accepted */
};

static const struct file_case file_cases[] = {
    /* document 01 */
    {__LINE__, 0, 0, TEXT(""), TEXT("")},
    {__LINE__, 0, 0, TEXT(S), TEXT(S_TURNED)},
    {__LINE__, 0, 0, TEXT(S_TURNED), TEXT(S)},
    {__LINE__, 21, 11, TEXT(S_TO_16 "L,4,0,3\n"), TEXT("")},
    {__LINE__, 11, 15, TEXT(S "C,7,7\n"), TEXT("")},
    {__LINE__, 10, 16, TEXT(S_TO_16 "L,4,1,3\nC,7,7\n"), TEXT("")}, /* request 14 */
    {__LINE__, 6, 17, TEXT(S_TO_16 "L,4,2,3\nC,7,7\n"), TEXT("")},
    {__LINE__, 8, 16, TEXT(S_TO_16 "C,7,7\n"), TEXT("")},
    {__LINE__, 8, 16, TEXT(S_TO_16 "L,4,0,1\nC,7,7\n"), TEXT("")},
    {__LINE__, 14, 5, TEXT("T,0,0,0\nT,1,0,0\nP,0,0,0\nP,2,0,0\nI,0,1\nC,0,1\n"), TEXT("")},
    {__LINE__, 21, 1, TEXT(SEVEN_TYPES), TEXT("")},
    {__LINE__, 0, 0, TEXT(SEVEN_USED), TEXT(SEVEN_USED)},
    {__LINE__, 7, 8, TEXT(SEVEN_TYPES "T,2,6,6\n"), TEXT("")},
    /* let steps last to first, types exchanged */
    {__LINE__, 0, 0, TEXT(STEPS), TEXT(STEPS_TURNED)},
    {__LINE__, 0, 0, TEXT(STEPS_TURNED), TEXT(STEPS)},
    {__LINE__, 0, 0, TEXT(WIDER), TEXT(WIDER_TURNED)},
    {__LINE__, 0, 0, TEXT(WIDER_TURNED), TEXT(WIDER)},
    /* lists and calls of the own iso */
    {__LINE__, 0, 0, TEXT(ZONES), TEXT(ZONES_TURNED)},
    {__LINE__, 0, 0, TEXT(ZONES_TURNED), TEXT(ZONES)},
    {__LINE__, 23, 16, TEXT(ZONES_TWICE), TEXT("")},
    {__LINE__, 23, 3, TEXT("T,0,0,0\nP,0,0,0\nI,0,0\nC,0,0\nL,0,0,0\n"), TEXT("")},
    {__LINE__, 5, 2, TEXT("T,0,0,0\nT,3,0,1\n"), TEXT("")},
    {__LINE__, 6, 2, TEXT("T,0,0,0\nT,3,1,0\n"), TEXT("")},
    {__LINE__, 5, 1, TEXT("T,4,0,0\n"), TEXT("")},
    {__LINE__, 5, 1, TEXT("P,5,1,0\n"), TEXT("")},
    {__LINE__, 6, 1, TEXT("P,6,0,0\n"), TEXT("")},
    {__LINE__, 5, 1, TEXT("P,7,0,0\n"), TEXT("")},
    /* a file for each refusal from 3 on */
    {__LINE__, 3, 2, TEXT("T,0,0,0\nT,01,0,0\n"), TEXT("")},
    {__LINE__, 4, 3, TEXT("T,0,0,0\nP,0,0,0\nT,0,0,0\n"), TEXT("")},
    {__LINE__, 5, 3, TEXT("T,0,0,0\nP,0,0,0\nP,1,32,0\n"), TEXT("")},
    {__LINE__, 6, 2, TEXT("T,0,0,0\nT,1,0,1\n"), TEXT("")},
    {__LINE__, 9, 13, TEXT(BIT "P,1,0,0\nP,1,1,0\nP,2,4,0\nI,1,1\nC,1,2\nC,2,1\nI,1,1\nC,3,4\nL,5,0,3\n"), TEXT("")},
    {__LINE__, 10, 5, TEXT("T,0,0,0\nT,1,0,0\nP,0,0,0\nI,0,1\nC,0,0\n"), TEXT("")},
    {__LINE__, 12, 6, TEXT(BIT "I,1,1\nC,1,1\nC,2,1\n"), TEXT("")},
    /* idle lines: the first one, one that idle lines alone name, lines that one side or a let step alone names */
    {__LINE__, 21, 1, TEXT(S_TREES), TEXT("")},
    {__LINE__, 21, 3, TEXT("T,0,0,0\nT,1,0,0\nT,0,0,0\nP,1,0,0\nP,0,0,0\nI,1,1\nC,0,0\n"), TEXT("")},
    {__LINE__, 21, 6, TEXT(BIT "P,1,0,0\nI,1,1\nC,1,2\nC,2,1\n"), TEXT("")},
    {__LINE__, 21, 2, TEXT("T,0,0,0\nT,2,0,0\nT,2,1,1\nP,0,0,0\nI,0,0\nC,0,0\n"), TEXT("")},
    {__LINE__, 21, 3, TEXT("T,0,0,0\nP,0,0,0\nP,0,0,0\nP,4,1,1\nI,0,0\nC,0,0\n"), TEXT("")},
    {__LINE__, 21, 2, TEXT("T,0,0,0\r\nT,0,0,0\r\nP,0,0,0\nI,0,0\r\nC,0,0\n"), TEXT("")},
    {__LINE__, 0, 0, TEXT(LET_UNITS "L,1,0,2\n"), TEXT(LET_UNITS "L,2,0,1\n")},
    {__LINE__, 21, 4, TEXT(LET_UNITS "L,1,0,1\n"), TEXT("")},
    /* 21 before 8 to 14, behind 3 to 7 of any line */
    {__LINE__, 21, 12, TEXT(S_TREES "P,1,2,0\nI,1,1\nC,1,2\nC,2,1\nI,2,2\nC,5,6\nC,7,7\n"), TEXT("")},
    {__LINE__, 21, 9,
     TEXT(BIT "P,1,0,0\nP,1,1,0\nP,2,4,0\nP,1,2,0\nI,1,1\nC,1,2\nC,2,1\nI,1,1\nC,3,4\nL,5,0,3\n"), TEXT("")},
    {__LINE__, 21, 3, TEXT("T,0,0,0\nT,1,0,0\nT,0,0,0\nP,0,0,0\nI,0,1\nC,0,0\n"), TEXT("")},
    {__LINE__, 21, 4, TEXT("T,0,0,0\nT,1,0,0\nP,1,0,0\nP,0,0,0\nI,1,1\nC,0,0\nC,0,0\n"), TEXT("")},
    {__LINE__, 21, 6, TEXT(BIT "P,0,0,0\nI,1,1\nC,1,1\nC,2,1\n"), TEXT("")},
    {__LINE__, 21, 5, TEXT("T,0,0,0\nT,1,0,0\nP,0,0,0\nP,2,0,0\nP,3,0,0\nI,0,1\nC,0,1\n"), TEXT("")},
    {__LINE__, 3, 6, TEXT(IDLE_UNIT "I,0,0\nC,0,0\nx\n"), TEXT("")},
    {__LINE__, 4, 6, TEXT(IDLE_UNIT "I,0,0\nC,0,0\nT,0,0,0\n"), TEXT("")},
    {__LINE__, 5, 4, TEXT(IDLE_UNIT "P,0,0,1\n"), TEXT("")},
    {__LINE__, 6, 5, TEXT(IDLE_UNIT "I,0,0\nC,0,1\n"), TEXT("")},
    {__LINE__, 21, 2, TEXT(IDLE_UNIT "I,0,0\nC,0,0\n"), TEXT("")},
    /* line ends and fields */
    {__LINE__, 3, 1, TEXT("\n"), TEXT("")},
    {__LINE__, 3, 1, TEXT("T"), TEXT("")},
    {__LINE__, 3, 1, TEXT("T,0,0,0"), TEXT("")},
    {__LINE__, 3, 18, TEXT(S_TO_16 "L,4,0,3\nC,7,7"), TEXT("")},
    {__LINE__, 0, 0, TEXT("T,0,0,0\r\nT,1,0,0\nP,1,0,0\r\nI,1,1\nC,0,0\n"), TEXT("T,0,0,0\nT,1,0,0\nP,1,0,0\nI,1,1\nC,0,0\n")},
    {__LINE__, 0, 0, TEXT(S_RETURNS), TEXT(S_TURNED)},
    {__LINE__, 6, 2, TEXT("T,0,0,0\r\nT,1,0,1\r\n"), TEXT("")},
    {__LINE__, 3, 1, TEXT("\rT,0,0,0\n"), TEXT("")},
    {__LINE__, 3, 1, TEXT("T,0,0,0\r\r\n"), TEXT("")},
    {__LINE__, 3, 1, TEXT("T,0,0,0\r"), TEXT("")},
    {__LINE__, 3, 1, TEXT("T,0,0\r,0\n"), TEXT("")},
    {__LINE__, 3, 1, TEXT("\r\n"), TEXT("")},
    {__LINE__, 3, 1, TEXT("T,0,0,0 \n"), TEXT("")},
    {__LINE__, 3, 2, TEXT("T,0,0,0\nT,1,0,65536\n"), TEXT("")},
    {__LINE__, 6, 2, TEXT("T,0,0,0\nT,1,0,65535\n"), TEXT("")},
    {__LINE__, 3, 1, TEXT("t,0,0,0\n"), TEXT("")},
    {__LINE__, 3, 1, TEXT("Q,0,0,0\n"), TEXT("")},
    /* zero bytes and bytes 255 */
    {__LINE__, 3, 1, TEXT("\0"), TEXT("")},
    {__LINE__, 3, 1, TEXT("\377"), TEXT("")},
    {__LINE__, 3, 1, TEXT("T,0,0,0\0\n"), TEXT("")},
    {__LINE__, 3, 2, TEXT("T,0,0,0\n\377\n"), TEXT("")},
    {__LINE__, 3, 19, TEXT(S "\0"), TEXT("")},
    /* an iso without clauses, types that are the same under other line numbers */
    {__LINE__, 13, 2, TEXT("T,0,0,0\nI,0,0\n"), TEXT("")},
    {__LINE__, 0, 0, TEXT(TWO_UNITS "I,0,1\nC,0,0\n"), TEXT(TWO_UNITS "I,1,0\nC,0,0\n")},
};

struct query_case {
    int at;
    struct bytes file;
    uint32_t iso;
    bool back;
    uint32_t budget;
    struct bytes value;
    uint32_t number;
    uint32_t count;
    struct bytes result;
};

static const struct query_case query_cases[] = {
    /* document 01 */
    {__LINE__, TEXT(S), 1, false, 9, TEXT("PLURU"), 0, 2, TEXT("PLULU")},
    {__LINE__, TEXT(S), 1, true, 9, TEXT("PLULU"), 0, 2, TEXT("PLURU")},
    {__LINE__, TEXT(S), 1, false, 2, TEXT("PRULU"), 0, 1, TEXT("PRULU")},
    {__LINE__, TEXT(S), 1, false, 2, TEXT("PLURU"), 0, 2, TEXT("PLULU")},
    {__LINE__, TEXT(S), 1, false, 1, TEXT("PLURU"), 17, 0, TEXT("")},
    {__LINE__, TEXT(S), 2, false, 9, TEXT("U"), 15, 0, TEXT("")},
    {__LINE__, TEXT(S), 1, false, 9, TEXT("PLU"), 16, 0, TEXT("")},
    /* S turned: forward what was back */
    {__LINE__, TEXT(S_TURNED), 1, false, 9, TEXT("PLULU"), 0, 2, TEXT("PLURU")},
    {__LINE__, TEXT(S_TURNED), 1, true, 9, TEXT("PLURU"), 0, 2, TEXT("PLULU")},
    {__LINE__, TEXT(S_TURNED), 1, false, 1, TEXT("PLULU"), 17, 0, TEXT("")},
    /* isos that differ from their inverses, let steps whose order matters */
    {__LINE__, TEXT(STEPS), 0, false, 1, TEXT("LU"), 0, 1, TEXT("RLU")},
    {__LINE__, TEXT(STEPS), 0, true, 1, TEXT("LU"), 0, 1, TEXT("RRU")},
    {__LINE__, TEXT(STEPS), 2, false, 3, TEXT("LU"), 0, 3, TEXT("LU")},
    {__LINE__, TEXT(STEPS), 2, true, 3, TEXT("RLU"), 0, 3, TEXT("RRU")},
    {__LINE__, TEXT(STEPS), 3, false, 3, TEXT("LU"), 0, 3, TEXT("RRU")},
    {__LINE__, TEXT(STEPS), 3, true, 3, TEXT("LU"), 0, 3, TEXT("RLU")},
    {__LINE__, TEXT(STEPS), 3, true, 2, TEXT("LU"), 17, 0, TEXT("")},
    {__LINE__, TEXT(STEPS_TURNED), 0, false, 1, TEXT("LU"), 0, 1, TEXT("RRU")},
    {__LINE__, TEXT(STEPS_TURNED), 3, false, 3, TEXT("RRU"), 0, 3, TEXT("LU")},
    {__LINE__, TEXT(STEPS_TURNED), 3, true, 3, TEXT("RRU"), 0, 3, TEXT("RLU")},
    /* the starting type is the from-type forward and the to-type back */
    {__LINE__, TEXT(WIDER), 0, false, 1, TEXT("LU"), 0, 1, TEXT("PRUU")},
    {__LINE__, TEXT(WIDER), 0, true, 1, TEXT("PRUU"), 0, 1, TEXT("LU")},
    {__LINE__, TEXT(WIDER), 0, false, 1, TEXT("PRUU"), 16, 0, TEXT("")},
    {__LINE__, TEXT(WIDER), 0, true, 1, TEXT("LU"), 16, 0, TEXT("")},
    {__LINE__, TEXT(WIDER_TURNED), 0, false, 1, TEXT("PRUU"), 0, 1, TEXT("LU")},
    {__LINE__, TEXT(WIDER_TURNED), 0, true, 1, TEXT("LU"), 0, 1, TEXT("PRUU")},
    /* iso numbers that would be 0 or 1 with fewer bits */
    {__LINE__, TEXT(S), 32, false, 9, TEXT("LU"), 15, 0, TEXT("")},
    {__LINE__, TEXT(S), 256, false, 9, TEXT("LU"), 15, 0, TEXT("")},
    {__LINE__, TEXT(S), 65535, false, 9, TEXT("LU"), 15, 0, TEXT("")},
    {__LINE__, TEXT(S), 65536, false, 9, TEXT("LU"), 15, 0, TEXT("")},
    {__LINE__, TEXT(S), 65537, false, 9, TEXT("PLURU"), 15, 0, TEXT("")},
    {__LINE__, TEXT(S), 2147483648, false, 9, TEXT("LU"), 15, 0, TEXT("")},
    {__LINE__, TEXT(S), 4294967295, false, 9, TEXT("LU"), 15, 0, TEXT("")},
    {__LINE__, TEXT(S), 4294967295, true, 9, TEXT("LU"), 15, 0, TEXT("")},
    {__LINE__, TEXT(""), 0, false, 9, TEXT("U"), 15, 0, TEXT("")},
    {__LINE__, TEXT(""), 0, false, 0, TEXT(""), 15, 0, TEXT("")},
    {__LINE__, TEXT(SEVEN_USED), 1, true, 9, TEXT("U"), 15, 0, TEXT("")},
    /* budgets */
    {__LINE__, TEXT(S), 0, false, 0, TEXT("LU"), 17, 0, TEXT("")},
    {__LINE__, TEXT(S), 0, true, 0, TEXT("LU"), 17, 0, TEXT("")},
    {__LINE__, TEXT(S), 0, false, 1, TEXT("LU"), 0, 1, TEXT("RU")},
    {__LINE__, TEXT(S), 0, true, 1, TEXT("RU"), 0, 1, TEXT("LU")},
    {__LINE__, TEXT(S), 1, false, 4294967295, TEXT("PLURU"), 0, 2, TEXT("PLULU")},
    {__LINE__, TEXT(S), 1, true, 4294967295, TEXT("PRURU"), 0, 1, TEXT("PRURU")},
    {__LINE__, TEXT(S), 1, false, 65536, TEXT("PLULU"), 0, 2, TEXT("PLURU")},
    /* 15 before 16 before 17 */
    {__LINE__, TEXT(S), 2, false, 0, TEXT(""), 15, 0, TEXT("")},
    {__LINE__, TEXT(S), 1, false, 0, TEXT("PLURUU"), 16, 0, TEXT("")},
    {__LINE__, TEXT(S), 1, false, 0, TEXT("PLURU"), 17, 0, TEXT("")},
    /* letters that are no closed value of the starting type */
    {__LINE__, TEXT(S), 0, false, 9, TEXT(""), 16, 0, TEXT("")},
    {__LINE__, TEXT(S), 0, true, 9, TEXT(""), 16, 0, TEXT("")},
    {__LINE__, TEXT(S), 0, false, 9, TEXT("U"), 16, 0, TEXT("")},
    {__LINE__, TEXT(S), 0, false, 9, TEXT("L"), 16, 0, TEXT("")},
    {__LINE__, TEXT(S), 0, false, 9, TEXT("lu"), 16, 0, TEXT("")},
    {__LINE__, TEXT(S), 0, false, 9, TEXT("LU\n"), 16, 0, TEXT("")},
    {__LINE__, TEXT(S), 0, false, 9, TEXT("LU\0"), 16, 0, TEXT("")},
    {__LINE__, TEXT(S), 0, false, 9, TEXT("\0U"), 16, 0, TEXT("")},
    {__LINE__, TEXT(S), 0, false, 9, TEXT("L\377"), 16, 0, TEXT("")},
    {__LINE__, TEXT(S), 1, false, 9, TEXT("PLU\0U"), 16, 0, TEXT("")},
    /* lists: each zone and the end of the list is an application */
    {__LINE__, TEXT(ZONES), 0, false, 3, TEXT("KLUKRUN"), 0, 3, TEXT("KRUKLUN")},
    {__LINE__, TEXT(ZONES), 0, true, 3, TEXT("KRUKLUN"), 0, 3, TEXT("KLUKRUN")},
    {__LINE__, TEXT(ZONES_TURNED), 0, false, 3, TEXT("KRUKLUN"), 0, 3, TEXT("KLUKRUN")},
    {__LINE__, TEXT(ZONES), 0, false, 2, TEXT("KLUKRUN"), 17, 0, TEXT("")},
    {__LINE__, TEXT(ZONES), 0, false, 1, TEXT("N"), 0, 1, TEXT("N")},
    {__LINE__, TEXT(ZONES), 0, false, 9, TEXT("KLU"), 16, 0, TEXT("")},
    {__LINE__, TEXT(ZONES), 0, false, 9, TEXT("KN"), 16, 0, TEXT("")},
    {__LINE__, TEXT(ZONES), 0, false, 9, TEXT("NN"), 16, 0, TEXT("")},
    {__LINE__, TEXT(ZONES), 0, false, 9, TEXT("kluN"), 16, 0, TEXT("")},
    {__LINE__, TEXT(ZONES), 1, false, 9, TEXT("N"), 16, 0, TEXT("")},
    /* 40 calls nested, 41: 24 by the last, and 17 below it */
    {__LINE__, TEXT(ZONES), 0, false, 40, TEXT(LEFTS LEFTS LEFTS "KLUKLUKLUKLUKLUKLUKLUKLUKLU" "N"), 0, 40,
     TEXT(RIGHTS RIGHTS RIGHTS "KRUKRUKRUKRUKRUKRUKRUKRUKRU" "N")},
    {__LINE__, TEXT(ZONES), 0, false, 41, TEXT(LEFTS LEFTS LEFTS LEFTS "N"), 24, 0, TEXT("")},
    {__LINE__, TEXT(ZONES), 0, true, 4294967295, TEXT(LEFTS LEFTS LEFTS LEFTS "N"), 24, 0, TEXT("")},
    {__LINE__, TEXT(ZONES), 0, false, 40, TEXT(LEFTS LEFTS LEFTS LEFTS "N"), 17, 0, TEXT("")},
    /* an argument of over 127 letters, and a result: 125 letters are given, 129 not */
    {__LINE__, TEXT(ZONES), 0, false, 1, TEXT(LEFTS LEFTS LEFTS LEFTS "KLUKLUKLU" "N"), 24, 0, TEXT("")},
    {__LINE__, TEXT(ZONES), 0, false, 0, TEXT(LEFTS LEFTS LEFTS LEFTS "KLUKLUKLU" "N"), 17, 0, TEXT("")},
    {__LINE__, TEXT(ZONES), 0, false, 0, TEXT(LEFTS LEFTS LEFTS LEFTS "KLUKLUKLU"), 16, 0, TEXT("")},
    {__LINE__, TEXT(PAIRED), 0, false, 32, TEXT(UNITS_LISTED "N"), 0, 32, TEXT(PAIRS_LISTED "N")},
    {__LINE__, TEXT(PAIRED), 0, true, 32, TEXT(PAIRS_LISTED "N"), 0, 32, TEXT(UNITS_LISTED "N")},
    {__LINE__, TEXT(PAIRED), 0, false, 33, TEXT("KU" UNITS_LISTED "N"), 24, 0, TEXT("")},
    {__LINE__, TEXT(PAIRED), 0, false, 32, TEXT("KU" UNITS_LISTED "N"), 17, 0, TEXT("")},
    {__LINE__, TEXT(PAIRED), 0, true, 1, TEXT("KPUU" PAIRS_LISTED "N"), 24, 0, TEXT("")},
    /* the file's refusal comes first */
    {__LINE__, TEXT(ZONES_TWICE), 9, false, 0, TEXT(""), 23, 0, TEXT("")},
    {__LINE__, TEXT(S "C,7,7\n"), 2, false, 0, TEXT(""), 11, 0, TEXT("")},
    {__LINE__, TEXT(S "\n"), 1, false, 9, TEXT("PLURU"), 3, 0, TEXT("")},
};

#define GIVES(count, letters) {0, (count), TEXT(letters)}
#define REFUSED(number) {(number), 0, TEXT("")}

enum { SHEET_CASE_QUERIES = 8 };

struct sheet_case {
    int at;
    struct bytes file; /* accepted */
    struct bytes list;
    size_t queries;
    struct reply replies[SHEET_CASE_QUERIES];
};

static const struct sheet_case sheet_cases[] = {
    /* document 01 */
    {__LINE__, TEXT(S), TEXT(S_QUERIES), 7,
     {GIVES(2, "PLULU"), GIVES(2, "PLURU"), GIVES(1, "PRULU"), GIVES(2, "PLULU"), REFUSED(17), REFUSED(15),
      REFUSED(16)}},
    /* each refusal of a query, beside others that are not refused */
    {__LINE__, TEXT(S),
     TEXT("Q,0,0,1,LU\nQ,2,0,1,LU\nQ,0,1,1,RU\nQ,0,0,1,U\nQ,1,0,9,PRURU\nQ,0,0,0,LU\nQ,1,0,9,PLULU\nQ,0,0,1;LU\n"),
     8,
     {GIVES(1, "RU"), REFUSED(15), GIVES(1, "LU"), REFUSED(16), GIVES(1, "PRURU"), REFUSED(17), GIVES(2, "PLURU"),
      REFUSED(3)}},
    {__LINE__, TEXT(S), TEXT("Q,2,0,1,LU\nQ,0,0,1,U\nQ,0,0,0,LU\nQ\n"), 4,
     {REFUSED(15), REFUSED(16), REFUSED(17), REFUSED(3)}},
    /* no query, empty lines */
    {__LINE__, TEXT(S), TEXT(""), 0, {{0}}},
    {__LINE__, TEXT(""), TEXT(""), 0, {{0}}},
    {__LINE__, TEXT(S), TEXT("\n"), 1, {REFUSED(3)}},
    {__LINE__, TEXT(S), TEXT("\nQ,0,0,1,LU\n\n"), 3, {REFUSED(3), GIVES(1, "RU"), REFUSED(3)}},
    /* a last line without its line feed */
    {__LINE__, TEXT(S), TEXT("Q,0,0,1,LU"), 1, {REFUSED(3)}},
    {__LINE__, TEXT(S), TEXT("Q,0,0,1,LU\nQ,0,0,1,LU"), 2, {GIVES(1, "RU"), REFUSED(3)}},
    {__LINE__, TEXT(S), TEXT("Q,0,0,1,LU\nQ"), 2, {GIVES(1, "RU"), REFUSED(3)}},
    {__LINE__, TEXT(S), TEXT("\0"), 1, {REFUSED(3)}},
    /* directions, let steps whose order matters, types that differ */
    {__LINE__, TEXT(S_TURNED), TEXT("Q,1,1,9,PLURU\nQ,1,0,9,PLULU\n"), 2, {GIVES(2, "PLULU"), GIVES(2, "PLURU")}},
    {__LINE__, TEXT(STEPS),
     TEXT("Q,0,0,1,LU\nQ,0,1,1,LU\nQ,2,0,3,LU\nQ,2,1,3,RLU\nQ,3,0,3,LU\nQ,3,1,3,LU\nQ,3,1,2,LU\n"), 7,
     {GIVES(1, "RLU"), GIVES(1, "RRU"), GIVES(3, "LU"), GIVES(3, "RRU"), GIVES(3, "RRU"), GIVES(3, "RLU"),
      REFUSED(17)}},
    {__LINE__, TEXT(WIDER), TEXT("Q,0,0,1,LU\nQ,0,1,1,PRUU\nQ,0,0,1,PRUU\nQ,0,1,1,LU\n"), 4,
     {GIVES(1, "PRUU"), GIVES(1, "LU"), REFUSED(16), REFUSED(16)}},
    /* lists, and 24 between others */
    {__LINE__, TEXT(ZONES),
     TEXT("Q,0,0,3,KLUKRUN\nQ,0,0,1," LEFTS LEFTS LEFTS LEFTS "KLUKLUKLU" "N\nQ,0,1,9,N\nQ,0,0,9,K\n"), 4,
     {GIVES(3, "KRUKLUN"), REFUSED(24), GIVES(1, "N"), REFUSED(16)}},
    /* files without isos */
    {__LINE__, TEXT(""), TEXT("Q,0,0,9,U\nQ,0,1,0,\n"), 2, {REFUSED(15), REFUSED(15)}},
    {__LINE__, TEXT(SEVEN_USED), TEXT("Q,1,0,9,U\n"), 1, {REFUSED(15)}},
};

/* Two queries that no file answers. */
static const struct reply unanswered[] = {REFUSED(15), REFUSED(3)};
static const struct sheet unanswered_sheet = {TEXT("Q,65535,0,9,U\nQ\n"), COUNT_OF(unanswered), unanswered};

/* Three times two settings: the first part in three steps, the second a bit. */
#define SIX "T,0,0,0\nT,1,0,0\nT,1,0,1\nT,2,2,1\nP,1,0,0\nI,3,3\nC,0,0\n"

/* 32 two-valued types as a chain of products: T line 31 has 2^31 values, T line 32 has 2^32. */
#define BITS                                                                                                 \
    "T,0,0,0\nT,1,0,0\nT,2,1,1\nT,2,1,2\nT,2,1,3\nT,2,1,4\nT,2,1,5\nT,2,1,6\nT,2,1,7\nT,2,1,8\nT,2,1,9\n"     \
    "T,2,1,10\nT,2,1,11\nT,2,1,12\nT,2,1,13\nT,2,1,14\nT,2,1,15\nT,2,1,16\nT,2,1,17\nT,2,1,18\nT,2,1,19\n"     \
    "T,2,1,20\nT,2,1,21\nT,2,1,22\nT,2,1,23\nT,2,1,24\nT,2,1,25\nT,2,1,26\nT,2,1,27\nT,2,1,28\nT,2,1,29\n"     \
    "T,2,1,30\nT,2,1,31\n"
#define BITS_USED BITS "P,1,0,0\nI,32,32\nC,0,0\n"

/* Ten times a bit 0, ten times a bit 1, each but the last of a chain. */
#define ZEROS "PLUPLUPLUPLUPLUPLUPLUPLUPLUPLU"
#define ONES "PRUPRUPRUPRUPRUPRUPRUPRUPRUPRU"
#define LOWEST_OF_31 ZEROS ZEROS ZEROS "LU"
#define HIGHEST_OF_31 ONES ONES ONES "RU"

/* Pairs of pairs, 31, 63 and 127 letters. */
#define UNITS_31 "PPPPUUPUUPPUUPUUPPPUUPUUPPUUPUU"
#define UNITS_63 "P" UNITS_31 UNITS_31
#define UNITS_127 "P" UNITS_63 UNITS_63

/* A setting's letters and its number: each is what the other way gives. */
struct setting_case {
    int at;
    struct bytes file; /* accepted */
    uint32_t type;
    struct bytes letters;
    uint32_t setting;
};

static const struct setting_case setting_cases[] = {
    {__LINE__, TEXT(S), 0, TEXT("U"), 0},
    {__LINE__, TEXT(S), 1, TEXT("LU"), 0},
    {__LINE__, TEXT(S), 1, TEXT("RU"), 1},
    {__LINE__, TEXT(S), 2, TEXT("PLULU"), 0},
    {__LINE__, TEXT(S), 2, TEXT("PLURU"), 1},
    {__LINE__, TEXT(S), 2, TEXT("PRULU"), 2},
    {__LINE__, TEXT(S), 2, TEXT("PRURU"), 3},
    {__LINE__, TEXT(STEPS), 2, TEXT("LU"), 0},
    {__LINE__, TEXT(STEPS), 2, TEXT("RLU"), 1},
    {__LINE__, TEXT(STEPS), 2, TEXT("RRU"), 2},
    {__LINE__, TEXT(WIDER), 2, TEXT("PRUU"), 1},
    {__LINE__, TEXT(SIX), 3, TEXT("PLULU"), 0},
    {__LINE__, TEXT(SIX), 3, TEXT("PLURU"), 1},
    {__LINE__, TEXT(SIX), 3, TEXT("PRLULU"), 2},
    {__LINE__, TEXT(SIX), 3, TEXT("PRLURU"), 3},
    {__LINE__, TEXT(SIX), 3, TEXT("PRRULU"), 4},
    {__LINE__, TEXT(SIX), 3, TEXT("PRRURU"), 5},
    {__LINE__, TEXT(SEVEN_USED), 4, TEXT(UNITS_31), 0},
    {__LINE__, TEXT(SEVEN_USED), 6, TEXT(UNITS_127), 0},
    {__LINE__, TEXT(BITS_USED), 31, TEXT(LOWEST_OF_31), 0},
    {__LINE__, TEXT(BITS_USED), 31, TEXT(ZEROS ZEROS ZEROS "RU"), 1},
    {__LINE__, TEXT(BITS_USED), 31, TEXT("PRU" ZEROS ZEROS "PLUPLUPLUPLUPLUPLUPLUPLUPLU" "LU"), 1073741824},
    {__LINE__, TEXT(BITS_USED), 31, TEXT(HIGHEST_OF_31), 2147483647},
};

/* A call for a number or for letters that is refused. */
struct unnumbered_case {
    int at;
    struct bytes file;
    uint32_t type;
    struct bytes letters;
    uint32_t setting;
    uint32_t of_letters; /* the number that the letters are refused with, 0 where they are not asked */
    uint32_t of_number;  /* the same of the setting's number */
};

static const struct unnumbered_case unnumbered_cases[] = {
    /* T lines that are absent; numbers that would be one with fewer bits */
    {__LINE__, TEXT(S), 3, TEXT("PLURU"), 0, 15, 15},
    {__LINE__, TEXT(S), 11, TEXT("U"), 0, 15, 15},
    {__LINE__, TEXT(S), 256, TEXT("U"), 0, 15, 15},
    {__LINE__, TEXT(S), 258, TEXT("PLURU"), 1, 15, 15},
    {__LINE__, TEXT(S), 65535, TEXT("U"), 0, 15, 15},
    {__LINE__, TEXT(S), 65538, TEXT("PLURU"), 1, 15, 15},
    {__LINE__, TEXT(S), 2147483650, TEXT("PLURU"), 1, 15, 15},
    {__LINE__, TEXT(S), 4294967295, TEXT("U"), 0, 15, 15},
    {__LINE__, TEXT(""), 0, TEXT("U"), 0, 15, 15},
    {__LINE__, TEXT(BITS_USED), 33, TEXT("PLU" LOWEST_OF_31), 0, 15, 15},
    /* too many values, by one */
    {__LINE__, TEXT(BITS_USED), 32, TEXT("PLU" LOWEST_OF_31), 0, 18, 18},
    {__LINE__, TEXT(BITS_USED), 32, TEXT("PRU" HIGHEST_OF_31), 1, 18, 18},
    {__LINE__, TEXT(BITS_USED), 32, TEXT("PRU" HIGHEST_OF_31), 2147483648, 18, 18},
    /* a list, before 16 and 19 */
    {__LINE__, TEXT(ZONES), 2, TEXT("N"), 0, 18, 18},
    {__LINE__, TEXT(ZONES), 2, TEXT("U"), 4294967295, 18, 18},
    {__LINE__, TEXT(ZONES), 3, TEXT("N"), 0, 15, 15},
    /* not below the count */
    {__LINE__, TEXT(S), 0, TEXT(""), 1, 16, 19},
    {__LINE__, TEXT(S), 1, TEXT(""), 2, 16, 19},
    {__LINE__, TEXT(S), 2, TEXT(""), 4, 16, 19},
    {__LINE__, TEXT(S), 2, TEXT(""), 5, 16, 19},
    {__LINE__, TEXT(S), 2, TEXT(""), 256, 16, 19},
    {__LINE__, TEXT(S), 2, TEXT(""), 65536, 16, 19},
    {__LINE__, TEXT(S), 2, TEXT(""), 4294967295, 16, 19},
    {__LINE__, TEXT(SEVEN_USED), 6, TEXT(UNITS_63), 1, 16, 19},
    {__LINE__, TEXT(BITS_USED), 31, TEXT("PLU" LOWEST_OF_31), 2147483648, 16, 19},
    {__LINE__, TEXT(BITS_USED), 31, TEXT(ZEROS ZEROS ZEROS "L"), 4294967295, 16, 19},
    /* letters that are no setting of the T line */
    {__LINE__, TEXT(S), 2, TEXT("U"), 0, 16, 0},
    {__LINE__, TEXT(S), 2, TEXT("LU"), 0, 16, 0},
    {__LINE__, TEXT(S), 2, TEXT("PLU"), 0, 16, 0},
    {__LINE__, TEXT(S), 2, TEXT("PLURUU"), 0, 16, 0},
    {__LINE__, TEXT(S), 2, TEXT("PLUPLU"), 0, 16, 0},
    {__LINE__, TEXT(S), 2, TEXT("pluru"), 0, 16, 0},
    {__LINE__, TEXT(S), 2, TEXT("PLURU\n"), 0, 16, 0},
    {__LINE__, TEXT(S), 2, TEXT("PLUR\0"), 0, 16, 0},
    {__LINE__, TEXT(S), 2, TEXT("PLUR\377"), 0, 16, 0},
    {__LINE__, TEXT(S), 1, TEXT("PLURU"), 0, 16, 0},
    {__LINE__, TEXT(S), 0, TEXT("UU"), 0, 16, 0},
    {__LINE__, TEXT(SEVEN_USED), 6, TEXT(UNITS_127 "U"), 0, 16, 0},
    /* 15 before 18, 15 before 16 and 19, 18 before 16 and 19 */
    {__LINE__, TEXT(BITS_USED), 288, TEXT(""), 4294967295, 15, 15},
    {__LINE__, TEXT(S), 3, TEXT(""), 4294967295, 15, 15},
    {__LINE__, TEXT(BITS_USED), 32, TEXT(""), 4294967295, 18, 18},
    {__LINE__, TEXT(BITS_USED), 32, TEXT("PLU"), 4294967295, 18, 18},
    {__LINE__, TEXT(BITS_USED), 32, TEXT("U"), 4294967295, 18, 18},
    /* the file's refusal comes first */
    {__LINE__, TEXT(BITS "T,2,1,32\n"), 33, TEXT("PLU"), 0, 7, 7},
    {__LINE__, TEXT(BITS "\n"), 32, TEXT(""), 4294967295, 3, 3},
    {__LINE__, TEXT(S "C,7,7\n"), 2, TEXT("PLURU"), 1, 11, 11},
    {__LINE__, TEXT(S "C,7,7\n"), 3, TEXT(""), 4294967295, 11, 11},
};

/* 3: left, right; 4: right, left; 5: left, left; 6: a variable; 7: it, right; 8 and 9: a unit, a pair, first. */
#define COMPARED                                                                                             \
    "T,0,0,0\nT,1,0,0\nT,2,1,1\nT,2,0,1\nT,2,2,1\n"                                                          \
    "P,0,0,0\nP,2,0,0\nP,3,0,0\nP,4,1,2\nP,4,2,1\nP,4,1,1\nP,1,0,0\nP,4,6,2\nP,4,0,1\nP,4,3,2\n"   \
    "P,4,2,2\nP,4,6,1\nP,4,0,2\nP,4,3,1\nP,4,4,6\nP,4,5,6\nP,4,10,6\n"                                      \
    "I,2,2\nC,3,3\nC,4,4\nC,5,5\nC,10,10\nI,2,2\nC,7,7\nC,11,11\nI,3,3\nC,8,8\nC,12,12\n"                   \
    "I,4,4\nC,9,9\nC,13,13\nC,14,14\nC,15,15\nC,16,16\n"
/* 6 has 127 nodes. */
#define SEVEN_PATTERNS SEVEN_TYPES "P,0,0,0\nP,4,0,0\nP,4,1,1\nP,4,2,2\nP,4,3,3\nP,4,4,4\nP,4,5,5\n" "I,6,6\nC,6,6\n"

/* Two P lines, and what both orders give. */
struct overlap_case {
    int at;
    struct bytes file;
    uint32_t left;
    uint32_t right;
    uint32_t number; /* 0, or refused */
    bool clash;
    uint32_t pairs;
};

static const struct overlap_case overlap_cases[] = {
    {__LINE__, TEXT(S), 0, 0, 0, false, 1},
    {__LINE__, TEXT(S), 1, 1, 0, false, 2},
    {__LINE__, TEXT(S), 1, 2, 0, true, 1},
    {__LINE__, TEXT(S), 3, 4, 0, false, 1},
    {__LINE__, TEXT(S), 0, 3, 0, false, 1},
    {__LINE__, TEXT(S), 2, 3, 0, false, 1},
    {__LINE__, TEXT(S), 3, 7, 0, false, 1},
    {__LINE__, TEXT(S), 0, 1, 0, false, 1},
    {__LINE__, TEXT(S), 0, 5, 0, false, 1},
    {__LINE__, TEXT(S), 1, 5, 0, false, 1},
    {__LINE__, TEXT(S), 5, 6, 0, false, 4},
    {__LINE__, TEXT(S), 5, 7, 0, true, 2},
    {__LINE__, TEXT(STEPS), 3, 4, 0, true, 2},
    {__LINE__, TEXT(COMPARED), 3, 4, 0, true, 2},
    {__LINE__, TEXT(COMPARED), 3, 5, 0, true, 4},
    {__LINE__, TEXT(COMPARED), 5, 7, 0, true, 3},
    {__LINE__, TEXT(COMPARED), 3, 7, 0, false, 4},
    {__LINE__, TEXT(COMPARED), 8, 9, 0, true, 3},
    {__LINE__, TEXT(COMPARED), 3, 9, 0, false, 4},
    /* empty against an element; elements node with node */
    {__LINE__, TEXT(ZONES), 3, 3, 0, false, 1},
    {__LINE__, TEXT(ZONES), 3, 6, 0, true, 1},
    {__LINE__, TEXT(ZONES), 6, 7, 0, true, 2},
    {__LINE__, TEXT(ZONES), 6, 8, 0, false, 4},
    {__LINE__, TEXT(ZONES), 1, 3, 0, false, 1},
    {__LINE__, TEXT(PAIRED), 4, 5, 0, false, 1},
    {__LINE__, TEXT(SEVEN_PATTERNS), 6, 6, 0, false, 127},
    {__LINE__, TEXT(SEVEN_PATTERNS), 6, 5, 0, false, 63},
    {__LINE__, TEXT(S), 7, 8, 15, false, 0},
    {__LINE__, TEXT(S), 8, 8, 15, false, 0},
    {__LINE__, TEXT(S), 0, 256, 15, false, 0},
    {__LINE__, TEXT(S), 1, 65536, 15, false, 0},
    {__LINE__, TEXT(S), 1, 65538, 15, false, 0},
    {__LINE__, TEXT(S), 1, UINT32_C(1) << 31, 15, false, 0},
    {__LINE__, TEXT(S), 0, UINT32_MAX, 15, false, 0},
    {__LINE__, TEXT(SEVEN_USED), 0, 1, 15, false, 0},
    {__LINE__, TEXT(""), 0, 0, 15, false, 0},
};

/* Of the isos on a bit, iso 1 needs 1 or 2, iso 2 calls it twice, iso 3 both; iso 4 exchanges and needs 1 or 2. */
#define COSTS                                                                                                \
    BIT "P,1,0,0\nP,1,1,0\nP,1,2,0\nI,0,0\nC,0,0\nI,1,1\nC,1,1\nL,0,0,0\nC,2,2\n"                             \
        "I,1,1\nC,3,5\nL,4,1,3\nL,5,1,4\nI,1,1\nC,3,5\nL,4,2,3\nL,5,1,4\n"                                   \
        "I,1,1\nC,1,2\nC,2,1\nL,0,0,0\nI,1,1\nC,3,5\nL,4,4,3\nL,5,4,4\n"

/* The bounds of an iso, or the number that the call is refused with. */
struct bounds_case {
    int at;
    struct bytes file;
    uint32_t iso;
    uint32_t number;
    uint32_t least;
    uint32_t greatest;
};

static const struct bounds_case bounds_cases[] = {
    {__LINE__, TEXT(S), 0, 0, 1, 1},
    {__LINE__, TEXT(S), 1, 0, 1, 2},
    {__LINE__, TEXT(S_TURNED), 1, 0, 1, 2},
    {__LINE__, TEXT(STEPS), 1, 0, 1, 1},
    {__LINE__, TEXT(STEPS), 2, 0, 3, 3},
    {__LINE__, TEXT(STEPS_TURNED), 3, 0, 3, 3},
    {__LINE__, TEXT(WIDER), 0, 0, 1, 1},
    {__LINE__, TEXT(COSTS), 0, 0, 1, 1},
    {__LINE__, TEXT(COSTS), 1, 0, 1, 2},
    {__LINE__, TEXT(COSTS), 2, 0, 3, 5},
    {__LINE__, TEXT(COSTS), 3, 0, 5, 8},
    /* all runs count 4, but clauses are reckoned whether they can be reached together or not */
    {__LINE__, TEXT(COSTS), 5, 0, 3, 5},
    /* an iso on lists */
    {__LINE__, TEXT(ZONES), 0, 18, 0, 0},
    {__LINE__, TEXT(ZONES), 1, 0, 1, 1},
    {__LINE__, TEXT(ZONES), 2, 15, 0, 0},
    /* isos that are absent; numbers that would be one with fewer bits */
    {__LINE__, TEXT(S), 2, 15, 0, 0},
    {__LINE__, TEXT(S), 256, 15, 0, 0},
    {__LINE__, TEXT(S), 65536, 15, 0, 0},
    {__LINE__, TEXT(S), 65537, 15, 0, 0},
    {__LINE__, TEXT(S), 2147483648, 15, 0, 0},
    {__LINE__, TEXT(S), 4294967295, 15, 0, 0},
    {__LINE__, TEXT(""), 0, 15, 0, 0},
    /* the file's refusal comes first */
    {__LINE__, TEXT(S "C,7,7\n"), 0, 11, 0, 0},
    {__LINE__, TEXT(S "C,7,7\n"), 2, 11, 0, 0},
    {__LINE__, TEXT(S "\n"), 4294967295, 3, 0, 0},
};

/* Four values LLU to RRU, a P line for each, 4 to 7, left and right of anything, 8 and 9; T line 4 is a pair or a unit. */
#define FOUR                                                                                                 \
    "T,0,0,0\nT,1,0,0\nT,1,1,1\nT,2,1,1\nT,1,3,0\nP,0,0,0\nP,1,0,0\nP,2,0,0\nP,3,0,0\n"                      \
    "P,2,2,0\nP,2,3,0\nP,3,2,0\nP,3,3,0\nP,2,1,0\nP,3,1,0\n"

/* Behind the iso that is refused others name all lines. */
#define FOUR_USED "I,2,4\nI,3,0\nC,0,1\nC,2,3\nC,4,5\nC,6,7\nC,8,9\n"

/* Two parts LLU, LRU or RU; P lines 1 RU, 2 both RU, 4 anything and anything. */
#define PARTS                                                                                                \
    "T,0,0,0\nT,1,0,0\nT,1,1,0\nT,2,2,2\nP,0,0,0\nP,3,0,0\nP,4,1,1\nP,1,0,0\nP,1,1,0\nP,4,3,4\n"
#define PARTS_USED "I,3,3\nC,0,1\nC,2,3\nC,4,5\n"

/* A file that is refused with 11 to 14, and the setting that shows the fault. */
struct witness_case {
    int at;
    struct bytes file;
    uint32_t number;
    size_t line;
    struct bytes letters;
};

static const struct witness_case witness_cases[] = {
    {__LINE__, TEXT(S "C,7,7\n"), 11, 15, TEXT("PRULU")},
    {__LINE__, TEXT(S_RETURNS "C,7,7\r\n"), 11, 15, TEXT("PRULU")},
    {__LINE__, TEXT("T,0,0,0\nT,1,0,0\nP,0,0,0\nP,2,0,0\nI,0,1\nC,0,1\n"), 14, 5, TEXT("RU")},
    {__LINE__, TEXT(BIT "I,1,1\nC,1,1\nC,2,1\n"), 12, 6, TEXT("LU")},
    /* two clauses of one value, of one pattern, of one variable */
    {__LINE__, TEXT(FOUR "I,2,2\nC,4,4\nC,5,5\nC,8,9\n" FOUR_USED), 11, 16, TEXT("LLU")},
    {__LINE__, TEXT(FOUR "I,2,2\nC,7,4\nC,5,6\nC,9,8\n" FOUR_USED), 11, 16, TEXT("RRU")},
    {__LINE__, TEXT(FOUR "I,2,2\nC,1,1\nC,1,1\n" FOUR_USED), 11, 16, TEXT("LLU")},
    {__LINE__, TEXT(FOUR "I,2,2\nC,4,7\nC,5,5\nC,7,5\nC,6,7\n" FOUR_USED), 12, 16, TEXT("LRU")},
    {__LINE__, TEXT(FOUR "I,2,2\nC,7,4\nC,4,5\n" FOUR_USED), 13, 16, TEXT("LRU")},
    {__LINE__, TEXT(FOUR "I,1,2\nC,2,4\nC,3,7\n" FOUR_USED), 14, 16, TEXT("LRU")},
    /* the type of the side refused, the lowest refusal, the first iso, one without clauses */
    {__LINE__, TEXT(FOUR "I,1,0\nC,2,0\nC,3,0\n" FOUR_USED), 12, 16, TEXT("U")},
    {__LINE__, TEXT(FOUR "I,0,2\nC,0,5\n" FOUR_USED), 14, 16, TEXT("LLU")},
    {__LINE__, TEXT(FOUR "I,2,2\nC,4,5\nC,4,5\n" FOUR_USED), 11, 16, TEXT("LLU")},
    {__LINE__, TEXT(FOUR "I,2,2\nC,4,5\nC,6,5\n" FOUR_USED), 12, 16, TEXT("LRU")},
    {__LINE__, TEXT(FOUR "I,0,0\nC,0,0\nI,2,1\nI,2,2\nC,4,5\nC,4,5\n" FOUR_USED), 13, 18, TEXT("LLU")},
    /* fewest letters before byte order, also within the parts of a pair */
    {__LINE__, TEXT(FOUR "I,4,4\n" FOUR_USED), 13, 16, TEXT("RU")},
    {__LINE__, TEXT(FOUR "I,4,4\nC,1,1\nC,1,1\n" FOUR_USED), 11, 16, TEXT("RU")},
    {__LINE__, TEXT(FOUR "I,4,4\nC,3,3\n" FOUR_USED), 13, 16, TEXT("LPLULU")},
    {__LINE__, TEXT(PARTS "I,3,3\n" PARTS_USED), 13, 11, TEXT("PRURU")},
    {__LINE__, TEXT(PARTS "I,3,3\nC,2,2\n" PARTS_USED), 13, 11, TEXT("PLLURU")},
    {__LINE__, TEXT(PARTS "I,3,3\nC,5,5\nC,2,2\n" PARTS_USED), 11, 11, TEXT("PRURU")},
    /* lists: the empty one, one element; two of 31 letters, and two of 63, which is 24 */
    {__LINE__, TEXT("T,0,0,0\nT,3,0,0\nI,1,1\n"), 13, 3, TEXT("N")},
    {__LINE__, TEXT("T,0,0,0\nT,3,0,0\nP,5,0,0\nI,1,1\nC,0,0\n"), 13, 4, TEXT("KUN")},
    {__LINE__, TEXT("T,0,0,0\nT,3,0,0\nP,5,0,0\nP,1,0,0\nI,1,1\nC,1,1\nC,0,0\n"), 11, 5, TEXT("N")},
    {__LINE__, TEXT(LISTS_OF("", "4", "5")), 13, 10, TEXT("K" UNITS_31 "K" UNITS_31 "N")},
    {__LINE__, TEXT(LISTS_OF("T,2,4,4\n", "5", "6")), 24, 0, TEXT("")},
};

/* A bit as a sum and a product with a unit; a unit and a bit again; the second bit's parts are other lines. */
#define LIST_TYPES "T,0,0,0\nT,1,0,0\nT,2,1,0\nT,0,0,0\nT,1,3,3\nP,1,0,0\nI,2,2\nC,0,0\nI,4,4\nC,0,0\n"
#define BIT_EXCHANGED "T,0,0,0\nT,1,0,0\nP,0,0,0\nP,2,0,0\nP,3,0,0\nI,1,1\nC,1,2\nC,2,1\n"
#define S_LIST "0,1\n1,0\n2,2\n3,3\n"
#define S_IMPORTED                                                                                           \
    "T,0,0,0\nT,1,0,0\nT,2,1,1\nP,0,0,0\nP,2,0,0\nP,4,1,1\nP,3,0,0\nP,4,1,3\nP,4,3,1\nP,4,3,3\n"              \
    "I,2,2\nC,2,4\nC,4,2\nC,5,5\nC,6,6\n"

/* So many empty lines. */
#define LINES_43 "\n\n\n\n\n\n\n\n\n\n\n\n\n\n\n\n\n\n\n\n\n\n\n\n\n\n\n\n\n\n\n\n\n\n\n\n\n\n\n\n\n\n\n"
#define LINES_129 LINES_43 LINES_43 LINES_43

/* An iso and the list that it gives, or the number that the call is refused with. */
struct export_case {
    int at;
    struct bytes file;
    uint32_t iso;
    uint32_t budget;
    uint32_t number;
    size_t line;
    struct bytes list;
};

static const struct export_case export_cases[] = {
    {__LINE__, TEXT(S), 0, 1, 0, 0, TEXT("0,1\n1,0\n")},
    {__LINE__, TEXT(S), 1, 2, 0, 0, TEXT(S_LIST)},
    {__LINE__, TEXT(S), 1, 4294967295, 0, 0, TEXT(S_LIST)},
    {__LINE__, TEXT(S_TURNED), 1, 2, 0, 0, TEXT(S_LIST)},
    {__LINE__, TEXT(S_RETURNS), 1, 2, 0, 0, TEXT(S_LIST)},
    {__LINE__, TEXT(STEPS), 0, 1, 0, 0, TEXT("0,1\n1,2\n2,0\n")},
    {__LINE__, TEXT(STEPS_TURNED), 0, 1, 0, 0, TEXT("0,2\n1,0\n2,1\n")},
    {__LINE__, TEXT(STEPS), 3, 3, 0, 0, TEXT("0,2\n1,0\n2,1\n")},
    {__LINE__, TEXT(WIDER), 0, 1, 0, 0, TEXT("0,1\n1,0\n")},
    {__LINE__, TEXT(TWO_UNITS "I,0,1\nC,0,0\n"), 0, 1, 0, 0, TEXT("0,0\n")},
    {__LINE__, TEXT(S_IMPORTED), 0, 1, 0, 0, TEXT(S_LIST)},
    /* spent by some pair, each of which has the whole budget */
    {__LINE__, TEXT(S), 0, 0, 17, 0, TEXT("")},
    {__LINE__, TEXT(S), 1, 1, 17, 0, TEXT("")},
    {__LINE__, TEXT(STEPS), 3, 2, 17, 0, TEXT("")},
    /* isos that are absent; numbers that would be one with fewer bits */
    {__LINE__, TEXT(S), 2, 2, 15, 0, TEXT("")},
    {__LINE__, TEXT(S), 256, 2, 15, 0, TEXT("")},
    {__LINE__, TEXT(S), 65537, 2, 15, 0, TEXT("")},
    {__LINE__, TEXT(S), 2147483649, 0, 15, 0, TEXT("")},
    {__LINE__, TEXT(S), 4294967295, 0, 15, 0, TEXT("")},
    {__LINE__, TEXT(""), 0, 1, 15, 0, TEXT("")},
    /* too many values, before 17 */
    {__LINE__, TEXT(BITS "P,1,0,0\nI,13,13\nC,0,0\nI,32,32\nC,0,0\n"), 0, 0, 18, 0, TEXT("")},
    {__LINE__, TEXT(BITS_USED), 0, 1, 18, 0, TEXT("")},
    /* an iso on lists */
    {__LINE__, TEXT(ZONES), 0, 9, 18, 0, TEXT("")},
    {__LINE__, TEXT(ZONES), 1, 1, 0, 0, TEXT("0,1\n1,0\n")},
    /* the file's refusal comes first */
    {__LINE__, TEXT(S "C,7,7\n"), 2, 0, 11, 15, TEXT("")},
    {__LINE__, TEXT(S "\n"), 1, 2, 3, 19, TEXT("")},
};

/* Two T lines and a list, and the file that they give or the number that the call is refused with. */
struct import_case {
    int at;
    struct bytes file;
    uint32_t from;
    uint32_t to;
    struct bytes list;
    uint32_t number;
    size_t line;
    struct bytes written;
};

static const struct import_case import_cases[] = {
    {__LINE__, TEXT(S), 2, 2, TEXT(S_LIST), 0, 0, TEXT(S_IMPORTED)},
    {__LINE__, TEXT(S), 2, 2, TEXT("0,1\r\n1,0\n2,2\r\n3,3\r\n"), 0, 0, TEXT(S_IMPORTED)},
    {__LINE__, TEXT(LIST_TYPES), 1, 1, TEXT("0,1\n1,0\n"), 0, 0, TEXT(BIT_EXCHANGED)},
    {__LINE__, TEXT(LIST_TYPES), 4, 1, TEXT("0,1\n1,0\n"), 0, 0, TEXT(BIT_EXCHANGED)},
    {__LINE__, TEXT(LIST_TYPES), 4, 4, TEXT("0,1\n1,0\n"), 0, 0, TEXT(BIT_EXCHANGED)},
    {__LINE__, TEXT(LIST_TYPES), 1, 2, TEXT("0,1\n1,0\n"), 0, 0,
     TEXT("T,0,0,0\nT,1,0,0\nT,2,1,0\nP,0,0,0\nP,2,0,0\nP,3,0,0\nP,4,2,0\nP,4,1,0\nI,1,2\nC,1,3\nC,2,4\n")},
    {__LINE__, TEXT(LIST_TYPES), 2, 1, TEXT("0,1\n1,0\n"), 0, 0,
     TEXT("T,0,0,0\nT,1,0,0\nT,2,1,0\nP,0,0,0\nP,2,0,0\nP,4,1,0\nP,3,0,0\nP,4,3,0\nI,2,1\nC,2,3\nC,4,1\n")},
    {__LINE__, TEXT(LIST_TYPES), 3, 0, TEXT("0,0\n"), 0, 0, TEXT("T,0,0,0\nP,0,0,0\nI,0,0\nC,0,0\n")},
    /* 20: form, froms, counts, tos */
    {__LINE__, TEXT(S), 2, 2, TEXT(""), 20, 0, TEXT("")},
    {__LINE__, TEXT(S), 2, 2, TEXT("\n"), 20, 0, TEXT("")},
    {__LINE__, TEXT(S), 2, 2, TEXT("0,1\n1,0\n2,2\n3,3"), 20, 0, TEXT("")},
    {__LINE__, TEXT(S), 2, 2, TEXT("0,1\n1,0\n2,2\n3,3\r"), 20, 0, TEXT("")},
    {__LINE__, TEXT(S), 2, 2, TEXT("0,1\n1,0\n2,2\n3,3\r\r\n"), 20, 0, TEXT("")},
    {__LINE__, TEXT(S), 2, 2, TEXT("0,1\n1\r,0\n2,2\n3,3\n"), 20, 0, TEXT("")},
    {__LINE__, TEXT(S), 2, 2, TEXT("0,1\n1,0\n2,2\n"), 20, 0, TEXT("")},
    {__LINE__, TEXT(S), 2, 2, TEXT(S_LIST "4,4\n"), 20, 0, TEXT("")},
    {__LINE__, TEXT(S), 2, 2, TEXT(S_LIST "\n"), 20, 0, TEXT("")},
    {__LINE__, TEXT(S), 2, 2, TEXT("0,1\n1,0\n3,3\n2,2\n"), 20, 0, TEXT("")},
    {__LINE__, TEXT(S), 2, 2, TEXT("1,1\n2,0\n3,2\n4,3\n"), 20, 0, TEXT("")},
    {__LINE__, TEXT(S), 2, 2, TEXT("0,1\n1,0\n2,2\n3,2\n"), 20, 0, TEXT("")},
    {__LINE__, TEXT(S), 2, 2, TEXT("0,1\n1,0\n2,2\n3,4\n"), 20, 0, TEXT("")},
    {__LINE__, TEXT(S), 2, 2, TEXT("0,1\n1,0\n2,2\n3,65539\n"), 20, 0, TEXT("")},
    {__LINE__, TEXT(S), 2, 2, TEXT("0,1\n1,0\n2,2\n3,4294967299\n"), 20, 0, TEXT("")},
    {__LINE__, TEXT(S), 2, 2, TEXT("0,1\n1,0\n2,2\n4294967299,3\n"), 20, 0, TEXT("")},
    {__LINE__, TEXT(S), 2, 2, TEXT("0,1\n1,0\n2,2\n3,03\n"), 20, 0, TEXT("")},
    {__LINE__, TEXT(S), 2, 2, TEXT("0,1\n1,0\n2,2\n3 ,3\n"), 20, 0, TEXT("")},
    {__LINE__, TEXT(S), 2, 2, TEXT("0,1\n1,0\n2,2\n3,3,\n"), 20, 0, TEXT("")},
    {__LINE__, TEXT(S), 2, 2, TEXT("0,1\n1,0\n2,2\n3,3\0\n"), 20, 0, TEXT("")},
    {__LINE__, TEXT(S), 2, 2, TEXT("\377"), 20, 0, TEXT("")},
    {__LINE__, TEXT(S), 2, 1, TEXT(S_LIST), 20, 0, TEXT("")},
    {__LINE__, TEXT(S), 1, 2, TEXT("0,1\n1,0\n"), 20, 0, TEXT("")},
    {__LINE__, TEXT(BITS_USED), 12, 12, TEXT(S_LIST), 20, 0, TEXT("")},
    /* T lines that are absent; numbers that would be one with fewer bits */
    {__LINE__, TEXT(S), 3, 2, TEXT(S_LIST), 15, 0, TEXT("")},
    {__LINE__, TEXT(S), 2, 3, TEXT(S_LIST), 15, 0, TEXT("")},
    {__LINE__, TEXT(S), 258, 2, TEXT(S_LIST), 15, 0, TEXT("")},
    {__LINE__, TEXT(S), 2, 65538, TEXT(S_LIST), 15, 0, TEXT("")},
    {__LINE__, TEXT(S), 2147483650, 2, TEXT(S_LIST), 15, 0, TEXT("")},
    {__LINE__, TEXT(S), 2, 4294967295, TEXT(""), 15, 0, TEXT("")},
    {__LINE__, TEXT(""), 0, 0, TEXT(""), 15, 0, TEXT("")},
    /* too many values of either, after 15 and before 20 */
    {__LINE__, TEXT(BITS_USED), 13, 1, TEXT(""), 18, 0, TEXT("")},
    {__LINE__, TEXT(BITS_USED), 1, 13, TEXT(""), 18, 0, TEXT("")},
    {__LINE__, TEXT(BITS_USED), 32, 32, TEXT("x"), 18, 0, TEXT("")},
    {__LINE__, TEXT(ZONES), 2, 1, TEXT("0,0\n"), 18, 0, TEXT("")},
    {__LINE__, TEXT(ZONES), 1, 2, TEXT("x"), 18, 0, TEXT("")},
    {__LINE__, TEXT(ZONES), 2, 3, TEXT("x"), 15, 0, TEXT("")},
    {__LINE__, TEXT(BITS_USED), 32, 33, TEXT("x"), 15, 0, TEXT("")},
    {__LINE__, TEXT(BITS_USED), 33, 32, TEXT("x"), 15, 0, TEXT("")},
    /* the file's refusal comes first */
    {__LINE__, TEXT(S "C,7,7\n"), 3, 2, TEXT(""), 11, 15, TEXT("")},
    {__LINE__, TEXT(S "\n"), 2, 2, TEXT(S_LIST), 3, 19, TEXT("")},
};

/* One iso on all 32 bits, one on the first 31. */
#define BITS_PLAYED BITS "P,1,0,0\nI,32,32\nC,0,0\nI,31,31\nC,0,0\n"

enum { PLAY_CASE_UNITS = 3 };

/* Units and a script, and what they are afterwards or the number that the call is refused with. */
struct play_case {
    int at;
    struct bytes file;
    uint32_t budget;
    struct bytes script;
    size_t units;
    struct unit before[PLAY_CASE_UNITS];
    uint32_t number;
    size_t line;
    struct unit after[PLAY_CASE_UNITS]; /* where accepted */
    struct rulefile_tally tally;
};

static const struct play_case play_cases[] = {
    /* done, skipped and spent; skipped comes first */
    {__LINE__, TEXT(S), 9, TEXT("S,0,0,0\nS,1,1,0\nS,2,0,0\n"), 3, {{1, 0}, {2, 1}, {0, 0}}, 0, 0,
     {{1, 1}, {2, 0}, {0, 0}}, {2, 1, 0}},
    {__LINE__, TEXT(S), 1, TEXT("S,0,1,0\nS,1,1,1\nS,2,1,0\n"), 3, {{2, 1}, {2, 2}, {1, 1}}, 0, 0,
     {{2, 1}, {2, 2}, {1, 1}}, {1, 1, 1}},
    {__LINE__, TEXT(S), 0, TEXT("S,0,0,0\nS,0,1,0\nS,0,0,1\n"), 1, {{1, 1}}, 0, 0, {{1, 1}}, {0, 1, 2}},
    {__LINE__, TEXT(S), 4294967295, TEXT("S,0,1,0\nS,0,1,1\nS,0,1,1\n"), 1, {{2, 0}}, 0, 0, {{2, 1}}, {3, 0, 0}},
    {__LINE__, TEXT(S_RETURNS), 2, TEXT("S,1,1,0\n"), 2, {{2, 0}, {2, 0}}, 0, 0, {{2, 0}, {2, 1}}, {1, 0, 0}},
    /* each visit has the whole budget */
    {__LINE__, TEXT(STEPS), 3, TEXT("S,0,0,0\nS,0,3,1\n"), 1, {{2, 0}}, 0, 0, {{2, 2}}, {2, 0, 0}},
    {__LINE__, TEXT(STEPS), 2, TEXT("S,0,0,0\nS,0,3,1\nS,0,0,0\n"), 1, {{2, 0}}, 0, 0, {{2, 2}}, {2, 0, 1}},
    /* the other end's T line, there and back; trees that are equal under other lines */
    {__LINE__, TEXT(WIDER), 1, TEXT("S,0,0,0\n"), 1, {{1, 0}}, 0, 0, {{2, 1}}, {1, 0, 0}},
    {__LINE__, TEXT(WIDER), 1, TEXT("S,0,0,0\nS,0,0,0\nS,0,0,1\n"), 1, {{1, 0}}, 0, 0, {{1, 0}}, {2, 1, 0}},
    {__LINE__, TEXT(TWO_UNITS "I,0,1\nC,0,0\n"), 1, TEXT("S,0,0,0\nS,1,0,1\n"), 2, {{1, 0}, {0, 0}}, 0, 0,
     {{1, 0}, {0, 0}}, {2, 0, 0}},
    {__LINE__, TEXT(TWO_UNITS "I,0,1\nC,0,0\n"), 1, TEXT("S,0,0,0\nS,0,0,1\n"), 1, {{1, 0}}, 0, 0, {{0, 0}},
     {2, 0, 0}},
    /* both endings; no visit, no unit, no line */
    {__LINE__, TEXT(S), 1, TEXT("S,0,0,0\r\nS,0,0,1\nS,0,0,0\r\n"), 1, {{1, 0}}, 0, 0, {{1, 1}}, {3, 0, 0}},
    {__LINE__, TEXT(S), 1, TEXT(""), 2, {{1, 1}, {2, 3}}, 0, 0, {{1, 1}, {2, 3}}, {0, 0, 0}},
    {__LINE__, TEXT(S), 1, TEXT(""), 0, {{0, 0}}, 0, 0, {{0, 0}}, {0, 0, 0}},
    {__LINE__, TEXT(""), 0, TEXT(""), 0, {{0, 0}}, 0, 0, {{0, 0}}, {0, 0, 0}},
    /* the highest number of a type that can be numbered */
    {__LINE__, TEXT(BITS_PLAYED), 1, TEXT("S,0,1,0\nS,0,0,0\n"), 1, {{31, 2147483647}}, 0, 0, {{31, 2147483647}},
     {1, 1, 0}},
    /* T lines that are absent; numbers that would be one with fewer bits */
    {__LINE__, TEXT(S), 9, TEXT("S,0,1,0\n"), 1, {{3, 0}}, 15, 0, {{0, 0}}, {0, 0, 0}},
    {__LINE__, TEXT(S), 9, TEXT("S,0,1,0\n"), 1, {{258, 1}}, 15, 0, {{0, 0}}, {0, 0, 0}},
    {__LINE__, TEXT(S), 9, TEXT("S,0,1,0\n"), 1, {{65538, 1}}, 15, 0, {{0, 0}}, {0, 0, 0}},
    {__LINE__, TEXT(S), 9, TEXT("S,0,1,0\n"), 1, {{2147483650, 1}}, 15, 0, {{0, 0}}, {0, 0, 0}},
    {__LINE__, TEXT(""), 9, TEXT(""), 1, {{0, 0}}, 15, 0, {{0, 0}}, {0, 0, 0}},
    /* too many values, by one; not below the count */
    {__LINE__, TEXT(BITS_PLAYED), 1, TEXT(""), 1, {{32, 0}}, 18, 0, {{0, 0}}, {0, 0, 0}},
    {__LINE__, TEXT(S), 9, TEXT("S,0,1,0\n"), 1, {{2, 4}}, 19, 0, {{0, 0}}, {0, 0, 0}},
    {__LINE__, TEXT(S), 9, TEXT("S,0,1,0\n"), 1, {{2, 65537}}, 19, 0, {{0, 0}}, {0, 0, 0}},
    {__LINE__, TEXT(S), 9, TEXT("S,0,1,0\n"), 1, {{2, 4294967295}}, 19, 0, {{0, 0}}, {0, 0, 0}},
    {__LINE__, TEXT(BITS_PLAYED), 1, TEXT(""), 1, {{31, 2147483648}}, 19, 0, {{0, 0}}, {0, 0, 0}},
    /* on one unit 15, 18, 19; of two units the first; then the script, before the first visit */
    {__LINE__, TEXT(BITS_PLAYED), 1, TEXT("x"), 1, {{33, 4294967295}}, 15, 0, {{0, 0}}, {0, 0, 0}},
    {__LINE__, TEXT(BITS_PLAYED), 1, TEXT("x"), 1, {{32, 4294967295}}, 18, 0, {{0, 0}}, {0, 0, 0}},
    {__LINE__, TEXT(BITS_PLAYED), 1, TEXT("x"), 2, {{31, 4294967295}, {32, 0}}, 19, 0, {{0, 0}}, {0, 0, 0}},
    {__LINE__, TEXT(BITS_PLAYED), 1, TEXT("x"), 2, {{32, 0}, {33, 0}}, 18, 0, {{0, 0}}, {0, 0, 0}},
    {__LINE__, TEXT(BITS_PLAYED), 1, TEXT("x"), 3, {{31, 0}, {33, 0}, {31, 4294967295}}, 15, 0, {{0, 0}}, {0, 0, 0}},
    {__LINE__, TEXT(S), 9, TEXT("S,0,0,0\nx\n"), 2, {{1, 0}, {1, 2}}, 19, 0, {{0, 0}}, {0, 0, 0}},
    {__LINE__, TEXT(S), 9, TEXT("S,0,0,0\nx\n"), 2, {{1, 0}, {1, 1}}, 22, 0, {{0, 0}}, {0, 0, 0}},
    {__LINE__, TEXT(S), 0, TEXT("S,0,0,0\nS,0,2,0\n"), 1, {{0, 0}}, 22, 0, {{0, 0}}, {0, 0, 0}},
    {__LINE__, TEXT(S), 9, TEXT("S,0,0,0\n"), 0, {{0, 0}}, 22, 0, {{0, 0}}, {0, 0, 0}},
    /* a unit that holds a list, an iso on lists: on each line 22 before 18 */
    {__LINE__, TEXT(ZONES), 9, TEXT("S,0,1,0\n"), 1, {{1, 0}}, 0, 0, {{1, 1}}, {1, 0, 0}},
    {__LINE__, TEXT(ZONES), 9, TEXT(""), 1, {{2, 0}}, 18, 0, {{0, 0}}, {0, 0, 0}},
    {__LINE__, TEXT(ZONES), 9, TEXT("S,0,0,0\n"), 1, {{1, 0}}, 18, 0, {{0, 0}}, {0, 0, 0}},
    {__LINE__, TEXT(ZONES), 9, TEXT("S,1,0,0\n"), 1, {{1, 0}}, 22, 0, {{0, 0}}, {0, 0, 0}},
    {__LINE__, TEXT(ZONES), 9, TEXT("S,0,1,0\nS,0,0,1\nx\n"), 1, {{1, 0}}, 18, 0, {{0, 0}}, {0, 0, 0}},
    {__LINE__, TEXT(ZONES), 9, TEXT("x\nS,0,0,1\n"), 1, {{1, 0}}, 22, 0, {{0, 0}}, {0, 0, 0}},
    /* the file's refusal comes first */
    {__LINE__, TEXT(S "C,7,7\n"), 9, TEXT("x"), 1, {{3, 0}}, 11, 15, {{0, 0}}, {0, 0, 0}},
    {__LINE__, TEXT(S_TREES), 9, TEXT("x"), 1, {{2, 4}}, 21, 1, {{0, 0}}, {0, 0, 0}},
    {__LINE__, TEXT(S "\n"), 9, TEXT(""), 1, {{2, 0}}, 3, 19, {{0, 0}}, {0, 0, 0}},
};

static struct call run_call(const struct query_case *c)
{
    return (struct call){.service = SERVICE_RUN,
                         .file = c->file,
                         .iso = c->iso,
                         .back = c->back,
                         .budget = c->budget,
                         .value = c->value};
}

static struct call sheet_call(const struct sheet_case *c)
{
    return (struct call){.service = SERVICE_SHEET, .file = c->file, .sheet = {c->list, c->queries, c->replies}};
}

static bool has_witness(uint32_t number)
{
    return number >= RULEFILE_OVERLAP_LEFT && number <= RULEFILE_GAP_RIGHT;
}

static const struct unit absent_unit = {UINT32_MAX, 0};

/* A call that asks for an iso, a T line, a P line or the T line of a unit that no file has. */
static struct call absent_call(enum service service, struct bytes file)
{
    struct call call = {
        .service = service, .file = file, .iso = UINT32_MAX, .type = UINT32_MAX, .right = UINT32_MAX};
    if (service == SERVICE_SHEET)
        call.sheet = unanswered_sheet;
    if (service == SERVICE_PLAY)
        call.units = (struct units){.before = &absent_unit, .types = 1, .settings = 1};
    return call;
}

/* What such a call gives: refused as Check refuses the file, with its line where the service names one, or with 15. */
static struct answer absent_answer(enum service service, const struct file_case *c)
{
    bool asks = service != SERVICE_CHECK && service != SERVICE_TURN && service != SERVICE_SHEET &&
                service != SERVICE_WITNESS;
    bool lineless = service == SERVICE_RUN || service == SERVICE_NUMBER_OF || service == SERVICE_SETTING_OF ||
                    service == SERVICE_BOUNDS;
    uint32_t number = c->number == RULEFILE_ACCEPTED && asks ? RULEFILE_NO_ISO : c->number;
    return (struct answer){.number = number, .line = lineless ? 0 : c->line};
}

/* What such a call writes. */
static struct bytes absent_text(enum service service, const struct file_case *c)
{
    return service == SERVICE_TURN && c->number == RULEFILE_ACCEPTED ? c->turned : nothing;
}

/* A file through every service, but for a witness that there is. */
static void try_file(const struct setting *setting, const struct file_case *c)
{
    for (enum service service = 0; service < SERVICES; service++) {
        struct call call = absent_call(service, c->file);
        if (service != SERVICE_WITNESS || !has_witness(c->number))
            try_call(c->at, setting, &call, absent_answer(service, c), absent_text(service, c));
    }
}

static void try_query(const struct setting *setting, const struct query_case *c)
{
    struct call call = run_call(c);
    struct answer answer = {.number = c->number, .count = c->count};
    try_call(c->at, setting, &call, answer, c->result);
}

static void try_sheet(const struct setting *setting, const struct sheet_case *c)
{
    struct call call = sheet_call(c);
    try_call(c->at, setting, &call, (struct answer){0}, nothing);
}

/* The letters to the number, and the number to the letters. */
static void try_setting(const struct setting *setting, const struct setting_case *c)
{
    struct call call = {.service = SERVICE_NUMBER_OF, .file = c->file, .type = c->type, .value = c->letters};
    try_call(c->at, setting, &call, (struct answer){.setting = c->setting}, nothing);
    call = (struct call){.service = SERVICE_SETTING_OF, .file = c->file, .type = c->type, .setting = c->setting};
    try_call(c->at, setting, &call, (struct answer){0}, c->letters);
}

/* Both calls, each of them refused. */
static void try_unnumbered(const struct setting *setting, const struct unnumbered_case *c)
{
    struct call call = {.service = SERVICE_NUMBER_OF,
                        .file = c->file,
                        .type = c->type,
                        .value = c->letters,
                        .setting = c->setting};
    if (c->of_letters > 0)
        try_call(c->at, setting, &call, (struct answer){.number = c->of_letters}, nothing);
    call.service = SERVICE_SETTING_OF;
    if (c->of_number > 0)
        try_call(c->at, setting, &call, (struct answer){.number = c->of_number}, nothing);
}

static struct call overlap_call(const struct overlap_case *c)
{
    return (struct call){.service = SERVICE_OVERLAP, .file = c->file, .left = c->left, .right = c->right};
}

static struct answer overlap_answer(const struct overlap_case *c)
{
    return (struct answer){.number = c->number, .clash = c->clash, .pairs = c->pairs};
}

/* Two P lines, and the same exchanged. */
static void try_overlap(const struct setting *setting, const struct overlap_case *c)
{
    struct call call = overlap_call(c);
    try_call(c->at, setting, &call, overlap_answer(c), nothing);
    call.left = c->right;
    call.right = c->left;
    try_call(c->at, setting, &call, overlap_answer(c), nothing);
}

static void try_bounds(const struct setting *setting, const struct bounds_case *c)
{
    struct call call = {.service = SERVICE_BOUNDS, .file = c->file, .iso = c->iso};
    struct answer answer = {.number = c->number, .least = c->least, .greatest = c->greatest};
    try_call(c->at, setting, &call, answer, nothing);
}

static void try_witness(const struct setting *setting, const struct witness_case *c)
{
    struct call call = {.service = SERVICE_WITNESS, .file = c->file};
    struct answer answer = {.number = c->number, .line = c->line};
    try_call(c->at, setting, &call, answer, c->letters);
}

static struct call export_call(const struct export_case *c)
{
    return (struct call){.service = SERVICE_EXPORT, .file = c->file, .iso = c->iso, .budget = c->budget};
}

static struct call import_call(const struct import_case *c)
{
    return (struct call){
        .service = SERVICE_IMPORT, .file = c->file, .left = c->from, .right = c->to, .value = c->list};
}

static void try_export(const struct setting *setting, const struct export_case *c)
{
    struct call call = export_call(c);
    try_call(c->at, setting, &call, (struct answer){.number = c->number, .line = c->line}, c->list);
}

static void try_import(const struct setting *setting, const struct import_case *c)
{
    struct call call = import_call(c);
    try_call(c->at, setting, &call, (struct answer){.number = c->number, .line = c->line}, c->written);
}

/* A play of so many units, both areas of that length. */
static struct call units_call(struct bytes file, const struct unit *units, size_t count, struct bytes script)
{
    return (struct call){.service = SERVICE_PLAY,
                         .file = file,
                         .value = script,
                         .units = {.before = units, .types = count, .settings = count}};
}

static struct call play_call(const struct play_case *c)
{
    struct call call = units_call(c->file, c->before, c->units, c->script);
    call.budget = c->budget;
    call.units.after = c->after;
    call.units.tally = c->tally;
    return call;
}

static void try_play(const struct setting *setting, const struct play_case *c)
{
    struct call call = play_call(c);
    try_call(c->at, setting, &call, (struct answer){.number = c->number, .line = c->line}, nothing);
}

static void try_cases(const struct setting *setting)
{
    for (size_t i = 0; i < COUNT_OF(file_cases); i++)
        try_file(setting, &file_cases[i]);
    for (size_t i = 0; i < COUNT_OF(query_cases); i++)
        try_query(setting, &query_cases[i]);
    for (size_t i = 0; i < COUNT_OF(sheet_cases); i++)
        try_sheet(setting, &sheet_cases[i]);
    for (size_t i = 0; i < COUNT_OF(setting_cases); i++)
        try_setting(setting, &setting_cases[i]);
    for (size_t i = 0; i < COUNT_OF(unnumbered_cases); i++)
        try_unnumbered(setting, &unnumbered_cases[i]);
    for (size_t i = 0; i < COUNT_OF(overlap_cases); i++)
        try_overlap(setting, &overlap_cases[i]);
    for (size_t i = 0; i < COUNT_OF(bounds_cases); i++)
        try_bounds(setting, &bounds_cases[i]);
    for (size_t i = 0; i < COUNT_OF(witness_cases); i++)
        try_witness(setting, &witness_cases[i]);
    for (size_t i = 0; i < COUNT_OF(export_cases); i++)
        try_export(setting, &export_cases[i]);
    for (size_t i = 0; i < COUNT_OF(import_cases); i++)
        try_import(setting, &import_cases[i]);
    for (size_t i = 0; i < COUNT_OF(play_cases); i++)
        try_play(setting, &play_cases[i]);
}

/* Groups */

/* The header's numbers are those of documents 01 and 02; below, its structs are laid out as stated. */
static void header_numbers(void)
{
    static const uint32_t in_order[] = {
        RULEFILE_ACCEPTED, RULEFILE_SHORT_AREA, RULEFILE_TOO_LONG, RULEFILE_BAD_LINE, RULEFILE_MISPLACED,
        RULEFILE_BAD_FIELD, RULEFILE_BAD_NAME, RULEFILE_CEILING, RULEFILE_VARIABLE, RULEFILE_LET_SHAPE,
        RULEFILE_TYPE, RULEFILE_OVERLAP_LEFT, RULEFILE_OVERLAP_RIGHT, RULEFILE_GAP_LEFT, RULEFILE_GAP_RIGHT,
        RULEFILE_NO_ISO, RULEFILE_NO_VALUE, RULEFILE_SPENT, RULEFILE_TOO_MANY, RULEFILE_TOO_HIGH,
        RULEFILE_BAD_LIST, RULEFILE_IDLE_LINE, RULEFILE_BAD_SCRIPT, RULEFILE_RECURSION, RULEFILE_TOO_LARGE,
    };
    CHECK(COUNT_OF(in_order) == 25);
    for (size_t i = 0; i < COUNT_OF(in_order); i++)
        CHECK(in_order[i] == i);
    CHECK(RULEFILE_TABLE_LENGTH == 20480);
    CHECK(RULEFILE_WORK_LENGTH == 65536);
    CHECK(RULEFILE_RESULT_LENGTH == 127);
    CHECK(RULEFILE_LIST_LENGTH == 40960);
    CHECK(RULEFILE_NUMBERS_A_QUERY == 3);
    CHECK(RULEFILE_MAX_QUERIES == 600);
    CHECK(RULEFILE_MAX_UNITS == 1000);
    CHECK(RULEFILE_MAX_FILE_LENGTH == 65536);
    CHECK(RULEFILE_MAX_LINES == 4096);
}

static void header_structs(void)
{
    CHECK(sizeof(struct rulefile_number_answer) == 8);
    CHECK(offsetof(struct rulefile_number_answer, setting) == 4);
    CHECK(sizeof(struct rulefile_setting_answer) == 2 * sizeof(size_t));
    CHECK(offsetof(struct rulefile_setting_answer, length) == sizeof(size_t));
    CHECK(sizeof(struct rulefile_overlap_answer) == 3 * sizeof(size_t));
    CHECK(offsetof(struct rulefile_overlap_answer, line) == sizeof(size_t));
    CHECK(offsetof(struct rulefile_overlap_answer, clash) == 2 * sizeof(size_t));
    CHECK(offsetof(struct rulefile_overlap_answer, pairs) == 2 * sizeof(size_t) + 4);
    CHECK(sizeof(struct rulefile_bounds_answer) == 16);
    CHECK(offsetof(struct rulefile_bounds_answer, least) == 4);
    CHECK(offsetof(struct rulefile_bounds_answer, greatest) == 8);
    CHECK(offsetof(struct rulefile_bounds_answer, least_over) == 12);
    CHECK(offsetof(struct rulefile_bounds_answer, greatest_over) == 13);
    CHECK(sizeof(struct rulefile_witness_answer) == 3 * sizeof(size_t));
    CHECK(offsetof(struct rulefile_witness_answer, line) == sizeof(size_t));
    CHECK(offsetof(struct rulefile_witness_answer, length) == 2 * sizeof(size_t));
    CHECK(sizeof(struct rulefile_export_answer) == 3 * sizeof(size_t));
    CHECK(offsetof(struct rulefile_export_answer, line) == sizeof(size_t));
    CHECK(offsetof(struct rulefile_export_answer, length) == 2 * sizeof(size_t));
    CHECK(sizeof(struct rulefile_import_answer) == 3 * sizeof(size_t));
    CHECK(offsetof(struct rulefile_import_answer, line) == sizeof(size_t));
    CHECK(offsetof(struct rulefile_import_answer, length) == 2 * sizeof(size_t));
    CHECK(sizeof(struct rulefile_play_answer) == 2 * sizeof(size_t));
    CHECK(offsetof(struct rulefile_play_answer, line) == sizeof(size_t));
    CHECK(sizeof(struct rulefile_tally) == 12);
    CHECK(offsetof(struct rulefile_tally, done) == 0);
    CHECK(offsetof(struct rulefile_tally, skipped) == 4);
    CHECK(offsetof(struct rulefile_tally, spent) == 8);
}

static void exact_areas(void)
{
    static const struct setting settings[] = {{HEAP, 0, NULL}, {NULL_IF_EMPTY, 0, NULL}, {ODD, 0, NULL}};
    for (size_t i = 0; i < COUNT_OF(settings); i++)
        try_cases(&settings[i]);
}

static void guarded_areas(void)
{
    static const struct setting settings[] = {{BEFORE_GUARD, 0, NULL}, {AFTER_GUARD, 0, NULL}};
    for (size_t i = 0; i < COUNT_OF(settings); i++)
        try_cases(&settings[i]);
}

static void longer_areas(void)
{
    static const struct setting settings[] = {{HEAP, 1, NULL}, {ODD, 1000, NULL}, {BEFORE_GUARD, 77, NULL}};
    for (size_t i = 0; i < COUNT_OF(settings); i++)
        try_cases(&settings[i]);
}

/* The same areas through every case twice, never cleared. */
static void reused_areas(void)
{
    struct lengths lengths = {RULEFILE_TABLE_LENGTH + 50,
                              RULEFILE_WORK_LENGTH + 50,
                              RULEFILE_MAX_FILE_LENGTH + 50,
                              RULEFILE_NUMBERS_A_QUERY * SHEET_CASE_QUERIES + 50,
                              PLAY_CASE_UNITS + 50,
                              PLAY_CASE_UNITS + 60,
                              1};
    struct lent kept = lend(HEAP, lengths);
    struct setting setting = {HEAP, 0, &kept};
    try_cases(&setting);
    try_cases(&setting);
    give_back(&kept);
}

/* A length that is 0: empty; 1: one short; 2: exact; 3: longer. */
static size_t chosen_length(size_t exact, size_t choice)
{
    if (choice == 0 || (choice == 1 && exact == 0))
        return 0;
    return choice == 3 ? exact + 3 : exact + choice - 2;
}

/* A call with every choice of a length for every area; any area too short is refusal 1. */
static void try_lengths(int at, enum place place, const struct call *call, struct answer usual, struct bytes text)
{
    static const struct answer short_area = {.number = RULEFILE_SHORT_AREA};
    static const size_t choices[SERVICES] = {16, 64, 64, 256, 16, 64, 16, 16, 64, 64, 64, 16};
    struct lengths exact = exact_lengths(call);
    usual = with_lengths(usual, call, text);
    for (size_t choice = 0; choice < choices[call->service]; choice++) {
        struct lengths lengths = exact;
        lengths.table = chosen_length(exact.table, choice % 4);
        lengths.work = chosen_length(exact.work, choice / 4 % 4);
        lengths.out = chosen_length(exact.out, choice / 16 % 4);
        lengths.numbers = chosen_length(exact.numbers, choice / 64);
        bool is_short = lengths.table < exact.table || lengths.work < exact.work || lengths.out < exact.out ||
                        lengths.numbers < exact.numbers;
        struct answer expected = is_short ? short_area : usual;
        struct lent lent = lend(place, lengths);
        judge(at, call, perform(place, &lent, call, expected, is_short ? nothing : text), expected);
        give_back(&lent);
    }
}

static void short_areas(void)
{
    static const struct file_case cases[] = {
        {__LINE__, 0, 0, TEXT(S), TEXT(S_TURNED)},
        {__LINE__, 0, 0, TEXT(S_RETURNS), TEXT(S_TURNED)},
        {__LINE__, 0, 0, TEXT(""), TEXT("")},
        {__LINE__, 3, 19, TEXT(S "\n"), TEXT("")},
        {__LINE__, 11, 15, TEXT(S "C,7,7\n"), TEXT("")},
        {__LINE__, 2, 0, {pattern, RULEFILE_MAX_FILE_LENGTH + 1}, TEXT("")},
    };
    static const enum place places[] = {NULL_IF_EMPTY, BEFORE_GUARD};
    for (size_t i = 0; i < COUNT_OF(places) * COUNT_OF(cases) * SERVICES; i++) {
        const struct file_case *c = &cases[i / COUNT_OF(places) / SERVICES];
        enum service service = (enum service)(i / COUNT_OF(places) % SERVICES);
        struct call call = absent_call(service, c->file);
        if (service != SERVICE_WITNESS || !has_witness(c->number))
            try_lengths(c->at, places[i % COUNT_OF(places)], &call, absent_answer(service, c), absent_text(service, c));
    }
}

/* A run that gives a value, with every choice of lengths. */
static void short_areas_of_runs(void)
{
    static const struct bytes file = TEXT(S);
    static const struct bytes value = TEXT("PLURU");
    static const struct bytes result = TEXT("PLULU");
    struct call call = {.service = SERVICE_RUN, .file = file, .iso = 1, .budget = 2, .value = value};
    struct answer answer = {.count = 2};
    try_lengths(__LINE__, NULL_IF_EMPTY, &call, answer, result);
    try_lengths(__LINE__, BEFORE_GUARD, &call, answer, result);
}

/* Both ways, given and with each refusal of their own, with every choice of lengths. */
static void short_areas_of_settings(void)
{
    static const struct bytes file = TEXT(S);
    static const struct bytes bits = TEXT(BITS_USED);
    static const struct bytes letters = TEXT("PRULU");
    static const enum place places[] = {NULL_IF_EMPTY, BEFORE_GUARD};
    for (size_t i = 0; i < COUNT_OF(places); i++) {
        struct call call = {.service = SERVICE_NUMBER_OF, .file = file, .type = 2, .value = letters};
        try_lengths(__LINE__, places[i], &call, (struct answer){.setting = 2}, nothing);
        call.value = nothing;
        try_lengths(__LINE__, places[i], &call, (struct answer){.number = RULEFILE_NO_VALUE}, nothing);
        call = (struct call){.service = SERVICE_SETTING_OF, .file = file, .type = 2, .setting = 2};
        try_lengths(__LINE__, places[i], &call, (struct answer){0}, letters);
        call.setting = 4;
        try_lengths(__LINE__, places[i], &call, (struct answer){.number = RULEFILE_TOO_HIGH}, nothing);
        call = (struct call){.service = SERVICE_SETTING_OF, .file = bits, .type = 32};
        try_lengths(__LINE__, places[i], &call, (struct answer){.number = RULEFILE_TOO_MANY}, nothing);
        call.service = SERVICE_NUMBER_OF;
        try_lengths(__LINE__, places[i], &call, (struct answer){.number = RULEFILE_TOO_MANY}, nothing);
    }
}

/* Two P lines that clash, with every choice of lengths. */
static void short_areas_of_overlaps(void)
{
    struct overlap_case c = {__LINE__, TEXT(S), 5, 7, 0, true, 2};
    struct call call = overlap_call(&c);
    try_lengths(__LINE__, NULL_IF_EMPTY, &call, overlap_answer(&c), nothing);
    try_lengths(__LINE__, BEFORE_GUARD, &call, overlap_answer(&c), nothing);
}

/* Bounds that are given, with every choice of lengths. */
static void short_areas_of_bounds(void)
{
    static const struct bytes file = TEXT(COSTS);
    struct call call = {.service = SERVICE_BOUNDS, .file = file, .iso = 3};
    struct answer answer = {.least = 5, .greatest = 8};
    try_lengths(__LINE__, NULL_IF_EMPTY, &call, answer, nothing);
    try_lengths(__LINE__, BEFORE_GUARD, &call, answer, nothing);
}

/* A witness of each refusal, with every choice of lengths. */
static void short_areas_of_witnesses(void)
{
    static const enum place places[] = {NULL_IF_EMPTY, BEFORE_GUARD};
    for (size_t i = 0; i < 5 * COUNT_OF(places); i++) {
        const struct witness_case *c = &witness_cases[i / COUNT_OF(places)];
        struct call call = {.service = SERVICE_WITNESS, .file = c->file};
        struct answer answer = {.number = c->number, .line = c->line};
        try_lengths(c->at, places[i % COUNT_OF(places)], &call, answer, c->letters);
    }
}

/* Both ways of pair lists, given and with each refusal of their own, with every choice of lengths. */
static void short_areas_of_lists(void)
{
    static const struct export_case exports[] = {
        {__LINE__, TEXT(S), 1, 2, 0, 0, TEXT(S_LIST)},
        {__LINE__, TEXT(S), 1, 1, 17, 0, TEXT("")},
        {__LINE__, TEXT(BITS "P,1,0,0\nI,13,13\nC,0,0\nI,32,32\nC,0,0\n"), 0, 1, 18, 0, TEXT("")},
    };
    static const struct import_case imports[] = {
        {__LINE__, TEXT(S), 2, 2, TEXT(S_LIST), 0, 0, TEXT(S_IMPORTED)},
        {__LINE__, TEXT(S), 2, 2, TEXT("x"), 20, 0, TEXT("")},
        {__LINE__, TEXT(S), 2, 2, {(const uint8_t *)LINES_129, 129}, 7, 0, TEXT("")},
        {__LINE__, TEXT(BITS_USED), 13, 1, TEXT(""), 18, 0, TEXT("")},
    };
    static const enum place places[] = {NULL_IF_EMPTY, BEFORE_GUARD};
    for (size_t i = 0; i < COUNT_OF(places); i++) {
        for (size_t k = 0; k < COUNT_OF(exports); k++) {
            struct call call = export_call(&exports[k]);
            try_lengths(exports[k].at, places[i], &call, (struct answer){.number = exports[k].number},
                        exports[k].list);
        }
        for (size_t k = 0; k < COUNT_OF(imports); k++) {
            struct call call = import_call(&imports[k]);
            try_lengths(imports[k].at, places[i], &call, (struct answer){.number = imports[k].number},
                        imports[k].written);
        }
    }
}

/* Plays that are not refused, and one of each refusal of their own, with every choice of lengths. */
static void short_areas_of_plays(void)
{
    static const enum place places[] = {NULL_IF_EMPTY, BEFORE_GUARD};
    bool tried[LAST_NUMBER + 1] = {false};
    for (size_t i = 0; i < COUNT_OF(play_cases); i++) {
        const struct play_case *c = &play_cases[i];
        struct call call = play_call(c);
        struct answer answer = {.number = c->number, .line = c->line};
        if (i > 0 && tried[c->number])
            continue;
        tried[c->number] = i > 0; /* two that are not refused */
        for (size_t k = 0; k < COUNT_OF(places); k++)
            try_lengths(c->at, places[k], &call, answer, nothing);
    }
}

/* Areas of units whose lengths are not the same are refused with 1, whatever else is wrong. */
static void unequal_units(void)
{
    static const size_t lengths[][2] = {{0, 1},       {1, 0},       {2, 3},       {3, 2},
                                        {1000, 999}, {1000, 1001}, {1001, 1000}, {1001, 1002}};
    static const struct bytes files[] = {TEXT(S), TEXT(S "C,7,7\n"), {pattern, RULEFILE_MAX_FILE_LENGTH + 1}};
    static const struct bytes scripts[] = {TEXT(""), TEXT("S,0,0,0\n"), TEXT("x")};
    static const enum place places[] = {NULL_IF_EMPTY, BEFORE_GUARD};
    static const struct unit units[1002];
    for (size_t i = 0; i < COUNT_OF(lengths) * COUNT_OF(files); i++) {
        struct call call = units_call(files[i % COUNT_OF(files)], units, 0, scripts[i % COUNT_OF(scripts)]);
        call.units.types = lengths[i / COUNT_OF(files)][0];
        call.units.settings = lengths[i / COUNT_OF(files)][1];
        for (size_t k = 0; k < COUNT_OF(places); k++) {
            struct setting setting = {places[k], 0, NULL};
            try_call(__LINE__, &setting, &call, (struct answer){.number = RULEFILE_SHORT_AREA}, nothing);
        }
    }
}

/* Sheets that are answered, one of them without a query, with every choice of lengths. */
static void short_areas_of_sheets(void)
{
    for (size_t i = 0; i < 4; i++) {
        struct call call = sheet_call(&sheet_cases[i]);
        try_lengths(sheet_cases[i].at, NULL_IF_EMPTY, &call, (struct answer){0}, nothing);
        try_lengths(sheet_cases[i].at, BEFORE_GUARD, &call, (struct answer){0}, nothing);
    }
}

/* The pointer NULL for every area that may be empty, then for all six. */
static void null_areas(void)
{
    struct lent lent = lend(HEAP, sheet_lengths(0));
    struct rulefile_sheet_answer a =
        rulefile_sheet(NULL, 0, rows_of(lent.table.start), RULEFILE_TABLE_LENGTH, lent.work.start,
                       RULEFILE_WORK_LENGTH, NULL, 0, NULL, 0, NULL, 0);
    CHECK(a.number == RULEFILE_ACCEPTED && a.line == 0 && a.queries == 0);
    a = rulefile_sheet(NULL, 0, NULL, 0, NULL, 0, NULL, 0, NULL, 0, NULL, 0);
    CHECK(a.number == RULEFILE_SHORT_AREA && a.line == 0 && a.queries == 0);
    give_back(&lent);
}

/* The same for settings as numbers. */
static void null_areas_of_settings(void)
{
    struct lent lent = lend(HEAP, sheet_lengths(1));
    uint16_t *table = rows_of(lent.table.start);
    struct rulefile_number_answer n = rulefile_number_of(NULL, 0, table, RULEFILE_TABLE_LENGTH, lent.work.start,
                                                         RULEFILE_WORK_LENGTH, 0, NULL, 0);
    CHECK(n.number == RULEFILE_NO_ISO && n.setting == 0);
    n = rulefile_number_of(NULL, 0, NULL, 0, NULL, 0, 0, NULL, 0);
    CHECK(n.number == RULEFILE_SHORT_AREA && n.setting == 0);
    struct rulefile_setting_answer s =
        rulefile_setting_of(NULL, 0, table, RULEFILE_TABLE_LENGTH, lent.work.start, RULEFILE_WORK_LENGTH, 0, 0,
                            lent.out.start, RULEFILE_RESULT_LENGTH);
    CHECK(s.number == RULEFILE_NO_ISO && s.length == 0 && as_foreseen(&lent.out));
    s = rulefile_setting_of(NULL, 0, table, RULEFILE_TABLE_LENGTH, lent.work.start, RULEFILE_WORK_LENGTH, 0, 0,
                            NULL, 0);
    CHECK(s.number == RULEFILE_SHORT_AREA && s.length == 0);
    s = rulefile_setting_of(NULL, 0, NULL, 0, NULL, 0, 0, 0, NULL, 0);
    CHECK(s.number == RULEFILE_SHORT_AREA && s.length == 0);
    give_back(&lent);
}

/* The same for two P lines. */
static void null_areas_of_overlaps(void)
{
    struct lent lent = lend(HEAP, sheet_lengths(0));
    struct rulefile_overlap_answer a = rulefile_overlap(NULL, 0, rows_of(lent.table.start), RULEFILE_TABLE_LENGTH,
                                                        lent.work.start, RULEFILE_WORK_LENGTH, 0, 0);
    CHECK(a.number == RULEFILE_NO_ISO && a.line == 0 && !a.clash && a.pairs == 0);
    a = rulefile_overlap(NULL, 0, NULL, 0, NULL, 0, 0, 0);
    CHECK(a.number == RULEFILE_SHORT_AREA && a.line == 0 && !a.clash && a.pairs == 0);
    give_back(&lent);
}

/* The same for bounds. */
static void null_areas_of_bounds(void)
{
    struct lent lent = lend(HEAP, sheet_lengths(0));
    struct rulefile_bounds_answer b = rulefile_bounds(NULL, 0, rows_of(lent.table.start), RULEFILE_TABLE_LENGTH,
                                                      lent.work.start, RULEFILE_WORK_LENGTH, 0);
    CHECK(b.number == RULEFILE_NO_ISO && b.least == 0 && b.greatest == 0 && !b.least_over && !b.greatest_over);
    b = rulefile_bounds(NULL, 0, NULL, 0, NULL, 0, 0);
    CHECK(b.number == RULEFILE_SHORT_AREA && b.least == 0 && b.greatest == 0 && !b.least_over && !b.greatest_over);
    give_back(&lent);
}

/* The same for witnesses, of a file that has one too. */
static void null_areas_of_witnesses(void)
{
    struct lent lent = lend(HEAP, sheet_lengths(1));
    uint16_t *table = rows_of(lent.table.start);
    struct rulefile_witness_answer w = rulefile_witness(NULL, 0, table, RULEFILE_TABLE_LENGTH, lent.work.start,
                                                        RULEFILE_WORK_LENGTH, lent.out.start, RULEFILE_RESULT_LENGTH);
    CHECK(w.number == RULEFILE_ACCEPTED && w.line == 0 && w.length == 0 && as_foreseen(&lent.out));
    struct bytes gap = witness_cases[0].file;
    w = rulefile_witness(gap.start, gap.length, table, RULEFILE_TABLE_LENGTH, lent.work.start, RULEFILE_WORK_LENGTH,
                         NULL, 0);
    CHECK(w.number == RULEFILE_SHORT_AREA && w.line == 0 && w.length == 0);
    w = rulefile_witness(gap.start, gap.length, NULL, 0, NULL, 0, NULL, 0);
    CHECK(w.number == RULEFILE_SHORT_AREA && w.line == 0 && w.length == 0);
    w = rulefile_witness(NULL, 0, NULL, 0, NULL, 0, NULL, 0);
    CHECK(w.number == RULEFILE_SHORT_AREA && w.line == 0 && w.length == 0);
    give_back(&lent);
}

/* The same for pair lists. */
static void null_areas_of_lists(void)
{
    struct lengths lengths = sheet_lengths(0);
    lengths.out = RULEFILE_MAX_FILE_LENGTH;
    struct lent lent = lend(HEAP, lengths);
    uint16_t *table = rows_of(lent.table.start);
    struct rulefile_export_answer e =
        rulefile_export(NULL, 0, table, RULEFILE_TABLE_LENGTH, lent.work.start, RULEFILE_WORK_LENGTH, 0, 1,
                        lent.out.start, RULEFILE_LIST_LENGTH);
    CHECK(e.number == RULEFILE_NO_ISO && e.line == 0 && e.length == 0 && as_foreseen(&lent.out));
    e = rulefile_export(NULL, 0, table, RULEFILE_TABLE_LENGTH, lent.work.start, RULEFILE_WORK_LENGTH, 0, 1, NULL, 0);
    CHECK(e.number == RULEFILE_SHORT_AREA && e.line == 0 && e.length == 0);
    e = rulefile_export(NULL, 0, NULL, 0, NULL, 0, 0, 1, NULL, 0);
    CHECK(e.number == RULEFILE_SHORT_AREA && e.line == 0 && e.length == 0);
    struct rulefile_import_answer m =
        rulefile_import(NULL, 0, table, RULEFILE_TABLE_LENGTH, lent.work.start, RULEFILE_WORK_LENGTH, 0, 0, NULL, 0,
                        lent.out.start, RULEFILE_MAX_FILE_LENGTH);
    CHECK(m.number == RULEFILE_NO_ISO && m.line == 0 && m.length == 0 && as_foreseen(&lent.out));
    m = rulefile_import((const uint8_t *)"T,0,0,0\nP,0,0,0\nI,0,0\nC,0,0\n", 28, table, RULEFILE_TABLE_LENGTH, lent.work.start,
                        RULEFILE_WORK_LENGTH, 0, 0, NULL, 0, lent.out.start, RULEFILE_MAX_FILE_LENGTH);
    CHECK(m.number == RULEFILE_BAD_LIST && m.line == 0 && m.length == 0 && as_foreseen(&lent.out));
    m = rulefile_import(NULL, 0, NULL, 0, NULL, 0, 0, 0, NULL, 0, NULL, 0);
    CHECK(m.number == RULEFILE_SHORT_AREA && m.line == 0 && m.length == 0);
    give_back(&lent);
}

/* The same for plays: no unit and no line, on areas of both lengths; the record is there. */
static void null_areas_of_plays(void)
{
    static const struct rulefile_tally held = {7, 8, 9};
    struct lent lent = lend(HEAP, sheet_lengths(0));
    struct rulefile_tally tally = held;
    struct rulefile_play_answer a = rulefile_play(NULL, 0, NULL, 0, NULL, 0, NULL, 0, NULL, 0, NULL, 0, 1, &tally);
    CHECK(a.number == RULEFILE_SHORT_AREA && a.line == 0);
    CHECK(memcmp(&tally, &held, sizeof tally) == 0);
    a = rulefile_play(NULL, 0, rows_of(lent.table.start), RULEFILE_TABLE_LENGTH, lent.work.start, RULEFILE_WORK_LENGTH,
                      NULL, 0, NULL, 0, (const uint8_t *)"\n", 1, 1, &tally);
    CHECK(a.number == RULEFILE_BAD_SCRIPT && a.line == 0);
    CHECK(memcmp(&tally, &held, sizeof tally) == 0);
    a = rulefile_play(NULL, 0, rows_of(lent.table.start), RULEFILE_TABLE_LENGTH, lent.work.start, RULEFILE_WORK_LENGTH,
                      NULL, 0, NULL, 0, NULL, 0, 1, &tally);
    CHECK(a.number == RULEFILE_ACCEPTED && a.line == 0);
    CHECK(tally.done == 0 && tally.skipped == 0 && tally.spent == 0);
    give_back(&lent);
}

/* Files that are built */

static struct {
    uint8_t bytes[2 * RULEFILE_MAX_FILE_LENGTH];
    size_t length;
} built;

static void begin(void)
{
    built.length = 0;
}

static void add(const char *text)
{
    size_t length = strlen(text);
    require(length <= sizeof built.bytes - built.length);
    memcpy(built.bytes + built.length, text, length);
    built.length += length;
}

static void add_bytes(uint8_t byte, size_t times)
{
    require(times <= sizeof built.bytes - built.length);
    memset(built.bytes + built.length, byte, times);
    built.length += times;
}

static void add_times(const char *text, size_t times)
{
    for (size_t i = 0; i < times; i++)
        add(text);
}

/* Adds a line of a letter and numbers; a negative one ends them. */
static void add_line(char letter, int a, int b, int c)
{
    char line[32];
    if (c < 0)
        snprintf(line, sizeof line, "%c,%d,%d\n", letter, a, b);
    else
        snprintf(line, sizeof line, "%c,%d,%d,%d\n", letter, a, b, c);
    add(line);
}

static struct bytes built_file(void)
{
    return (struct bytes){built.bytes, built.length};
}

/* The built file; where it is accepted, it is the same turned. */
static void try_built(int at, uint32_t number, size_t line)
{
    static const struct setting settings[] = {{HEAP, 0, NULL}, {BEFORE_GUARD, 0, NULL}, {ODD, 5, NULL}};
    struct file_case c = {at, number, line, built_file(), built_file()};
    for (size_t i = 0; i < COUNT_OF(settings); i++)
        try_file(&settings[i], &c);
}

/* A run of the built file. */
static void try_built_run(int at, uint32_t iso, bool back, uint32_t budget, struct bytes value,
                          struct answer answer, struct bytes result)
{
    static const struct setting settings[] = {{HEAP, 0, NULL}, {BEFORE_GUARD, 0, NULL}};
    struct call call = {.service = SERVICE_RUN,
                        .file = built_file(),
                        .iso = iso,
                        .back = back,
                        .budget = budget,
                        .value = value};
    for (size_t i = 0; i < COUNT_OF(settings); i++)
        try_call(at, &settings[i], &call, answer, result);
}

static void file_lengths(void)
{
    static const uint8_t fill[] = {'T', 0, 255};
    for (size_t i = 0; i < COUNT_OF(fill); i++) {
        begin();
        add_bytes(fill[i], RULEFILE_MAX_FILE_LENGTH);
        try_built(__LINE__, 3, 1);
        add_bytes(fill[i], 1);
        try_built(__LINE__, 2, 0);
    }
    begin();
    add_bytes('\n', RULEFILE_MAX_LINES);
    try_built(__LINE__, 3, 1);
    add("x");
    try_built(__LINE__, 2, 0);
    begin();
    add_bytes('\n', RULEFILE_MAX_LINES - 1);
    add("x");
    try_built(__LINE__, 3, 1);
    begin();
    add_bytes('\n', RULEFILE_MAX_LINES + 1);
    try_built(__LINE__, 2, 0);
    add_bytes('\n', RULEFILE_MAX_FILE_LENGTH - built.length);
    try_built(__LINE__, 2, 0);
}

/* An iso of ten clauses, each with eight let steps but the last, which has as many as stated. */
static void add_ten_clauses(int type, size_t last, int *unit)
{
    add_line('I', type, type, -1);
    for (int step = 0; step < 10; step++) {
        int place = step < 9 ? step + 1 : 18;
        add_line('C', place, place, -1);
        int lets = step < 9 ? 8 : (int)last;
        for (int let = 0; let < lets; let++) { /* the same from both ends with sides exchanged */
            int near = let < lets - 1 - let ? let : lets - 1 - let;
            int other = let == lets - 1 - let ? 0 : 1;
            add_line('L', *unit + 2 * near + (let > near ? other : 0), 0, *unit + 2 * near + (let > near ? 0 : other));
        }
        *unit = *unit == 1016 ? 19 : *unit + 8 < 1016 ? *unit + 8 : 1016;
    }
}

/* 4,096 lines, all ceilings on numbers of T, P and I lines reached; accepted, and the same turned. */
static void build_longest(void)
{
    begin();
    add_times("T,0,0,0\n", 4);
    for (int type = 4; type < 256; type++) /* 28 types of ten values: LU, RLU, and so on */
        add_line('T', 1, type % 3, (type - 4) % 9 == 0 ? 3 : type - 1);
    add("P,0,0,0\nP,2,0,0\n");
    for (int place = 1; place < 9; place++)
        add_line('P', 3, place, 0);
    add("P,3,0,0\n");
    for (int place = 10; place < 18; place++)
        add_line('P', 3, place, 0);
    add_times("P,0,0,0\n", 1005);
    add("I,0,0\nC,0,0\n");
    int unit = 19; /* the units from here on are named by let steps */
    for (int iso = 1; iso < 32; iso++)
        add_ten_clauses(12 + 9 * (iso % 28), iso < 25 ? 8 : 7, &unit);
}

static size_t built_lines(void)
{
    size_t lines = 0;
    for (size_t i = 0; i < built.length; i++)
        lines += built.bytes[i] == '\n';
    return lines;
}

static void longest_file(void)
{
    static const struct bytes first = TEXT("LU");
    static const struct bytes last = TEXT("RRRRRRRRRU");
    build_longest();
    CHECK(built_lines() == RULEFILE_MAX_LINES);
    try_built(__LINE__, 0, 0);
    try_built_run(__LINE__, 24, false, 9, last, (struct answer){.count = 9}, last);
    try_built_run(__LINE__, 31, false, 9, first, (struct answer){.count = 9}, first);
    try_built_run(__LINE__, 31, true, 8, last, (struct answer){.count = 8}, last);
    try_built_run(__LINE__, 31, true, 7, last, (struct answer){.number = RULEFILE_SPENT}, nothing);
    try_built_run(__LINE__, 32, false, 9, first, (struct answer){.number = RULEFILE_NO_ISO}, nothing);
    add("L,0,0,0\n"); /* line 4,097 */
    try_built(__LINE__, 2, 0);
    build_longest();
    built.length--; /* line 4,096 without its line feed */
    try_built(__LINE__, 3, RULEFILE_MAX_LINES);
    add_bytes('0', RULEFILE_MAX_FILE_LENGTH - 1 - built.length);
    add("\n"); /* line 4,096 ends at the last byte that is allowed */
    CHECK(built.length == RULEFILE_MAX_FILE_LENGTH);
    try_built(__LINE__, 3, RULEFILE_MAX_LINES);
}

/* A head, then a text so many times. */
static void try_repeated(int at, const char *head, const char *text, size_t times, uint32_t number, size_t line)
{
    begin();
    add(head);
    add_times(text, times);
    try_built(at, number, line);
}

static void ceilings(void)
{
    try_repeated(__LINE__, "", "T,0,0,0\n", 256, 21, 1);
    try_repeated(__LINE__, "", "T,0,0,0\n", 257, 7, 257);
    try_repeated(__LINE__, "", "P,0,0,0\n", 1024, 21, 1);
    try_repeated(__LINE__, "", "P,0,0,0\n", 1025, 7, 1025);
    try_repeated(__LINE__, "T,0,0,0\nP,0,0,0\n", "I,0,0\nC,0,0\n", 32, 0, 0);
    try_repeated(__LINE__, "T,0,0,0\nP,0,0,0\n", "I,0,0\nC,0,0\n", 33, 7, 67);
    try_repeated(__LINE__, "T,0,0,0\nP,0,0,0\nI,0,0\n", "C,0,0\n", 128, 11, 3);
    try_repeated(__LINE__, "T,0,0,0\nP,0,0,0\nI,0,0\n", "C,0,0\n", 129, 7, 132);
    try_repeated(__LINE__, "T,0,0,0\nP,0,0,0\nI,0,0\nC,0,0\nI,0,0\nC,0,0\n", "L,0,0,0\n", 8, 0, 0);
    try_repeated(__LINE__, "T,0,0,0\nP,0,0,0\nI,0,0\nC,0,0\nI,0,0\nC,0,0\n", "L,0,0,0\n", 9, 7, 15);
    begin();
    add("P,0,0,0\n");
    for (int place = 0; place < 6; place++)
        add_line('P', 4, place, place);
    try_built(__LINE__, 21, 1); /* 127 nodes, and no line is used */
    add("P,4,6,6\n");
    try_built(__LINE__, 7, 8);
    begin();
    add("P,0,0,0\n");
    for (int place = 0; place < 40; place++)
        add_line('P', 2 + place % 2, place, 0);
    try_built(__LINE__, 21, 1); /* 40 left and right nodes */
    add("P,2,40,0\n");
    try_built(__LINE__, 7, 42);
}

/* Pairs of pairs, six deep: 127 letters. */
static size_t put_largest_value(uint8_t *letters)
{
    size_t length = 1;
    letters[0] = 'U';
    for (int depth = 0; depth < 6; depth++) {
        memmove(letters + 1, letters, length);
        memcpy(letters + 1 + length, letters + 1, length);
        letters[0] = 'P';
        length = 2 * length + 1;
    }
    return length;
}

static void value_lengths(void)
{
    static const struct answer no_value = {.number = RULEFILE_NO_VALUE};
    static const size_t wrong[] = {0, 1, 63, 126, 128, 65536, 1000000};
    static uint8_t letters[1000000];
    struct bytes value = {letters, 0};
    memset(letters, 'U', sizeof letters);
    value.length = put_largest_value(letters);
    CHECK(value.length == RULEFILE_RESULT_LENGTH);
    begin();
    add(SEVEN_USED);
    try_built_run(__LINE__, 0, false, 1, value, (struct answer){.count = 1}, value);
    try_built_run(__LINE__, 0, true, 1, value, (struct answer){.count = 1}, value);
    for (size_t i = 0; i < COUNT_OF(wrong); i++) {
        value.length = wrong[i];
        try_built_run(__LINE__, 0, false, 1, value, no_value, nothing);
    }
    begin();
    add(S);
    for (size_t i = 0; i < 4; i++) {
        memset(letters, "PLRU"[i], sizeof letters);
        value.length = sizeof letters;
        try_built_run(__LINE__, 1, false, 9, value, no_value, nothing);
    }
}

/* S with one byte replaced is refused 3 at the line of that byte. */
static void damaged_files(void)
{
    static const struct setting setting = {HEAP, 0, NULL};
    struct file_case c = {__LINE__, 3, 1, nothing, nothing};
    begin();
    add(S);
    c.file = built_file();
    for (size_t i = 0; i < built.length; i++) {
        uint8_t byte = built.bytes[i];
        if (!quick || i % 5 == 0) {
            built.bytes[i] = 0;
            try_file(&setting, &c);
            built.bytes[i] = 255;
            try_file(&setting, &c);
            built.bytes[i] = byte;
        }
        c.line += byte == '\n';
    }
}

/* Every byte alone, and with a line feed behind it, is refused 3. */
static void single_bytes(void)
{
    static const struct setting setting = {BEFORE_GUARD, 0, NULL};
    for (int byte = 0; byte < 256; byte += quick ? 15 : 1) {
        begin();
        add_bytes((uint8_t)byte, 1);
        struct file_case c = {__LINE__, 3, 1, built_file(), nothing};
        try_file(&setting, &c);
        add("\n");
        c.file = built_file();
        try_file(&setting, &c);
    }
}

/* 32 isos; the first exchanges LU and RU, each later one applies the one before it twice. */
static void build_tower(void)
{
    begin();
    add(BIT "P,1,0,0\nP,1,1,0\nP,1,2,0\nI,1,1\nC,1,2\nC,2,1\n");
    for (int iso = 0; iso < 31; iso++) {
        add("I,1,1\nC,3,5\n");
        add_line('L', 4, iso, 3);
        add_line('L', 5, iso, 4);
    }
}

/* Iso n of the tower makes 2^(n+1) - 1 applications. */
static void counts_and_budgets(void)
{
    static const struct answer spent = {.number = RULEFILE_SPENT};
    static const struct bytes left = TEXT("LU");
    static const struct bytes right = TEXT("RU");
    uint32_t isos = quick ? 9 : 17;
    build_tower();
    for (uint32_t iso = 0; iso < isos; iso++) {
        uint32_t count = (UINT32_C(2) << iso) - 1;
        struct answer answer = {.count = count};
        struct bytes result = iso == 0 ? right : left;
        try_built_run(__LINE__, iso, false, count, left, answer, result);
        try_built_run(__LINE__, iso, true, UINT32_MAX, left, answer, result);
        try_built_run(__LINE__, iso, false, count - 1, left, spent, nothing);
        try_built_run(__LINE__, iso, true, 0, left, spent, nothing);
    }
    try_built_run(__LINE__, 31, false, 65536, left, spent, nothing);
    try_built_run(__LINE__, 31, true, 65536, right, spent, nothing);
}

/* The bounds of an iso of the built file, which are no refusal. */
static void try_built_bounds(int at, uint32_t iso, struct answer answer)
{
    static const struct setting settings[] = {{HEAP, 0, NULL}, {BEFORE_GUARD, 0, NULL}};
    struct call call = {.service = SERVICE_BOUNDS, .file = built_file(), .iso = iso};
    for (size_t i = 0; i < COUNT_OF(settings); i++)
        try_call(at, &settings[i], &call, answer, nothing);
}

/* Iso n of the tower needs 2^(n+1) - 1; so many are made, where they are not too many, and the last is not flagged. */
static void bounds_of_towers(void)
{
    static const struct bytes left = TEXT("LU");
    static const struct bytes right = TEXT("RU");
    build_tower();
    for (uint32_t iso = 0; iso < 32; iso++) {
        uint32_t count = UINT32_MAX >> (31 - iso);
        try_built_bounds(__LINE__, iso, (struct answer){.least = count, .greatest = count});
        if (iso < (quick ? 9 : 17))
            try_built_run(__LINE__, iso, false, count, left, (struct answer){.count = count},
                          iso == 0 ? right : left);
    }
}

/* 31 isos on a unit as in the tower, then one of which a clause calls these and, where asked, another none. */
static void build_limit(const int *calls, size_t count, bool other)
{
    begin();
    add(other ? BIT : "T,0,0,0\nP,0,0,0\n");
    add("I,0,0\nC,0,0\n");
    for (int iso = 0; iso < 30; iso++) {
        add("I,0,0\nC,0,0\n");
        add_line('L', 0, iso, 0);
        add_line('L', 0, iso, 0);
    }
    add(other ? "I,1,1\nC,2,2\nC,1,1\n" : "I,0,0\nC,0,0\n");
    for (size_t i = 0; i < count; i++)
        add_line('L', 0, calls[i], 0);
}

/* One below 4,294,967,295, exactly that, one above and two above. */
static void bounds_at_the_limit(void)
{
    static const int calls[][4] = {{30, 29, 29, 0}, {30, 30, 0, 0}, {30, 30, 0, 0}, {30, 30, 0, 0}};
    static const size_t counts[] = {3, 2, 3, 4};
    for (size_t i = 0; i < COUNT_OF(counts); i++) {
        uint32_t number = i == 0 ? UINT32_MAX - 1 : UINT32_MAX;
        bool over = i > 1;
        build_limit(calls[i], counts[i], false);
        struct answer both = {.least = number, .greatest = number, .least_over = over, .greatest_over = over};
        try_built_bounds(__LINE__, 31, both);
        try_built_run(__LINE__, 31, i % 2 == 0, 65536, (struct bytes)TEXT("U"),
                      (struct answer){.number = RULEFILE_SPENT}, nothing);
        build_limit(calls[i], counts[i], true);
        try_built_bounds(__LINE__, 31, (struct answer){.least = 1, .greatest = number, .greatest_over = over});
        try_built_run(__LINE__, 31, i % 2 == 0, 1, (struct bytes)TEXT("RU"), (struct answer){.count = 1},
                      (struct bytes)TEXT("RU"));
    }
}

/* 32 isos, each of which calls the one below it eight times; iso 10 is the last that is not flagged. */
static void bounds_of_deep_isos(void)
{
    uint64_t needs = 0;
    begin();
    add("T,0,0,0\nP,0,0,0\nI,0,0\nC,0,0\n");
    for (int iso = 0; iso < 31; iso++) {
        add("I,0,0\nC,0,0\n");
        for (int step = 0; step < 8; step++)
            add_line('L', 0, iso, 0);
    }
    for (uint32_t iso = 0; iso < 32; iso++) {
        needs = needs > UINT32_MAX ? needs : 1 + 8 * needs;
        bool over = needs > UINT32_MAX;
        uint32_t told = over ? UINT32_MAX : (uint32_t)needs;
        CHECK(over == (iso > 10));
        try_built_bounds(__LINE__, iso,
                         (struct answer){.least = told, .greatest = told, .least_over = over, .greatest_over = over});
    }
}

/* The witness of the built file. */
static void try_built_witness(int at, uint32_t number, size_t line, struct bytes letters)
{
    static const struct setting settings[] = {{HEAP, 0, NULL}, {BEFORE_GUARD, 0, NULL}, {ODD, 5, NULL}};
    struct witness_case c = {at, built_file(), number, line, letters};
    for (size_t i = 0; i < COUNT_OF(settings); i++)
        try_witness(&settings[i], &c);
}

/* Settings of 127 letters, the whole result: a variable twice, on either side, and an iso without clauses. */
static void longest_witnesses(void)
{
    uint8_t letters[RULEFILE_RESULT_LENGTH];
    struct bytes value = {letters, put_largest_value(letters)};
    begin();
    add(SEVEN_USED "C,0,0\n");
    try_built_witness(__LINE__, RULEFILE_OVERLAP_LEFT, 9, value);
    begin();
    add(SEVEN_TYPES "T,1,0,0\nP,0,0,0\nP,2,0,0\nP,3,0,0\nP,4,0,0\nP,4,3,3\nP,4,4,4\nP,4,5,5\nP,4,6,6\nP,4,7,7\n"
        "I,7,6\nC,1,8\nC,2,8\n");
    try_built_witness(__LINE__, RULEFILE_OVERLAP_RIGHT, 18, value);
    begin();
    add(SEVEN_TYPES "I,6,0\n");
    try_built_witness(__LINE__, RULEFILE_GAP_LEFT, 8, value);
}

/*
 * A pair of a bit and what is behind it, so many bits; clause k has k rights and then a left, the last one rights
 * alone. T line n is of n bits.
 */
static void build_bits(int bits, int clauses)
{
    begin();
    add("T,0,0,0\nT,1,0,0\n");
    for (int type = 2; type <= bits; type++)
        add_line('T', 2, 1, type - 1);
    add("P,0,0,0\nP,1,0,0\nP,2,0,0\nP,3,0,0\nP,4,2,1\n");
    int lasts[32];
    int next = 5;
    for (int rights = 0; rights <= bits; rights++) {
        int last = rights == bits ? 3 : rights == bits - 1 ? 2 : 4;
        for (int i = 0; i < rights - (rights == bits); i++) {
            add_line('P', 4, 3, last);
            last = next++;
        }
        lasts[rights] = last;
    }
    add_line('I', bits, bits, -1);
    for (int clause = 0; clause < clauses; clause++)
        add_line('C', lasts[clause <= bits ? clause : bits], lasts[clause <= bits ? clause : bits], -1);
    if (clauses == bits) { /* the pattern left out is used by another iso */
        add_line('I', bits, bits, -1);
        add_line('C', lasts[bits], lasts[bits], -1);
    }
}

/* One setting of 2^30: left out, then matched twice; 30 and 32 clauses. */
static void one_of_many(void)
{
    enum { BITS_THERE = 30 };
    uint8_t letters[3 * BITS_THERE];
    size_t length = 0;
    for (int bit = 0; bit < BITS_THERE; bit++) {
        if (bit + 1 < BITS_THERE)
            letters[length++] = 'P';
        letters[length++] = 'R';
        letters[length++] = 'U';
    }
    struct bytes value = {letters, length};
    build_bits(BITS_THERE, BITS_THERE);
    size_t line = built_lines() - BITS_THERE - 2;
    try_built_witness(__LINE__, RULEFILE_GAP_LEFT, line, value);
    build_bits(BITS_THERE, BITS_THERE + 1);
    try_built_witness(__LINE__, RULEFILE_ACCEPTED, 0, nothing);
    build_bits(BITS_THERE, BITS_THERE + 2);
    try_built_witness(__LINE__, RULEFILE_OVERLAP_LEFT, line, value);
}

/* A chain of sums of so many values, the last T line of the built file, and an iso that uses it. */
static void build_steps(int values)
{
    begin();
    add("T,0,0,0\n");
    for (int type = 1; type < values; type++)
        add_line('T', 1, 0, type - 1);
    add("P,1,0,0\n");
    add_line('I', values - 1, values - 1, -1);
    add("C,0,0\n");
}

/* The letters of a step: so many R, then L if it is not the last, then U. */
static struct bytes step_letters(uint8_t *letters, size_t step, size_t values)
{
    size_t length = step;
    memset(letters, 'R', step);
    if (step + 1 < values)
        letters[length++] = 'L';
    letters[length++] = 'U';
    return (struct bytes){letters, length};
}

/* 64 steps, each both ways and above the one before it; 64 is too high. */
static void steps_in_order(void)
{
    enum { VALUES = 64 };
    static const struct setting setting = {BEFORE_GUARD, 0, NULL};
    uint8_t letters[2][VALUES + 1];
    build_steps(VALUES);
    for (uint32_t step = 0; step < VALUES; step++) {
        struct bytes text = step_letters(letters[step % 2], step, VALUES);
        struct setting_case c = {__LINE__, built_file(), VALUES - 1, text, step};
        try_setting(&setting, &c);
        if (step > 0)
            CHECK(memcmp(letters[(step + 1) % 2], letters[step % 2], step + 1) < 0);
    }
    struct unnumbered_case c = {__LINE__, built_file(), VALUES - 1, nothing, VALUES, 16, 19};
    try_unnumbered(&setting, &c);
    c.type = 256;
    c.of_letters = c.of_number = 15;
    try_unnumbered(&setting, &c);
}

/* Letters of every length, none of them a setting. */
static void setting_lengths(void)
{
    static const struct setting settings[] = {{HEAP, 0, NULL}, {BEFORE_GUARD, 0, NULL}};
    static const size_t lengths[] = {0, 1, 63, 126, 128, 65536, 1000000};
    static uint8_t letters[1000000];
    memset(letters, 'U', sizeof letters);
    require(put_largest_value(letters) == RULEFILE_RESULT_LENGTH);
    begin();
    add(SEVEN_USED);
    for (size_t i = 0; i < COUNT_OF(lengths) * COUNT_OF(settings); i++) {
        struct bytes value = {letters, lengths[i / COUNT_OF(settings)]};
        struct unnumbered_case c = {__LINE__, built_file(), 6, value, 1, 16, 19};
        try_unnumbered(&settings[i % COUNT_OF(settings)], &c);
    }
}

/* Tables of five numbers a line */

/* A call of each service that is not refused. */
static const struct {
    struct call call;
    struct answer answer;
    struct bytes text;
} usual_calls[SERVICES] = {
    [SERVICE_CHECK] = {{.file = TEXT(S)}, {0}, TEXT("")},
    [SERVICE_TURN] = {{.file = TEXT(S)}, {0}, TEXT(S_TURNED)},
    [SERVICE_RUN] = {{.file = TEXT(S), .iso = 1, .budget = 2, .value = TEXT("PLURU")}, {.count = 2}, TEXT("PLULU")},
    [SERVICE_SHEET] = {{.file = TEXT(S), .sheet = {TEXT(S_QUERIES), 7, sheet_cases[0].replies}}, {0}, TEXT("")},
    [SERVICE_NUMBER_OF] = {{.file = TEXT(S), .type = 2, .value = TEXT("PRULU")}, {.setting = 2}, TEXT("")},
    [SERVICE_SETTING_OF] = {{.file = TEXT(S), .type = 2, .setting = 2}, {0}, TEXT("PRULU")},
    [SERVICE_OVERLAP] = {{.file = TEXT(S), .left = 5, .right = 7}, {.clash = true, .pairs = 2}, TEXT("")},
    [SERVICE_BOUNDS] = {{.file = TEXT(S), .iso = 1}, {.least = 1, .greatest = 2}, TEXT("")},
    [SERVICE_WITNESS] = {{.file = TEXT(S)}, {0}, TEXT("")},
    [SERVICE_EXPORT] = {{.file = TEXT(S), .iso = 1, .budget = 2}, {0}, TEXT(S_LIST)},
    [SERVICE_IMPORT] = {{.file = TEXT(S), .left = 2, .right = 2, .value = TEXT(S_LIST)}, {0}, TEXT(S_IMPORTED)},
    [SERVICE_PLAY] = {{.file = TEXT(S),
                       .budget = 9,
                       .value = TEXT("S,0,0,0\nS,1,1,0\nS,2,0,0\n"),
                       .units = {play_cases[0].before, play_cases[0].after, 3, 3, {2, 1, 0}}},
                      {0},
                      TEXT("")},
};

/* Tables of 16,384 numbers, as long as they were with four a line, and of others around 20,480. */
static void table_lengths(void)
{
    static const size_t tables[] = {0, 1, 16383, 16384, 16385, 20479, 20480, 20481, 40960};
    for (size_t i = 0; i < SERVICES * COUNT_OF(tables); i++) {
        struct call call = usual_calls[i / COUNT_OF(tables)].call;
        call.service = (enum service)(i / COUNT_OF(tables));
        struct bytes text = usual_calls[call.service].text;
        struct answer expected = with_lengths(usual_calls[call.service].answer, &call, text);
        struct lengths lengths = exact_lengths(&call);
        lengths.table = tables[i % COUNT_OF(tables)];
        if (lengths.table < 20480) {
            expected = (struct answer){.number = RULEFILE_SHORT_AREA};
            text = nothing;
        }
        struct lent lent = lend(BEFORE_GUARD, lengths);
        judge(__LINE__, &call, perform(BEFORE_GUARD, &lent, &call, expected, text), expected);
        give_back(&lent);
    }
}

/* The nodes of the tree that a T or P line unfolds to, one by one; `first` is its letter's first row. */
static uint32_t count_nodes(const uint16_t *row, const uint16_t *first)
{
    bool type = row[0] == 'T';
    if (row[1] == 0 || (!type && row[1] == 1))
        return 1;
    uint32_t below = count_nodes(first + 5 * row[2], first);
    return 1 + below + (type || row[1] == 4 ? count_nodes(first + 5 * row[3], first) : 0);
}

/* Every fifth number of an accepted file's table: the nodes of T and P lines, 0 for others and behind the last line. */
static void try_sizes(int at, struct bytes file)
{
    struct lent lent = lend(HEAP, sheet_lengths(0));
    uint16_t *table = rows_of(lent.table.start);
    const uint16_t *first = table;
    struct rulefile_check_answer a =
        rulefile_check(file.start, file.length, table, RULEFILE_TABLE_LENGTH, lent.work.start, RULEFILE_WORK_LENGTH);
    bool sized = a.number == RULEFILE_ACCEPTED;
    for (const uint16_t *row = table; sized && row < table + RULEFILE_TABLE_LENGTH; row += 5) {
        first = row[0] == first[0] ? first : row;
        bool tree = row[0] == 'T' || row[0] == 'P';
        sized = row[4] == (tree ? count_nodes(row, first) : 0);
    }
    CHECK_AT(at, sized);
    give_back(&lent);
}

static void sizes_in_tables(void)
{
    static const struct bytes files[] = {TEXT(S), TEXT(S_RETURNS), TEXT(STEPS), TEXT(COMPARED), TEXT(BITS_USED),
                                         TEXT(SEVEN_USED), TEXT(SEVEN_PATTERNS)};
    static const uint16_t sizes[] = {1, 3, 7, 15, 31, 63, 127, 1, 3, 7, 15, 31, 63, 127, 0, 0, 0};
    static uint16_t table[RULEFILE_TABLE_LENGTH];
    static uint8_t work[RULEFILE_WORK_LENGTH];
    for (size_t i = 0; i < COUNT_OF(files); i++)
        try_sizes(__LINE__, files[i]);
    build_longest();
    try_sizes(__LINE__, built_file());
    struct bytes last = files[COUNT_OF(files) - 1];
    CHECK(rulefile_check(last.start, last.length, table, COUNT_OF(table), work, sizeof work).number == 0);
    for (size_t i = 0; i < COUNT_OF(sizes); i++)
        CHECK(table[5 * i + 4] == sizes[i]);
}

/* A file of 127 nodes in the table, and then one that is refused: nothing of the first is left. */
static void cleared_sizes(void)
{
    static const struct bytes full = TEXT(SEVEN_PATTERNS);
    static const struct setting fresh = {HEAP, 0, NULL};
    struct lent kept = lend(HEAP, sheet_lengths(0));
    struct setting setting = fresh;
    setting.kept = &kept;
    for (size_t i = 0; i < COUNT_OF(file_cases); i++) {
        const struct file_case *c = &file_cases[i];
        struct call call = {.service = SERVICE_CHECK, .file = full};
        try_call(c->at, &setting, &call, (struct answer){0}, nothing);
        call.file = c->file;
        try_call(c->at, &setting, &call, (struct answer){.number = c->number, .line = c->line}, nothing);
        size_t held = 0;
        for (size_t k = 0; k < RULEFILE_TABLE_LENGTH; k++)
            held += rows_of(kept.table.start)[k] != 0;
        CHECK_AT(c->at, c->number == RULEFILE_ACCEPTED ? held >= c->file.length / 100 : held == 0);
    }
    give_back(&kept);
}

/* Isos of 128 clauses */

enum { CLOSED_BITS = 7, CLOSED = 128 };

/* The T lines of up to seven bits: line n has n of them, the first before the others. */
static void add_bit_types(void)
{
    add("T,0,0,0\nT,1,0,0\n");
    for (int type = 2; type <= CLOSED_BITS; type++)
        add_line('T', 2, 1, type - 1);
}

/* The P lines of all values of seven bits, parts before wholes; gives the first of the 128 in a row. */
static int add_closed_values(void)
{
    int rest = 1; /* the first P line of the values with a bit less */
    int next = 3;
    add("P,0,0,0\nP,2,0,0\nP,3,0,0\n");
    for (int bits = 2; bits <= CLOSED_BITS; bits++) {
        int values = 1 << bits;
        for (int value = 0; value < values; value++)
            add_line('P', 4, value < values / 2 ? 1 : 2, rest + value % (values / 2));
        rest = next;
        next += values;
    }
    return rest;
}

/* An iso of so many clauses, clause k for value k but the last one for another; behind it isos with all 128 values. */
static void build_closed(int clauses, int last, int others)
{
    begin();
    add_bit_types();
    int first = add_closed_values();
    add_line('I', CLOSED_BITS, CLOSED_BITS, -1);
    for (int clause = 0; clause < clauses; clause++) {
        int value = first + (clause < clauses - 1 ? clause : last);
        add_line('C', value, value, -1);
    }
    for (int clause = 0; clause < CLOSED * others; clause++) {
        if (clause % CLOSED == 0)
            add_line('I', CLOSED_BITS, CLOSED_BITS, -1);
        add_line('C', first + clause % CLOSED, first + clause % CLOSED, -1);
    }
}

/* The letters of a value of seven bits. */
static struct bytes closed_letters(uint8_t *letters, int value)
{
    size_t length = 0;
    for (int bit = CLOSED_BITS - 1; bit >= 0; bit--) {
        if (bit > 0)
            letters[length++] = 'P';
        letters[length++] = (value >> bit) % 2 == 0 ? 'L' : 'R';
        letters[length++] = 'U';
    }
    return (struct bytes){letters, length};
}

/* 128 clauses are accepted and run, 129 refused; 127 leave a value out, and one twice among 128 overlaps. */
static void many_clauses(void)
{
    enum { LINE = CLOSED_BITS + 1 + 255 + 1 }; /* of the first iso, behind the T and P lines */
    uint8_t letters[3 * CLOSED_BITS];
    build_closed(CLOSED, CLOSED - 1, 1);
    try_built(__LINE__, 0, 0);
    for (int value = 0; value < CLOSED; value += quick ? 127 : 1) {
        struct bytes text = closed_letters(letters, value);
        try_built_run(__LINE__, 0, value % 2 == 0, 1, text, (struct answer){.count = 1}, text);
    }
    build_closed(CLOSED, CLOSED - 1, 28);
    CHECK(built_lines() == LINE - 1 + 29 * (CLOSED + 1));
    try_built(__LINE__, 0, 0);
    build_closed(CLOSED + 1, 0, 1);
    try_built(__LINE__, RULEFILE_CEILING, LINE + CLOSED + 1);
    build_closed(CLOSED - 1, CLOSED - 2, 1);
    try_built(__LINE__, RULEFILE_GAP_LEFT, LINE);
    try_built_witness(__LINE__, RULEFILE_GAP_LEFT, LINE, closed_letters(letters, CLOSED - 1));
    build_closed(CLOSED, 0, 1);
    try_built(__LINE__, RULEFILE_OVERLAP_LEFT, LINE);
    try_built_witness(__LINE__, RULEFILE_OVERLAP_LEFT, LINE, closed_letters(letters, 0));
}

/* Lists of queries that are built */

struct line_case {
    int at;
    struct bytes line;
    struct reply reply;
};

static struct {
    uint8_t bytes[2 * RULEFILE_MAX_FILE_LENGTH];
    size_t length;
    struct reply replies[RULEFILE_MAX_QUERIES + 1];
    size_t queries;
} asked;

static const struct line_case answered_line = {__LINE__, TEXT("Q,1,0,9,PLURU\n"), GIVES(2, "PLULU")};
static const struct line_case refused_line = {__LINE__, TEXT("Q,1,0,1,PLURU\n"), REFUSED(17)};
static const struct bytes file_s = TEXT(S);

static void begin_list(void)
{
    asked.length = 0;
    asked.queries = 0;
}

/* Adds a line and what it is to give. */
static void ask(struct bytes line, struct reply reply)
{
    require(line.length <= sizeof asked.bytes - asked.length && asked.queries < COUNT_OF(asked.replies));
    memcpy(asked.bytes + asked.length, line.start, line.length);
    asked.length += line.length;
    asked.replies[asked.queries++] = reply;
}

static void ask_case(const struct line_case *c)
{
    ask(c->line, c->reply);
}

/* A list of so many lines, one and the other by turns. */
static void ask_by_turns(size_t queries, const struct line_case *one, const struct line_case *other)
{
    begin_list();
    for (size_t i = 0; i < queries; i++)
        ask_case(i % 2 == 0 ? one : other);
}

/* A line between two that are answered. */
static void ask_between(const struct line_case *c)
{
    begin_list();
    ask_case(&answered_line);
    ask_case(c);
    ask_case(&answered_line);
}

static struct call asked_call(struct bytes file)
{
    struct sheet sheet = {{asked.bytes, asked.length}, asked.queries, asked.replies};
    return (struct call){.service = SERVICE_SHEET, .file = file, .sheet = sheet};
}

/* The built list as a sheet of a file. */
static void try_asked(int at, struct bytes file, struct answer answer)
{
    static const struct setting settings[] = {{HEAP, 0, NULL}, {BEFORE_GUARD, 0, NULL}, {ODD, 5, NULL}};
    struct call call = asked_call(file);
    for (size_t i = 0; i < COUNT_OF(settings); i++)
        try_call(at, &settings[i], &call, answer, nothing);
}

/* For file S. */
static const struct line_case line_cases[] = {
    /* too few fields, other letters, other marks */
    {__LINE__, TEXT("Q\n"), REFUSED(3)},
    {__LINE__, TEXT("Q,\n"), REFUSED(3)},
    {__LINE__, TEXT("Q,1\n"), REFUSED(3)},
    {__LINE__, TEXT("Q,1,0\n"), REFUSED(3)},
    {__LINE__, TEXT("Q,1,0,9\n"), REFUSED(3)},
    {__LINE__, TEXT(",1,0,9,PLURU\n"), REFUSED(3)},
    {__LINE__, TEXT("q,1,0,9,PLURU\n"), REFUSED(3)},
    {__LINE__, TEXT("QQ,1,0,9,PLURU\n"), REFUSED(3)},
    {__LINE__, TEXT(" Q,1,0,9,PLURU\n"), REFUSED(3)},
    {__LINE__, TEXT("R,1,0,9,PLURU\n"), REFUSED(3)},
    {__LINE__, TEXT("T,0,0,0\n"), REFUSED(3)},
    {__LINE__, TEXT("Q 1,0,9,PLURU\n"), REFUSED(3)},
    {__LINE__, TEXT("Q,1,0,9.PLURU\n"), REFUSED(3)},
    {__LINE__, TEXT("Q,1,0,9\r\n"), REFUSED(3)},
    {__LINE__, TEXT("\n"), REFUSED(3)},
    {__LINE__, TEXT("\r\n"), REFUSED(3)},
    {__LINE__, TEXT("\0\n"), REFUSED(3)},
    {__LINE__, TEXT("\377\n"), REFUSED(3)},
    /* numbers */
    {__LINE__, TEXT("Q,,0,9,PLURU\n"), REFUSED(3)},
    {__LINE__, TEXT("Q,1,,9,PLURU\n"), REFUSED(3)},
    {__LINE__, TEXT("Q,1,0,,PLURU\n"), REFUSED(3)},
    {__LINE__, TEXT("Q,01,0,9,PLURU\n"), REFUSED(3)},
    {__LINE__, TEXT("Q,1,00,9,PLURU\n"), REFUSED(3)},
    {__LINE__, TEXT("Q,1,0,09,PLURU\n"), REFUSED(3)},
    {__LINE__, TEXT("Q,+1,0,9,PLURU\n"), REFUSED(3)},
    {__LINE__, TEXT("Q,1,-0,9,PLURU\n"), REFUSED(3)},
    {__LINE__, TEXT("Q,1,0, 9,PLURU\n"), REFUSED(3)},
    {__LINE__, TEXT("Q,1,2,9,PLURU\n"), REFUSED(3)},
    {__LINE__, TEXT("Q,65535,1,0,\n"), REFUSED(15)},
    {__LINE__, TEXT("Q,65536,0,9,LU\n"), REFUSED(3)},
    {__LINE__, TEXT("Q,65537,0,9,PLURU\n"), REFUSED(3)},
    {__LINE__, TEXT("Q,4294967297,0,9,PLURU\n"), REFUSED(3)},
    {__LINE__, TEXT("Q,18446744073709551617,0,9,PLURU\n"), REFUSED(3)},
    {__LINE__, TEXT("Q,1,0,4294967295,PLURU\n"), GIVES(2, "PLULU")},
    {__LINE__, TEXT("Q,1,1,4294967295,PRURU\n"), GIVES(1, "PRURU")},
    {__LINE__, TEXT("Q,1,0,4294967296,PLURU\n"), REFUSED(3)},
    {__LINE__, TEXT("Q,1,0,4294967298,PLURU\n"), REFUSED(3)},
    {__LINE__, TEXT("Q,1,0,18446744073709551618,PLURU\n"), REFUSED(3)},
    /* all behind the fourth comma is the letters field; 15 before 16 before 17 */
    {__LINE__, TEXT("Q,1,0,9,\n"), REFUSED(16)},
    {__LINE__, TEXT("Q,1,0,0,PLU\n"), REFUSED(16)},
    {__LINE__, TEXT("Q,1,0,0,PLURU\n"), REFUSED(17)},
    {__LINE__, TEXT("Q,2,0,0,\n"), REFUSED(15)},
    {__LINE__, TEXT("Q,1,0,9,PLURUU\n"), REFUSED(16)},
    {__LINE__, TEXT("Q,1,0,9, PLURU\n"), REFUSED(16)},
    {__LINE__, TEXT("Q,1,0,9,PLURU\r\n"), GIVES(2, "PLULU")},
    {__LINE__, TEXT("Q,1,0,9,PLURU\r\r\n"), REFUSED(16)},
    {__LINE__, TEXT("Q,1,0,9,\rPLURU\n"), REFUSED(16)},
    {__LINE__, TEXT("Q,1,0,9,\r\n"), REFUSED(16)},
    {__LINE__, TEXT("Q,1,0,9,PLURU,\n"), REFUSED(16)},
    {__LINE__, TEXT("Q,1,0,9,,PLURU\n"), REFUSED(16)},
    {__LINE__, TEXT("Q,1,0,9,pluru\n"), REFUSED(16)},
    {__LINE__, TEXT("Q,1,0,9,PLURU\0\n"), REFUSED(16)},
    {__LINE__, TEXT("Q,1,0,9,PLU\0U\n"), REFUSED(16)},
    {__LINE__, TEXT("Q,1,0,9,PLUR\377\n"), REFUSED(16)},
};

/* Each line between others, each without its line feed as the last, and all of them in one list. */
static void query_lines(void)
{
    static const struct answer answer = {0};
    static const struct reply bad_line = REFUSED(3);
    for (size_t i = 0; i < COUNT_OF(line_cases); i++) {
        struct bytes line = line_cases[i].line;
        ask_between(&line_cases[i]);
        try_asked(line_cases[i].at, file_s, answer);
        line.length--;
        ask_by_turns(1, &answered_line, NULL);
        if (line.length > 0)
            ask(line, bad_line);
        try_asked(line_cases[i].at, file_s, answer);
    }
    begin_list();
    for (size_t i = 0; i < COUNT_OF(line_cases); i++) {
        ask_case(&line_cases[i]);
        ask_case(&answered_line);
    }
    try_asked(__LINE__, file_s, answer);
}

/* A query with one byte replaced: 16 where it was a letter; a line feed replaced makes one line of two. */
static void damaged_queries(void)
{
    static const uint8_t replaced[] = {0, 255, ' ', ','};
    static const struct reply replies[] = {REFUSED(3), REFUSED(16)};
    size_t length = answered_line.line.length;
    size_t head = strlen("Q,1,0,9,");
    for (size_t i = 0; i < COUNT_OF(replaced) * length; i++) {
        size_t place = i / COUNT_OF(replaced);
        struct line_case c = {__LINE__, answered_line.line, replies[place >= head]};
        ask_between(&c);
        asked.bytes[length + place] = replaced[i % COUNT_OF(replaced)];
        if (asked.bytes[length + place] == c.line.start[place])
            continue;
        asked.queries -= place == length - 1;
        try_asked(__LINE__, file_s, (struct answer){0});
    }
}

/* A line may have 200 bytes with its ending, which has one byte or two. */
static void query_lengths(void)
{
    static const size_t lengths[] = {127, 128, 199, 200, 201, 202, 255, 256, 257, 65536};
    static const struct reply no_value = REFUSED(16);
    static const struct reply bad_line = REFUSED(3);
    static uint8_t bytes[65536];
    for (size_t i = 0; i < 2 * COUNT_OF(lengths); i++) {
        size_t length = lengths[i / 2];
        struct line_case c = {__LINE__, {bytes, length}, length <= 200 ? no_value : bad_line};
        memset(bytes, 'U', sizeof bytes);
        memcpy(bytes, "Q,1,0,9,PLURU", strlen("Q,1,0,9,PLURU"));
        if (i % 2 == 1)
            bytes[length - 2] = '\r';
        bytes[length - 1] = '\n';
        ask_between(&c);
        try_asked(__LINE__, file_s, (struct answer){0});
        bytes[0] = 'T';
        c.reply = bad_line;
        ask_between(&c);
        try_asked(__LINE__, file_s, (struct answer){0});
    }
}

/* 600 queries are answered, one more is too long, whatever the file is. */
static void query_counts(void)
{
    static const struct answer too_long = {.number = RULEFILE_TOO_LONG};
    static const struct bytes refused_file = TEXT(S "C,7,7\n");
    static const struct bytes one_more = TEXT("x");
    static const struct line_case empty = {__LINE__, TEXT("\n"), REFUSED(3)};
    ask_by_turns(RULEFILE_MAX_QUERIES, &answered_line, &refused_line);
    try_asked(__LINE__, file_s, (struct answer){0});
    try_asked(__LINE__, refused_file, (struct answer){.number = RULEFILE_OVERLAP_LEFT, .line = 15});
    ask(one_more, empty.reply);
    try_asked(__LINE__, file_s, too_long);
    try_asked(__LINE__, refused_file, too_long);
    ask_by_turns(RULEFILE_MAX_QUERIES, &refused_line, &answered_line);
    asked.length--; /* line 600 without its line feed */
    asked.replies[RULEFILE_MAX_QUERIES - 1] = empty.reply;
    try_asked(__LINE__, file_s, (struct answer){0});
    ask_by_turns(RULEFILE_MAX_QUERIES, &empty, &empty);
    try_asked(__LINE__, file_s, (struct answer){0});
    ask_case(&empty);
    try_asked(__LINE__, file_s, too_long);
    ask_by_turns(RULEFILE_MAX_QUERIES + 1, &answered_line, &answered_line);
    try_asked(__LINE__, file_s, too_long);
}

/* 1 comes before 2, both before the refusal of the file, and that before any query. */
static void order_of_refusals(void)
{
    static const struct answer too_long = {.number = RULEFILE_TOO_LONG};
    static const struct answer overlap = {.number = RULEFILE_OVERLAP_LEFT, .line = 15};
    static const struct bytes refused_file = TEXT(S "C,7,7\n");
    static const struct bytes long_file = {pattern, RULEFILE_MAX_FILE_LENGTH + 1};
    for (size_t queries = 1; queries <= RULEFILE_MAX_QUERIES + 1; queries += RULEFILE_MAX_QUERIES / 2) {
        ask_by_turns(queries, &refused_line, &answered_line);
        struct call call = asked_call(refused_file);
        try_lengths(__LINE__, HEAP, &call, queries <= RULEFILE_MAX_QUERIES ? overlap : too_long, nothing);
        call = asked_call(long_file);
        try_lengths(__LINE__, HEAP, &call, too_long, nothing);
    }
}

/* Memory that may be read but not written. */
static void *read_only(size_t length)
{
    return required(mmap(NULL, length, PROT_READ, MAP_PRIVATE | MAP_ANONYMOUS, -1, 0));
}

/* A megabyte of line feeds: 2 with areas for so many queries, 1 where one of them is one element short. */
static void megabyte_of_lines(void)
{
    size_t queries = 1 << 20;
    struct lengths exact = sheet_lengths(queries);
    uint8_t *list = allocate(queries);
    uint32_t *numbers = read_only(4 * exact.numbers);
    uint8_t *letters = read_only(exact.out);
    struct lent lent = lend(HEAP, sheet_lengths(0));
    memset(list, '\n', queries);
    for (size_t i = 0; i < 4; i++) {
        struct rulefile_sheet_answer a =
            rulefile_sheet(file_s.start, file_s.length, rows_of(lent.table.start), exact.table, lent.work.start,
                           exact.work, list, queries, numbers, exact.numbers - i % 2, letters, exact.out - i / 2);
        CHECK(a.number == (i == 0 ? RULEFILE_TOO_LONG : RULEFILE_SHORT_AREA));
        CHECK(a.line == 0 && a.queries == 0);
        CHECK(as_foreseen(&lent.table) && as_foreseen(&lent.work));
    }
    give_back(&lent);
    require(munmap(numbers, 4 * exact.numbers) == 0);
    require(munmap(letters, exact.out) == 0);
    free(list);
}

/* A megabyte of line feeds with areas for 600 queries and for none; one line of a megabyte. */
static void megabyte_lists(void)
{
    static const struct reply bad_line = REFUSED(3);
    static const struct setting setting = {BEFORE_GUARD, 0, NULL};
    static uint8_t bytes[1 << 20];
    struct call call = {.service = SERVICE_SHEET, .file = file_s, .sheet = {{bytes, sizeof bytes}, 0, &bad_line}};
    struct lent short_areas[] = {lend(BEFORE_GUARD, sheet_lengths(RULEFILE_MAX_QUERIES)),
                                 lend(NULL_IF_EMPTY, sheet_lengths(0))};
    memset(bytes, '\n', sizeof bytes);
    for (size_t i = 0; i < COUNT_OF(short_areas); i++) {
        struct answer answer = {.number = RULEFILE_SHORT_AREA};
        judge(__LINE__, &call, perform(BEFORE_GUARD, &short_areas[i], &call, answer, nothing), answer);
        give_back(&short_areas[i]);
    }
    memset(bytes, 'Q', sizeof bytes);
    call.sheet.queries = 1;
    try_call(__LINE__, &setting, &call, (struct answer){0}, nothing);
    bytes[sizeof bytes - 1] = '\n';
    try_call(__LINE__, &setting, &call, (struct answer){0}, nothing);
}

/* 600 queries of 127 letters, the same refused, and both by turns: the letters of a refused one stay. */
static void largest_sheet(void)
{
    static const struct bytes file = TEXT(SEVEN_USED);
    static const struct line_case refused = {__LINE__, TEXT("Q,0,0,1,U\n"), REFUSED(16)};
    uint8_t line[8 + RULEFILE_RESULT_LENGTH + 1] = "Q,0,1,1,";
    size_t length = put_largest_value(line + 8);
    struct line_case largest = {__LINE__, {line, sizeof line}, {0, 1, {line + 8, length}}};
    const struct line_case *turns[][2] = {{&refused, &refused}, {&refused, &largest}, {&largest, &refused},
                                          {&largest, &largest}, {&refused, &refused}};
    CHECK(length == RULEFILE_RESULT_LENGTH);
    line[sizeof line - 1] = '\n';
    ask_by_turns(RULEFILE_MAX_QUERIES, &largest, &refused);
    struct call call = asked_call(file);
    struct lent kept = lend(BEFORE_GUARD, exact_lengths(&call));
    struct setting setting = {BEFORE_GUARD, 0, &kept};
    for (size_t i = 0; i < COUNT_OF(turns); i++) {
        ask_by_turns(RULEFILE_MAX_QUERIES, turns[i][0], turns[i][1]);
        call = asked_call(file);
        try_call(__LINE__, &setting, &call, (struct answer){0}, nothing);
        try_asked(__LINE__, file, (struct answer){0});
    }
    give_back(&kept);
}

/* Sheets against runs of their own */

static struct rulefile_check_answer lone_check(struct bytes file)
{
    static uint16_t table[RULEFILE_TABLE_LENGTH];
    static uint8_t work[RULEFILE_WORK_LENGTH];
    return rulefile_check(file.start, file.length, table, COUNT_OF(table), work, sizeof work);
}

/* Adds a line that asks for a run, with what the run gives on its own. */
static void ask_run(struct bytes line, const struct call *run)
{
    static uint16_t table[RULEFILE_TABLE_LENGTH];
    static uint8_t work[RULEFILE_WORK_LENGTH];
    static uint8_t letters[RULEFILE_MAX_QUERIES][RULEFILE_RESULT_LENGTH];
    require(asked.queries < RULEFILE_MAX_QUERIES);
    uint8_t *result = letters[asked.queries];
    struct rulefile_run_answer a =
        rulefile_run(run->file.start, run->file.length, table, COUNT_OF(table), work, sizeof work,
                     run->iso, run->back, run->budget, run->value.start, run->value.length,
                     result, RULEFILE_RESULT_LENGTH);
    ask(line, (struct reply){a.number, a.count, {result, a.length}});
}

/* The built list as a sheet of a file: refused as Check refuses the file, or each line answered as it is to be. */
static void try_as_checked(int at, struct bytes file)
{
    struct rulefile_check_answer checked = lone_check(file);
    try_asked(at, file, (struct answer){.number = checked.number, .line = checked.line});
}

/* Adds a run as a line, where a line can ask for it. */
static void ask_as_line(const struct call *run)
{
    char line[200];
    int head = snprintf(line, sizeof line, "Q,%lu,%d,%lu,", (unsigned long)run->iso, run->back ? 1 : 0,
                        (unsigned long)run->budget);
    struct bytes value = run->value;
    size_t length = (size_t)head + value.length + 1;
    if (run->iso > UINT16_MAX || (value.length > 0 && memchr(value.start, '\n', value.length) != NULL))
        return;
    require(length <= sizeof line);
    memcpy(line + head, value.start, value.length);
    line[length - 1] = '\n';
    ask_run((struct bytes){(const uint8_t *)line, length}, run);
}

static bool same_bytes(struct bytes a, struct bytes b)
{
    return a.length == b.length && memcmp(a.start, b.start, a.length) == 0;
}

/* All queries of the cases in one sheet, for each of their files. */
static void sheets_as_runs(void)
{
    for (size_t i = 0; i < COUNT_OF(query_cases); i++) {
        struct bytes file = query_cases[i].file;
        if (i > 0 && same_bytes(query_cases[i - 1].file, file))
            continue;
        begin_list();
        for (size_t j = 0; j < COUNT_OF(query_cases); j++) {
            struct call run = run_call(&query_cases[j]);
            run.file = file;
            ask_as_line(&run);
        }
        CHECK(asked.queries > COUNT_OF(query_cases) / 2);
        try_as_checked(query_cases[i].at, file);
    }
}

/* Isos of the tower, forward and back, each with the budget that it needs and with one less. */
static void sheet_of_counts(void)
{
    static const struct bytes left = TEXT("LU");
    uint32_t isos = quick ? 9 : 13;
    build_tower();
    begin_list();
    for (uint32_t i = 0; i < 4 * isos; i++) {
        uint32_t count = (UINT32_C(2) << i / 4) - 1;
        uint32_t budget = i % 4 < 2 ? count : count - 1;
        struct call run = {.service = SERVICE_RUN,
                           .file = built_file(),
                           .iso = i / 4,
                           .back = i % 2 == 1,
                           .budget = budget,
                           .value = left};
        ask_as_line(&run);
    }
    try_as_checked(__LINE__, built_file());
}

/* The list `0,0 1,1` and so on of so many lines. */
static struct bytes identity(size_t lines)
{
    static char list[RULEFILE_LIST_LENGTH];
    size_t length = 0;
    for (size_t i = 0; i < lines; i++) {
        int put = snprintf(list + length, sizeof list - length, "%zu,%zu\n", i, i);
        require(put > 0 && (size_t)put < sizeof list - length);
        length += (size_t)put;
    }
    return (struct bytes){(const uint8_t *)list, length};
}

static void try_built_list(int at, struct call call, uint32_t number, struct bytes text)
{
    static const struct setting settings[] = {{HEAP, 0, NULL}, {BEFORE_GUARD, 0, NULL}, {ODD, 5, NULL}};
    call.file = built_file();
    for (size_t i = 0; i < COUNT_OF(settings); i++)
        try_call(at, &settings[i], &call, (struct answer){.number = number}, number == 0 ? text : nothing);
}

/* Isos on types of 4,096 and 4,097 values; the longer list would not fit. */
static void longest_lists(void)
{
    begin();
    add("T,0,0,0\nT,1,0,0\n");
    for (int type = 1; type < 12; type++) /* type 12 has 2^12 values */
        add_line('T', 2, 1, type);
    add("T,1,12,0\nP,1,0,0\nI,12,12\nC,0,0\nI,13,13\nC,0,0\n");
    struct bytes list = identity(4096);
    CHECK(list.length == 38740);
    try_built_list(__LINE__, (struct call){.service = SERVICE_EXPORT, .iso = 0, .budget = 1}, 0, list);
    try_built_list(__LINE__, (struct call){.service = SERVICE_EXPORT, .iso = 0}, 17, nothing);
    try_built_list(__LINE__, (struct call){.service = SERVICE_EXPORT, .iso = 1, .budget = 1}, 18, nothing);
    struct call call = {.service = SERVICE_IMPORT, .left = 12, .right = 12, .value = list};
    try_built_list(__LINE__, call, 7, nothing);
    call.right = 13;
    try_built_list(__LINE__, call, 18, nothing);
    call.left = 14;
    try_built_list(__LINE__, call, 15, nothing);
    call = (struct call){.service = SERVICE_IMPORT, .left = 12, .right = 12, .value = identity(32)};
    try_built_list(__LINE__, call, 20, nothing);
}

/* Adds the lines of 32 settings, `LU`, `RLU` and so on, each under so many pairs with a unit, and its iso. */
static void add_settings(int pairs)
{
    static char clauses[32 * sizeof "C,1023,1023\n"];
    int lines = 1;     /* P lines so far */
    int chain = 0;     /* the line of the last setting, without pairs */
    size_t length = 0; /* of the clauses */
    add("P,0,0,0\n");
    for (int value = 0; value < 32; value++) {
        int rights = value < 31 ? 1 : 31; /* the last setting has rights alone, and shares but the unit */
        chain = value < 31 ? chain : 0;
        for (int depth = 0; depth < rights; depth++) {
            add_line('P', value == 0 ? 2 : 3, chain, 0);
            chain = lines++;
        }
        int whole = chain;
        for (int pair = 0; pair < pairs; pair++) {
            add_line('P', 4, 0, whole);
            whole = lines++;
        }
        int put = snprintf(clauses + length, sizeof clauses - length, "C,%d,%d\n", whole, whole);
        require(put > 0 && (size_t)put < sizeof clauses - length);
        length += (size_t)put;
    }
    add_line('I', 31 + pairs, 31 + pairs, -1);
    add(clauses);
}

/* A sum of 32 units nested to the right, under so many products with a unit. */
static void build_sum(int products)
{
    begin();
    add("T,0,0,0\n");
    for (int type = 0; type < 31; type++)
        add_line('T', 1, 0, type);
    for (int type = 31; type < 31 + products; type++)
        add_line('T', 2, 0, type);
}

/* 32 pairs, 33 and 129, 1,023 P lines and 1,055. */
static void lists_at_the_ceilings(void)
{
    static uint8_t written[RULEFILE_MAX_FILE_LENGTH];
    static const int products[] = {0, 1, 30, 31};
    for (size_t i = 0; i < COUNT_OF(products); i++) {
        build_sum(products[i]);
        size_t before = built.length;
        add_settings(products[i]);
        struct bytes text = {written, built.length};
        memcpy(written, built.bytes, text.length);
        built.length = before;
        add("P,1,0,0\n");
        add_line('I', 31 + products[i], 31 + products[i], -1);
        add("C,0,0\n");
        uint32_t type = (uint32_t)(31 + products[i]);
        struct call call = {.service = SERVICE_IMPORT, .left = type, .right = type, .value = identity(32)};
        try_built_list(__LINE__, call, products[i] == 31 ? RULEFILE_CEILING : RULEFILE_ACCEPTED, text);
        call.value = identity(31);
        try_built_list(__LINE__, call, RULEFILE_BAD_LIST, nothing);
        call.value = identity(33);
        try_built_list(__LINE__, call, RULEFILE_BAD_LIST, nothing);
        call.value = identity(129);
        try_built_list(__LINE__, call, RULEFILE_CEILING, nothing);
        call.value.length -= 2; /* the last of 129 lines is cut short */
        try_built_list(__LINE__, call, RULEFILE_CEILING, nothing);
    }
}

/* The P lines of an import, each of them once. */
static struct {
    int lines[RULEFILE_MAX_LINES][3];
    int count;
} entered;

/* The line with these fields, added where it is not there yet. */
static int enter(int kind, int a, int b)
{
    for (int line = 0; line < entered.count; line++) {
        const int *fields = entered.lines[line];
        if (fields[0] == kind && fields[1] == a && fields[2] == b)
            return line;
    }
    int *fields = entered.lines[entered.count];
    fields[0] = kind;
    fields[1] = a;
    fields[2] = b;
    add_line('P', kind, a, b);
    return entered.count++;
}

/* A value of so many bits: the first part before the second, parts before wholes. */
static int enter_value(int bits, int value)
{
    int rest = 1 << (bits - 1);
    if (bits == 1)
        return enter(value == 0 ? 2 : 3, enter(0, 0, 0), 0);
    int first = enter_value(1, value / rest);
    return enter(4, first, enter_value(bits - 1, value % rest));
}

/* The list that sends value k of 128 to value 127 - k. */
static struct bytes turned_list(void)
{
    static char list[CLOSED * sizeof "127,127\n"];
    size_t length = 0;
    for (int value = 0; value < CLOSED; value++)
        length += (size_t)snprintf(list + length, sizeof list - length, "%d,%d\n", value, CLOSED - 1 - value);
    return (struct bytes){(const uint8_t *)list, length};
}

/* The file that an import makes of that list, seven bits to seven bits. */
static void build_imported(void)
{
    int sides[CLOSED][2];
    begin();
    add_bit_types();
    entered.count = 0;
    for (int value = 0; value < CLOSED; value++) {
        sides[value][0] = enter_value(CLOSED_BITS, value);
        sides[value][1] = enter_value(CLOSED_BITS, CLOSED - 1 - value);
    }
    add_line('I', CLOSED_BITS, CLOSED_BITS, -1);
    for (int value = 0; value < CLOSED; value++)
        add_line('C', sides[value][0], sides[value][1], -1);
}

/* 128 pairs in and out again; 129 are refused with 7, also where there are as many values. */
static void lists_of_128_pairs(void)
{
    static uint8_t written[RULEFILE_MAX_FILE_LENGTH];
    struct bytes list = turned_list();
    build_imported();
    struct bytes text = {written, built.length};
    memcpy(written, built.bytes, built.length);
    try_built_list(__LINE__, (struct call){.service = SERVICE_EXPORT, .budget = 1}, 0, list);
    begin();
    add_bit_types();
    add("T,1,0,7\nP,1,0,0\nI,8,8\nC,0,0\n"); /* line 8 has 129 values */
    struct call call = {.service = SERVICE_IMPORT, .left = 7, .right = 7, .value = list};
    try_built_list(__LINE__, call, 0, text);
    call.value.length--; /* the last line without its line feed */
    try_built_list(__LINE__, call, RULEFILE_BAD_LIST, nothing);
    call = (struct call){.service = SERVICE_IMPORT, .left = 8, .right = 8, .value = identity(128)};
    try_built_list(__LINE__, call, RULEFILE_BAD_LIST, nothing);
    call.value = identity(129);
    try_built_list(__LINE__, call, RULEFILE_CEILING, nothing);
    call.left = call.right = 7;
    try_built_list(__LINE__, call, RULEFILE_CEILING, nothing);
    call.value = identity(127);
    try_built_list(__LINE__, call, RULEFILE_BAD_LIST, nothing);
}

/* S's list with one byte replaced by one that no list has. */
static void damaged_lists(void)
{
    static const struct setting setting = {BEFORE_GUARD, 0, NULL};
    static const uint8_t bytes[] = {0, 255, ' ', '-', 'C', '\r', 'a'};
    uint8_t list[] = S_LIST;
    struct import_case c = {__LINE__, TEXT(S), 2, 2, {list, sizeof list - 1}, RULEFILE_BAD_LIST, 0, TEXT("")};
    for (size_t i = 0; i < c.list.length; i++) {
        uint8_t byte = list[i];
        for (size_t k = 0; k < COUNT_OF(bytes); k++) {
            list[i] = bytes[k];
            try_import(&setting, &c);
        }
        list[i] = byte;
    }
}

/* Scripts that are built */

struct visit {
    uint32_t unit;
    uint32_t iso;
    bool back;
};

static struct {
    struct visit visits[RULEFILE_MAX_LINES];
    size_t count;
    uint8_t bytes[RULEFILE_MAX_LINES * sizeof "S,999,31,0\r"];
    size_t length;
} script;

static void begin_script(void)
{
    script.count = 0;
    script.length = 0;
}

static void add_script(struct bytes text)
{
    require(text.length <= sizeof script.bytes - script.length);
    memcpy(script.bytes + script.length, text.start, text.length);
    script.length += text.length;
}

/* Adds a visit as a line, every third with a carriage return. */
static void add_visit(struct visit visit)
{
    char line[32];
    int length = snprintf(line, sizeof line, "S,%lu,%lu,%d%s", (unsigned long)visit.unit, (unsigned long)visit.iso,
                          visit.back ? 1 : 0, script.count % 3 == 0 ? "\r\n" : "\n");
    require(script.count < COUNT_OF(script.visits));
    script.visits[script.count++] = visit;
    add_script((struct bytes){(const uint8_t *)line, (size_t)length});
}

static struct bytes built_script(void)
{
    return (struct bytes){script.bytes, script.length};
}

/* A play that is refused, on areas of all kinds. */
static void try_refused_play(int at, struct call call, uint32_t number)
{
    static const struct setting settings[] = {{HEAP, 0, NULL}, {BEFORE_GUARD, 0, NULL}, {ODD, 5, NULL}};
    for (size_t i = 0; i < COUNT_OF(settings); i++)
        try_call(at, &settings[i], &call, (struct answer){.number = number}, nothing);
}

/* For file S and two units; each but the first would convert a unit if it were read with less care. */
static const struct bytes bad_lines[] = {
    TEXT("\n"),
    /* too few or too many fields, other letters, other marks */
    TEXT("S\n"), TEXT("S,\n"), TEXT("S,0\n"), TEXT("S,0,0\n"), TEXT("S,0,0,\n"), TEXT("S,0,0,0,\n"),
    TEXT("S,0,0,0,0\n"), TEXT(",0,0,0\n"), TEXT("0,0,0\n"), TEXT("s,0,0,0\n"), TEXT("SS,0,0,0\n"), TEXT("Q,0,0,0\n"),
    TEXT("T,0,0,0\n"), TEXT(" S,0,0,0\n"), TEXT("S,0,0,0 \n"), TEXT("S 0,0,0\n"), TEXT("S,0;0,0\n"), TEXT("S,0,0.0\n"),
    TEXT("\0\n"), TEXT("\377\n"), TEXT("S,0,0,0\0\n"), TEXT("\0S,0,0,0\n"),
    /* numbers */
    TEXT("S,,0,0\n"), TEXT("S,0,,0\n"), TEXT("S,00,0,0\n"), TEXT("S,0,00,0\n"), TEXT("S,0,0,00\n"), TEXT("S,0,0,01\n"),
    TEXT("S,+0,0,0\n"), TEXT("S,0,-0,0\n"), TEXT("S, 0,0,0\n"), TEXT("S,0,0,2\n"), TEXT("S,0,0,10\n"),
    TEXT("S,0,0,256\n"), TEXT("S,0,0,65536\n"), TEXT("S,0,0,4294967296\n"),
    /* units and isos that are absent, also with fewer bits */
    TEXT("S,2,0,0\n"), TEXT("S,0,2,0\n"), TEXT("S,256,0,0\n"), TEXT("S,0,256,0\n"), TEXT("S,1000,0,0\n"),
    TEXT("S,0,32,0\n"), TEXT("S,65535,0,0\n"), TEXT("S,0,65535,0\n"), TEXT("S,65536,0,0\n"), TEXT("S,0,65536,0\n"),
    TEXT("S,4294967296,0,0\n"), TEXT("S,0,4294967296,0\n"), TEXT("S,18446744073709551616,0,0\n"),
    TEXT("S,0,18446744073709551616,0\n"),
    /* carriage returns elsewhere than before a line feed */
    TEXT("\r\n"), TEXT("\rS,0,0,0\n"), TEXT("S,0,0,0\r\r\n"), TEXT("S,0\r,0,0\n"), TEXT("S,0,0,\r\n"),
    TEXT("S,0,0\r\n"),
};

static const struct unit two_units[] = {{1, 0}, {2, 1}};

/* Each bad line alone, before, between and behind lines that are none; a good one whose line feed is missing. */
static void bad_scripts(void)
{
    static const struct bytes good = TEXT("S,0,0,0\nS,1,1,0\r\n");
    static const struct bytes endless[] = {TEXT("S,0,0,0"), TEXT("S,0,0,0\r"), TEXT("S"), TEXT("\r"), TEXT("\0")};
    for (size_t i = 0; i < 4 * COUNT_OF(bad_lines); i++) {
        begin_script();
        if (i % 4 > 1)
            add_script(good);
        add_script(bad_lines[i / 4]);
        if (i % 4 % 2 == 1)
            add_script(good);
        struct call call = units_call(file_s, two_units, 2, built_script());
        call.budget = 9;
        try_refused_play(__LINE__, call, RULEFILE_BAD_SCRIPT);
    }
    for (size_t i = 0; i < 2 * COUNT_OF(endless); i++) {
        begin_script();
        if (i % 2 == 1)
            add_script(good);
        add_script(endless[i / 2]);
        try_refused_play(__LINE__, units_call(file_s, two_units, 2, built_script()), RULEFILE_BAD_SCRIPT);
    }
}

/* A script with one byte replaced by one that no script has there. */
static void damaged_scripts(void)
{
    static const struct setting setting = {BEFORE_GUARD, 0, NULL};
    static const uint8_t bytes[] = {0, 255, ' ', '-', 'Q', '\r', 'a'};
    uint8_t text[] = "S,0,0,0\nS,1,1,0\nS,0,0,1\n";
    struct call call = units_call(file_s, two_units, 2, (struct bytes){text, sizeof text - 1});
    struct answer answer = {.number = RULEFILE_BAD_SCRIPT};
    for (size_t i = 0; i < sizeof text - 1; i++) {
        uint8_t byte = text[i];
        for (size_t k = 0; k < COUNT_OF(bytes); k++) {
            text[i] = bytes[k];
            try_call(__LINE__, &setting, &call, answer, nothing);
        }
        text[i] = byte;
    }
}

static struct unit many_units[RULEFILE_MAX_UNITS + 1];
static struct unit units_after[RULEFILE_MAX_UNITS];

/* So many units that hold a bit, and so many visits that exchange it, one unit after the other. */
static struct call exchanges(size_t units, size_t visits)
{
    struct call call = units_call(file_s, many_units, units, nothing);
    for (size_t i = 0; i < units; i++)
        many_units[i] = (struct unit){1, i % 2};
    memcpy(units_after, many_units, sizeof units_after);
    begin_script();
    for (size_t i = 0; i < visits; i++) {
        uint32_t unit = (uint32_t)(7 * i % units);
        add_visit((struct visit){unit, 0, i % 5 == 0});
        units_after[unit].setting ^= 1;
    }
    call.value = built_script();
    call.budget = 1;
    call.units.after = units_after;
    call.units.tally = (struct rulefile_tally){(uint32_t)visits, 0, 0};
    return call;
}

/* 1,000 units and 4,096 visits are played; one more of either is refused with 2, before the file is looked at. */
static void most_units_and_lines(void)
{
    static const struct setting settings[] = {{HEAP, 0, NULL}, {BEFORE_GUARD, 0, NULL}, {ODD, 5, NULL}};
    static const struct bytes refused_file = TEXT(S "C,7,7\n");
    static const struct bytes more[] = {TEXT("S,0,0,0\n"), TEXT("\n"), TEXT("x")};
    struct call call = exchanges(RULEFILE_MAX_UNITS, RULEFILE_MAX_LINES);
    for (size_t i = 0; i < COUNT_OF(settings); i++)
        try_call(__LINE__, &settings[i], &call, (struct answer){0}, nothing);
    for (size_t i = 0; i < COUNT_OF(more); i++) {
        size_t before = script.length;
        add_script(more[i]);
        call.value = built_script();
        call.file = file_s;
        try_refused_play(__LINE__, call, RULEFILE_TOO_LONG);
        call.file = refused_file;
        try_refused_play(__LINE__, call, RULEFILE_TOO_LONG);
        script.length = before;
    }
    call = exchanges(RULEFILE_MAX_UNITS, 3);
    call.units.types = call.units.settings = RULEFILE_MAX_UNITS + 1;
    try_refused_play(__LINE__, call, RULEFILE_TOO_LONG);
    call.value = nothing;
    call.file = refused_file;
    try_refused_play(__LINE__, call, RULEFILE_TOO_LONG);
}

/* Scripts of line feeds and of one long line. */
static void script_lengths(void)
{
    static uint8_t bytes[1 << 20];
    struct call call = units_call(file_s, two_units, 2, (struct bytes){bytes, RULEFILE_MAX_LINES});
    memset(bytes, '\n', sizeof bytes);
    try_refused_play(__LINE__, call, RULEFILE_BAD_SCRIPT);
    call.value.length++;
    try_refused_play(__LINE__, call, RULEFILE_TOO_LONG);
    bytes[RULEFILE_MAX_LINES] = 'x'; /* line 4,097, and no line feed */
    try_refused_play(__LINE__, call, RULEFILE_TOO_LONG);
    bytes[RULEFILE_MAX_LINES - 1] = 'x';
    try_refused_play(__LINE__, call, RULEFILE_BAD_SCRIPT);
    call.value.length = sizeof bytes;
    try_refused_play(__LINE__, call, RULEFILE_TOO_LONG);
    memset(bytes, 'S', sizeof bytes);
    try_refused_play(__LINE__, call, RULEFILE_BAD_SCRIPT);
    bytes[sizeof bytes - 1] = '\n';
    try_refused_play(__LINE__, call, RULEFILE_BAD_SCRIPT);
}

/* 1 comes before 2, both before the refusal of the file, that before those of units and script. */
static void order_of_refusals_of_plays(void)
{
    static const struct bytes refused_file = TEXT(S "C,7,7\n");
    static const struct bytes long_file = {pattern, RULEFILE_MAX_FILE_LENGTH + 1};
    static const struct bytes bad = TEXT("x");
    static const struct answer too_long = {.number = RULEFILE_TOO_LONG};
    for (size_t i = 0; i < COUNT_OF(many_units); i++)
        many_units[i] = absent_unit;
    for (size_t units = RULEFILE_MAX_UNITS; units <= RULEFILE_MAX_UNITS + 1; units++) {
        struct call call = units_call(refused_file, many_units, units, bad);
        struct answer overlap = {.number = RULEFILE_OVERLAP_LEFT, .line = 15};
        try_lengths(__LINE__, HEAP, &call, units == RULEFILE_MAX_UNITS ? overlap : too_long, nothing);
        call.file = file_s;
        struct answer absent = {.number = RULEFILE_NO_ISO};
        try_lengths(__LINE__, HEAP, &call, units == RULEFILE_MAX_UNITS ? absent : too_long, nothing);
        call.file = long_file;
        try_lengths(__LINE__, HEAP, &call, too_long, nothing);
    }
    many_units[RULEFILE_MAX_UNITS - 1] = (struct unit){2, 4}; /* the last of many units is tested too */
    for (size_t i = 0; i + 1 < RULEFILE_MAX_UNITS; i++)
        many_units[i] = (struct unit){2, 3};
    try_refused_play(__LINE__, units_call(file_s, many_units, RULEFILE_MAX_UNITS, bad), RULEFILE_TOO_HIGH);
    many_units[RULEFILE_MAX_UNITS - 1].setting = 3;
    try_refused_play(__LINE__, units_call(file_s, many_units, RULEFILE_MAX_UNITS, bad), RULEFILE_BAD_SCRIPT);
}

/* Plays against runs of their own */

/* The rows of the file that is played. */
static uint16_t played_rows[RULEFILE_TABLE_LENGTH];

/* Whether two T lines unfold to the same tree. */
static bool same_tree(uint32_t one, uint32_t two)
{
    const uint16_t *a = played_rows + 5 * one;
    const uint16_t *b = played_rows + 5 * two;
    return a[1] == b[1] && (a[1] == 0 || (same_tree(a[2], b[2]) && same_tree(a[3], b[3])));
}

/* The values of a T line. */
static uint64_t count_values(uint32_t type)
{
    const uint16_t *row = played_rows + 5 * type;
    if (row[1] == 0)
        return 1;
    uint64_t first = count_values(row[2]);
    uint64_t second = count_values(row[3]);
    return row[1] == 1 ? first + second : first * second;
}

/* Lines of a letter. */
static uint32_t count_rows(char letter)
{
    uint32_t count = 0;
    for (size_t i = 0; i < RULEFILE_TABLE_LENGTH; i += 5)
        count += played_rows[i] == letter;
    return count;
}

/* The T line that an iso's I line names first or second. */
static uint32_t end_of(uint32_t iso, bool second)
{
    const uint16_t *row = played_rows;
    while (row[0] != 'I' || iso > 0) {
        iso -= row[0] == 'I';
        row += 5;
    }
    return row[second ? 2 : 1];
}

/* One visit, by the three services that it stands for. */
static void visit_alone(struct bytes file, struct visit visit, uint32_t budget, struct unit *unit,
                        struct rulefile_tally *tally)
{
    static uint16_t table[RULEFILE_TABLE_LENGTH];
    static uint8_t work[RULEFILE_WORK_LENGTH];
    uint8_t letters[RULEFILE_RESULT_LENGTH], result[RULEFILE_RESULT_LENGTH];
    if (!same_tree(unit->type, end_of(visit.iso, visit.back))) {
        tally->skipped++;
        return;
    }
    struct rulefile_setting_answer s =
        rulefile_setting_of(file.start, file.length, table, COUNT_OF(table), work, sizeof work, unit->type,
                            unit->setting, letters, sizeof letters);
    struct rulefile_run_answer r =
        rulefile_run(file.start, file.length, table, COUNT_OF(table), work, sizeof work, visit.iso, visit.back, budget,
                     letters, s.length, result, sizeof result);
    if (r.number == RULEFILE_SPENT) {
        tally->spent++;
        return;
    }
    unit->type = end_of(visit.iso, !visit.back);
    struct rulefile_number_answer n = rulefile_number_of(file.start, file.length, table, COUNT_OF(table), work,
                                                         sizeof work, unit->type, result, r.length);
    CHECK(s.number == 0 && r.number == 0 && n.number == 0);
    unit->setting = n.setting;
    tally->done++;
}

/* A number below a bound; the same ones in every run. */
static uint32_t drawn(uint64_t below)
{
    static uint64_t state = 12;
    state = state * UINT64_C(6364136223846793005) + UINT64_C(1442695040888963407);
    return (uint32_t)((state >> 33) % below);
}

/* Draws units of types that can be numbered. */
static void draw_units(size_t count)
{
    for (size_t i = 0; i < count; i++) {
        uint64_t values = 0;
        do {
            many_units[i].type = drawn(count_rows('T'));
            values = count_values(many_units[i].type);
        } while (values > UINT32_MAX);
        many_units[i].setting = drawn(values);
    }
    memcpy(units_after, many_units, count * sizeof many_units[0]);
}

/* Draws visits and makes each alone; where it asks for visits that match, others are drawn again. */
static struct rulefile_tally draw_visits(struct bytes file, size_t units, size_t visits, uint32_t budget, bool match)
{
    struct rulefile_tally tally = {0, 0, 0};
    uint32_t isos = count_rows('I');
    begin_script();
    for (size_t tries = 0; tries < 20 * visits && script.count < visits; tries++) {
        struct visit visit = {drawn(units), drawn(isos), drawn(2) == 1};
        if (match && !same_tree(units_after[visit.unit].type, end_of(visit.iso, visit.back)))
            continue;
        add_visit(visit);
        visit_alone(file, visit, budget, &units_after[visit.unit], &tally);
    }
    return tally;
}

/* The same script last line first with directions exchanged. */
static void turn_script(void)
{
    static struct visit visits[RULEFILE_MAX_LINES];
    size_t count = script.count;
    memcpy(visits, script.visits, count * sizeof visits[0]);
    begin_script();
    for (size_t i = count; i > 0; i--)
        add_visit((struct visit){visits[i - 1].unit, visits[i - 1].iso, !visits[i - 1].back});
}

/* Plays back what was played, with each visit made alone; every unit has its tree and its number again. */
static void try_back(int at, const struct setting *setting, struct call call)
{
    static struct unit held[RULEFILE_MAX_UNITS];
    static struct unit restored[RULEFILE_MAX_UNITS];
    struct rulefile_tally tally = {0, 0, 0};
    size_t count = call.units.types;
    memcpy(held, units_after, sizeof held);
    memcpy(restored, held, sizeof held);
    turn_script();
    for (size_t i = 0; i < script.count; i++)
        visit_alone(call.file, script.visits[i], call.budget, &restored[script.visits[i].unit], &tally);
    call.value = built_script();
    call.units = (struct units){held, restored, count, count, tally};
    try_call(at, setting, &call, (struct answer){0}, nothing);
    CHECK_AT(at, tally.done == script.count && tally.skipped == 0 && tally.spent == 0);
    for (size_t i = 0; i < count; i++)
        CHECK_AT(at, same_tree(restored[i].type, many_units[i].type) && restored[i].setting == many_units[i].setting);
}

/* A play of drawn units and visits, and where none was skipped or spent the way back; gives whether there was one. */
static bool try_drawn(int at, struct bytes file, size_t units, size_t visits, bool match)
{
    static const struct setting setting = {BEFORE_GUARD, 0, NULL};
    memset(played_rows, 0, sizeof played_rows);
    put_rows(file, played_rows);
    draw_units(units);
    struct call call = units_call(file, many_units, units, nothing);
    call.budget = match ? 65536 : drawn(6);
    call.units.tally = draw_visits(file, units, visits, call.budget, match);
    call.units.after = units_after;
    call.value = built_script();
    try_call(at, &setting, &call, (struct answer){0}, nothing);
    bool back = call.units.tally.done == script.count;
    if (back)
        try_back(at, &setting, call);
    return back && script.count > 0;
}

/* Plays of several files, each visit made alone too. */
static void plays_as_runs(void)
{
    static const struct bytes files[] = {TEXT(S), TEXT(S_RETURNS), TEXT(STEPS), TEXT(STEPS_TURNED), TEXT(WIDER),
                                         TEXT(COSTS), TEXT(COMPARED), TEXT(BITS_PLAYED), TEXT(S_IMPORTED),
                                         TEXT(TWO_UNITS "I,0,1\nC,0,0\n"), TEXT(LIST_TYPES)};
    size_t rounds = quick ? 2 : 20;
    size_t restored = 0;
    for (size_t i = 0; i < rounds * COUNT_OF(files); i++) {
        bool match = i / COUNT_OF(files) % 2 == 1;
        restored += try_drawn(__LINE__, files[i % COUNT_OF(files)], 1 + drawn(9), drawn(40), match);
    }
    CHECK(restored >= rounds * COUNT_OF(files) / 3);
    if (!quick)
        CHECK(try_drawn(__LINE__, file_s, RULEFILE_MAX_UNITS, RULEFILE_MAX_LINES, true));
}

/* A file's bytes and a zero behind them. */
static struct bytes read_file(const char *path)
{
    FILE *stream = required(fopen(path, "rb"));
    require(fseek(stream, 0, SEEK_END) == 0);
    size_t length = (size_t)ftell(stream);
    uint8_t *start = allocate(length + 1);
    rewind(stream);
    require(fread(start, 1, length, stream) == length);
    require(fclose(stream) == 0);
    start[length] = 0;
    return (struct bytes){start, length};
}

/* The line that begins at a place, with its line feed. */
static struct bytes line_at(struct bytes text, size_t at)
{
    const uint8_t *start = text.start + at;
    const uint8_t *end = memchr(start, '\n', text.length - at);
    return (struct bytes){start, end == NULL ? text.length - at : (size_t)(end - start) + 1};
}

/* The run that a stored query asks for. Its ending is a line feed, or a carriage return and a line feed. */
static struct call stored_run(struct bytes file, struct bytes line)
{
    unsigned long iso, back, budget;
    int head = 0;
    require(sscanf((const char *)line.start, "Q,%lu,%lu,%lu,%n", &iso, &back, &budget, &head) == 3 && head > 0);
    require(line.length > (size_t)head && line.start[line.length - 1] == '\n');
    size_t ending = line.length > (size_t)head + 1 && line.start[line.length - 2] == '\r' ? 2 : 1;
    struct bytes value = {line.start + head, line.length - (size_t)head - ending};
    return (struct call){.service = SERVICE_RUN,
                         .file = file,
                         .iso = (uint32_t)iso,
                         .back = back == 1,
                         .budget = (uint32_t)budget,
                         .value = value};
}

/* What the desk program reads: a stored input, or a rule file and the queries beside it. */
static struct bytes read_example(const char *path)
{
    struct bytes file = read_file(path);
    char beside[256];
    size_t stem = strlen(path) - strlen(".rules");
    require(strlen(path) > strlen(".rules") && stem < sizeof beside - sizeof ".queries");
    memcpy(beside, path, stem);
    strcpy(beside + stem, ".queries");
    if (strcmp(path + stem, ".rules") != 0 || access(beside, R_OK) != 0)
        return file;
    struct bytes queries = read_file(beside);
    uint8_t *both = allocate(file.length + queries.length + 1);
    memcpy(both, file.start, file.length);
    memcpy(both + file.length, queries.start, queries.length + 1);
    free((void *)file.start);
    free((void *)queries.start);
    return (struct bytes){both, file.length + queries.length};
}

/* A stored input, its queries in one sheet. */
static void try_stored(const char *path)
{
    struct bytes input = read_example(path);
    size_t at = 0;
    while (at < input.length && input.start[at] != 'Q')
        at += line_at(input, at).length;
    struct bytes file = {input.start, at};
    begin_list();
    while (at < input.length) {
        struct bytes line = line_at(input, at);
        struct call run = stored_run(file, line);
        ask_run(line, &run);
        at += line.length;
    }
    size_t before = failed;
    try_as_checked(__LINE__, file);
    if (failed > before)
        printf("  of %s\n", path);
    free((void *)input.start);
}

static void stored_examples(void)
{
    glob_t paths;
    size_t queries = 0;
    require(glob("examples/*.rules", 0, NULL, &paths) == 0);
    require(glob("examples/*/*.rules", GLOB_APPEND, NULL, &paths) == 0);
    require(glob("examples/*/*.in", GLOB_APPEND, NULL, &paths) == 0);
    for (size_t i = 0; i < paths.gl_pathc; i++) {
        try_stored(paths.gl_pathv[i]);
        queries += asked.queries;
    }
    CHECK(paths.gl_pathc > 20);
    CHECK(queries > 20);
    globfree(&paths);
}

/* The area anew, as malloc gives it. */
static void renew(struct area *area)
{
    free(area->base);
    area->base = allocate(area->length);
    area->start = area->base;
}

static bool starts_with(const uint8_t *start, struct bytes text)
{
    return text.length == 0 || memcmp(start, text.start, text.length) == 0;
}

/* A call on areas that hold nothing yet: under valgrind this shows that nothing depends on what they held. */
static void try_uninitialized(int at, const struct call *call, struct answer expected, struct bytes text)
{
    struct area file = make_input(HEAP, call->file);
    struct area input = make_input(HEAP, input_of(call));
    struct lent lent = lend(HEAP, exact_lengths(call));
    renew(&lent.table);
    renew(&lent.work);
    renew(&lent.out);
    renew(&lent.numbers);
    renew(&lent.tally);
    lend_units(&call->units, &lent);
    struct answer found = make_call(call, &file, &input, &lent);
    expected = with_lengths(expected, call, text);
    foresee(call, &lent, expected, text);
    CHECK_AT(at, same_answer(found, expected));
    CHECK_AT(at, as_foreseen(&lent.table));
    CHECK_AT(at, as_foreseen(&lent.work));
    CHECK_AT(at, as_foreseen(&lent.numbers));
    CHECK_AT(at, starts_with(lent.out.start, text));
    if (call->service == SERVICE_PLAY && expected.number == RULEFILE_ACCEPTED)
        CHECK_AT(at, as_foreseen(&lent.types) && as_foreseen(&lent.settings) && as_foreseen(&lent.tally));
    for (size_t i = 0; i < expected.queries; i++)
        CHECK_AT(at, starts_with(lent.out.start + RULEFILE_RESULT_LENGTH * i, call->sheet.replies[i].letters));
    give_back(&lent);
    free_area(&file);
    free_area(&input);
}

static void uninitialized_areas(void)
{
    static const struct bytes turned = TEXT(S_TURNED);
    static const struct bytes result = TEXT("PLULU");
    struct call call = {.service = SERVICE_CHECK, .file = TEXT(S), .iso = 1, .budget = 2, .value = TEXT("PLURU")};
    try_uninitialized(__LINE__, &call, (struct answer){0}, nothing);
    call.service = SERVICE_TURN;
    try_uninitialized(__LINE__, &call, (struct answer){0}, turned);
    call.service = SERVICE_RUN;
    try_uninitialized(__LINE__, &call, (struct answer){.count = 2}, result);
    call.budget = 1;
    try_uninitialized(__LINE__, &call, (struct answer){.number = RULEFILE_SPENT}, nothing);
    call = (struct call){.service = SERVICE_TURN, .file = TEXT(S "C,7,7\n")};
    try_uninitialized(__LINE__, &call, (struct answer){.number = RULEFILE_OVERLAP_LEFT, .line = 15}, nothing);
    for (size_t i = 0; i < COUNT_OF(sheet_cases); i++) {
        call = sheet_call(&sheet_cases[i]);
        try_uninitialized(sheet_cases[i].at, &call, (struct answer){0}, nothing);
    }
    for (size_t i = 0; i < COUNT_OF(setting_cases); i++) {
        const struct setting_case *c = &setting_cases[i];
        call = (struct call){.service = SERVICE_NUMBER_OF, .file = c->file, .type = c->type, .value = c->letters};
        try_uninitialized(c->at, &call, (struct answer){.setting = c->setting}, nothing);
        call = (struct call){.service = SERVICE_SETTING_OF, .file = c->file, .type = c->type, .setting = c->setting};
        try_uninitialized(c->at, &call, (struct answer){0}, c->letters);
    }
    call = (struct call){.service = SERVICE_SETTING_OF, .file = TEXT(BITS_USED), .type = 32};
    try_uninitialized(__LINE__, &call, (struct answer){.number = RULEFILE_TOO_MANY}, nothing);
    call = (struct call){.service = SERVICE_SETTING_OF, .file = TEXT(S), .type = 2, .setting = 4};
    try_uninitialized(__LINE__, &call, (struct answer){.number = RULEFILE_TOO_HIGH}, nothing);
    for (size_t i = 0; i < COUNT_OF(overlap_cases); i++) {
        call = overlap_call(&overlap_cases[i]);
        try_uninitialized(overlap_cases[i].at, &call, overlap_answer(&overlap_cases[i]), nothing);
    }
    for (size_t i = 0; i < COUNT_OF(witness_cases); i++) {
        const struct witness_case *c = &witness_cases[i];
        call = (struct call){.service = SERVICE_WITNESS, .file = c->file};
        try_uninitialized(c->at, &call, (struct answer){.number = c->number, .line = c->line}, c->letters);
    }
}

static void uninitialized_areas_of_lists_and_plays(void)
{
    struct call call;
    for (size_t i = 0; i < COUNT_OF(export_cases); i++) {
        const struct export_case *c = &export_cases[i];
        call = export_call(c);
        try_uninitialized(c->at, &call, (struct answer){.number = c->number, .line = c->line}, c->list);
    }
    for (size_t i = 0; i < COUNT_OF(import_cases); i++) {
        const struct import_case *c = &import_cases[i];
        call = import_call(c);
        try_uninitialized(c->at, &call, (struct answer){.number = c->number, .line = c->line}, c->written);
    }
    for (size_t i = 0; i < COUNT_OF(play_cases); i++) {
        const struct play_case *c = &play_cases[i];
        call = play_call(c);
        try_uninitialized(c->at, &call, (struct answer){.number = c->number, .line = c->line}, nothing);
    }
}

/* Threads */

enum { THREADS = 4, THREAD_STACK = 128 * 1024 };

/* Each thread has areas of its own, a run whose letters no other thread gives, and another sheet to begin with. */
struct worker {
    pthread_barrier_t *start;
    const struct query_case *query;
    size_t first_sheet;
    struct lent lent;
    size_t rounds;
    size_t calls;
    size_t wrong;
};

/* One call, counted in the worker. */
static void try_quietly(struct worker *worker, const struct call *call, struct answer expected, struct bytes text)
{
    expected = with_lengths(expected, call, text);
    struct outcome o = perform(HEAP, &worker->lent, call, expected, text);
    bool areas = o.table && o.work && o.out && o.numbers && o.units && o.tally && o.inputs;
    worker->wrong += !areas || !same_answer(o.answer, expected);
    worker->calls++;
}

static void *work_through(void *argument)
{
    struct worker *worker = argument;
    const struct query_case *q = worker->query;
    struct call run = run_call(q);
    pthread_barrier_wait(worker->start);
    for (size_t i = 0; i < worker->rounds; i++) {
        const struct file_case *f = &file_cases[i % COUNT_OF(file_cases)];
        struct call check = {.service = SERVICE_CHECK, .file = f->file};
        struct call turn = {.service = SERVICE_TURN, .file = f->file};
        struct call sheet = sheet_call(&sheet_cases[(worker->first_sheet + i) % COUNT_OF(sheet_cases)]);
        struct answer answer = {.number = f->number, .line = f->line};
        try_quietly(worker, &run, (struct answer){.count = q->count}, q->result);
        try_quietly(worker, &check, answer, nothing);
        try_quietly(worker, &run, (struct answer){.count = q->count}, q->result);
        try_quietly(worker, &turn, answer, f->number == RULEFILE_ACCEPTED ? f->turned : nothing);
        try_quietly(worker, &sheet, (struct answer){0}, nothing);
        const struct setting_case *c = &setting_cases[(worker->first_sheet + i) % COUNT_OF(setting_cases)];
        struct call number = {.service = SERVICE_NUMBER_OF, .file = c->file, .type = c->type, .value = c->letters};
        struct call letters = {.service = SERVICE_SETTING_OF, .file = c->file, .type = c->type, .setting = c->setting};
        try_quietly(worker, &number, (struct answer){.setting = c->setting}, nothing);
        try_quietly(worker, &letters, (struct answer){0}, c->letters);
        const struct overlap_case *o = &overlap_cases[(worker->first_sheet + i) % COUNT_OF(overlap_cases)];
        struct call overlap = overlap_call(o);
        try_quietly(worker, &overlap, overlap_answer(o), nothing);
        const struct bounds_case *b = &bounds_cases[(worker->first_sheet + i) % COUNT_OF(bounds_cases)];
        struct call bounds = {.service = SERVICE_BOUNDS, .file = b->file, .iso = b->iso};
        struct answer told = {.number = b->number, .least = b->least, .greatest = b->greatest};
        try_quietly(worker, &bounds, told, nothing);
        const struct witness_case *w = &witness_cases[(worker->first_sheet + i) % COUNT_OF(witness_cases)];
        struct call witness = {.service = SERVICE_WITNESS, .file = w->file};
        struct answer shown = {.number = w->number, .line = w->line};
        try_quietly(worker, &witness, shown, w->letters);
        const struct export_case *e = &export_cases[(worker->first_sheet + i) % COUNT_OF(export_cases)];
        struct call list = export_call(e);
        try_quietly(worker, &list, (struct answer){.number = e->number, .line = e->line}, e->list);
        const struct import_case *m = &import_cases[(worker->first_sheet + i) % COUNT_OF(import_cases)];
        struct call written = import_call(m);
        try_quietly(worker, &written, (struct answer){.number = m->number, .line = m->line}, m->written);
        const struct play_case *p = &play_cases[(worker->first_sheet + i) % COUNT_OF(play_cases)];
        struct call play = play_call(p);
        try_quietly(worker, &play, (struct answer){.number = p->number, .line = p->line}, nothing);
    }
    return NULL;
}

static void threads_at_once(void)
{
    static const struct query_case queries[THREADS] = {
        {__LINE__, TEXT(S), 1, false, 9, TEXT("PLULU"), 0, 2, TEXT("PLURU")},
        {__LINE__, TEXT(S), 1, true, 9, TEXT("PRULU"), 0, 1, TEXT("PRULU")},
        {__LINE__, TEXT(STEPS), 3, false, 9, TEXT("LU"), 0, 3, TEXT("RRU")},
        {__LINE__, TEXT(WIDER), 0, false, 9, TEXT("RU"), 0, 1, TEXT("PLUU")},
    };
    struct lengths lengths = sheet_lengths(SHEET_CASE_QUERIES);
    lengths.out = RULEFILE_MAX_FILE_LENGTH; /* for imports */
    lengths.types = lengths.settings = PLAY_CASE_UNITS;
    lengths.tally = 1;
    struct worker workers[THREADS];
    pthread_t threads[THREADS];
    pthread_barrier_t start;
    pthread_attr_t attributes;
    require(pthread_barrier_init(&start, NULL, THREADS) == 0);
    require(pthread_attr_init(&attributes) == 0);
    require(pthread_attr_setstacksize(&attributes, THREAD_STACK) == 0);
    for (size_t i = 0; i < THREADS; i++) {
        workers[i] = (struct worker){&start, &queries[i], 5 * i, lend(HEAP, lengths), quick ? 50 : 2000, 0, 0};
        require(pthread_create(&threads[i], &attributes, work_through, &workers[i]) == 0);
    }
    for (size_t i = 0; i < THREADS; i++) {
        require(pthread_join(threads[i], NULL) == 0);
        CHECK_AT(queries[i].at, workers[i].calls == 13 * workers[i].rounds);
        CHECK_AT(queries[i].at, workers[i].wrong == 0);
        give_back(&workers[i].lent);
    }
    require(pthread_attr_destroy(&attributes) == 0);
    require(pthread_barrier_destroy(&start) == 0);
}

/* Whether a service can give a number. */
static bool can_give(size_t service, size_t number)
{
    if (number <= RULEFILE_GAP_RIGHT || number == RULEFILE_IDLE_LINE || number == RULEFILE_RECURSION)
        return true;
    if (service == SERVICE_RUN)
        return number <= RULEFILE_SPENT || number == RULEFILE_TOO_LARGE;
    if (service == SERVICE_WITNESS)
        return number == RULEFILE_TOO_LARGE;
    if (service == SERVICE_OVERLAP)
        return number == RULEFILE_NO_ISO;
    bool of_type = number == RULEFILE_NO_ISO || number == RULEFILE_TOO_MANY;
    if (service == SERVICE_BOUNDS)
        return of_type;
    if (service == SERVICE_EXPORT)
        return of_type || number == RULEFILE_SPENT;
    if (service == SERVICE_IMPORT)
        return of_type || number == RULEFILE_BAD_LIST;
    if (service == SERVICE_PLAY)
        return of_type || number == RULEFILE_TOO_HIGH || number == RULEFILE_BAD_SCRIPT;
    return (service == SERVICE_NUMBER_OF && (of_type || number == RULEFILE_NO_VALUE)) ||
           (service == SERVICE_SETTING_OF && (of_type || number == RULEFILE_TOO_HIGH));
}

/* Every number was given by every service that can give it, and by no other; the same for the queries of sheets. */
static void every_number(void)
{
    for (size_t number = 0; number <= LAST_NUMBER; number++) {
        bool of_queries = number == RULEFILE_ACCEPTED || number == RULEFILE_BAD_LINE ||
                          (number >= RULEFILE_NO_ISO && number <= RULEFILE_SPENT) ||
                          number == RULEFILE_TOO_LARGE;
        if (!CHECK(hit_by_query[number] == of_queries))
            printf("    number %zu of a query\n", number);
        for (size_t service = 0; service < SERVICES; service++) {
            if (!CHECK(hit[service][number] == can_give(service, number)))
                printf("    number %zu of %s\n", number, service_names[service]);
        }
    }
}

struct group {
    const char *name;
    void (*run)(void);
};

static const struct group groups[] = {
    {"header_numbers", header_numbers},
    {"header_structs", header_structs},
    {"exact_areas", exact_areas},
    {"guarded_areas", guarded_areas},
    {"longer_areas", longer_areas},
    {"reused_areas", reused_areas},
    {"short_areas", short_areas},
    {"short_areas_of_runs", short_areas_of_runs},
    {"short_areas_of_settings", short_areas_of_settings},
    {"short_areas_of_overlaps", short_areas_of_overlaps},
    {"short_areas_of_bounds", short_areas_of_bounds},
    {"short_areas_of_witnesses", short_areas_of_witnesses},
    {"short_areas_of_lists", short_areas_of_lists},
    {"short_areas_of_plays", short_areas_of_plays},
    {"unequal_units", unequal_units},
    {"short_areas_of_sheets", short_areas_of_sheets},
    {"null_areas", null_areas},
    {"null_areas_of_settings", null_areas_of_settings},
    {"null_areas_of_overlaps", null_areas_of_overlaps},
    {"null_areas_of_bounds", null_areas_of_bounds},
    {"null_areas_of_witnesses", null_areas_of_witnesses},
    {"null_areas_of_lists", null_areas_of_lists},
    {"null_areas_of_plays", null_areas_of_plays},
    {"file_lengths", file_lengths},
    {"longest_file", longest_file},
    {"ceilings", ceilings},
    {"value_lengths", value_lengths},
    {"damaged_files", damaged_files},
    {"single_bytes", single_bytes},
    {"counts_and_budgets", counts_and_budgets},
    {"bounds_of_towers", bounds_of_towers},
    {"bounds_at_the_limit", bounds_at_the_limit},
    {"bounds_of_deep_isos", bounds_of_deep_isos},
    {"longest_witnesses", longest_witnesses},
    {"one_of_many", one_of_many},
    {"steps_in_order", steps_in_order},
    {"setting_lengths", setting_lengths},
    {"table_lengths", table_lengths},
    {"sizes_in_tables", sizes_in_tables},
    {"cleared_sizes", cleared_sizes},
    {"many_clauses", many_clauses},
    {"query_lines", query_lines},
    {"damaged_queries", damaged_queries},
    {"query_lengths", query_lengths},
    {"query_counts", query_counts},
    {"order_of_refusals", order_of_refusals},
    {"megabyte_of_lines", megabyte_of_lines},
    {"megabyte_lists", megabyte_lists},
    {"largest_sheet", largest_sheet},
    {"sheets_as_runs", sheets_as_runs},
    {"sheet_of_counts", sheet_of_counts},
    {"longest_lists", longest_lists},
    {"lists_at_the_ceilings", lists_at_the_ceilings},
    {"lists_of_128_pairs", lists_of_128_pairs},
    {"damaged_lists", damaged_lists},
    {"bad_scripts", bad_scripts},
    {"damaged_scripts", damaged_scripts},
    {"most_units_and_lines", most_units_and_lines},
    {"script_lengths", script_lengths},
    {"order_of_refusals_of_plays", order_of_refusals_of_plays},
    {"plays_as_runs", plays_as_runs},
    {"stored_examples", stored_examples},
    {"uninitialized_areas", uninitialized_areas},
    {"uninitialized_areas_of_lists_and_plays", uninitialized_areas_of_lists_and_plays},
    {"threads_at_once", threads_at_once},
    {"every_number", every_number},
};

int main(int argc, char **argv)
{
    quick = argc > 1 && strcmp(argv[1], "quick") == 0;
    require(setvbuf(stdout, NULL, _IOLBF, BUFSIZ) == 0);
    fill_pattern();
    for (size_t i = 0; i < COUNT_OF(groups); i++) {
        size_t before = passed + failed;
        groups[i].run();
        if (passed + failed == before)
            record(false, __LINE__, groups[i].name); /* a group without a check */
    }
    printf("%zu passed, %zu failed\n", passed, failed);
    return failed == 0 ? 0 : 1;
}
