/*
 * there_and_back FILE ISO BUDGET LETTERS
 *
 * Checks and turns a rule file, sends a setting forward through it, and sends what comes out forward
 * through the turned file: the same setting comes back, with the same count. Of FILE, all that stands
 * before the first line that begins with Q is the rule file.
 *
 * Exit status: 0 came back, 1 refused, 2 the arguments or the file cannot be read.
 */
#include "rulefile.h"

#include <errno.h>
#include <stdio.h>
#include <stdlib.h>
#include <string.h>

static uint16_t table[RULEFILE_TABLE_LENGTH];
static uint8_t work[RULEFILE_WORK_LENGTH];
static uint8_t file[RULEFILE_MAX_FILE_LENGTH + 1]; /* one byte more than allowed is enough for refusal 2 */
static uint8_t turned[RULEFILE_MAX_FILE_LENGTH];

struct bytes {
    const uint8_t *start;
    size_t length;
};

struct setting {
    uint8_t letters[RULEFILE_RESULT_LENGTH];
    size_t length;
    uint32_t count;
};

static const char *word(uint32_t number)
{
    static const char *const words[] = {
        "accepted", "short area", "too long", "bad line", "misplaced", "bad field",
        "bad name", "ceiling", "variable", "let shape", "type", "overlap left",
        "overlap right", "gap left", "gap right", "no iso", "no value", "spent",
        "too many values", "number too high", "bad list", "idle line",
        "bad script", "recursion", "too large",
    };
    return number < sizeof words / sizeof words[0] ? words[number] : "unknown";
}

static void print_refusal(const char *step, uint32_t number, size_t line)
{
    printf("%s: refused with %lu, %s", step, (unsigned long)number, word(number));
    if (line > 0)
        printf(", at line %zu", line);
    printf("\n");
}

static bool read_number(const char *text, uint32_t *number)
{
    char *end;
    errno = 0;
    unsigned long long n = strtoull(text, &end, 10);
    if (text[0] < '0' || text[0] > '9' || *end != '\0' || errno != 0 || n > UINT32_MAX)
        return false;
    *number = (uint32_t)n;
    return true;
}

/* Where the first line that begins with Q stands, or the end. */
static size_t rules_end(const uint8_t *text, size_t length)
{
    size_t at = 0;
    while (at < length && text[at] != 'Q') {
        const uint8_t *feed = memchr(text + at, '\n', length - at);
        at = feed == NULL ? length : (size_t)(feed - text) + 1;
    }
    return at;
}

/* Reads the rule lines, and no more of them than it takes to see that they are too long. */
static bool read_rules(const char *path, struct bytes *rules)
{
    FILE *stream = fopen(path, "rb");
    if (stream == NULL)
        return false;
    size_t length = fread(file, 1, sizeof file, stream);
    bool read = ferror(stream) == 0;
    bool closed = fclose(stream) == 0;
    rules->start = file;
    rules->length = rules_end(file, length);
    return read && closed;
}

static bool check(struct bytes rules)
{
    struct rulefile_check_answer answer =
        rulefile_check(rules.start, rules.length, table, RULEFILE_TABLE_LENGTH, work, RULEFILE_WORK_LENGTH);
    if (answer.number != RULEFILE_ACCEPTED) {
        print_refusal("Check", answer.number, answer.line);
        return false;
    }
    printf("Check: accepted, number %lu, line %zu\n", (unsigned long)answer.number, answer.line);
    return true;
}

static bool turn(struct bytes rules, struct bytes *result)
{
    struct rulefile_turn_answer answer =
        rulefile_turn(rules.start, rules.length, table, RULEFILE_TABLE_LENGTH, work, RULEFILE_WORK_LENGTH,
                      turned, sizeof turned);
    if (answer.number != RULEFILE_ACCEPTED) {
        print_refusal("Turn", answer.number, answer.line);
        return false;
    }
    printf("Turn: %zu bytes written, the file has %zu\n", answer.length, rules.length);
    result->start = turned;
    result->length = answer.length;
    return true;
}

/* Runs an iso forward. The answer of a run names no line. */
static bool run(const char *step, struct bytes rules, uint32_t iso, uint32_t budget, struct bytes value,
                struct setting *result)
{
    struct rulefile_run_answer answer =
        rulefile_run(rules.start, rules.length, table, RULEFILE_TABLE_LENGTH, work, RULEFILE_WORK_LENGTH,
                     iso, false, budget, value.start, value.length, result->letters, sizeof result->letters);
    if (answer.number != RULEFILE_ACCEPTED) {
        print_refusal(step, answer.number, 0);
        return false;
    }
    result->length = answer.length;
    result->count = answer.count;
    printf("%s: %.*s becomes %.*s, count %lu\n", step, (int)value.length, (const char *)value.start,
           (int)answer.length, (const char *)result->letters, (unsigned long)answer.count);
    return true;
}

static bool there_and_back(struct bytes rules, uint32_t iso, uint32_t budget, struct bytes value)
{
    struct bytes turned_rules;
    struct setting there;
    struct setting back;
    if (!check(rules) || !turn(rules, &turned_rules))
        return false;
    if (!run("Run of the file", rules, iso, budget, value, &there))
        return false;
    struct bytes result = {there.letters, there.length};
    if (!run("Run of the turned file", turned_rules, iso, budget, result, &back))
        return false;
    bool same_setting = back.length == value.length && memcmp(back.letters, value.start, value.length) == 0;
    bool same_count = back.count == there.count;
    printf("Came back: %s setting, %s count\n", same_setting ? "the same" : "another",
           same_count ? "the same" : "another");
    return same_setting && same_count;
}

int main(int argc, char **argv)
{
    uint32_t iso;
    uint32_t budget;
    struct bytes rules;
    if (argc != 5 || !read_number(argv[2], &iso) || !read_number(argv[3], &budget)) {
        fprintf(stderr, "usage: there_and_back FILE ISO BUDGET LETTERS\n");
        return 2;
    }
    if (!read_rules(argv[1], &rules)) {
        fprintf(stderr, "there_and_back: cannot read %s\n", argv[1]);
        return 2;
    }
    struct bytes value = {(const uint8_t *)argv[4], strlen(argv[4])};
    bool came_back = there_and_back(rules, iso, budget, value);
    if (fflush(stdout) != 0 || ferror(stdout) != 0)
        return 2;
    return came_back ? 0 : 1;
}
