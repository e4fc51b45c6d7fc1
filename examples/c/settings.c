/*
 * settings FILE
 *
 * Settings as numbers, pair lists of them, and units that hold them. FILE has the lines of a rule file and
 * behind them calls: `N,type,letters` asks for the number of a setting of a T line, `S,type,number` for the
 * letters of the setting with a number, `E,iso,budget` for an iso as a pair list, `M,from,to` and the lines
 * of a list, each behind a blank, for a file with that conversion between two T lines, `U,budget` and, each
 * behind a blank, units `type,number` and from the first word with S on the lines of a script, for a play.
 * Prints `number,line` for the rule file and, if it is accepted, a line for each call: `number,setting` for
 * N, `number,letters` for S, for E and M `number,` and the lines written, each behind a blank, for U
 * `number,done,skipped,spent` and the units after the play, each behind a blank.
 *
 * Exit status: 0 accepted, 1 refused, 2 the argument, FILE or a call in it cannot be read.
 */
#include "rulefile.h"

#include <errno.h>
#include <stdio.h>
#include <stdlib.h>
#include <string.h>

static uint16_t table[RULEFILE_TABLE_LENGTH];
static uint8_t work[RULEFILE_WORK_LENGTH];
static uint8_t output[RULEFILE_MAX_FILE_LENGTH]; /* long enough for a pair list too */
static char text[2 * RULEFILE_MAX_FILE_LENGTH]; /* with a zero byte behind it */
static uint32_t types[RULEFILE_MAX_UNITS];
static uint32_t settings[RULEFILE_MAX_UNITS];

struct bytes {
    const uint8_t *start;
    size_t length;
};

/* Reads a number that `end` follows, and steps behind both. */
static bool read_number(char **at, char end, uint32_t *number)
{
    char *behind;
    errno = 0;
    unsigned long long n = strtoull(*at, &behind, 10);
    if (**at < '0' || **at > '9' || *behind != end || errno != 0 || n > UINT32_MAX)
        return false;
    *number = (uint32_t)n;
    *at = behind + 1;
    return true;
}

/* Reads a text without zero bytes that ends in a line feed; an empty one is read too. */
static bool read_text(const char *path)
{
    FILE *stream = fopen(path, "rb");
    if (stream == NULL)
        return false;
    size_t length = fread(text, 1, sizeof text, stream);
    bool read = ferror(stream) == 0;
    bool closed = fclose(stream) == 0;
    bool fits = length < sizeof text && strlen(text) == length;
    return read && closed && fits && (length == 0 || text[length - 1] == '\n');
}

/* Whether a line that begins so is a call. */
static bool is_call(char letter)
{
    return letter == 'N' || letter == 'S' || letter == 'E' || letter == 'M' || letter == 'U';
}

/* Where the first call stands, or the end. */
static char *first_call(void)
{
    char *at = text;
    while (*at != '\0' && !is_call(*at))
        at = strchr(at, '\n') + 1;
    return at;
}

static bool check(struct bytes rules)
{
    struct rulefile_check_answer answer =
        rulefile_check(rules.start, rules.length, table, RULEFILE_TABLE_LENGTH, work, RULEFILE_WORK_LENGTH);
    printf("%lu,%zu\n", (unsigned long)answer.number, answer.line);
    return answer.number == RULEFILE_ACCEPTED;
}

/* The letters are all up to the line feed. */
static void print_number(struct bytes rules, uint32_t type, char **at)
{
    size_t length = strcspn(*at, "\n");
    struct rulefile_number_answer answer =
        rulefile_number_of(rules.start, rules.length, table, RULEFILE_TABLE_LENGTH, work, RULEFILE_WORK_LENGTH,
                           type, (const uint8_t *)*at, length);
    printf("%lu,%lu\n", (unsigned long)answer.number, (unsigned long)answer.setting);
    *at += length + 1;
}

static void print_letters(struct bytes rules, uint32_t type, uint32_t setting)
{
    uint8_t result[RULEFILE_RESULT_LENGTH];
    struct rulefile_setting_answer answer =
        rulefile_setting_of(rules.start, rules.length, table, RULEFILE_TABLE_LENGTH, work, RULEFILE_WORK_LENGTH,
                            type, setting, result, sizeof result);
    printf("%lu,%.*s\n", (unsigned long)answer.number, (int)answer.length, (const char *)result);
}

/* The lines that were written, each behind a blank. */
static void print_lines(uint32_t number, size_t length)
{
    printf("%lu,", (unsigned long)number);
    for (size_t i = 0; i < length; i++) {
        if (i == 0 || output[i - 1] == '\n')
            putchar(' ');
        if (output[i] != '\n')
            putchar(output[i]);
    }
    putchar('\n');
}

static void print_list(struct bytes rules, uint32_t iso, uint32_t budget)
{
    struct rulefile_export_answer answer =
        rulefile_export(rules.start, rules.length, table, RULEFILE_TABLE_LENGTH, work, RULEFILE_WORK_LENGTH, iso,
                        budget, output, sizeof output);
    print_lines(answer.number, answer.length);
}

static void print_file(struct bytes rules, uint32_t from, uint32_t to, struct bytes list)
{
    struct rulefile_import_answer answer =
        rulefile_import(rules.start, rules.length, table, RULEFILE_TABLE_LENGTH, work, RULEFILE_WORK_LENGTH, from,
                        to, list.start, list.length, output, sizeof output);
    print_lines(answer.number, answer.length);
}

/* Reads a number that a blank or the line feed follows, and steps behind both; `more` where it is a blank. */
static bool read_last(char **at, uint32_t *number, bool *more)
{
    char end = (*at)[strcspn(*at, " \n")];
    *more = end == ' ';
    return read_number(at, end, number);
}

/* The words up to the line feed as lines, blanks become line feeds; steps behind them. */
static struct bytes read_lines(char **at)
{
    struct bytes lines = {(const uint8_t *)*at, 0};
    for (; **at != '\n'; ++*at) {
        if (**at == ' ')
            **at = '\n';
    }
    ++*at;
    lines.length = (size_t)((const uint8_t *)*at - lines.start);
    return lines;
}

/* Reads the second T line and the list behind it, and steps behind both. */
static bool read_list(char **at, uint32_t *to, struct bytes *list)
{
    bool more;
    if (!read_last(at, to, &more))
        return false;
    if (more)
        *list = read_lines(at);
    return true;
}

/* Reads the units of a play, up to the script or the end of the line; `more` where there is a script. */
static bool read_units(char **at, size_t *count, bool *more)
{
    for (*count = 0; *more && **at != 'S'; ++*count) {
        if (*count == RULEFILE_MAX_UNITS || !read_number(at, ',', &types[*count]) ||
            !read_last(at, &settings[*count], more))
            return false;
    }
    return true;
}

/* Reads what is behind `U,`, plays it, and steps behind it. */
static bool answer_play(struct bytes rules, char **at)
{
    uint32_t budget;
    bool more;
    size_t count;
    if (!read_last(at, &budget, &more) || !read_units(at, &count, &more))
        return false;
    struct bytes script = {NULL, 0};
    if (more)
        script = read_lines(at);
    struct rulefile_tally tally = {0, 0, 0};
    struct rulefile_play_answer answer =
        rulefile_play(rules.start, rules.length, table, RULEFILE_TABLE_LENGTH, work, RULEFILE_WORK_LENGTH, types,
                      count, settings, count, script.start, script.length, budget, &tally);
    printf("%lu,%lu,%lu,%lu", (unsigned long)answer.number, (unsigned long)tally.done, (unsigned long)tally.skipped,
           (unsigned long)tally.spent);
    for (size_t i = 0; i < count; i++)
        printf(" %lu,%lu", (unsigned long)types[i], (unsigned long)settings[i]);
    putchar('\n');
    return true;
}

/* Answers the call that stands there, and steps behind it. */
static bool answer_call(struct bytes rules, char **at)
{
    char letter = **at;
    uint32_t first;
    uint32_t second;
    struct bytes list = {NULL, 0};
    if (!is_call(letter) || (*at)[1] != ',')
        return false;
    *at += 2;
    if (letter == 'U')
        return answer_play(rules, at);
    if (!read_number(at, ',', &first))
        return false;
    if (letter == 'N') {
        print_number(rules, first, at);
        return true;
    }
    if (letter == 'M' ? !read_list(at, &second, &list) : !read_number(at, '\n', &second))
        return false;
    if (letter == 'S')
        print_letters(rules, first, second);
    else if (letter == 'E')
        print_list(rules, first, second);
    else
        print_file(rules, first, second, list);
    return true;
}

int main(int argc, char **argv)
{
    if (argc != 2) {
        fprintf(stderr, "usage: settings FILE\n");
        return 2;
    }
    if (!read_text(argv[1])) {
        fprintf(stderr, "settings: cannot read %s\n", argv[1]);
        return 2;
    }
    char *at = first_call();
    struct bytes rules = {(const uint8_t *)text, (size_t)(at - text)};
    bool accepted = check(rules);
    bool calls = true;
    while (accepted && calls && *at != '\0')
        calls = answer_call(rules, &at);
    if (!calls)
        fprintf(stderr, "settings: %s has a line that is no call\n", argv[1]);
    if (!calls || fflush(stdout) != 0 || ferror(stdout) != 0)
        return 2;
    return accepted ? 0 : 1;
}
