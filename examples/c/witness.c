/*
 * witness FILE
 *
 * A setting that shows the fault. FILE is a rule file as `rules` reads it: a line that begins with Q ends
 * it. Prints `number,line,letters`: the verdict and, for 11 to 14, the setting.
 *
 * Exit status: 0 accepted, 1 refused, 2 the argument or FILE cannot be read.
 */
#include "rulefile.h"

#include <stdio.h>
#include <string.h>

static uint16_t table[RULEFILE_TABLE_LENGTH];
static uint8_t work[RULEFILE_WORK_LENGTH];
static uint8_t text[2 * RULEFILE_MAX_FILE_LENGTH];

/* Reads a file; one that does not fit is cut, and too long for the library all the same. */
static bool read_text(const char *path, size_t *length)
{
    FILE *stream = fopen(path, "rb");
    if (stream == NULL)
        return false;
    *length = fread(text, 1, sizeof text, stream);
    bool read = ferror(stream) == 0;
    return fclose(stream) == 0 && read;
}

/* The length up to the first line that begins with Q. */
static size_t rules_length(size_t length)
{
    size_t at = 0;
    while (at < length && text[at] != 'Q') {
        const uint8_t *end = memchr(text + at, '\n', length - at);
        at = end == NULL ? length : (size_t)(end - text) + 1;
    }
    return at;
}

int main(int argc, char **argv)
{
    size_t length = 0;
    if (argc != 2) {
        fprintf(stderr, "usage: witness FILE\n");
        return 2;
    }
    if (!read_text(argv[1], &length)) {
        fprintf(stderr, "witness: cannot read %s\n", argv[1]);
        return 2;
    }
    uint8_t result[RULEFILE_RESULT_LENGTH];
    struct rulefile_witness_answer answer =
        rulefile_witness(text, rules_length(length), table, RULEFILE_TABLE_LENGTH, work, RULEFILE_WORK_LENGTH, result,
                         sizeof result);
    printf("%lu,%zu,%.*s\n", (unsigned long)answer.number, answer.line, (int)answer.length, (const char *)result);
    if (fflush(stdout) != 0)
        return 2;
    return answer.number == RULEFILE_ACCEPTED ? 0 : 1;
}
