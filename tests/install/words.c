/* The version and the words of the installed library, and one file checked: prints them for the test to compare. */
#include <rulefile.h>
#include <stdio.h>
#include <string.h>

static uint16_t table[RULEFILE_TABLE_LENGTH];
static uint8_t work[RULEFILE_WORK_LENGTH];

int main(void)
{
    static const char file[] = "T,0,0,0\nT,1,0,1\n";
    struct rulefile_check_answer answer =
        rulefile_check((const uint8_t *)file, sizeof file - 1, table, RULEFILE_TABLE_LENGTH, work, RULEFILE_WORK_LENGTH);
    printf("%s %s\n", RULEFILE_VERSION, rulefile_version());
    printf("%u,%zu %s\n", (unsigned)answer.number, answer.line, rulefile_word(answer.number));
    for (uint32_t number = 0; strcmp(rulefile_word(number), "unknown") != 0; number++)
        printf("%u %s\n", (unsigned)number, rulefile_word(number));
    printf("%s\n", rulefile_word(UINT32_MAX));
    return 0;
}
