/*
 * rulefile.h - Check, Turn, Run, whole sheets of queries, settings as numbers, the overlap of two patterns,
 * steps known beforehand, pair lists, settings that show a fault and units tried out for rule files.
 *
 * `bin/install PREFIX` puts librulefile.a, librulefile.so and this header in place, with a file for pkg-config;
 * `rt lib`, in crates/rulefile, writes out/librulefile.a there alone. The platform is x86-64 Linux. The library
 * needs memcpy, memmove and memset of the C library and nothing else; it allocates nothing, keeps nothing between calls and
 * may be called from several threads at once, each with areas of its own.
 *
 * Every function takes any bytes, any numbers and areas of any length, and always returns: with number
 * 0, or with the number of a refusal. What the caller owes:
 *   - each pointer leads to as many elements as the length behind it says, readable, and writable where
 *     it is not const; with length 0 any pointer will do, NULL too;
 *   - the table is aligned to 2 bytes, the numbers of a sheet and the units and the tally of a play to 4;
 *   - a writable area overlaps no other area of the call;
 *   - nothing else writes to the areas before the call returns.
 *
 * The areas need not be cleared. After a call
 *   - the first RULEFILE_TABLE_LENGTH numbers of the table hold, if the file was accepted, five numbers a line,
 *     and zeros behind the last one: the letter's ASCII code; the fields, padded with 0 to three; the size, which
 *     is the number of nodes of the tree that a T or P line unfolds to, and 0 for other letters. So they do where
 *     the call is refused for something else than the file: with 15 to 20, 22 or 24, or an import with 7 at line 0.
 *     If the file was refused, with 3 to 14, 21 or 23, they are all 0, and so they are where rulefile_witness answers 24;
 *   - the first RULEFILE_WORK_LENGTH bytes of the work area are 0;
 *   - refusals 1 and 2 leave every area as it was;
 *   - any refusal of the call leaves output, result, the numbers and letters of a sheet, and the units and the
 *     tally of a play as they were, but for the result of rulefile_witness, which is written on refusals 11 to 14;
 *   - whatever lies behind these lengths, and behind what was written, keeps its contents.
 *
 * A line of a file, of a list or of a script ends with a line feed, or with a carriage return and a line feed;
 * lengths count both bytes. What Turn, an export and an import write ends with line feeds alone.
 *
 * A call needs at most 73,728 bytes of stack. Measured by painting it, over the deepest files (32 nested isos, 40 nested
 * calls, 128 clauses, types and patterns of 127 nodes with a variable innermost, lists within lists): an import 71 KB, an
 * export 70 KB, rulefile_play 64 KB, rulefile_sheet and rulefile_run 62 KB, rulefile_bounds 55 KB, a witness 50 KB,
 * settings as numbers 49 KB, Check, Turn and an overlap 47 KB (1,000 bytes each).
 *
 * docs/REFUSALS.md says what each refusal means and what to ask the supplier.
 */
#ifndef RULEFILE_H
#define RULEFILE_H

#include <stdbool.h>
#include <stddef.h>
#include <stdint.h>

#ifdef __cplusplus
extern "C" {
#endif

/* The version of this header; rulefile_version() gives that of the library. */
#define RULEFILE_VERSION "0.3.0"

/* Lengths of the areas: at least so many elements, otherwise refusal 1. */
#define RULEFILE_TABLE_LENGTH 20480 /* numbers of 16 bits, five for each of 4,096 lines */
#define RULEFILE_WORK_LENGTH 65536  /* bytes */
#define RULEFILE_RESULT_LENGTH 127  /* bytes: no result has more letters */
#define RULEFILE_LIST_LENGTH 40960  /* bytes: no list that is exported is longer */

/* For each query of a sheet: so many numbers of 32 bits, and RULEFILE_RESULT_LENGTH bytes of letters. */
#define RULEFILE_NUMBERS_A_QUERY 3

/* A sheet of more queries is refused with 2. */
#define RULEFILE_MAX_QUERIES 600

/* The most units of a play: more are refused with 2. */
#define RULEFILE_MAX_UNITS 1000

/* A longer file is refused with 2. An output area of this length is long enough for every file,
   and an import needs it. */
#define RULEFILE_MAX_FILE_LENGTH 65536
#define RULEFILE_MAX_LINES 4096

/* The numbers of an answer. The line is counted over the whole file from 1; where an answer has none,
   rulefile_check names the line of a refused file. */
enum rulefile_number {
    RULEFILE_ACCEPTED = 0,       /* no refusal; line 0 */
    RULEFILE_SHORT_AREA = 1,     /* a lent area is shorter than stated; line 0 */
    RULEFILE_TOO_LONG = 2,       /* over 65,536 bytes or 4,096 lines; line 0 */
    RULEFILE_BAD_LINE = 3,       /* not one of the five line forms, or no line feed at the end */
    RULEFILE_MISPLACED = 4,      /* a line against the stated order */
    RULEFILE_BAD_FIELD = 5,      /* kind not listed, idle field not 0, variable above 31 */
    RULEFILE_BAD_NAME = 6,       /* a named line does not stand earlier; an L line may name its own iso */
    RULEFILE_CEILING = 7,        /* any other ceiling passed, such as 128 C lines of an iso */
    RULEFILE_VARIABLE = 8,       /* a variable bound while live, used while not, or live at the end; line of the C */
    RULEFILE_LET_SHAPE = 9,      /* left, right, empty or element in a let pattern; line of the C */
    RULEFILE_TYPE = 10,          /* no assignment of types fits; line of the C */
    RULEFILE_OVERLAP_LEFT = 11,  /* two left patterns match one value; line of the I */
    RULEFILE_OVERLAP_RIGHT = 12, /* the same, right patterns; line of the I */
    RULEFILE_GAP_LEFT = 13,      /* the left patterns leave a value out; line of the I */
    RULEFILE_GAP_RIGHT = 14,     /* the same, right patterns; line of the I */
    RULEFILE_NO_ISO = 15,        /* iso number, or number of a T or P line, not in the file; line 0 */
    RULEFILE_NO_VALUE = 16,      /* not exactly one closed value of the starting type or T line; line 0 */
    RULEFILE_SPENT = 17,         /* the full count would pass the budget; line 0 */
    RULEFILE_TOO_MANY = 18,      /* over 4,294,967,295 values, of a pair list 4,096, or a list in a type; line 0 */
    RULEFILE_TOO_HIGH = 19,      /* the setting's number is not below the T line's count of values; line 0 */
    RULEFILE_BAD_LIST = 20,      /* the list's lines are not 0,to 1,to and so on, each to once; line 0 */
    RULEFILE_IDLE_LINE = 21,     /* a T or P line that no I, C or L line reaches; the first such line */
    RULEFILE_BAD_SCRIPT = 22,    /* a line of the script is no visit, or names an absent unit or iso; line 0 */
    RULEFILE_RECURSION = 23,     /* an iso calls itself against the rule; line of the I or of a C */
    RULEFILE_TOO_LARGE = 24      /* an argument or result of over 127 letters, or calls over 40 deep; line 0 */
};

/* What Check gives. */
struct rulefile_check_answer {
    uint32_t number; /* enum rulefile_number */
    size_t line;     /* the line refused, 0 where none is named */
};

/* What Turn gives. */
struct rulefile_turn_answer {
    uint32_t number; /* enum rulefile_number */
    size_t line;     /* the line refused, 0 where none is named */
    size_t length;   /* bytes written to output, 0 on refusal */
};

/* What Run gives. */
struct rulefile_run_answer {
    uint32_t number; /* enum rulefile_number */
    uint32_t count;  /* iso applications made, 0 on refusal */
    size_t length;   /* letters written to result, 0 on refusal */
};

/* What a sheet gives. */
struct rulefile_sheet_answer {
    uint32_t number; /* enum rulefile_number */
    size_t line;     /* the file's line refused, 0 where none is named */
    size_t queries;  /* queries answered, 0 on refusal */
};

/* What the letters of a setting give. */
struct rulefile_number_answer {
    uint32_t number;  /* enum rulefile_number */
    uint32_t setting; /* the setting's number, 0 on refusal */
};

/* What the number of a setting gives. */
struct rulefile_setting_answer {
    uint32_t number; /* enum rulefile_number */
    size_t length;   /* letters written to result, 0 on refusal */
};

/* What two P lines give. */
struct rulefile_overlap_answer {
    uint32_t number; /* enum rulefile_number */
    size_t line;     /* the line refused, 0 where none is named */
    bool clash;      /* whether a left stands against a right, false on refusal */
    uint32_t pairs;  /* node pairs compared, the clash included, 0 on refusal */
};

/* What the bounds of an iso are. */
struct rulefile_bounds_answer {
    uint32_t number;    /* enum rulefile_number */
    uint32_t least;     /* no run counts less; 0 on refusal */
    uint32_t greatest;  /* no run counts more, unless flagged; 0 on refusal */
    bool least_over;    /* the least is above 4,294,967,295, which is then given; false on refusal */
    bool greatest_over; /* the same of the greatest */
};

/* What the witness of a fault is. */
struct rulefile_witness_answer {
    uint32_t number; /* enum rulefile_number, as rulefile_check gives it */
    size_t line;     /* the line refused, 0 where none is named */
    size_t length;   /* letters written to result: on refusals 11 to 14 at least 1, otherwise 0 */
};

/* What a play gives. */
struct rulefile_play_answer {
    uint32_t number; /* enum rulefile_number */
    size_t line;     /* the line of a refused file, 0 where none is named */
};

/* What became of the visits of a play. */
struct rulefile_tally {
    uint32_t done;    /* the unit holds what the run gave */
    uint32_t skipped; /* the unit has another type than the iso begins at */
    uint32_t spent;   /* the run would pass the budget */
};

/*
 * The version of the library, to be held against RULEFILE_VERSION; and the word of a number, as docs/REFUSALS.md has
 * it: `accepted` for 0, `unknown` for a number that no answer has. Both are texts that stay. They are in the library
 * that bin/install puts in place; the archive that `rt lib` writes has all functions but these two.
 */
const char *rulefile_version(void);
const char *rulefile_word(uint32_t number);

/* What an iso gives as a pair list. */
struct rulefile_export_answer {
    uint32_t number; /* enum rulefile_number */
    size_t line;     /* the file's line refused, 0 where none is named */
    size_t length;   /* bytes of the list written to output, 0 on refusal */
};

/* What a pair list gives as a file. */
struct rulefile_import_answer {
    uint32_t number; /* enum rulefile_number */
    size_t line;     /* the file's line refused, 0 where none is named */
    size_t length;   /* bytes of the new file written to output, 0 on refusal */
};

/* Checks a file. */
struct rulefile_check_answer rulefile_check(
    const uint8_t *file, size_t file_length,
    uint16_t *table, size_t table_length,
    uint8_t *work, size_t work_length);

/*
 * Checks a file and writes it turned: a file whose run forward is the run back of the first. The output
 * needs the file's length, and an accepted file turned is as long as it was without its carriage returns.
 */
struct rulefile_turn_answer rulefile_turn(
    const uint8_t *file, size_t file_length,
    uint16_t *table, size_t table_length,
    uint8_t *work, size_t work_length,
    uint8_t *output, size_t output_length);

/*
 * Checks a file and runs its iso number `iso` (the I lines are numbered from 0) on a value, written in
 * prefix order with the letters U, L, R, P, N and K, forward or back, with at most `budget` applications.
 * The refusals in their order: 1, 2, those of the file, 15 where it has no such iso, 16 where the letters are
 * not exactly one closed value of the starting type, then 17 or 24, whichever the run meets first: each
 * application is counted against the budget, then its argument (over 127 letters) and its depth (over 40, the
 * outermost being 1) are measured, and its result when it is there. A value of over 127 letters is read, and 24.
 */
struct rulefile_run_answer rulefile_run(
    const uint8_t *file, size_t file_length,
    uint16_t *table, size_t table_length,
    uint8_t *work, size_t work_length,
    uint32_t iso, bool back, uint32_t budget,
    const uint8_t *value, size_t value_length,
    uint8_t *result, size_t result_length);

/*
 * Checks a file once and answers a list of query lines, each `Q,iso,direction,budget,letters` and its
 * ending, as the desk program reads them; bytes behind the last line feed are a line too. Query k, counted
 * from 0, has numbers[3 * k] its number, numbers[3 * k + 1] its count and numbers[3 * k + 2] its length,
 * equal to those of a run on its own, and its letters stand from letters[127 * k] on. A line of another
 * form, or over 200 bytes with its ending, has number 3. A refused query leaves its 127 bytes as they
 * were, and so does every query those behind its own letters. An area too short for the queries is
 * refused with 1, more than RULEFILE_MAX_QUERIES queries with 2, both before the file is looked at; a
 * refused file refuses the call.
 */
struct rulefile_sheet_answer rulefile_sheet(
    const uint8_t *file, size_t file_length,
    uint16_t *table, size_t table_length,
    uint8_t *work, size_t work_length,
    const uint8_t *queries, size_t queries_length,
    uint32_t *numbers, size_t numbers_length,
    uint8_t *letters, size_t letters_length);

/*
 * Checks a file and gives the number of a setting, a value of its T line number `type` (the T lines are
 * numbered from 0). Unit is 0; left keeps its number; right adds the left type's count of values; a pair
 * is its first part's number times the second type's count of values, plus its second part's number. So
 * the settings of a T line have the numbers from 0 to one below its count of values, and these rise as
 * the letters do in byte order.
 *
 * The refusals in their order: 1, 2, those of the file, 15 where it has no such T line, 18 where that one
 * has over 4,294,967,295 values, 16 where the letters are not exactly one of them. No refusal names
 * a line. Table and work area are left as rulefile_check leaves them.
 */
struct rulefile_number_answer rulefile_number_of(
    const uint8_t *file, size_t file_length,
    uint16_t *table, size_t table_length,
    uint8_t *work, size_t work_length,
    uint32_t type,
    const uint8_t *value, size_t value_length);

/*
 * Checks a file and writes the letters of the value of its T line number `type` that has the number
 * `setting`: rulefile_number_of of these letters is that number again, and the other way round.
 *
 * The refusals in their order: 1, also where the result is shorter than RULEFILE_RESULT_LENGTH, 2, those of
 * the file, 15 where it has no such T line, 18 where that one has over 4,294,967,295 values, 19 where the
 * number is not below its count of values. No refusal names a line, and each leaves the result as it was.
 * Table and work area are left as rulefile_check leaves them.
 */
struct rulefile_setting_answer rulefile_setting_of(
    const uint8_t *file, size_t file_length,
    uint16_t *table, size_t table_length,
    uint8_t *work, size_t work_length,
    uint32_t type, uint32_t setting,
    uint8_t *result, size_t result_length);

/*
 * Checks a file and compares its P lines number `left` and `right` (the P lines are numbered from 0) as
 * Check compares the patterns of two clauses: node with node in prefix order, nothing below a variable,
 * up to the first left against a right. Every two nodes laid on each other count 1, that one included;
 * two of different shape that do not clash count 1, and what follows them is compared. So there are at
 * least 1 and at most 127 pairs, as many with the two lines exchanged.
 *
 * The refusals in their order: 1, 2, those of the file, which alone name a line, and 15 where it has no
 * such P line on either side. Table and work area are left as rulefile_check leaves them.
 */
struct rulefile_overlap_answer rulefile_overlap(
    const uint8_t *file, size_t file_length,
    uint16_t *table, size_t table_length,
    uint8_t *work, size_t work_length,
    uint32_t left, uint32_t right);

/*
 * Checks a file and bounds the count of any run of its iso number `iso`, there and back, without a run. A
 * clause needs 1 and what the isos of its let steps need; an iso takes the least and the greatest over its
 * clauses. No run that is not refused counts less than the least, nor more than a greatest that is not
 * flagged, and with a budget of at least that greatest no run is refused with 17. Refused as Check, then
 * with 15 where the file has no such iso, then with 18 where a type of the iso, or of one that it reaches through
 * L lines, holds a list.
 */
struct rulefile_bounds_answer rulefile_bounds(
    const uint8_t *file, size_t file_length,
    uint16_t *table, size_t table_length,
    uint8_t *work, size_t work_length,
    uint32_t iso);

/*
 * Checks a file and, where it is refused with 11 to 14, writes a setting that shows the fault: of the iso
 * refused, a value of its from-type (11, 13) or of its to-type (12, 14) that two or more of its clauses'
 * left or right patterns match (11, 12), or that none does (13, 14). Of these it is the one with the
 * fewest letters, and of several such the first in byte order.
 *
 * Number, line, table and work area are those of rulefile_check, but that a result shorter than
 * RULEFILE_RESULT_LENGTH is refused with 1 too, and that the answer is 24 with line 0 where Check refuses with 11
 * to 14 and the setting to give has over 127 letters. Bytes of the result behind the letters keep their
 * contents; with any other number the length is 0 and the whole result does.
 */
struct rulefile_witness_answer rulefile_witness(
    const uint8_t *file, size_t file_length,
    uint16_t *table, size_t table_length,
    uint8_t *work, size_t work_length,
    uint8_t *result, size_t result_length);

/*
 * Checks a file and writes its iso number `iso` as a pair list: a line `from,to` for each setting of the
 * from-type, the froms 0, 1, 2 and so on, each to the number of the setting that a run gives for it, as
 * rulefile_number_of numbers both. Each run has the budget for itself. The output needs
 * RULEFILE_LIST_LENGTH bytes.
 *
 * The refusals in their order: 1, 2, those of the file, which alone name a line, 15 where it has no such
 * iso, 18 where the from-type has over 4,096 values or a type of the iso, or of one that it reaches, holds a
 * list, 17 where some run passes the budget. Table and work
 * area are left as rulefile_check leaves them, and on refusal the output is as it was.
 */
struct rulefile_export_answer rulefile_export(
    const uint8_t *file, size_t file_length,
    uint16_t *table, size_t table_length,
    uint8_t *work, size_t work_length,
    uint32_t iso, uint32_t budget,
    uint8_t *output, size_t output_length);

/*
 * Checks a file and writes another one with a single iso, from its T line number `from` to its T line number
 * `to`, out of a pair list: for line `k,t` a clause that sends value k to value t, both without variables.
 * T lines for the from-type and then the to-type, P lines clause by clause, left before right; each tree
 * with the first part before the second, parts before wholes; no two lines of these are equal. The file is
 * accepted, each run of its iso counts 1, and rulefile_export with a budget of 1 or more gives the list
 * again, without its carriage returns. The output needs RULEFILE_MAX_FILE_LENGTH bytes.
 *
 * The refusals in their order: 1, 2, those of the file, which alone name a line, 15 where it lacks either
 * T line, 18 where either has over 4,096 values, 7 where the list has over 128 lines (bytes behind the last
 * line feed are a line too), 20 where a line is not two numbers, a comma between and its ending behind them,
 * the froms are not 0, 1, 2 and so on up to the counts of both types, or a to is repeated or not below the
 * count, and 7 where the written file would have over 1,024 P lines, or a value of over 40 left and right
 * nodes. Table and work area are left as rulefile_check leaves them, so with these two 7 the table holds the
 * file's lines; on refusal the output is as it was.
 */
struct rulefile_import_answer rulefile_import(
    const uint8_t *file, size_t file_length,
    uint16_t *table, size_t table_length,
    uint8_t *work, size_t work_length,
    uint32_t from, uint32_t to,
    const uint8_t *list, size_t list_length,
    uint8_t *output, size_t output_length);

/*
 * Checks a file and plays a script of visits on units, which are numbered from 0. Unit k holds T line types[k]
 * and the value of it that has the number settings[k], as rulefile_number_of numbers it. A line
 * `S,unit,iso,direction` of the script is a visit: it sends the unit's setting through the iso, forward (0) or
 * back (1), with the budget for itself. Where the type that the iso begins at is another tree than the unit's,
 * the visit is skipped; where the run would pass the budget, it is spent; both leave the unit as it was. Any
 * other visit is done: the unit then holds the T line that the I line names at the other end, and the number of
 * the setting that the run gives. The tally then says how many visits were done, skipped and spent in this play,
 * whatever it held before. If none was skipped or spent, playing the script last line first with directions
 * exchanged, under the same budget, restores each unit's type tree and number.
 *
 * At most RULEFILE_MAX_UNITS units and 4,096 lines (bytes behind the last line feed are a line too); both areas
 * of units have the same length, and the tally must not be NULL. The refusals in their order: 1, also where
 * these lengths differ; 2, also for more units or lines; those of the file, which alone name a line; of the units
 * in order 15 where the T line is absent, 18 where it has over 4,294,967,295 values, as each type has that holds a
 * list, 19 where the number is not below its count of values; of the lines of the script in order 22 where it is of
 * another form, has no line feed, or names an absent unit or iso, and 18 where a type of its iso, or of one that it
 * reaches, holds a list. All this is tested before the first visit, so a refusal leaves units and tally as they were. Table
 * and work area are left as rulefile_check leaves them.
 */
struct rulefile_play_answer rulefile_play(
    const uint8_t *file, size_t file_length,
    uint16_t *table, size_t table_length,
    uint8_t *work, size_t work_length,
    uint32_t *types, size_t types_length,
    uint32_t *settings, size_t settings_length,
    const uint8_t *script, size_t script_length,
    uint32_t budget,
    struct rulefile_tally *tally);

#ifdef __cplusplus
}
#endif

#endif
