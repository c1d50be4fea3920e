/* The readings of a word over a finite transducer, one at a time: one for each accepting path and none left out,
 * so that an output of two paths comes twice.
 *
 * Nothing is allocated and nothing is kept between calls: the caller owns every buffer, lends it for one call, and may lend another
 * one with the same contents to the next. Every function is proved to answer and to leave what the definitions in crates/ say, for
 * any contents of what it is lent; a table that breaks a rule, and a run or stack that is no place in a search, is refused.
 *
 * Pointers. A pointer must not be null, even where its length is 0 (what malloc(0) gives may be), and must be aligned for its type.
 * Lengths count elements. Two buffers of one call must not overlap where one of them is written (those without const). All cells must be
 * readable, and those without const must be the caller's to write for the time of the call.
 *
 * Threads. A call works on what it is lent and on nothing else, so calls may run on several threads at the same time. They may share
 * what is const, such as a table; what a call writes must be lent to no other call until it returns. A thread's stack of 64 KiB is
 * enough for every call.
 *
 * Cells that are not told are untouched: a destination beyond the length told, the stack beyond what the steps use, the output beyond
 * the letters told, and with a refusal everything that is lent, but for what steps before the refused one have done to run and stack.
 */
#ifndef READINGS_H
#define READINGS_H

#include <stddef.h>
#include <stdint.h>

/* The version of this interface, as text and as 10,000 x major + 100 x minor + patch. */
#define RD_VERSION "0.5.0"
#define RD_VERSION_NUMBER 500

/* Limits. */
#define RD_MOST_STATES 256   /* states of a table */
#define RD_MOST_ARCS 1024    /* arcs of a table */
#define RD_MOST_LETTER 63    /* the highest letter; the lowest is 1 */
#define RD_MOST_WORD 64      /* letters of a word */
#define RD_MOST_FRAMES 33024 /* frames of a stack that are ever used */
#define RD_MOST_CLASSES 8    /* classes of a table, numbered from 0 */
#define RD_CLASS_LETTERS 16  /* letters of a class, and cells of its row in a table */
#define RD_FIRST_CLASS 64    /* what stands on an arc for class 0; class k is k more */
#define RD_CLASSES_AT 4      /* where the classes begin in a table's cells: behind its counts */
#define RD_INITIALS_AT 132   /* where the initial states begin: behind the classes */
#define RD_ARC_CELLS 5       /* cells of an arc: source, upper letter, lower letter, target, penalty */
#define RD_MOST_PENALTY 255  /* the highest penalty of an arc; the lowest is 0 */
#define RD_TABLE_CELLS 5764  /* cells that hold every table */
#define RD_TEXT_BYTES 21314  /* bytes that hold the text of every table */
#define RD_FRAME_CELLS 5     /* cells of a frame: state, next arc, letters passed on the upper and on the lower side, sum of penalties */
#define RD_MOST_CEILING 100000 /* the highest ceiling of a run, and a session's */
#define RD_CYCLE_STATES 256  /* states of the longest cycle that is told */

/* Limits of a word list. */
#define RD_MOST_LISTED_LETTER 62 /* the highest letter of a listed word; the lowest is 1 */
#define RD_CUT 63                /* the letter that a reading has between two words */
#define RD_TREE_CELLS 2938       /* cells that hold the table of every list */

/* Limits of an answer sheet. */
#define RD_FACES 63             /* faces: characters for letters 1 to 63 */
#define RD_MOST_READINGS 1000   /* readings of a sheet */
#define RD_MOST_READING 65535   /* letters of a reading */
#define RD_SHEET_LINE 73        /* bytes of a line, with its line feed */
#define RD_ROW_LETTERS 66       /* letters that stand on a line */
#define RD_SHEET_BYTES 72489146 /* bytes that hold every sheet: some 70 MiB, too many for a stack */

/* What is enough for a search over a table of so many states, begun by rd_start: frames of the stack, their cells, letters of the
 * output. The letters to read are those of every word that the task reads, together. A path that the words allow has fewer arcs than
 * these frames, and an arc writes one letter at most, in recognition none. */
#define RD_STACK_FRAMES(letters, states) (((letters) + 1) * (states))
#define RD_STACK_CELLS(letters, states) (RD_FRAME_CELLS * RD_STACK_FRAMES(letters, states))
#define RD_OUTPUT_LETTERS(letters, states) (RD_STACK_FRAMES(letters, states) - 1)

/* What a sheet has: lines of a reading of so many letters (which is evaluated twice), and bytes of a sheet whose readings have so many
 * lines together. */
#define RD_READING_LINES(letters) ((letters) == 0 ? 1 : ((letters) + RD_ROW_LETTERS - 1) / RD_ROW_LETTERS)
#define RD_SHEET_SIZE(lines) (RD_SHEET_LINE * ((lines) + 2))

/* A word of length 0, for the side that a task does not read, and a list of no words or no readings: a pointer that is not null. */
#ifdef __cplusplus
#define RD_NO_LETTERS (reinterpret_cast<const uint8_t *>(""))
#else
#define RD_NO_LETTERS ((const uint8_t *)"")
#endif

#ifdef __cplusplus
extern "C" {
#endif

/* The kinds of an answer. */
enum rd_kind {
    RD_DONE = 0,   /* rd_table_read, rd_words_read, rd_table_write, rd_start, rd_sheet_write: it was done */
    RD_FOUND = 1,  /* rd_next: a reading stands at the front of the output */
    RD_PAUSED = 2, /* rd_next: the allowance is used; call again to go on */
    RD_ENDED = 3,  /* rd_next: there are no more readings */
    RD_REFUSED = 4 /* refused, see number */
};

/* What a search is to do. The word on a side that the task does not read is empty. */
enum rd_task {
    RD_RECOGNITION = 1, /* reads the upper and the lower word; a reading is empty, and one is found for each path */
    RD_SYNTHESIS = 2,   /* reads the upper word; a reading is a lower word */
    RD_ANALYSIS = 3     /* reads the lower word; a reading is an upper word */
};

/* Why a call is refused. In what order: a text: its first bad line, in it the lowest number, where 34 is looked for right after 5, then
 * 24; a word list: the first word that has 30, 31 or 32, of it the lowest number, then 24; rd_table_write: 20, 24; rd_start: 20, 11, 10,
 * 39, 12; rd_next: 20, 11, 10, 39, 21, then in a step 22, 23; rd_sheet_write: 33, 24. */
enum rd_refusal {
    RD_REFUSAL_MALFORMED = 1,          /* a line is empty, has an odd count of digits, another character than 0-9, A-F,
                                          or lacks its line feed */
    RD_REFUSAL_MISPLACED = 2,          /* a line has the wrong kind for its place or the wrong length, the penalty of a 07 line
                                          is 0, text stands after the end, or a line is missing */
    RD_REFUSAL_COUNT_LIMIT = 3,        /* a header count is outside its limit: 1 to 256 states, 1 to states initial ones,
                                          0 to states terminal ones, 0 to 1,024 arcs */
    RD_REFUSAL_STATE_NUMBER = 4,       /* a state number is not below the count of states */
    RD_REFUSAL_LETTER_LIMIT = 5,       /* an arc letter is over 71 */
    RD_REFUSAL_STATE_ORDER = 6,        /* an initial state is repeated, or terminal states do not rise */
    RD_REFUSAL_SOURCE_ORDER = 7,       /* an arc's source is below the one before */
    RD_REFUSAL_ARC_REPEATED = 8,       /* an arc equals an earlier one, whatever their penalties */
    RD_REFUSAL_LINE_COUNT = 9,         /* the end line's number is not the count of lines before it */
    RD_REFUSAL_WORD_FAULT = 10,        /* a word has more than 64 letters, or a letter 0 or over 63 */
    RD_REFUSAL_TASK_FAULT = 11,        /* unknown task, or a word of one or more letters on a side that the task does not read */
    RD_REFUSAL_IDLE_CYCLE = 12,        /* from an initial state arcs lead to a cycle of arcs that read nothing for the task:
                                          a search could be endless */
    RD_REFUSAL_LOADED_TABLE = 20,      /* the loaded table breaks a rule (3 to 8, 34), has a penalty over 255, or is cut short */
    RD_REFUSAL_PLACE = 21,             /* the run or its used frames are not a place in a search */
    RD_REFUSAL_STACK_FULL = 22,        /* the stack is full; rd_next says how to go on */
    RD_REFUSAL_OUTPUT_FULL = 23,       /* the output is too short for the reading; rd_next says how to go on */
    RD_REFUSAL_DESTINATION_SHORT = 24, /* a destination is too short for what is to be written to it */
    RD_REFUSAL_LISTED_WORD = 30,       /* a listed word has no letter or over 64, has a letter 0 or over 62, or is cut short */
    RD_REFUSAL_WORD_ORDER = 31,        /* a listed word is not after the one before it in dictionary order */
    RD_REFUSAL_STATE_LIMIT = 32,       /* with this word the list's table has over 256 states */
    RD_REFUSAL_SHEET_FAULT = 33,       /* two faces are equal or one is not 33 to 126; or there are over 1,000 readings, one is
                                          cut short, or one has a letter 0 or over 63 */
    RD_REFUSAL_CLASS_FAULT = 34,       /* classes are over 7 or do not rise, a class has a letter 0 or over 63 or letters that do
                                          not rise, or an arc's class is not defined or not the same on both sides */
    RD_REFUSAL_CEILING_LIMIT = 39      /* a run's ceiling is over 100,000 */
};

/* What a call answers. A field that has no meaning for an answer is 0. */
typedef struct {
    uint32_t kind;   /* an rd_kind */
    uint32_t number; /* an rd_refusal where it is refused */
    uint32_t steps;  /* rd_next: the steps made in this call, before a refusal too */
    uint32_t length; /* what is told: cells, bytes, states or letters, as each function says */
} rd_answer;

/* What a start answers. With refusal 12 the cells hold, from their front, the states of a cycle for which it is given, in walking order,
 * none twice, as many as answer.length tells, then zeros; else all are 0. The cycle begins with the lowest state on any such cycle and is a
 * shortest one through it; among those it is the one whose state numbers come first, compared one by one. The order in which the table
 * lists arcs and initial states plays no part. */
typedef struct {
    rd_answer answer;
    uint16_t cycle[RD_CYCLE_STATES];
} rd_started;

/* A search: its task, how many initial states are started, how many frames of the stack are in use, and its ceiling. The caller's record;
 * rd_start sets it and rd_next moves it on; task and ceiling stay. A copy of it, with a copy of the used frames, is a place to come back to. */
typedef struct {
    uint32_t task;
    uint32_t started;
    uint32_t depth;
    uint32_t ceiling;
} rd_run;

/* Reads a table's text of n bytes, whose lines README.md shows under "What goes in", into cells: the counts of states, initial states,
 * terminal states and arcs; from RD_CLASSES_AT on the classes 0 to 7, each a row of RD_CLASS_LETTERS cells, its letters and then zeros, so
 * that the row of a class that is not defined is zeros; from RD_INITIALS_AT on the initial states, then the terminal states; then
 * RD_ARC_CELLS cells an arc. length: cells of the table. Refusals: 1 to 9, 34, 24.
 *
 * An arc with RD_FIRST_CLASS + k on both sides is a class arc: it stands for one letter of class k, which has 1 to RD_CLASS_LETTERS
 * letters of 1 to RD_MOST_LETTER, rising. It fits where the next letter is in the class, in recognition where both words have the same
 * such letter next; in synthesis and analysis it writes the letter that it reads. It is never idle. Words have no classes, and readings
 * have letters only.
 *
 * An arc's last cell is its penalty, 0 to RD_MOST_PENALTY: how far-fetched the readings of its paths are. rd_start says what a run's
 * ceiling makes of it. */
rd_answer rd_table_read(const uint8_t *text, size_t n, uint16_t *table, size_t m);

/* Reads a list of words of n bytes into the cells of its letter tree's table, which are as rd_table_read has them. A word stands as its
 * length, one byte, and its letters: 1 to RD_MOST_WORD letters of 1 to RD_MOST_LISTED_LETTER. The words rise in dictionary order: they
 * are compared letter by letter, and a word is before those that go on from it.
 *
 * The table has one state for each beginning of a listed word, numbered in dictionary order. State 0, the root, is the empty beginning and
 * the initial state; listed words are terminal. An arc to a beginning that is one letter longer reads and writes that letter, and these
 * arcs rise by it; a terminal state has a last arc that reads nothing, writes RD_CUT and goes back to the root. A list of no bytes gives
 * the root alone.
 *
 * In RD_SYNTHESIS over this table, the readings of a word of one or more letters are all the ways to cut it into listed words, with
 * RD_CUT between two of them, each way once; where two ways part, the one with the longer word is first. A word of no letters has no
 * reading. RD_TREE_CELLS cells are enough for every list. length: cells of the table. Refusals: 30, 31, 32, 24. */
rd_answer rd_words_read(const uint8_t *words, size_t n, uint16_t *table, size_t m);

/* Writes the text of a loaded table of n cells; here and in the calls below, cells beyond the table's own are not looked at. length:
 * bytes of the text. Refusals: 20, 24. */
rd_answer rd_table_write(const uint16_t *table, size_t n, uint8_t *text, size_t m);

/* Begins a search. The task may be any number. A start that passes sets the run to the task, 0 started, depth 0 and the ceiling; one that is
 * refused leaves the run as it was. answer.length: states of the cycle, with 12. Refusals: 20, 11, 10, 39, 12.
 *
 * An arc that would lift the sum of the penalties on its path over the ceiling does not fit, so that the readings are those of the paths
 * whose penalties add up to the ceiling at most. A higher ceiling's readings are these and others, in the same order. RD_MOST_CEILING is the
 * highest. 12 is given whatever the penalties are. */
rd_started rd_start(const uint16_t *table, size_t n, uint32_t task, uint32_t ceiling, const uint8_t *upper, size_t u,
                    const uint8_t *lower, size_t l, rd_run *run);

/* Goes on with a search, for at most allowance steps, to the next reading. Table and words are those of the start; run and stack are as
 * the call before left them. The stack has s cells, RD_FRAME_CELLS a frame; a new stack may hold anything. length: letters of the
 * output, in recognition 0, so that o may be 0 there. Refusals: 20, 11, 10, 39, 21, 22, 23; steps made before a refused one stand,
 * and no reading is lost by it.
 *
 * After 22 the same run goes on with a longer stack that begins with the same used frames, the first run->depth ones. A stack of
 * RD_STACK_FRAMES(letters to read, states) frames never gets 22.
 *
 * After 23 the same run goes on with a longer output. The path that was to be told has run->depth arcs, so run->depth letters are enough
 * for it; an output of RD_OUTPUT_LETTERS(letters to read, states) letters never gets 23. */
rd_answer rd_next(const uint16_t *table, size_t n, const uint8_t *upper, size_t u, const uint8_t *lower, size_t l, rd_run *run,
                  uint32_t *stack, size_t s, uint32_t allowance, uint8_t *output, size_t o);

/* Writes an answer sheet: a list of readings on lines of 72 characters and a line feed. The readings are n bytes, one after another,
 * each as its length (two bytes, high first) and its letters. The faces are RD_FACES characters in ASCII, 33 to 126, no two equal: the
 * first shows letter 1, the last letter 63. ended is 0 where the run of these readings may go on, any other number where it has ended.
 *
 * The first line is READINGS. Then each reading has its ordinal, 1 to 1,000, right-aligned in 5 columns, a blank, and its first
 * RD_ROW_LETTERS letters; those that are left go on in lines that begin with 6 blanks. The last line is MORE where ended is 0, else
 * END. All lines are filled up with blanks. Two sheets over the same faces are equal only if their lists and their last words are.
 *
 * A reading takes RD_READING_LINES(letters) lines, also one of no letters. RD_SHEET_SIZE(lines of all readings) bytes are what the
 * sheet has, with no zero byte after them; RD_SHEET_BYTES are enough for every sheet. length: bytes of the sheet. Refusals: 33, 24. */
rd_answer rd_sheet_write(const uint8_t *readings, size_t n, const uint8_t *faces, uint32_t ended, uint8_t *sheet, size_t m);

/* Use, with a text of n bytes and an upper word of u letters (examples/list.c is this as a program):
 *
 *     static uint16_t table[RD_TABLE_CELLS];
 *     static uint32_t stack[RD_STACK_CELLS(RD_MOST_WORD, RD_MOST_STATES)];
 *     static uint8_t output[RD_OUTPUT_LETTERS(RD_MOST_WORD, RD_MOST_STATES)];
 *     rd_run run;
 *     rd_answer t = rd_table_read(text, n, table, RD_TABLE_CELLS);
 *     if (t.kind == RD_REFUSED) return t.number;
 *     rd_answer a = rd_start(table, t.length, RD_SYNTHESIS, RD_MOST_CEILING, upper, u, RD_NO_LETTERS, 0, &run).answer;
 *     if (a.kind == RD_REFUSED) return a.number;
 *     do {
 *         a = rd_next(table, t.length, upper, u, RD_NO_LETTERS, 0, &run, stack, sizeof stack / sizeof *stack, 1000, output,
 *                     sizeof output);
 *         if (a.kind == RD_REFUSED) return a.number;
 *         if (a.kind == RD_FOUND) show(output, a.length);
 *     } while (a.kind != RD_ENDED);
 *
 * The same with the table of a word list of n bytes, where the readings are the cuts of the word (examples/cuts.c is this as a program):
 *
 *     rd_answer t = rd_words_read(words, n, table, RD_TABLE_CELLS);
 *
 * A sheet of the readings found, where a list of n bytes has them and a is the last answer (examples/sheet.c is this as a program):
 *
 *     rd_answer s = rd_sheet_write(list, n, faces, a.kind == RD_ENDED, sheet, sizeof sheet);
 *     if (s.kind == RD_REFUSED) return s.number;
 *     fwrite(sheet, 1, s.length, stdout);
 */

#ifdef __cplusplus
}
#endif

#endif
