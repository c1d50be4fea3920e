/* The answer sheet of Staubecken: how the word can be cut into becken, ecken, stau, staub, stube, tube, wach and wachs.
 *
 * From the repository's root:
 *
 *     scripts/library.sh
 *     gcc -Iinclude examples/sheet.c target/staticlib/libcapi.a -o target/sheet && target/sheet
 *
 * It prints what examples/sheet.out holds.
 */
#include "readings.h"

#include <stdio.h>

/* The list in dictionary order, each word as its length and its letters: a is 1, z is 26. */
static const uint8_t words[] = {
    6, 2,  5,  3,  11, 5, 14, /* becken */
    5, 5,  3,  11, 5,  14,    /* ecken */
    4, 19, 20, 1,  21,        /* stau */
    5, 19, 20, 1,  21, 2,     /* staub */
    5, 19, 20, 21, 2,  5,     /* stube */
    4, 20, 21, 2,  5,         /* tube */
    4, 23, 1,  3,  8,         /* wach */
    5, 23, 1,  3,  8,  19,    /* wachs */
};

/* Letters 1 to 26 are shown as a to z, 63 as a bar; the others are not used here. */
static const char faces[] = "abcdefghijklmnopqrstuvwxyzABCDEFGHIJKLMNOPQRSTUVWXYZ0123456789|";

/* States of the words' table, letters of the word and of a reading. */
enum { STATES = 29, LETTERS = 10, LONGEST = RD_OUTPUT_LETTERS(LETTERS, STATES) };

static const uint8_t upper[LETTERS] = {19, 20, 1, 21, 2, 5, 3, 11, 5, 14}; /* staubecken */

static uint16_t table[RD_TREE_CELLS];
static uint32_t stack[RD_STACK_CELLS(LETTERS, STATES)];

/* Room for every list of 1,000 readings, and for its sheet. */
static uint8_t list[RD_MOST_READINGS * (2 + LONGEST)];
static uint8_t sheet[RD_SHEET_SIZE(RD_MOST_READINGS * RD_READING_LINES(LONGEST))];

static int refused(const char *call, rd_answer answer) {
    fprintf(stderr, "%s: refusal %u\n", call, (unsigned)answer.number);
    return 1;
}

/* Lists readings until the end or 1,000 of them, each as its length (two bytes, high first) and its letters. Tells the last answer, and
 * in n the bytes of the list. */
static rd_answer listed(size_t cells, rd_run *run, size_t *n) {
    rd_answer answer;
    unsigned readings = 0;
    *n = 0;
    do {
        uint8_t *front = list + *n;
        answer = rd_next(table, cells, upper, LETTERS, RD_NO_LETTERS, 0, run, stack, sizeof stack / sizeof *stack, 1000, front + 2,
                         LONGEST);
        if (answer.kind == RD_FOUND) {
            front[0] = (uint8_t)(answer.length >> 8);
            front[1] = (uint8_t)answer.length;
            *n += 2 + answer.length;
            readings++;
        }
    } while (answer.kind != RD_ENDED && answer.kind != RD_REFUSED && readings < RD_MOST_READINGS);
    return answer;
}

int main(void) {
    rd_run run;
    size_t n;

    rd_answer read = rd_words_read(words, sizeof words, table, RD_TREE_CELLS);
    if (read.kind == RD_REFUSED) return refused("rd_words_read", read);

    rd_answer start = rd_start(table, read.length, RD_SYNTHESIS, RD_MOST_CEILING, upper, LETTERS, RD_NO_LETTERS, 0, &run).answer;
    if (start.kind == RD_REFUSED) return refused("rd_start", start);

    rd_answer last = listed(read.length, &run, &n);
    if (last.kind == RD_REFUSED) return refused("rd_next", last);

    rd_answer written = rd_sheet_write(list, n, (const uint8_t *)faces, last.kind == RD_ENDED, sheet, sizeof sheet);
    if (written.kind == RD_REFUSED) return refused("rd_sheet_write", written);
    return fwrite(sheet, 1, written.length, stdout) == written.length ? 0 : 1;
}
