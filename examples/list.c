/* The readings of the upper word 01 02 over table K, printed one a line: 01 02, then 01 03 02.
 *
 * From the repository's root:
 *
 *     scripts/library.sh
 *     gcc -Iinclude examples/list.c target/staticlib/libcapi.a -o target/list && target/list
 */
#include "readings.h"

#include <stdio.h>

static const char text[] = "010003000100020005\n" /* 3 states, 1 initial, 2 terminal, 5 arcs */
                           "020000\n"             /* state 0 is initial */
                           "030001\n"             /* states 1 and 2 are terminal */
                           "030002\n"
                           "04000001010001\n" /* from 0: read 01, write 01, go to 1 */
                           "04000002020002\n"
                           "04000102020002\n"
                           "04000100030000\n" /* from 1: read nothing, write 03, go to 0 */
                           "04000200030000\n"
                           "050009\n"; /* nine lines stand before this one */

enum { STATES = 3, LETTERS = 2 };

static int refused(const char *call, rd_answer answer) {
    fprintf(stderr, "%s: refusal %u\n", call, (unsigned)answer.number);
    return 1;
}

int main(void) {
    const uint8_t upper[LETTERS] = {1, 2};
    uint16_t table[RD_TABLE_CELLS];
    uint32_t stack[RD_STACK_CELLS(LETTERS, STATES)];
    uint8_t output[RD_OUTPUT_LETTERS(LETTERS, STATES)];
    rd_run run;

    rd_answer read = rd_table_read((const uint8_t *)text, sizeof text - 1, table, RD_TABLE_CELLS);
    if (read.kind == RD_REFUSED) return refused("rd_table_read", read);

    rd_answer answer = rd_start(table, read.length, RD_SYNTHESIS, RD_MOST_CEILING, upper, LETTERS, RD_NO_LETTERS, 0, &run).answer;
    if (answer.kind == RD_REFUSED) return refused("rd_start", answer);

    for (;;) {
        answer = rd_next(table, read.length, upper, LETTERS, RD_NO_LETTERS, 0, &run, stack, sizeof stack / sizeof *stack, 1000, output,
                         sizeof output);
        if (answer.kind == RD_REFUSED) return refused("rd_next", answer);
        if (answer.kind == RD_ENDED) return 0;
        if (answer.kind == RD_PAUSED) continue;
        for (uint32_t i = 0; i < answer.length; i++) printf(i ? " %02X" : "%02X", (unsigned)output[i]);
        printf("\n");
    }
}
