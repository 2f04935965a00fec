/*
 * Checks sheets of another house for a Benes card of 4 lines and prints each verdict in words.
 *
 * README.md has the line that compiles it.
 */
#include <stdio.h>

#include "wimbleyam.h"

enum { BENES = 3, LINES = 4, CELLS = 6 };

/* What was wrong, in words. */
static const char *cause(unsigned number)
{
    switch (number) {
    case WIMBLEYAM_UNKNOWN_CARD: return "kind or line count unknown";
    case WIMBLEYAM_NO_OUTPUT: return "no such output";
    case WIMBLEYAM_OUTPUT_BUSY: return "output busy";
    case WIMBLEYAM_NO_POSITION: return "no such position";
    case WIMBLEYAM_NO_SETTING: return "no setting fits";
    case WIMBLEYAM_WRONG_LENGTH: return "wrong length";
    case WIMBLEYAM_SHEET_POSITION: return "position out of range";
    case WIMBLEYAM_SHEET_HOLD: return "held cell differs";
    case WIMBLEYAM_SHEET_PAIR: return "pair not carried";
    default: return "unknown cause";
    }
}

static void report(const uint8_t plan[LINES], const uint8_t holds[CELLS], const uint8_t *sheet, size_t sheet_len)
{
    uint32_t answer = wimbleyam_check(BENES, LINES, plan, LINES, holds, CELLS, sheet, sheet_len);
    size_t c;

    printf("sheet");
    for (c = 0; c < sheet_len; c++)
        printf(" %u", (unsigned)sheet[c]);
    if (WIMBLEYAM_REFUSED(answer))
        printf(": refused, %s (number %u, layer %u, place %u)\n", cause(WIMBLEYAM_NUMBER(answer)),
               WIMBLEYAM_NUMBER(answer), WIMBLEYAM_LAYER(answer), WIMBLEYAM_PLACE(answer));
    else if (answer == WIMBLEYAM_FIRST)
        printf(": fits and comes first\n");
    else
        printf(": fits, but another setting comes first\n");
}

int main(void)
{
    static const uint8_t plan[LINES] = {3, 2, 1, 0};
    static const uint8_t free_cells[CELLS] = {WIMBLEYAM_NONE, WIMBLEYAM_NONE, WIMBLEYAM_NONE,
                                              WIMBLEYAM_NONE, WIMBLEYAM_NONE, WIMBLEYAM_NONE};
    static const uint8_t cell_3_held[CELLS] = {WIMBLEYAM_NONE, WIMBLEYAM_NONE, WIMBLEYAM_NONE,
                                               0, WIMBLEYAM_NONE, WIMBLEYAM_NONE};
    static const uint8_t sheets[][CELLS] = {
        {0, 0, 1, 1, 1, 1},
        {1, 0, 1, 0, 1, 1},
        {0, 0, 1, 1, 1, 2},
        {0, 0, 0, 0, 0, 0},
    };
    size_t i;

    printf("plan 3 2 1 0, no cell held\n");
    for (i = 0; i < sizeof sheets / sizeof sheets[0]; i++)
        report(plan, free_cells, sheets[i], CELLS);
    report(plan, free_cells, sheets[0], CELLS - 1);
    printf("plan 3 2 1 0, cell 3 held at 0\n");
    for (i = 0; i < 2; i++)
        report(plan, cell_3_held, sheets[i], CELLS);
    return 0;
}
