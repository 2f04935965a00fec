/*
 * The calls of Wimbleyam for C: check a sheet, read a column sheet, settle a card.
 * Link crates/capi/out/libcapi.a, which `rt lib` writes in crates/capi.
 *
 * A card is named by its kind and its line count N:
 *
 *   kind   turned   card       line counts
 *      1       17   KLW        2 to 8
 *      2       18   BBC        2 to 8
 *      3       19   Benes      2, 4, 8, 16
 *      4       20   baseline   2, 4, 8, 16
 *
 * It has M cells (at most 64) and S columns. Lines, cells and positions count from 0.
 *
 *   plan      N bytes: for each input its output, or WIMBLEYAM_NONE if it is idle
 *   holds     M bytes: for each cell its held position, or WIMBLEYAM_NONE if it is not held
 *   setting   M bytes: for each cell its position, cell 0 first; a sheet is a setting of another house
 *
 * Every list is a pointer and a length. The pointer is never null, also where the length is 0, and points to
 * as many readable bytes (writable ones for `out`). The buffer `out` overlaps no other list.
 *
 * Every call answers one number. It is a refusal if it is 65536 or more, and then
 *
 *   65536 * number + 256 * layer + place
 *
 * where the layer is 2 (cabinet: the plan and the check) or 3 (card). The number says what was wrong and the
 * place where. Of several faults the first one of the call's list is answered. No call allocates, keeps
 * anything or changes anything but `out`, so that calls may run at the same time.
 */
#ifndef WIMBLEYAM_H
#define WIMBLEYAM_H

#include <stddef.h>
#include <stdint.h>

#ifdef __cplusplus
extern "C" {
#endif

/* An idle input, or a cell that is not held. */
#define WIMBLEYAM_NONE 255

/* The most lines and cells that a card has. */
#define WIMBLEYAM_MAX_LINES 16
#define WIMBLEYAM_MAX_CELLS 64

/* The verdicts of wimbleyam_check. */
#define WIMBLEYAM_FIRST 0 /* the sheet is the first setting that fits */
#define WIMBLEYAM_OTHER 1 /* the sheet fits, and another setting that fits comes first */

/* Whether an answer is a refusal, and the parts of one. */
#define WIMBLEYAM_REFUSED(answer) ((answer) >= UINT32_C(65536))
#define WIMBLEYAM_NUMBER(answer) ((unsigned)((answer) >> 16))
#define WIMBLEYAM_LAYER(answer) ((unsigned)((answer) >> 8 & 255u))
#define WIMBLEYAM_PLACE(answer) ((unsigned)((answer)&255u))

/* The numbers of the refusals that these calls answer. */
enum {
    WIMBLEYAM_UNKNOWN_CARD = 1,    /* kind or line count unknown; the place is the line count */
    WIMBLEYAM_NO_INPUT = 2,        /* no such input; the place is the input */
    WIMBLEYAM_NO_OUTPUT = 3,       /* no such output; the place is the input that was to have it */
    WIMBLEYAM_OUTPUT_BUSY = 5,     /* a lower input has the output; the place is the input */
    WIMBLEYAM_NO_POSITION = 8,     /* a held position that the cell lacks; the place is the cell */
    WIMBLEYAM_NO_SETTING = 11,     /* no setting fits; the place is 0 */
    WIMBLEYAM_WRONG_LENGTH = 14,   /* a list has the wrong length; the place is 0 */
    WIMBLEYAM_SHEET_POSITION = 15, /* a position that the cell lacks; the place is the cell */
    WIMBLEYAM_SHEET_HOLD = 16,     /* a held cell stands elsewhere; the place is the cell */
    WIMBLEYAM_SHEET_PAIR = 17,     /* an input does not end at its output; the place is the input */
    WIMBLEYAM_PAST_COLUMNS = 18    /* more columns than the card has; the place is the count asked */
};

/*
 * Checks another house's sheet for a plan and holds.
 *
 * Answers WIMBLEYAM_FIRST if the sheet is the first setting that fits the plan and the holds, and
 * WIMBLEYAM_OTHER if it fits but another setting comes first. Refusals, in order:
 *
 *   1   layer 3   kind or line count unknown          [line count]
 *   14  layer 2   the plan does not have N bytes      [0]
 *   3   layer 2   an output that there is not         } the lowest input with
 *   5   layer 2   an output that a lower input has    } either of these faults
 *   14  layer 3   the holds do not have M bytes       [0]
 *   8   layer 3   a hold that the cell lacks          [lowest such cell]
 *   11  layer 3   no setting fits                     [0]
 *   14  layer 2   the sheet does not have M bytes     [0]
 *   15  layer 2   a position that the cell lacks      [lowest such cell]
 *   16  layer 2   a held cell stands elsewhere        [lowest such cell]
 *   17  layer 2   an input does not end at its output [lowest such input]
 */
uint32_t wimbleyam_check(uint8_t kind, uint8_t lines,
                         const uint8_t *plan, size_t plan_len,
                         const uint8_t *holds, size_t holds_len,
                         const uint8_t *sheet, size_t sheet_len);

/*
 * The column sheet: answers the place (below N) at which the line of an input stands after so many columns
 * under a setting. After 0 columns that is the input, after all S columns the output. Refusals, in order:
 *
 *   1   layer 3   kind or line count unknown          [line count]
 *   14  layer 3   the setting does not have M bytes   [0]
 *   15  layer 3   a position that the cell lacks      [lowest such cell]
 *   2   layer 3   no such input                       [the input]
 *   18  layer 3   more than S columns                 [the count asked]
 */
uint32_t wimbleyam_place(uint8_t kind, uint8_t lines,
                         const uint8_t *setting, size_t setting_len,
                         uint8_t input, uint8_t columns);

/*
 * Settles a card: fills `out` with the first setting that fits a plan and holds, and answers 0. A refusal
 * leaves `out` as it was. Refusals, in order:
 *
 *   1   layer 3   kind or line count unknown                    [line count]
 *   14  layer 2   the plan does not have N bytes                [0]
 *   3   layer 2   an output that there is not                   } the lowest input with
 *   5   layer 2   an output that a lower input has              } either of these faults
 *   14  layer 3   the holds or the buffer do not have M bytes   [0]
 *   8   layer 3   a hold that the cell lacks                    [lowest such cell]
 *   11  layer 3   no setting fits                               [0]
 */
uint32_t wimbleyam_settle(uint8_t kind, uint8_t lines,
                          const uint8_t *plan, size_t plan_len,
                          const uint8_t *holds, size_t holds_len,
                          uint8_t *out, size_t out_len);

#ifdef __cplusplus
}
#endif

#endif
