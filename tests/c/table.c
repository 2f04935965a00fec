/*
 * Runs tables of cases through the C calls and compares the answers.
 *
 *   table FILE..        ('-' is standard input)
 *
 * A line is a call, " = " and the answer; a line that begins with '#' is a comment:
 *
 *   check KIND LINES / PLAN / HOLDS / SHEET = ANSWER
 *   place KIND LINES / SETTING / INPUT COLUMNS = ANSWER
 *   settle KIND LINES / PLAN / HOLDS / ROOM = ANSWER
 *
 * Lists are numbers with blanks between; ROOM is the length of the buffer. The answer is the number that the
 * call answers, or 'NO number layer place'. The answer of a done settling is the setting in the buffer. Every
 * list lies in memory of its own of just its length, so that a memory checker sees a byte too many.
 */
#include <stdio.h>
#include <stdlib.h>
#include <string.h>

#include "wimbleyam.h"

enum { MOST = 600, LINE = 8192, PAD = 16, FILL = 0xA5 };

struct list {
    uint8_t *at;
    size_t len;
};

static int bad_line(const char *why, const char *line)
{
    fprintf(stderr, "bad line (%s): %s\n", why, line);
    exit(2);
}

/* The bytes written in a text of numbers, in memory of their own. */
static struct list list_of(const char *text)
{
    static uint8_t bytes[MOST];
    struct list l = {NULL, 0};
    char *end;

    for (;;) {
        unsigned long v = strtoul(text, &end, 10);
        if (end == text)
            break;
        if (v > 255 || l.len == MOST)
            bad_line("number", text);
        bytes[l.len++] = (uint8_t)v;
        text = end;
    }
    if (text[strspn(text, " ")] != '\0')
        bad_line("list", text);
    l.at = malloc(l.len ? l.len : 1);
    if (l.at == NULL)
        exit(2);
    if (l.len != 0)
        memcpy(l.at, bytes, l.len);
    return l;
}

/* The answer as a number: 'NO number layer place', or the number itself. */
static unsigned long number_of(const char *text)
{
    unsigned number, layer, place;

    if (sscanf(text, " NO %u %u %u", &number, &layer, &place) == 3)
        return 65536ul * number + 256ul * layer + place;
    return strtoul(text, NULL, 10);
}

static int is_refusal(const char *text)
{
    return strstr(text, "NO") != NULL;
}

/* Settles into the middle of a larger buffer: what is around it has to stay, and on a refusal all of it. */
static int settled(const struct list *card, const struct list *plan, const struct list *holds, size_t room, const char *want)
{
    uint8_t *buffer = malloc(room + 2 * PAD);
    struct list setting = {NULL, 0};
    uint32_t got;
    size_t i;
    int same;

    if (buffer == NULL)
        exit(2);
    memset(buffer, FILL, room + 2 * PAD);
    got = wimbleyam_settle(card->at[0], card->at[1], plan->at, plan->len, holds->at, holds->len, buffer + PAD, room);
    if (is_refusal(want)) {
        same = got == number_of(want);
        for (i = 0; i < room; i++)
            same = same && buffer[PAD + i] == FILL;
    } else {
        setting = list_of(want);
        same = got == 0 && setting.len == room && memcmp(buffer + PAD, setting.at, room) == 0;
    }
    for (i = 0; i < PAD; i++)
        same = same && buffer[i] == FILL && buffer[PAD + room + i] == FILL;
    free(setting.at);
    free(buffer);
    return same;
}

/* Whether a line's call answers as the line says. */
static int right(const char *line)
{
    char text[LINE], *part[4] = {NULL, NULL, NULL, NULL}, *want, *at;
    struct list card, a, b, c = {NULL, 0};
    size_t parts = 0;
    int same;

    strcpy(text, line);
    want = strstr(text, " = ");
    at = strchr(text, ' ');
    if (want == NULL || at == NULL || at > want)
        return bad_line("form", line);
    *want = '\0';
    want += 3;
    *at++ = '\0';
    while (parts < 4) {
        part[parts++] = at;
        at = strchr(at, '/');
        if (at == NULL)
            break;
        *at++ = '\0';
    }
    if (parts < 3 || (parts == 3) != (strcmp(text, "place") == 0))
        return bad_line("parts", line);
    card = list_of(part[0]);
    a = list_of(part[1]);
    b = list_of(part[2]);
    if (part[3] != NULL)
        c = list_of(part[3]);
    if (card.len != 2)
        return bad_line("card", line);
    if (strcmp(text, "check") == 0) {
        same = wimbleyam_check(card.at[0], card.at[1], a.at, a.len, b.at, b.len, c.at, c.len) == number_of(want);
    } else if (strcmp(text, "place") == 0 && b.len == 2) {
        same = wimbleyam_place(card.at[0], card.at[1], a.at, a.len, b.at[0], b.at[1]) == number_of(want);
    } else if (strcmp(text, "settle") == 0 && c.len == 1) {
        same = settled(&card, &a, &b, c.at[0], want);
    } else {
        return bad_line("call", line);
    }
    free(card.at);
    free(a.at);
    free(b.at);
    free(c.at);
    return same;
}

int main(int argc, char **argv)
{
    static char line[LINE];
    unsigned long cases = 0, wrong = 0;
    int i;

    for (i = 1; i < argc; i++) {
        FILE *file = strcmp(argv[i], "-") == 0 ? stdin : fopen(argv[i], "r");

        if (file == NULL) {
            perror(argv[i]);
            return 2;
        }
        while (fgets(line, sizeof line, file) != NULL) {
            line[strcspn(line, "\n")] = '\0';
            if (line[0] == '\0' || line[0] == '#')
                continue;
            cases++;
            if (!right(line)) {
                wrong++;
                printf("wrong: %s\n", line);
            }
        }
        if (file != stdin)
            fclose(file);
    }
    printf("C calls: %lu cases, %lu wrong\n", cases, wrong);
    return wrong == 0 && cases > 0 ? 0 : 1;
}
