/* A letter typed in each of many random lines of a text under a pattern, undone, and the fifty rows of a window, by
 * calls of the library: embedded LINES EDITS. It prints the median nanoseconds of each, one a line. */
#include "medians.h"
#include "rope_search.h"
#include <stdio.h>
#include <stdlib.h>
#include <string.h>

int main(int argc, char **argv)
{
    size_t lines = argc > 2 ? strtoul(argv[1], NULL, 10) : 1000;
    size_t count = argc > 2 ? strtoul(argv[2], NULL, 10) : 100, len = 0, i;
    char *text = malloc(lines * 64);
    double *typed = malloc(count * sizeof *typed), *undone = malloc(count * sizeof *undone);
    double *shown = malloc(count * sizeof *shown);
    rope_search session = {0};
    rope_search_span spans[256];
    const uint8_t *pattern = (const uint8_t *)"y\\(\\w+";
    size_t line = 7;
    if (!text || !typed || !undone || !shown)
        return 2;
    for (i = 0; i < lines; i++)
        len += sprintf(text + len, "line %lu of the text: let x = y(a, b);\n", (unsigned long)i);
    if (rope_search_open((size_t)1 << 30, &session) || rope_search_set_text(&session, (const uint8_t *)text, len)
        || rope_search_set_pattern(&session, pattern, 6))
        return 3;
    for (i = 0; i < count; i++) {
        rope_search_position at;
        double first, second, third;
        line = (line * 6364136223846793005u + 1442695040888963407u) % lines;
        at.line = line;
        at.column = 5;
        first = now();
        if (rope_search_edit(&session, at, at, (const uint8_t *)"a", 1))
            return 4;
        second = now();
        typed[i] = second - first;
        if (rope_search_copy_matches(&session, line, line + 50, spans, 256) == 0)
            return 5;
        third = now();
        shown[i] = third - second;
        if (rope_search_undo(&session))
            return 6;
        undone[i] = now() - third;
    }
    tell("typed", typed, count);
    tell("undone", undone, count);
    tell("shown", shown, count);
    rope_search_close(&session);
    return 0;
}
