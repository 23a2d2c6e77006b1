/* Searches a text, edits it and undoes that: cc -Iinclude examples/session.c lib/librope_search.a (bin/ in the repository) */
#include "rope_search.h"
#include <stdio.h>
#include <string.h>

static uint32_t edit(rope_search *session, size_t line, size_t column, const char *text)
{
    rope_search_position at;
    at.line = line;
    at.column = column;
    return rope_search_edit(session, at, at, (const uint8_t *)text, strlen(text));
}

/* Prints the matches in the lines that a window shows. */
static void show(rope_search *session, size_t first, size_t last)
{
    rope_search_span spans[64];
    size_t count = rope_search_copy_matches(session, first, last, spans, 64), i;
    printf("%lu matches in lines %lu to %lu:", (unsigned long)count, (unsigned long)first, (unsigned long)last);
    for (i = 0; i < count && i < 64; i++)
        printf(" %lu:%lu-%lu", (unsigned long)spans[i].line, (unsigned long)spans[i].start,
               (unsigned long)spans[i].stop);
    printf("\n");
}

int main(void)
{
    static const char text[] = "let one = two(1);\nlet three = one;\n", pattern[] = "\\bone\\b";
    rope_search session = {0};
    uint32_t status = rope_search_open((size_t)1 << 30, &session);
    if (status == ROPE_SEARCH_DONE)
        status = rope_search_set_text(&session, (const uint8_t *)text, sizeof text - 1);
    if (status == ROPE_SEARCH_DONE)
        status = rope_search_set_pattern(&session, (const uint8_t *)pattern, sizeof pattern - 1);
    if (status == ROPE_SEARCH_DONE) {
        show(&session, 0, 3);
        status = edit(&session, 0, 0, "// one\n");
        show(&session, 0, 3);
    }
    if (status == ROPE_SEARCH_DONE)
        status = rope_search_undo(&session);
    show(&session, 0, 3);
    rope_search_close(&session);
    if (status != ROPE_SEARCH_DONE)
        printf("refused: %u\n", (unsigned)status);
    return status != ROPE_SEARCH_DONE;
}
