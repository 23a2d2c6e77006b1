/* A session with many kinds of calls, run once for each of its requests for memory, which is refused: the call that made
 * the request returns MEMORY and changes nothing, and succeeds when it is made again. It is linked with
 * --wrap=malloc,--wrap=realloc. */
#include "rope_search.h"
#include <stdio.h>
#include <stdlib.h>
#include <string.h>

void *__real_malloc(size_t bytes);
void *__real_realloc(void *old, size_t bytes);
void *__wrap_malloc(size_t bytes);
void *__wrap_realloc(void *old, size_t bytes);

static unsigned long asked, refused_at;
static int wrong;

static int is_refused(void)
{
    asked++;
    return asked == refused_at;
}

void *__wrap_malloc(size_t bytes)
{
    return is_refused() ? NULL : __real_malloc(bytes);
}

void *__wrap_realloc(void *old, size_t bytes)
{
    return is_refused() ? NULL : __real_realloc(old, bytes);
}

/* The visible state of a session: the text of the chosen buffer, its matches, the undo and redo steps, the ranges that
 * were last replaced, and the lines and matches that are done for a pending pattern. */
struct seen {
    size_t len, rows, count, undo, redo, changes, lines, pending;
    bool is_pending;
    uint8_t text[4096];
    rope_search_span spans[512], done[512];
    rope_search_text_change ranges[64];
};

static void see(rope_search *s, struct seen *seen)
{
    memset(seen, 0, sizeof *seen);
    seen->len = rope_search_text_len(s);
    seen->rows = rope_search_rows(s);
    if (!rope_search_copy_text(s, 0, seen->len, seen->text, sizeof seen->text))
        wrong++;
    seen->count = rope_search_copy_matches(s, 0, SIZE_MAX, seen->spans, 512);
    seen->undo = rope_search_undo_steps(s);
    seen->redo = rope_search_redo_steps(s);
    seen->changes = rope_search_text_changes(s, seen->ranges, 64);
    seen->is_pending = rope_search_pending(s, &seen->lines);
    if (seen->is_pending && rope_search_copy_pending(s, 0, SIZE_MAX, seen->done, 512, &seen->pending) != ROPE_SEARCH_DONE)
        wrong++;
}

enum kind {
    SET_TEXT, PARTS, EDIT, EDIT_ALL, EDIT_BYTES, UNDO, REDO, SET_PATTERN, OFF, NEXT, NEXT_ALL, REPLACE,
    REPLACE_MATCH, REPLACE_LISTED, FORK, CHOOSE, FORGET, KEEP, JOIN, GROUPS_AT, PATTERN_ERROR, ESCAPE, BEGIN, ADVANCE, WINDOW, CANCEL
};

struct call {
    enum kind kind;
    size_t line, column, to_line, to_column;
    const char *text;
};

static uint32_t carry_out(rope_search *s, const struct call *call)
{
    rope_search_position from, to;
    rope_search_match match;
    size_t len = call->text ? strlen(call->text) : 0, number;
    rope_search_group groups[10];
    rope_search_pattern_reason reason;
    rope_search_text_edit edits[2];
    rope_search_span spans[8];
    rope_search_text_match matches[8];
    bool done;
    uint8_t out[32];
    const uint8_t *text = (const uint8_t *)(call->text ? call->text : "");
    from.line = call->line;
    from.column = call->column;
    to.line = call->to_line;
    to.column = call->to_column;
    /* Two edits: the first inserts half of the text at one position, the second the rest at the other. */
    edits[0].from = edits[0].to = from;
    edits[1].from = edits[1].to = to;
    edits[0].len = len / 2;
    edits[1].len = len - len / 2;
    switch (call->kind) {
    case SET_TEXT: return rope_search_set_text(s, text, len);
    case PARTS:
        rope_search_begin_text(s);
        rope_search_append_part(s, text, len / 2);
        rope_search_append_part(s, text + len / 2, len - len / 2);
        return rope_search_end_text(s);
    case EDIT: return rope_search_edit(s, from, to, text, len);
    case EDIT_ALL: return rope_search_edit_all(s, edits, 2, text, len);
    case EDIT_BYTES: return rope_search_edit_bytes(s, call->line, call->to_line, text, len);
    case UNDO: return rope_search_undo(s);
    case REDO: return rope_search_redo(s);
    case SET_PATTERN: return rope_search_set_pattern(s, text, len);
    case OFF: return rope_search_off(s);
    case NEXT: return rope_search_next(s, from, &match);
    case NEXT_ALL: return rope_search_next_all(s, from, matches, 8, &number);
    case REPLACE: return rope_search_replace(s, text, len, &number);
    case REPLACE_MATCH: return rope_search_replace_match(s, call->line, call->column, text, len);
    case REPLACE_LISTED: return rope_search_replace_listed(s, call->line, call->to_line, text, len, &number);
    case FORK: return rope_search_fork(s, &number);
    case FORGET: return rope_search_forget(s);
    case KEEP: return rope_search_keep(s, call->line);
    case JOIN: return rope_search_join(s, call->line);
    case GROUPS_AT: return rope_search_groups_at(s, call->line, call->column, groups, 10);
    case PATTERN_ERROR: return rope_search_pattern_error(text, len, &reason);
    case ESCAPE: return rope_search_escape(text, len, out, sizeof out, &number);
    case BEGIN: return rope_search_begin_pattern(s, text, len);
    case ADVANCE: return rope_search_advance(s, call->line, &done);
    case WINDOW: return rope_search_window(s, call->line, call->column, spans, 8, &number);
    case CANCEL: return rope_search_cancel(s);
    default: return rope_search_choose(s, call->line);
    }
}

#define CALL(kind) {kind, 0, 0, 0, 0, NULL}
#define TEXT(kind, text) {kind, 0, 0, 0, 0, text}
#define AT(kind, line, column) {kind, line, column, 0, 0, NULL}

static const struct call calls[] = {
    TEXT(PARTS, "one \360\237\220\270"), TEXT(SET_TEXT, "one two\none\r\nthree one\none one one\nnone\n"),
    TEXT(SET_PATTERN, "(?i)(o)n\\w|e$"),
    {EDIT, 1, 0, 2, 3, "ONE\nof many\none\n"},
    {EDIT_ALL, 0, 3, 2, 1, "a one\n\nand one"},
    {EDIT_BYTES, 2, 0, 7, 0, "two\none"}, CALL(UNDO),
    AT(NEXT, 0, 2), AT(NEXT_ALL, 0, 2), AT(GROUPS_AT, 0, 0),
    TEXT(PATTERN_ERROR, "(a|(?<name>b)|(?<name>c"), TEXT(PATTERN_ERROR, "((a)|b{1,3}"),
    TEXT(ESCAPE, "one.two"), TEXT(ESCAPE, "\\.+*?()|[{^$\\.+*?()|[{^$"),
    CALL(UNDO), CALL(REDO), AT(JOIN, 2, 0), CALL(UNDO), CALL(REDO), TEXT(REPLACE, "<$1\n$0>"), CALL(UNDO), AT(KEEP, 5, 0), CALL(FORK),
    AT(CHOOSE, 1, 0), TEXT(EDIT, "a letter"), TEXT(SET_PATTERN, "\\be"), CALL(UNDO), CALL(OFF),
    CALL(REDO), AT(CHOOSE, 0, 0), TEXT(EDIT, "one\n"), {REPLACE_MATCH, 1, 0, 0, 0, "<$1\n$0>"}, CALL(UNDO),
    {REPLACE_MATCH, 1, 0, 0, 0, "two"}, {REPLACE_LISTED, 0, 0, 2, 0, "<$1\n$0>"}, CALL(UNDO),
    {REPLACE_LISTED, 1, 0, 9, 0, "two"}, AT(KEEP, 1, 0), AT(GROUPS_AT, 0, 0), CALL(FORGET),
    TEXT(BEGIN, "(?i)on"), AT(WINDOW, 0, 9), AT(ADVANCE, 2, 0), AT(WINDOW, 1, 9), AT(ADVANCE, 1, 0),
    {EDIT, 1, 0, 2, 0, "one on\n"}, AT(ADVANCE, 2, 0), CALL(UNDO), TEXT(BEGIN, "n\\w"), AT(ADVANCE, 1, 0), TEXT(SET_PATTERN, "on"),
    TEXT(BEGIN, "\\w+"), AT(ADVANCE, 3, 0), CALL(CANCEL), TEXT(BEGIN, "n(e)"), AT(ADVANCE, 99, 0), AT(GROUPS_AT, 0, 0),
};

static int may_ask(enum kind kind)
{
    return kind != OFF && kind != CHOOSE && kind != FORGET && kind != KEEP && kind != CANCEL;
}

/* Makes the calls, with one request refused, and returns the number of requests. */
static unsigned long run(unsigned long at, struct seen *last)
{
    static struct seen before, after;
    rope_search s = {0};
    size_t i;
    asked = 0;
    refused_at = at;
    if (rope_search_open(1 << 20, &s) != ROPE_SEARCH_DONE) {
        if (s.is_open || at == 0 || rope_search_open(1 << 20, &s) != ROPE_SEARCH_DONE)
            wrong++;
    }
    for (i = 0; i < sizeof calls / sizeof *calls; i++) {
        uint32_t status;
        see(&s, &before);
        status = carry_out(&s, &calls[i]);
        if (status == ROPE_SEARCH_MEMORY && at != 0 && may_ask(calls[i].kind)) {
            see(&s, &after);
            if (memcmp(&before, &after, sizeof before) != 0) {
                wrong++;
                printf("request %lu: call %lu is refused and changes something\n", at, (unsigned long)i);
            }
            status = carry_out(&s, &calls[i]);
        }
        if (status != ROPE_SEARCH_DONE) {
            wrong++;
            printf("request %lu: call %lu answers %u\n", at, (unsigned long)i, (unsigned)status);
        }
    }
    see(&s, last);
    rope_search_close(&s);
    return asked;
}

/* With an argument N, only every N-th request is refused in turn. */
int main(int words, char **word)
{
    static struct seen due, last;
    unsigned long count = run(0, &due), one_in = words > 1 ? strtoul(word[1], NULL, 10) : 1, at;
    for (at = 1; at <= count; at += one_in) {
        run(at, &last);
        if (memcmp(&due, &last, sizeof due) != 0) {
            wrong++;
            printf("request %lu: what is left differs\n", at);
        }
    }
    if (count < 50) {
        wrong++;
        printf("only %lu requests\n", count);
    }
    return wrong != 0;
}
