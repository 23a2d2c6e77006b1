/* The worst known input of a call of the library, of a size: worst_calls NAME SIZE. With a third argument it only prepares
 * the call, so that the difference is what the call takes. Without any it prints the names. The status is 0 if the call is
 * accepted. */
#include "rope_search.h"
#include <stdio.h>
#include <stdlib.h>
#include <string.h>

#define LINE "a line of text, with a match\n"
#define WIDE "\xf0\x9f\x90\xb8"
#define ALL ((size_t)-1)

static rope_search s;
static uint8_t *bytes;
static void *out;
static size_t size, count;
static const rope_search_position start;

static const uint8_t *of(const char *text)
{
    return (const uint8_t *)text;
}

/* A part as many times as the size says, as the text of the session; a pattern, if it is named. */
static int set(const char *part, const char *pattern)
{
    size_t len = strlen(part), at;
    for (at = 0; at < size; at++)
        memcpy(bytes + at * len, part, len);
    return rope_search_set_text(&s, bytes, size * len)
        || (pattern && rope_search_set_pattern(&s, of(pattern), strlen(pattern)));
}

/* Letters, each put in one of 1,000 lines under a pattern. */
static int type_letters(void)
{
    size_t all = size, at;
    int wrong;
    size = 1000;
    wrong = set("a line\n", "a+");
    size = all;
    for (at = 0; at < size && !wrong; at++) {
        rope_search_position place = {at % 1000, 0};
        wrong = rope_search_edit(&s, place, place, of("a"), 1);
    }
    return wrong;
}

static int of_lines(void) { return set(LINE, "match"); }
static int of_empty_lines(void) { return set("\n", "x*"); }
static int of_letters(void) { return set("a", "(a|b)*c|(a)"); }
static int of_wide(void) { return set(WIDE, "."); }
static int of_bare_wide(void) { return set(WIDE, NULL); }
static int of_escapes(void) { return set("\\", NULL); }
static int of_breaks(void) { return set("\r\n", NULL); }
static int of_line(void) { return set("a", NULL); }
static int nested(void) { return set("(", NULL); }

static int of_last_match(void)
{
    size_t all = size;
    int wrong = set("a\n", "b");
    rope_search_position last = {all - 1, 0};
    return wrong || rope_search_edit(&s, start, start, of("b"), 1) || rope_search_edit(&s, last, last, of("b"), 1);
}

static int of_replaced(void)
{
    return of_lines() || rope_search_replace_listed(&s, 0, ALL, of("m"), 1, &count);
}

static int pending(void)
{
    return set("a", NULL) || rope_search_begin_pattern(&s, of("(a|b)*c|(a)"), 11);
}

static int pending_lines(void)
{
    return set(LINE, NULL) || rope_search_begin_pattern(&s, of("\\w+"), 3);
}

static int set_text(void) { return rope_search_set_text(&s, bytes, 2 * size); }

static int edit_line(void)
{
    rope_search_position last = {0, size};
    return rope_search_edit(&s, last, last, of("b"), 1);
}

static int edit_bytes(void) { return rope_search_edit_bytes(&s, 0, 0, bytes, size); }

static int edit_all(void)
{
    rope_search_text_edit *edits = out;
    size_t at;
    for (at = 0; at < size; at++) {
        edits[at].from.line = edits[at].to.line = at;
        edits[at].len = 1;
    }
    return rope_search_edit_all(&s, edits, size, bytes, size);
}

static int replace_match(void) { return rope_search_replace_match(&s, 0, size - 1, of("$0$2$2"), 6); }
static int replace_listed(void) { return rope_search_replace_listed(&s, 0, ALL, of("$2$0"), 4, &count); }
static int replace(void) { return rope_search_replace(&s, of("$2$0"), 4, &count); }
static int join(void) { return rope_search_join(&s, size); }
static int keep(void) { return rope_search_keep(&s, 1); }
static int text_changes(void) { return rope_search_text_changes(&s, out, size) != size; }
static int next_all(void) { return rope_search_next_all(&s, start, out, size, &count) || count != size; }
static int groups_at(void) { return rope_search_groups_at(&s, 0, size - 1, out, 3); }
static int list_index(void) { return !rope_search_list_index(&s, size - 1, 0, out, &count); }

static int listed_before(void)
{
    rope_search_position place = {size - 1, 0};
    return !rope_search_listed_before(&s, place, out);
}

static int copy_matches(void) { return rope_search_copy_matches(&s, 0, ALL, out, size) < size; }
static int copy_matches_in(void) { return rope_search_copy_matches_in(&s, 8, 0, ALL, out, size) != size; }
static int advance(void) { return rope_search_advance(&s, ALL, out); }
static int window(void) { return rope_search_window(&s, 0, ALL, out, size, &count) || count < size; }
static int clamp(void) { return rope_search_clamp(&s, 32, 0, size, out); }
static int column_in(void)
{
    rope_search_position last = {0, 2 * size};
    return rope_search_column_in(&s, 32, last, out);
}
static int copy_line(void) { return !rope_search_copy_line(&s, 0, out, 4 * size); }

static int pattern_error(void)
{
    return rope_search_pattern_error(bytes, size, out);
}

static int escape(void) { return rope_search_escape(bytes, size, out, 2 * size, &count); }

static const struct { const char *name; int (*prepare)(void), (*call)(void); } calls[] = {
    {"set_text", of_breaks, set_text},
    {"edit", of_letters, edit_line},
    {"edit_bytes", of_line, edit_bytes},
    {"edit_all", of_lines, edit_all},
    {"replace", of_letters, replace},
    {"replace_match", of_letters, replace_match},
    {"replace_listed", of_letters, replace_listed},
    {"text_changes", of_replaced, text_changes},
    {"join", type_letters, join},
    {"keep", type_letters, keep},
    {"next_all", of_letters, next_all},
    {"groups_at", of_letters, groups_at},
    {"list_index", of_last_match, list_index},
    {"listed_before", of_last_match, listed_before},
    {"copy_matches", of_empty_lines, copy_matches},
    {"copy_matches_in", of_wide, copy_matches_in},
    {"advance", pending, advance},
    {"window", pending_lines, window},
    {"clamp", of_bare_wide, clamp},
    {"column_in", of_bare_wide, column_in},
    {"copy_line", of_bare_wide, copy_line},
    {"pattern_error", nested, pattern_error},
    {"escape", of_escapes, escape},
};

int main(int words, char **word)
{
    size_t at, last = sizeof calls / sizeof *calls;
    for (at = 0; at < last && words > 2 && strcmp(word[1], calls[at].name); at++) {
    }
    if (words < 3 || at == last) {
        for (at = 0; at < last; at++)
            puts(calls[at].name);
        return words < 3 ? 0 : 2;
    }
    size = strtoul(word[2], NULL, 10);
    bytes = malloc(32 * size + 32000);
    out = calloc(size + 4, 64);
    if (!bytes || !out || rope_search_open((size_t)1 << 30, &s) || calls[at].prepare())
        return 3;
    if (words == 3 && calls[at].call())
        return 4;
    return 0;
}
