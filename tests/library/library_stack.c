/* Measures the stack that calls of the library use. Each list of calls runs on its own thread, whose stack is filled with
 * one value first: bytes that differ afterwards were used. It prints the name of each list, and the bytes that it used
 * beyond those of a thread that calls nothing. The status is 1 if a list uses more bytes than the argument, if there is
 * one. */
#include "rope_search.h"
#include <pthread.h>
#include <stdio.h>
#include <stdlib.h>
#include <string.h>
#include <sys/mman.h>

#define STACK ((size_t)8 << 20)
#define FILLED 0xA5
#define LINES ((size_t)1600000)
#define LINE "a line of forty bytes, and in it its mark"

static char *repeated(char *to, const char *part, size_t count)
{
    size_t len = strlen(part);
    while (count-- > 0) {
        memcpy(to, part, len);
        to += len;
    }
    *to = 0;
    return to;
}

/* A part repeated this many times, the inner text, and another part repeated as often. */
static char *nested(const char *front, size_t count, const char *inside, const char *back)
{
    char *pattern = malloc((strlen(front) + strlen(back)) * count + strlen(inside) + 1);
    repeated(repeated(repeated(pattern, front, count), inside, 1), back, count);
    return pattern;
}

static void set_text(rope_search *s, const char *text)
{
    (void)rope_search_set_text(s, (const uint8_t *)text, strlen(text));
}

/* All calls that parse a pattern or search for it. */
static void search(rope_search *s, char *pattern)
{
    static const uint8_t by[] = "$9$1$0";
    const uint8_t *bytes = (const uint8_t *)pattern;
    size_t len = strlen(pattern), count;
    rope_search_pattern_reason error;
    rope_search_position start = {0, 0};
    rope_search_match match;
    rope_search_group groups[10];
    rope_search_listed listed;
    uint8_t out[64];
    (void)rope_search_pattern_error(bytes, len, &error);
    (void)rope_search_escape(bytes, len, out, sizeof out, &count);
    (void)rope_search_set_pattern(s, bytes, len);
    (void)rope_search_next(s, start, &match);
    (void)rope_search_groups_at(s, 0, 0, groups, 10);
    (void)rope_search_listed_from(s, start, &listed);
    (void)rope_search_replace_match(s, 0, 0, by, sizeof by - 1);
    (void)rope_search_replace(s, by, sizeof by - 1, &count);
    (void)rope_search_undo(s);
    (void)rope_search_redo(s);
    (void)rope_search_join(s, 2);
    (void)rope_search_undo(s);
    free(pattern);
}

static void nothing(rope_search *s)
{
    (void)s;
}

static void deep_patterns(rope_search *s)
{
    set_text(s, "aaabbbccc");
    search(s, nested("(", 250, "a", ")"));
    search(s, nested("(?:", 83, "a", "+)*"));
    search(s, nested("(?:", 200, "a", "+)*"));
    search(s, nested("(?i:", 249, "\\w", "|b)"));
    search(s, nested("(", 32767, "a", ")"));
    search(s, nested("[", 30000, "", ""));
}

static void large_patterns(rope_search *s)
{
    set_text(s, "aaabbbccc");
    search(s, nested("a|", 32767, "b", ""));
    search(s, nested("a", 1, "{60000}", ""));
    search(s, nested("(?:\\w", 1, "{100})?", ""));
    search(s, nested("(?i)k", 1, "{30000}b*", ""));
    search(s, nested("[\\wa]", 300, "", ""));
}

static void many_groups(rope_search *s)
{
    set_text(s, "aaabbbccc");
    search(s, nested("()", 32768, "", ""));
    search(s, nested("(a)?", 16000, "", ""));
    search(s, nested("(", 240, "(a)|(b)", ")"));
}

static void a_high_tree(rope_search *s)
{
    static const uint8_t by[] = "\r\n", letter[] = "x";
    char *text = malloc(LINES * sizeof LINE + 1);
    rope_search_text_edit *edits = malloc(10000 * sizeof *edits);
    size_t count, line;
    repeated(text, LINE "\n", LINES);
    set_text(s, text);
    free(text);
    for (line = 0; line < LINES; line += LINES / 400) {
        rope_search_position from = {0, 3}, to = {0, 3};
        from.line = line;
        to.line = line + line % 3;
        (void)rope_search_edit(s, from, to, letter, 1);
    }
    for (line = 0; line < 10000; line++) {
        rope_search_position at = {0, 0};
        at.line = 7 * line;
        edits[line].from = edits[line].to = at;
        edits[line].len = 0;
    }
    (void)rope_search_edit_all(s, edits, 10000, letter, 0);
    free(edits);
    search(s, nested("mark", 1, "$", ""));
    (void)rope_search_fork(s, &count);
    (void)rope_search_replace(s, by, 2, &count);
    (void)rope_search_join(s, 300);
    (void)rope_search_undo(s);
    (void)rope_search_redo(s);
    (void)rope_search_forget(s);
}

struct list {
    const char *name;
    void (*calls)(rope_search *s);
};

static const struct list lists[] = {
    {"nothing", NULL},
    {"an empty session", nothing},
    {"deep patterns", deep_patterns},
    {"large patterns", large_patterns},
    {"many groups", many_groups},
    {"a high tree", a_high_tree},
};

static void *run(void *given)
{
    const struct list *list = given;
    rope_search s = {0};
    if (list->calls != NULL && rope_search_open((size_t)1 << 30, &s) == ROPE_SEARCH_DONE) {
        list->calls(&s);
        rope_search_close(&s);
    }
    return NULL;
}

/* The number of stack bytes that a thread used for these calls. */
static size_t used_by(unsigned char *stack, const struct list *list)
{
    pthread_attr_t attributes;
    pthread_t thread;
    size_t at = 0;
    memset(stack, FILLED, STACK);
    if (pthread_attr_init(&attributes) != 0 || pthread_attr_setstack(&attributes, stack, STACK) != 0
        || pthread_create(&thread, &attributes, run, (void *)list) != 0 || pthread_join(thread, NULL) != 0)
        exit(2);
    while (at < STACK && stack[at] == FILLED)
        at++;
    return STACK - at;
}

int main(int count, char **words)
{
    unsigned char *stack = mmap(NULL, STACK, PROT_READ | PROT_WRITE, MAP_PRIVATE | MAP_ANONYMOUS, -1, 0);
    size_t most = count > 1 ? strtoul(words[1], NULL, 10) : SIZE_MAX, bare = 0, at;
    int status = 0;
    if (stack == MAP_FAILED)
        return 2;
    for (at = 0; at < sizeof lists / sizeof *lists; at++) {
        size_t used = used_by(stack, &lists[at]);
        if (at == 0)
            bare = used;
        printf("%s: %lu bytes\n", lists[at].name, (unsigned long)(used - bare));
        if (used - bare > most)
            status = 1;
    }
    return status;
}
