/* A letter typed in each of many random lines of a text under a pattern, and undone, by commands over pipes: piped
 * PROGRAM LINES EDITS. It prints the median nanoseconds of each, one a line, as embedded.c does by calls. */
#include "medians.h"
#include <stdio.h>
#include <stdlib.h>
#include <string.h>
#include <sys/types.h>
#include <unistd.h>

static int to_program, from_program;

/* Starts the program, with a pipe each way. */
static int start(const char *program)
{
    int there[2], back[2];
    if (pipe(there) || pipe(back))
        return 0;
    if (fork() == 0) {
        dup2(there[0], 0);
        dup2(back[1], 1);
        close(there[1]);
        close(back[0]);
        execl(program, program, (char *)NULL);
        _exit(127);
    }
    close(there[0]);
    close(back[1]);
    to_program = there[1];
    from_program = back[0];
    return 1;
}

static int is_sent(const char *bytes, size_t len)
{
    while (len > 0) {
        ssize_t sent = write(to_program, bytes, len);
        if (sent <= 0)
            return 0;
        bytes += sent;
        len -= (size_t)sent;
    }
    return 1;
}

/* Whether the reply is `ok`. */
static int is_done(void)
{
    char reply[16];
    size_t len = 0;
    while (len < 3) {
        ssize_t got = read(from_program, reply + len, sizeof reply - len);
        if (got <= 0)
            return 0;
        len += (size_t)got;
    }
    return len == 3 && memcmp(reply, "ok\n", 3) == 0;
}

static int is_set(size_t lines)
{
    char *text = malloc(lines * 64), head[32];
    size_t len = 0, i;
    if (!text)
        return 0;
    for (i = 0; i < lines; i++)
        len += (size_t)sprintf(text + len, "line %lu of the text: let x = y(a, b);\n", (unsigned long)i);
    sprintf(head, "text %lu\n", (unsigned long)len);
    i = is_sent(head, strlen(head)) && is_sent(text, len) && is_done() && is_sent("pattern 6\ny\\(\\w+", 16) && is_done();
    free(text);
    return (int)i;
}

int main(int argc, char **argv)
{
    size_t lines = argc > 3 ? strtoul(argv[2], NULL, 10) : 0, count = argc > 3 ? strtoul(argv[3], NULL, 10) : 0, i, line = 7;
    double *typed = malloc((count + 1) * sizeof *typed), *undone = malloc((count + 1) * sizeof *undone);
    if (!typed || !undone || !lines || !count || !start(argv[1]) || !is_set(lines))
        return 2;
    for (i = 0; i < count; i++) {
        char edit[64];
        double first, second;
        line = (line * 6364136223846793005u + 1442695040888963407u) % lines;
        sprintf(edit, "edit %lu 5 %lu 5 1\na", (unsigned long)line, (unsigned long)line);
        first = now();
        if (!is_sent(edit, strlen(edit)) || !is_done())
            return 4;
        second = now();
        typed[i] = second - first;
        if (!is_sent("undo\n", 5) || !is_done())
            return 6;
        undone[i] = now() - second;
    }
    tell("typed", typed, count);
    tell("undone", undone, count);
    return 0;
}
