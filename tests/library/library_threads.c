/* Several threads at once, each with its own session. */
#include "rope_search.h"
#include <pthread.h>
#include <string.h>

#define THREADS 4

static void *edits(void *given)
{
    rope_search s = {0};
    const uint8_t *text = (const uint8_t *)"one two\none\n", *pattern = (const uint8_t *)"\\bo\\w+";
    size_t *matches = given, i;
    rope_search_position start;
    memset(&start, 0, sizeof start);
    *matches = 0;
    if (rope_search_open(1 << 20, &s) != ROPE_SEARCH_DONE)
        return given;
    if (rope_search_set_text(&s, text, 12) || rope_search_set_pattern(&s, pattern, 6))
        return given;
    for (i = 0; i < 500; i++) {
        if (rope_search_edit(&s, start, start, text, 12) || (i % 3 == 0 && rope_search_undo(&s)))
            break;
    }
    *matches = rope_search_count_matches(&s, 0, SIZE_MAX);
    rope_search_close(&s);
    return given;
}

int main(void)
{
    pthread_t threads[THREADS];
    size_t matches[THREADS], i;
    for (i = 0; i < THREADS; i++)
        if (pthread_create(&threads[i], NULL, edits, &matches[i]) != 0)
            return 2;
    for (i = 0; i < THREADS; i++)
        if (pthread_join(threads[i], NULL) != 0 || matches[i] != 2 + 2 * (500 - 167))
            return 1;
    return 0;
}
