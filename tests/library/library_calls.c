/* Calls of the library and their results: refusals, ranges, buffers, sessions that are closed and opened again. */
#include "rope_search.h"
#include <stdio.h>
#include <string.h>

static int wrong;

static void is_as(int line, const char *call, unsigned long long got, unsigned long long due)
{
    if (got != due) {
        wrong++;
        printf("line %d: %s is %llu, not %llu\n", line, call, got, due);
    }
}

#define IS(call, due) is_as(__LINE__, #call, (unsigned long long)(call), (unsigned long long)(due))

static const uint8_t *bytes(const char *text)
{
    return (const uint8_t *)text;
}

static rope_search_position at(size_t line, size_t column)
{
    rope_search_position position;
    position.line = line;
    position.column = column;
    return position;
}

static void is_span(int line, rope_search_span span, size_t row, size_t start, size_t stop)
{
    is_as(line, "line", span.line, row);
    is_as(line, "start", span.start, start);
    is_as(line, "stop", span.stop, stop);
}

static void refusals(rope_search *s)
{
    size_t count = 9;
    rope_search_match match;
    rope_search_text_match text_match;
    IS(rope_search_undo(s), ROPE_SEARCH_NONE);
    IS(rope_search_redo(s), ROPE_SEARCH_NONE);
    IS(rope_search_choose(s, 1), ROPE_SEARCH_NONE);
    IS(rope_search_choose(s, UINT64_MAX), ROPE_SEARCH_NONE);
    IS(rope_search_next(s, at(0, 0), &match), ROPE_SEARCH_NONE);
    IS(match.found, false);
    IS(rope_search_next_all(s, at(9, 9), &text_match, 1, &count), ROPE_SEARCH_NONE);
    IS(count, 0);
    count = 9;
    IS(rope_search_replace(s, bytes("a"), 1, &count), ROPE_SEARCH_NONE);
    IS(count, 0);
    IS(rope_search_replace_match(s, 0, 0, bytes("\377"), 1), ROPE_SEARCH_NONE);
    count = 9;
    IS(rope_search_replace_listed(s, 0, 1, bytes("\377"), 1, &count), ROPE_SEARCH_NONE);
    IS(count, 0);
    IS(rope_search_set_text(s, bytes("\xff"), 1), ROPE_SEARCH_UTF8);
    IS(rope_search_set_text(s, bytes("12345678901234567"), 17), ROPE_SEARCH_SIZE);
    IS(rope_search_append_part(s, bytes("a"), 1), ROPE_SEARCH_NONE);
    IS(rope_search_end_text(s), ROPE_SEARCH_NONE);
    IS(rope_search_cancel_text(s), ROPE_SEARCH_DONE);
    IS(rope_search_begin_text(s), ROPE_SEARCH_DONE);
    IS(rope_search_append_part(s, bytes("\360\237"), 2), ROPE_SEARCH_DONE);
    IS(rope_search_append_part(s, bytes(""), 0), ROPE_SEARCH_DONE);
    IS(rope_search_append_part(s, bytes("\220\270"), 2), ROPE_SEARCH_DONE);
    IS(rope_search_text_len(s), 0);
    IS(rope_search_append_part(s, bytes("1234567890123"), 13), ROPE_SEARCH_SIZE);
    IS(rope_search_end_text(s), ROPE_SEARCH_SIZE);
    IS(rope_search_end_text(s), ROPE_SEARCH_NONE);
    IS(rope_search_begin_text(s), ROPE_SEARCH_DONE);
    IS(rope_search_append_part(s, bytes("\377"), 1), ROPE_SEARCH_UTF8);
    IS(rope_search_cancel_text(s), ROPE_SEARCH_DONE);
    IS(rope_search_append_part(s, bytes("a"), 1), ROPE_SEARCH_NONE);
    IS(rope_search_set_pattern(s, bytes("*"), 1), ROPE_SEARCH_PATTERN);
    IS(rope_search_set_pattern(s, bytes("a{65535}{65535}"), 15), ROPE_SEARCH_LIMIT);
    IS(rope_search_edit(s, at(0, 1), at(0, 1), bytes("a"), 1), ROPE_SEARCH_RANGE);
    IS(rope_search_text_len(s), 0);
    IS(rope_search_text_lines(s), 1);
    IS(rope_search_rows(s), 0);
    IS(rope_search_off(s), ROPE_SEARCH_DONE);
}

/* The groups of matches in the text "hi ho\nhi ha" under another pattern; the first pattern is restored. */
static void groups(rope_search *s)
{
    rope_search_group of[11];
    rope_search_counts before = rope_search_counted(s), after;
    IS(rope_search_off(s), ROPE_SEARCH_DONE);
    memset(of, 0x5a, sizeof of);
    IS(rope_search_groups_at(s, 0, 0, of, 10), ROPE_SEARCH_NONE);
    IS(rope_search_set_pattern(s, bytes("h(i)|(h)(.)"), 11), ROPE_SEARCH_DONE);
    IS(rope_search_groups_at(s, 2, 0, of, 10), ROPE_SEARCH_RANGE);
    IS(rope_search_groups_at(s, 1, 2, of, 10), ROPE_SEARCH_RANGE);
    IS(rope_search_groups_at(s, 1, SIZE_MAX, of, 10), ROPE_SEARCH_RANGE);
    IS(of[0].line, (size_t)0x5a5a5a5a5a5a5a5a);
    IS(rope_search_groups_at(s, 1, 1, of, 3), ROPE_SEARCH_DONE);
    IS(of[0].found && of[0].line == 1 && of[0].start == 3 && of[0].stop == 5, 1);
    IS(!of[1].found && of[1].line == 1 && of[1].start == 0 && of[1].stop == 0, 1);
    IS(of[2].found && of[2].line == 1 && of[2].start == 3 && of[2].stop == 4, 1);
    IS(of[3].line, (size_t)0x5a5a5a5a5a5a5a5a);
    IS(rope_search_groups_at(s, 0, 0, of, 11), ROPE_SEARCH_DONE);
    IS(of[1].found && of[1].line == 0 && of[1].start == 1 && of[1].stop == 2, 1);
    IS(of[3].found || of[9].found, 0);
    IS(of[10].line, (size_t)0x5a5a5a5a5a5a5a5a);
    IS(rope_search_groups_at(s, 0, 0, of, 0), ROPE_SEARCH_DONE);
    after = rope_search_counted(s);
    IS(after.rows - before.rows, 2 + 5);
    IS(after.wholes - before.wholes, 0);
    IS(rope_search_count_matches(s, 0, 2), 4);
    IS(rope_search_set_pattern(s, bytes("h"), 1), ROPE_SEARCH_DONE);
}

/* Look-ups of the matches of "h" in the text "hi ho\nhi ha". */
static void listed(rope_search *s)
{
    rope_search_listed match;
    size_t index = 7, count = 7;
    memset(&match, 0x5a, sizeof match);
    IS(rope_search_listed_from(s, at(1, 4), &match), false);
    IS(rope_search_listed_before(s, at(0, 0), &match), false);
    IS(match.line, (size_t)0x5a5a5a5a5a5a5a5a);
    IS(rope_search_listed_from(s, at(0, 1), &match), true);
    IS(match.line == 0 && match.number == 1 && match.start == 3 && match.stop == 4, 1);
    IS(rope_search_listed_before(s, at(9, 9), &match), true);
    IS(match.line == 1 && match.number == 1 && match.start == 3 && match.stop == 4, 1);
    IS(rope_search_list_index(s, 1, 2, &index, &count), false);
    IS(index == 7 && count == 7, 1);
    IS(rope_search_list_index(s, 1, 1, &index, &count), true);
    IS(index == 3 && count == 4, 1);
}

static void pattern_errors(void)
{
    rope_search_pattern_reason told;
    told.reason = 77;
    told.place = 77;
    IS(rope_search_pattern_error(bytes("\377("), 2, &told), ROPE_SEARCH_UTF8);
    IS(told.reason == 77 && told.place == 77, 1);
    IS(rope_search_pattern_error(bytes("a(b"), 3, &told), ROPE_SEARCH_DONE);
    IS(told.reason == ROPE_SEARCH_OPEN_GROUP && told.place == 3, 1);
    IS(rope_search_pattern_error(bytes("a[b-a]"), 6, &told), ROPE_SEARCH_DONE);
    IS(told.reason == ROPE_SEARCH_RANGE_ORDER && told.place == 4, 1);
    IS(rope_search_pattern_error(bytes("a{65535}{65535}"), 15, &told), ROPE_SEARCH_DONE);
    IS(told.reason == ROPE_SEARCH_NO_REASON && told.place == 0, 1);
    IS(rope_search_pattern_error(bytes("a|*"), 3, &told), ROPE_SEARCH_DONE);
    IS(told.reason == ROPE_SEARCH_NOTHING_TO_REPEAT && told.place == 2, 1);
    IS(rope_search_pattern_error(bytes(""), 0, &told), ROPE_SEARCH_DONE);
    IS(told.reason == ROPE_SEARCH_NO_REASON && told.place == 0, 1);
}

static void escapes(void)
{
    uint8_t out[8];
    size_t len = 77;
    memset(out, 0x5a, sizeof out);
    IS(rope_search_escape(bytes("\377"), 1, out, sizeof out, &len), ROPE_SEARCH_UTF8);
    IS(len == 77 && out[0] == 0x5a, 1);
    IS(rope_search_escape(bytes("a.b"), 3, out, 3, &len), ROPE_SEARCH_DONE);
    IS(len == 4 && out[0] == 0x5a, 1);
    IS(rope_search_escape(bytes("a.b"), 3, out, 4, &len), ROPE_SEARCH_DONE);
    IS(len == 4 && memcmp(out, "a\\.bZ", 5) == 0, 1);
    IS(rope_search_escape(bytes(""), 0, out, 0, &len), ROPE_SEARCH_DONE);
    IS(len, 0);
}

static void a_session(rope_search *s)
{
    rope_search_span spans[4];
    rope_search_text_match found[3];
    rope_search_match match;
    rope_search_stretch changed;
    uint8_t text[16];
    size_t number = 9;
    IS(rope_search_set_text(s, bytes("hi ho\nhi ha"), 11), ROPE_SEARCH_DONE);
    IS(rope_search_set_pattern(s, bytes("h"), 1), ROPE_SEARCH_DONE);
    IS(rope_search_rows(s), 2);
    IS(rope_search_count_matches(s, 0, SIZE_MAX), 4);
    IS(rope_search_count_matches(s, 1, 9), 2);
    IS(rope_search_count_matches(s, 2, 1), 0);
    memset(spans, 0x5a, sizeof spans);
    IS(rope_search_copy_matches(s, 0, 2, spans, 3), 4);
    is_span(__LINE__, spans[0], 0, 0, 1);
    is_span(__LINE__, spans[1], 0, 3, 4);
    is_span(__LINE__, spans[2], 1, 0, 1);
    IS(spans[3].line, (size_t)0x5a5a5a5a5a5a5a5a);
    groups(s);
    listed(s);
    IS(rope_search_edit(s, at(0, 6), at(0, 6), bytes("h"), 1), ROPE_SEARCH_RANGE);
    IS(rope_search_edit(s, at(1, 0), at(0, 0), bytes("h"), 1), ROPE_SEARCH_RANGE);
    IS(rope_search_edit(s, at(0, 5), at(0, 5), bytes("h"), 1), ROPE_SEARCH_DONE);
    IS(rope_search_next(s, at(0, 4), &match), ROPE_SEARCH_DONE);
    IS(match.found && match.start.line == 0 && match.start.column == 5 && match.stop.column == 6, 1);
    memset(found, 0x5a, sizeof found);
    IS(rope_search_next_all(s, at(0, 4), found, 2, &number), ROPE_SEARCH_DONE);
    IS(number, 2);
    IS(found[0].start.line == 0 && found[0].start.column == 5 && found[0].stop.column == 6, 1);
    IS(found[1].start.line == 1 && found[1].start.column == 0 && found[1].stop.column == 1, 1);
    IS(found[2].start.line, (size_t)0x5a5a5a5a5a5a5a5a);
    IS(rope_search_next_all(s, at(0, 7), found, 3, &number), ROPE_SEARCH_RANGE);
    IS(number, 0);
    changed = rope_search_changed(s);
    IS(changed.first == 0 && changed.removed == 1 && changed.added == 1, 1);
    IS(rope_search_copy_text(s, 3, 12, text, sizeof text), 1);
    IS(memcmp(text, "hoh\nhi ha", 9), 0);
    IS(rope_search_copy_text(s, 3, 13, text, sizeof text), 0);
    IS(rope_search_copy_text(s, 0, 12, text, 11), 0);
    IS(rope_search_copy_text(s, 12, 12, text, 0), 1);
    IS(rope_search_fork(s, &number), ROPE_SEARCH_DONE);
    IS(number, 1);
    IS(rope_search_replace(s, bytes("J"), 1, &number), ROPE_SEARCH_DONE);
    IS(number, 5);
    IS(rope_search_count_matches(s, 0, 2), 0);
    IS(rope_search_undo(s), ROPE_SEARCH_DONE);
    IS(rope_search_count_matches(s, 0, 2), 5);
    IS(rope_search_redo(s), ROPE_SEARCH_DONE);
    IS(rope_search_choose(s, 1), ROPE_SEARCH_DONE);
    IS(rope_search_rows(s), 0);
    IS(rope_search_copy_text(s, 0, 12, text, sizeof text), 1);
    IS(memcmp(text, "hi hoh\nhi ha", 12), 0);
}

static rope_search_text_edit edit_at(rope_search_position from, rope_search_position to, size_t len)
{
    rope_search_text_edit edit;
    edit.from = from;
    edit.to = to;
    edit.len = len;
    return edit;
}

/* Several edits as one, in the text "hi ho\nhi ha". */
static void several(rope_search *s)
{
    uint8_t text[16];
    rope_search_stretch changed;
    rope_search_text_edit edits[3];
    edits[0] = edit_at(at(0, 0), at(0, 2), 1);
    edits[1] = edit_at(at(0, 2), at(0, 2), 2);
    edits[2] = edit_at(at(1, 0), at(1, 3), 1);
    IS(rope_search_set_text(s, bytes("hi ho\nhi ha"), 11), ROPE_SEARCH_DONE);
    IS(rope_search_edit_all(s, edits, 3, bytes("H\n-h"), 3), ROPE_SEARCH_RANGE);
    IS(rope_search_edit_all(s, edits, 3, bytes("H\n-h!"), 5), ROPE_SEARCH_RANGE);
    IS(rope_search_edit_all(s, edits, 3, bytes("H\n\377h"), 4), ROPE_SEARCH_UTF8);
    IS(rope_search_edit_all(s, edits + 1, 2, bytes("\n-h"), 3), ROPE_SEARCH_DONE);
    IS(rope_search_undo(s), ROPE_SEARCH_DONE);
    IS(rope_search_edit_all(s, edits, 3, bytes("H\n-h"), 4), ROPE_SEARCH_DONE);
    IS(rope_search_text_len(s), 10);
    IS(rope_search_copy_text(s, 0, 10, text, sizeof text), 1);
    IS(memcmp(text, "H\n- ho\nhha", 10), 0);
    changed = rope_search_changed(s);
    IS(changed.first == 0 && changed.removed == 2 && changed.added == 3, 1);
    IS(rope_search_count_matches(s, 0, 9), 3);
    IS(rope_search_undo(s), ROPE_SEARCH_DONE);
    IS(rope_search_text_len(s), 11);
    IS(rope_search_count_matches(s, 0, 9), 4);
    edits[1] = edit_at(at(0, 1), at(0, 2), 0);
    IS(rope_search_edit_all(s, edits, 2, bytes("H"), 1), ROPE_SEARCH_RANGE);
    edits[1] = edit_at(at(0, 2), at(0, 2), 8);
    IS(rope_search_edit_all(s, edits, 2, bytes("H12345678"), 9), ROPE_SEARCH_SIZE);
    IS(rope_search_can_undo(s), 0);
    IS(rope_search_edit_all(s, edits, 0, bytes(""), 0), ROPE_SEARCH_DONE);
    IS(rope_search_can_undo(s), 1);
    IS(rope_search_text_len(s), 11);
}

/* Matches in the text "ab abc\rab" replaced one by one, and undone at the end. */
static void matches(rope_search *s)
{
    rope_search_text_change change;
    uint8_t text[32];
    size_t count = 9;
    IS(rope_search_set_text(s, bytes("ab abc\rab"), 9), ROPE_SEARCH_DONE);
    IS(rope_search_set_pattern(s, bytes("(a)(b)(c)?$"), 11), ROPE_SEARCH_DONE);
    IS(rope_search_replace_match(s, 0, 1, bytes("\377"), 1), ROPE_SEARCH_RANGE);
    IS(rope_search_replace_match(s, 2, 0, bytes("x"), 1), ROPE_SEARCH_RANGE);
    IS(rope_search_replace_match(s, SIZE_MAX, SIZE_MAX, bytes("x"), 1), ROPE_SEARCH_RANGE);
    IS(rope_search_replace_match(s, 0, 0, bytes("\377"), 1), ROPE_SEARCH_UTF8);
    IS(rope_search_can_undo(s), 0);
    IS(rope_search_replace_match(s, 0, 0, bytes("$3$2$1$4"), 8), ROPE_SEARCH_DONE);
    IS(rope_search_replace_match(s, 1, 0, bytes("<$3$$>"), 6), ROPE_SEARCH_DONE);
    IS(rope_search_copy_text(s, 0, 10, text, sizeof text), 1);
    IS(memcmp(text, "ab cba\r<$>", 10), 0);
    IS(rope_search_text_changes(s, &change, 1), 1);
    IS(change.old_start == 7 && change.old_end == 9 && change.new_start == 7 && change.new_end == 10, 1);
    IS(rope_search_undo_steps(s), 2);
    IS(rope_search_undo(s), ROPE_SEARCH_DONE);
    IS(rope_search_undo(s), ROPE_SEARCH_DONE);
    IS(rope_search_count_matches(s, 0, 2), 2);
    IS(rope_search_replace_listed(s, 0, 2, bytes("\377"), 1, &count), ROPE_SEARCH_UTF8);
    IS(count, 0);
    IS(rope_search_replace_listed(s, 1, SIZE_MAX, bytes("$2$1"), 4, &count), ROPE_SEARCH_DONE);
    IS(count, 1);
    IS(rope_search_replace_listed(s, 1, 1, bytes("x"), 1, &count), ROPE_SEARCH_DONE);
    IS(count, 0);
    IS(rope_search_replace_listed(s, 0, 2, bytes("<$3>"), 4, &count), ROPE_SEARCH_DONE);
    IS(count, 1);
    IS(rope_search_copy_text(s, 0, 9, text, sizeof text), 1);
    IS(memcmp(text, "ab <c>\rba", 9), 0);
    for (count = 0; count < 3; count++)
        IS(rope_search_undo(s), ROPE_SEARCH_DONE);
    IS(rope_search_count_matches(s, 0, 2), 2);
    IS(rope_search_off(s), ROPE_SEARCH_DONE);
}

/* A pending pattern for the text "ab\nb\nab", which has another pattern. */
static void pending(rope_search *s)
{
    rope_search_span spans[2] = {{7, 7, 7}, {7, 7, 7}};
    rope_search_stretch changed;
    size_t lines = 77, count = 77;
    bool done = true;
    IS(rope_search_set_text(s, bytes("ab\nb\nab"), 7), ROPE_SEARCH_DONE);
    IS(rope_search_set_pattern(s, bytes("a"), 1), ROPE_SEARCH_DONE);
    IS(rope_search_pending(s, &lines), 0);
    IS(lines, 77);
    IS(rope_search_advance(s, 9, &done), ROPE_SEARCH_NONE);
    IS(done, 0);
    IS(rope_search_count_pending(s, 0, 9, &count), ROPE_SEARCH_NONE);
    IS(count, 0);
    IS(rope_search_copy_pending(s, 0, 9, spans, 2, &count), ROPE_SEARCH_NONE);
    IS(rope_search_window(s, 0, 9, spans, 2, &count), ROPE_SEARCH_NONE);
    IS(rope_search_cancel(s), ROPE_SEARCH_DONE);
    IS(rope_search_begin_pattern(s, bytes("("), 1), ROPE_SEARCH_PATTERN);
    IS(rope_search_begin_pattern(s, bytes("\377"), 1), ROPE_SEARCH_UTF8);
    IS(rope_search_begin_pattern(s, bytes("b"), 1), ROPE_SEARCH_DONE);
    IS(rope_search_begin_pattern(s, bytes("("), 1), ROPE_SEARCH_PATTERN);
    IS(rope_search_set_pattern(s, bytes("("), 1), ROPE_SEARCH_PATTERN);
    IS(rope_search_pending(s, &lines), 1);
    IS(lines, 0);
    IS(rope_search_advance(s, 1, &done), ROPE_SEARCH_DONE);
    IS(done, 0);
    IS(rope_search_window(s, 0, 2, spans, 1, &count), ROPE_SEARCH_DONE);
    IS(count, 2);
    IS(spans[0].line == 0 && spans[0].start == 1 && spans[1].line == 7, 1);
    IS(rope_search_window(s, 2, SIZE_MAX, spans, 2, &count), ROPE_SEARCH_DONE);
    IS(count == 1 && spans[0].line == 2 && spans[1].line == 7, 1);
    IS(rope_search_window(s, 2, 1, spans, 2, &count), ROPE_SEARCH_DONE);
    IS(count, 0);
    IS(rope_search_count_matches(s, 0, 9), 2);
    IS(rope_search_edit(s, at(1, 0), at(1, 0), bytes("b"), 1), ROPE_SEARCH_DONE);
    IS(rope_search_pending(s, &lines) && lines == 1, 1);
    IS(rope_search_advance(s, 1, &done), ROPE_SEARCH_DONE);
    IS(rope_search_copy_pending(s, 1, 9, spans, 1, &count), ROPE_SEARCH_DONE);
    IS(count == 2 && spans[0].line == 1 && spans[0].stop == 1 && spans[1].line == 7, 1);
    IS(rope_search_advance(s, SIZE_MAX, &done), ROPE_SEARCH_DONE);
    IS(done, 1);
    IS(rope_search_pending(s, &lines), 0);
    IS(rope_search_count_matches(s, 0, 9), 4);
    changed = rope_search_changed(s);
    IS(changed.first == 0 && changed.removed == 3 && changed.added == 3, 1);
    IS(rope_search_begin_pattern(s, bytes("a"), 1), ROPE_SEARCH_DONE);
    IS(rope_search_cancel(s), ROPE_SEARCH_DONE);
    IS(rope_search_pending(s, &lines), 0);
    IS(rope_search_count_matches(s, 0, 9), 4);
    IS(rope_search_undo(s), ROPE_SEARCH_DONE);
    IS(rope_search_off(s), ROPE_SEARCH_DONE);
}

/* Lines of the text "hi ho\r\nh\303\251 \360\237\220\270", and edits of it by bytes, under a pattern, undone at the end. */
static void lines(rope_search *s)
{
    rope_search_span spans[3];
    rope_search_position position = at(7, 7);
    uint8_t text[16];
    size_t len = 77;
    IS(rope_search_version(), ROPE_SEARCH_VERSION);
    IS(rope_search_set_text(s, bytes("hi ho\r\nh\303\251 \360\237\220\270"), 15), ROPE_SEARCH_DONE);
    IS(rope_search_set_pattern(s, bytes("\360\237\220\270|o"), 6), ROPE_SEARCH_DONE);
    IS(rope_search_clamp(s, 8, 0, 99, &position), ROPE_SEARCH_DONE);
    IS(position.line == 0 && position.column == 5, 1);
    IS(rope_search_clamp(s, 16, 1, 4, &position), ROPE_SEARCH_DONE);
    IS(position.line == 1 && position.column == 3, 1);
    IS(rope_search_clamp(s, 32, 2, 0, &position), ROPE_SEARCH_DONE);
    IS(position.line == 1 && position.column == 5, 1);
    IS(rope_search_clamp(s, 24, 0, 0, &position), ROPE_SEARCH_RANGE);
    IS(position.line == 1 && position.column == 5, 1);
    IS(rope_search_line_len(s, 1, 8, &len), ROPE_SEARCH_DONE);
    IS(len, 8);
    IS(rope_search_line_len(s, 1, 16, &len), ROPE_SEARCH_DONE);
    IS(len, 5);
    IS(rope_search_line_len(s, 2, 16, &len), ROPE_SEARCH_RANGE);
    IS(rope_search_line_len(s, 0, 0, &len), ROPE_SEARCH_RANGE);
    IS(len, 5);
    memset(text, 0x5a, sizeof text);
    IS(rope_search_copy_line(s, 0, text, 4), 0);
    IS(rope_search_copy_line(s, 2, text, sizeof text), 0);
    IS(text[0], 0x5a);
    IS(rope_search_copy_line(s, 0, text, 5), 1);
    IS(memcmp(text, "hi hoZ", 6), 0);
    memset(spans, 0x5a, sizeof spans);
    IS(rope_search_copy_matches_in(s, 24, 0, SIZE_MAX, spans, 3), 0);
    IS(rope_search_copy_matches_in(s, 8, 2, 1, spans, 3), 0);
    IS(rope_search_copy_matches_in(s, 8, SIZE_MAX, SIZE_MAX, spans, 3), 0);
    IS(spans[0].line, (size_t)0x5a5a5a5a5a5a5a5a);
    IS(rope_search_copy_matches_in(s, 8, 0, SIZE_MAX, spans, 2), 2);
    is_span(__LINE__, spans[0], 0, 4, 5);
    is_span(__LINE__, spans[1], 1, 4, 8);
    IS(spans[2].line, (size_t)0x5a5a5a5a5a5a5a5a);
    IS(rope_search_copy_matches_in(s, 32, 1, 2, spans, 1), 1);
    is_span(__LINE__, spans[0], 1, 3, 4);
    IS(rope_search_edit_bytes(s, 6, 7, bytes(""), 0), ROPE_SEARCH_RANGE);
    IS(rope_search_edit_bytes(s, 9, 10, bytes(""), 0), ROPE_SEARCH_RANGE);
    IS(rope_search_edit_bytes(s, 8, 7, bytes(""), 0), ROPE_SEARCH_RANGE);
    IS(rope_search_edit_bytes(s, 0, SIZE_MAX, bytes(""), 0), ROPE_SEARCH_RANGE);
    IS(rope_search_edit_bytes(s, 0, 1, bytes("\377"), 1), ROPE_SEARCH_UTF8);
    IS(rope_search_can_undo(s), 0);
    IS(rope_search_edit_bytes(s, 5, 7, bytes(" "), 1), ROPE_SEARCH_DONE);
    IS(rope_search_copy_line(s, 0, text, sizeof text), 1);
    IS(memcmp(text, "hi ho h\303\251 \360\237\220\270", 14), 0);
    IS(rope_search_undo(s), ROPE_SEARCH_DONE);
    IS(rope_search_text_lines(s), 2);
    IS(rope_search_off(s), ROPE_SEARCH_DONE);
}

static void look_ups(rope_search *s)
{
    size_t byte = 77;
    rope_search_position position = at(5, 5);
    rope_search_text_change changes[2] = {{0, 0, 0, 0}, {0, 0, 0, 0}};
    IS(rope_search_buffers(s), 2);
    IS(rope_search_chosen(s), 1);
    IS(rope_search_choose(s, 0), ROPE_SEARCH_DONE);
    IS(rope_search_chosen(s), 0);
    IS(rope_search_can_undo(s), 1);
    IS(rope_search_can_redo(s), 0);
    IS(rope_search_undo(s), ROPE_SEARCH_DONE);
    IS(rope_search_can_redo(s), 1);
    IS(rope_search_byte_of(s, at(0, 7), &byte), ROPE_SEARCH_RANGE);
    IS(byte, 77);
    IS(rope_search_byte_of(s, at(1, 2), &byte), ROPE_SEARCH_DONE);
    IS(byte, 9);
    IS(rope_search_position_of(s, 13, &position), ROPE_SEARCH_RANGE);
    IS(position.line == 5 && position.column == 5, 1);
    IS(rope_search_position_of(s, 12, &position), ROPE_SEARCH_DONE);
    IS(position.line == 1 && position.column == 5, 1);
    IS(rope_search_column_in(s, 8, at(1, 5), &byte), ROPE_SEARCH_DONE);
    IS(byte, 5);
    IS(rope_search_column_in(s, 24, at(1, 5), &byte), ROPE_SEARCH_RANGE);
    IS(rope_search_column_in(s, 32, at(1, 6), &byte), ROPE_SEARCH_RANGE);
    IS(byte, 5);
    IS(rope_search_position_in(s, 32, 1, 2, &position), ROPE_SEARCH_DONE);
    IS(position.line == 1 && position.column == 2, 1);
    IS(rope_search_position_in(s, 8, 1, SIZE_MAX, &position), ROPE_SEARCH_RANGE);
    IS(position.line == 1 && position.column == 2, 1);
    IS(rope_search_undo_steps(s) > 0, 1);
    IS(rope_search_redo_steps(s), 1);
    IS(rope_search_text_changes(s, changes, 1), 5);
    IS(changes[0].old_end > 0 && changes[1].old_end == 0, 1);
    IS(rope_search_text_changes(s, changes, 2), 5);
    IS(changes[1].old_start >= changes[0].old_end && changes[1].old_end > changes[1].old_start, 1);
    IS(rope_search_join(s, rope_search_undo_steps(s) + 1), ROPE_SEARCH_NONE);
    IS(rope_search_join(s, 1), ROPE_SEARCH_DONE);
    IS(rope_search_undo_steps(s) > 0, 1);
    IS(rope_search_join(s, rope_search_undo_steps(s)), ROPE_SEARCH_DONE);
    IS(rope_search_undo_steps(s), 1);
    IS(rope_search_redo_steps(s), 1);
    IS(rope_search_text_changes(s, changes, 2), 5);
    IS(rope_search_keep(s, 1), ROPE_SEARCH_DONE);
    IS(rope_search_undo_steps(s) <= 1, 1);
    IS(rope_search_redo_steps(s), 0);
    IS(rope_search_text_changes(s, changes, 2), 5);
    IS(rope_search_forget(s), ROPE_SEARCH_DONE);
    IS(rope_search_can_undo(s), 0);
    IS(rope_search_can_redo(s), 0);
    IS(rope_search_text_len(s), 12);
    IS(rope_search_count_matches(s, 0, 2), 5);
    IS(rope_search_undo(s), ROPE_SEARCH_NONE);
    IS(rope_search_choose(s, 1), ROPE_SEARCH_DONE);
}

int main(void)
{
    rope_search s = {0}, moved;
    rope_search_counts counts;
    IS(rope_search_undo(&s), ROPE_SEARCH_CLOSED);
    rope_search_close(&s);
    IS(rope_search_open((size_t)1 << 63, &s), ROPE_SEARCH_SIZE);
    IS(rope_search_open(16, &s), ROPE_SEARCH_DONE);
    refusals(&s);
    pattern_errors();
    escapes();
    a_session(&s);
    look_ups(&s);
    counts = rope_search_counted(&s);
    IS(counts.rows <= 2 + 2 + 5 + 2 + 1 + 2 + 2 + 2 + 2, 1);
    IS(counts.wholes, 3);
    moved = s;
    memset(&s, 0, sizeof s);
    IS(rope_search_text_len(&moved), 12);
    IS(rope_search_open(1 << 20, &moved), ROPE_SEARCH_DONE);
    IS(rope_search_text_len(&moved), 0);
    rope_search_close(&moved);
    rope_search_close(&moved);
    IS(rope_search_text_len(&moved), 0);
    IS(rope_search_redo(&moved), ROPE_SEARCH_CLOSED);
    IS(rope_search_open(16, &s), ROPE_SEARCH_DONE);
    IS(rope_search_set_pattern(&s, bytes("h"), 1), ROPE_SEARCH_DONE);
    several(&s);
    lines(&s);
    matches(&s);
    pending(&s);
    rope_search_close(&s);
    return wrong != 0;
}
