/*
 * A regular expression kept live over a text that is edited, undone and forked.
 *
 * A session has buffers, one of which is chosen. A buffer has a text with its history, and may have
 * a pattern. With a pattern it has a report: a row for each line of the text, with the matches in
 * that line alone. The report is always current: an edit recomputes the rows of the lines that it
 * touches. docs/protocol.md of the repository says what each command does, docs/patterns.md has the
 * syntax of patterns. Every call below is proved to do what it says; docs/proved.md names the
 * contracts and their limits.
 *
 * Lines and columns count from 0. A column counts UTF-16 code units from the start of its line. A
 * text is UTF-8; LF, CR and CR LF end a line, and nothing else does.
 *
 *     rope_search session = {0};
 *     if (rope_search_open(1 << 30, &session) != ROPE_SEARCH_DONE) ...
 *     ...
 *     rope_search_close(&session);
 *
 * What a caller must ensure:
 *
 * - A `rope_search` is zeroed before its first use, and then changed only by these calls. It may be
 *   moved; if an open one is copied, only one of the copies is used.
 * - A session stays on the thread that opened it. Several threads may each have sessions. No call
 *   is made from a signal handler, or from the forked child of a process with threads.
 * - A pointer is never null, even if the length passed with it is 0, and is aligned for its type. A
 *   length is at most PTRDIFF_MAX bytes. While a call runs, nothing else changes its arguments, and
 *   the memory that it writes to overlaps no other argument.
 * - `malloc`, `realloc` and `free` belong to one allocator, which aligns to 16 bytes.
 * - A calling thread has a stack of 128 kB; the calls are tested with that size.
 *
 * A call of a closed session is harmless: it returns ROPE_SEARCH_CLOSED, 0 or false, and writes
 * nothing. No call ends the program: if memory is refused, the call returns MEMORY, and nothing has
 * changed but for a text that arrives in parts. A system that overcommits memory may end the
 * program instead of refusing memory. A running call can't be stopped.
 *
 * Complexity, for a text of n bytes; O(log n) is some microseconds:
 *
 * - set_text and set_pattern are linear in their argument. With a pattern they search the text line
 *   by line: linear in the text, times the pattern's weight.
 * - begin_pattern is linear in its argument. advance and window search lines that aren't done, at
 *   most the number requested: linear in these lines, times the pattern's weight. The last slice of
 *   advance also drops the old report.
 * - append_part is linear in its argument, end_text in the text that arrived; it costs as much as
 *   set_text under a pattern. begin_text and cancel_text are linear in the text that they drop.
 * - edit, edit_bytes and edit_all are O(log n) for each edit, and linear in the inserted text. With
 *   a pattern they search the lines that they touch, and move the rows after these if the number of
 *   lines changes. undo and redo do the same for the text that they restore. But the rows that the
 *   last replace or replace_listed took out of the report are kept, if the number of lines stayed
 *   and they take less memory than the text: then its undo puts them back and searches no line.
 *   Under the same conditions it keeps those of the newer text for redo. Without a pattern both are
 *   O(1).
 * - replace searches the whole text once, and is linear in the matches and their replacements. next
 *   searches up to the match that it finds. next_all searches the whole text once; it is O(log n)
 *   for each match that it copies, and until it returns it takes 16 bytes for each match of the
 *   text. groups_at searches one line. replace_match costs as
 *   much as edit, and with a group in the template as much as groups_at too. replace_listed is
 *   linear in the rows from `from` up to `to`, in their matches and in the replacements, and O(log
 *   n) for each row with a match; with a group it also searches each line with a match; with many
 *   matches it is linear in the text.
 * - count_matches, copy_matches and copy_matches_in are linear in the rows from `from` up to `to`
 *   and in their matches; copy_matches_in is also O(log n) for each row with a match and each
 *   match. If `from` is not below `to`, there are no such rows.
 * - copy_text and copy_line are O(log n), and linear in what they copy.
 * - byte_of, position_of, column_in, position_in, clamp and line_len are O(log n).
 * - fork and choose are O(1), forget is linear in the texts that it drops, off and close in what
 *   the buffers hold, pattern_error in the pattern, escape in the text; all others are O(1), or say their cost below.
 *
 * Memory: a report takes 16 bytes for each row and 16 for each match, and some more for a row with
 * several matches. A history holds each text since set_text or forget: some 4 kB for a letter in a
 * random line of 20 MB, because a text shares the rest with the text before it. Buffers stay until
 * close.
 */
#ifndef ROPE_SEARCH_H
#define ROPE_SEARCH_H

#include <stdbool.h>
#include <stddef.h>
#include <stdint.h>

#ifdef __cplusplus
extern "C" {
#endif

/*
 * The version of this header: 1,000,000 times its first number, 1,000 times its second, and its
 * third. Before 1.0 a program runs with each library that has the first two numbers it was compiled
 * for.
 */
#define ROPE_SEARCH_VERSION 2000 /* 0.2.0 */

/*
 * What a call returns that may be refused: that it is done, or why it is refused. If several
 * reasons apply, it is the one with the least number, unless memory runs out before that is found.
 * After a refusal the session is as it was, except for a text that arrives in parts.
 */
enum {
    ROPE_SEARCH_DONE = 0,
    ROPE_SEARCH_NONE = 1,    /* no such buffer or pattern, nothing to undo or redo, no text begun */
    ROPE_SEARCH_RANGE = 2,   /* a position is not in the text, or positions are not in order */
    ROPE_SEARCH_UTF8 = 3,    /* the bytes aren't UTF-8 */
    ROPE_SEARCH_PATTERN = 4, /* the bytes are not a pattern */
    ROPE_SEARCH_LIMIT = 5,   /* the pattern has over 65,536 bytes, or too great a weight */
    ROPE_SEARCH_SIZE = 6,    /* the text, or the template, would have more bytes than the limit */
    ROPE_SEARCH_MEMORY = 7,  /* memory was refused */
    ROPE_SEARCH_CLOSED = 8   /* the session isn't open */
};

/* A session, open or closed; all zeros is a closed one. */
typedef struct {
    void *at;
    bool is_open;
} rope_search;

/* What a session counted: the rows that it computed, and the searches of a whole text. */
typedef struct {
    uint64_t rows, wholes;
} rope_search_counts;

/* A line, and a column in it. */
typedef struct {
    size_t line, column;
} rope_search_position;

/* A match in a whole text. If there is none, its positions mean nothing. */
typedef struct {
    bool found;
    rope_search_position start, stop;
} rope_search_match;

/* A match in a whole text, which may span lines: where it starts and where it ends. */
typedef struct {
    rope_search_position start, stop;
} rope_search_text_match;

/* A match in a line: the columns where it starts and where it ends. */
typedef struct {
    size_t line, start, stop;
} rope_search_span;

/*
 * A group of a match in a line: the columns where it starts and where it ends. Both are 0 if the
 * group is not part of the match.
 */
typedef struct {
    bool found;
    size_t line, start, stop;
} rope_search_group;

/*
 * A match of a report: its line, its number in the row of that line, from 0, and the columns where
 * it starts and where it ends.
 */
typedef struct {
    size_t line, number, start, stop;
} rope_search_listed;

/*
 * Why bytes are no pattern: one of the reasons below, and the offset in bytes of the first
 * character that can't follow the text before it, or the length if the bytes end too early.
 */
typedef struct {
    uint32_t reason;
    size_t place;
} rope_search_pattern_reason;

/*
 * One of several edits that are made as one: the text between two positions is replaced by `len`
 * bytes, which follow those of the preceding edits.
 */
typedef struct {
    rope_search_position from, to;
    size_t len;
} rope_search_text_edit;

/*
 * The rows of a report that were replaced: `removed` rows of the old report, from `first`, by
 * `added` rows of the new one. All rows before them are unchanged, and so are all rows after them,
 * which may have moved.
 */
typedef struct {
    size_t first, removed, added;
} rope_search_stretch;

/*
 * A range of the old text, in bytes, and the range of the new text that took its place. Either may
 * be empty.
 */
typedef struct {
    size_t old_start, old_end, new_start, new_end;
} rope_search_text_change;

/* Why bytes are no pattern. */
enum {
    ROPE_SEARCH_NO_REASON = 0,          /* they are one, or they are refused for another reason */
    ROPE_SEARCH_NESTING = 1,            /* the pattern is nested too deeply */
    ROPE_SEARCH_OPEN_GROUP = 2,         /* a group isn't closed */
    ROPE_SEARCH_NO_OPEN_GROUP = 3,      /* a parenthesis closes no group */
    ROPE_SEARCH_NOTHING_TO_REPEAT = 4,  /* there is nothing to repeat */
    ROPE_SEARCH_COUNT = 5,              /* a count isn't finished, or isn't one */
    ROPE_SEARCH_LARGE_COUNT = 6,        /* a count is above 65,535 */
    ROPE_SEARCH_COUNT_ORDER = 7,        /* the greatest number of a count is below the least one */
    ROPE_SEARCH_ESCAPE = 8,             /* an escape isn't finished, or isn't one */
    ROPE_SEARCH_SCALAR = 9,             /* the number of an escape is no character's */
    ROPE_SEARCH_OPEN_CLASS = 10,        /* a class isn't closed */
    ROPE_SEARCH_CLASS_ITEM = 11,        /* a class has no such item */
    ROPE_SEARCH_RANGE_ORDER = 12,       /* a range of characters runs backwards */
    ROPE_SEARCH_GROUP_HEAD = 13,        /* the head of a group isn't finished, or isn't one */
    ROPE_SEARCH_REPEATED_NAME = 14,     /* two groups have one name */
    ROPE_SEARCH_DOT = 15  /* `.` stands beside a line terminator that isn't an ASCII byte */
};

/* ---- opening and closing ---- */

/* The version of the library: its three numbers, as in ROPE_SEARCH_VERSION. */
uint32_t rope_search_version(void);

/*
 * Opens a session with one buffer, which has an empty text and no pattern. Texts have at most
 * `limit` bytes. The counts start at 0. A session that was open is closed first. Refused: SIZE, for
 * a limit above PTRDIFF_MAX, and MEMORY; a session that was open then stays open.
 */
uint32_t rope_search_open(size_t limit, rope_search *session);

/* Closes a session, if it is open. It may be opened again. */
void rope_search_close(rope_search *session);

/* ---- commands, on the chosen buffer ---- */

/* Sets the text, and empties the history; the pattern stays. Refused: UTF8, SIZE, MEMORY. */
uint32_t rope_search_set_text(rope_search *session, const uint8_t *text, size_t len);

/*
 * Replaces the text between two positions, as one step of the history. What could be redone is
 * dropped. Refused: RANGE, UTF8, SIZE, MEMORY.
 */
uint32_t rope_search_edit(rope_search *session, rope_search_position from, rope_search_position to,
                          const uint8_t *text, size_t len);

/*
 * Makes several edits as one step of the history, all or none. All positions are those of the text
 * before any of the edits. The edits are in ascending order; two may touch, and texts inserted at
 * one position stay in their order. `text` has the inserted texts one after the other, `len` bytes
 * in all. What could be redone is dropped, even if there is no edit. Refused: RANGE, also if an
 * edit starts before the end of the preceding one, or the edits don't have `len` bytes in all;
 * UTF8, SIZE, MEMORY.
 */
uint32_t rope_search_edit_all(rope_search *session, const rope_search_text_edit *edits,
                              size_t count, const uint8_t *text, size_t len);

/*
 * Replaces the bytes between two offsets, as `edit` does between the positions of these bytes.
 * Refused: RANGE, if an offset is past the text, inside a character, or between the CR and the LF
 * of a break, which no edit splits, or if the second is before the first; UTF8, SIZE, MEMORY.
 */
uint32_t rope_search_edit_bytes(rope_search *session, size_t from, size_t to, const uint8_t *text,
                                size_t len);

/* Go back one text, and forward one. Refused: NONE; with a pattern, MEMORY. */
uint32_t rope_search_undo(rope_search *session);
uint32_t rope_search_redo(rope_search *session);

/* Sets the pattern, and replaces any other. Refused: UTF8, PATTERN, LIMIT, MEMORY. */
uint32_t rope_search_set_pattern(rope_search *session, const uint8_t *pattern, size_t len);

/*
 * Writes where and why set_pattern refuses bytes with ROPE_SEARCH_PATTERN; the reason is 0 if they
 * are a pattern, or are refused with ROPE_SEARCH_LIMIT. It needs no session. Refused: UTF8, MEMORY;
 * `error` is then not changed.
 */
uint32_t rope_search_pattern_error(const uint8_t *pattern, size_t len,
                                   rope_search_pattern_reason *error);

/*
 * Escapes a text: copies a pattern that matches that text only to the front of `out`, if it fits, and
 * writes its number of bytes to `pattern_len`. Twice the bytes of the text are always enough. The
 * pattern is the text with a backslash before each of \ . + * ? ( ) | [ { ^ $. If it doesn't fit, `out`
 * is as it was. Needs no session. Refused: UTF8; LIMIT, if the pattern would have more than 65,536
 * bytes; MEMORY; `out` and `pattern_len` are then as they were.
 */
uint32_t rope_search_escape(const uint8_t *text, size_t len, uint8_t *out, size_t out_len,
                            size_t *pattern_len);

/* Drops the pattern, if there is one. */
uint32_t rope_search_off(rope_search *session);

/*
 * Finds the first match in the whole text that starts at or after a position. `match` is written
 * unless the session is closed; its `found` is false if there is none, or if the call is refused:
 * NONE, RANGE, MEMORY.
 */
uint32_t rope_search_next(rope_search *session, rope_search_position from,
                          rope_search_match *match);

/*
 * Copies the first matches in the whole text that start at or after a position to the front of
 * `out`, as many as fit. They are those that `replace` would replace: all are found one after the
 * other from the text's start, in one search, and may span lines. `next` searches from its position
 * instead, so it may find a match that overlaps one which starts before the position. `count` is
 * written unless the session is closed: how many were copied, or 0 if this is refused: NONE, RANGE,
 * MEMORY. The rest of `out` is not changed.
 */
uint32_t rope_search_next_all(rope_search *session, rope_search_position from,
                              rope_search_text_match *out, size_t out_len, size_t *count);

/*
 * Replaces all matches in the whole text by a template, as one step of the history. In a template,
 * `$` and a digit mean the text of that group, and `$$` means a dollar sign. `count` is written
 * unless the session is closed: the number of matches, or 0 if the call is refused: NONE, UTF8,
 * SIZE, MEMORY.
 */
uint32_t rope_search_replace(rope_search *session, const uint8_t *by, size_t len, size_t *count);

/*
 * Replaces one match of the report by a template, as `edit` does between the positions where it
 * starts and ends. The match is given by its line and its number in the row of that line, from 0.
 * Groups are those that the search of the line finds. Refused: NONE, RANGE, if there is no such
 * match; UTF8, SIZE, MEMORY.
 */
uint32_t rope_search_replace_match(rope_search *session, size_t line, size_t number,
                                   const uint8_t *by, size_t len);

/*
 * Replaces the matches that the report lists in the lines `from` up to, not including, `to` by a
 * template, as one step of the history: those that `copy_matches` copies and `count_matches` counts
 * for these rows. Lines past the last one have none. Groups are those that the search of the
 * match's line finds. `count` is written unless the session is closed: the number of matches, or 0
 * if the call is refused: NONE, UTF8, SIZE, MEMORY. If the template has no group but 0, no line is
 * searched again; otherwise each line with a match is searched once more, and counted.
 */
uint32_t rope_search_replace_listed(rope_search *session, size_t from, size_t to, const uint8_t *by,
                                    size_t len, size_t *count);

/*
 * Adds a buffer with the text of the chosen one, without its history and its pattern. The chosen
 * one stays chosen. `number` is written unless the session is closed: the number of the new buffer,
 * or 0 if the call is refused: MEMORY.
 */
uint32_t rope_search_fork(rope_search *session, size_t *number);

/* Chooses a buffer by its number, from 0. Refused: NONE. */
uint32_t rope_search_choose(rope_search *session, uint64_t number);

/*
 * Drops the history, as `keep` of 0 steps does: only the current text is left, and nothing can be
 * undone or redone. The pattern and the report stay. Never refused.
 */
uint32_t rope_search_forget(rope_search *session);

/*
 * Drops all undo steps but the last `steps`, and what could be redone. The text, the pattern, the
 * report and what `text_changes` returns stay. Never refused: the list of texts shrinks if memory
 * for a shorter one is granted, and otherwise keeps its size. Linear in the number of texts.
 */
uint32_t rope_search_keep(rope_search *session, size_t steps);

/*
 * Makes the last `steps` undo steps one: the `steps` - 1 texts directly before the current one
 * leave the history, and one undo goes back to the text before them. With 0 or 1 steps it changes
 * nothing. The text, what can be redone, the pattern, the report and what `text_changes` and
 * `changed` return stay. An undo or a redo of the joined step computes the rows that its combined
 * changes touch: bytes that stay through all of the changes are not touched, and ranges that touch
 * are merged. Linear in the changes of the steps, for each step, and in the texts that can be
 * redone. Refused: NONE, if there are fewer steps; with two steps or more, MEMORY.
 */
uint32_t rope_search_join(rope_search *session, size_t steps);

/* ---- buffers, and the chosen one's history ---- */

/* The number of buffers, and the index of the chosen one. */
size_t rope_search_buffers(rope_search *session);
size_t rope_search_chosen(rope_search *session);

/* Whether there is something to undo, and something to redo. */
bool rope_search_can_undo(rope_search *session);
bool rope_search_can_redo(rope_search *session);

/* The number of steps that can be undone, and of those that can be redone. */
size_t rope_search_undo_steps(rope_search *session);
size_t rope_search_redo_steps(rope_search *session);

/* ---- reading the chosen buffer ---- */

/* The number of bytes of the text, and of its lines, which is at least 1. */
size_t rope_search_text_len(rope_search *session);
size_t rope_search_text_lines(rope_search *session);

/*
 * Copies bytes `from` up to `to` of the text to the front of `out`, and returns whether it did: the
 * range must be one of the text, start and end at boundaries of characters, and fit. Otherwise
 * `out` is not changed.
 */
bool rope_search_copy_text(rope_search *session, size_t from, size_t to, uint8_t *out,
                           size_t out_len);

/*
 * Writes the offset in bytes of a position. Refused: RANGE, if it is not in the text: after the end
 * of its line, inside a surrogate pair, or past the last line; `byte` is then not changed.
 */
uint32_t rope_search_byte_of(rope_search *session, rope_search_position position, size_t *byte);

/*
 * Writes the position of an offset in bytes; between the CR and the LF of a break that is one past
 * the end of the line. Refused: RANGE, if the offset is past the text or inside a character;
 * `position` is then not changed.
 */
uint32_t rope_search_position_of(rope_search *session, size_t byte,
                                 rope_search_position *position);

/*
 * Write the column of a position in bytes (`bits` 8), UTF-16 code units (16) or characters (32),
 * and the position of a line and such a column, for servers that agree on `utf-8` or `utf-32` with
 * their editor. Refused: RANGE, if the position is not in the text, or `bits` is another number;
 * `column`, or `position`, is then not changed.
 */
uint32_t rope_search_column_in(rope_search *session, uint32_t bits, rope_search_position position,
                               size_t *column);
uint32_t rope_search_position_in(rope_search *session, uint32_t bits, size_t line, size_t column,
                                 rope_search_position *position);

/*
 * Writes the position nearest to a line and a column in the unit of `bits`, as above, which need
 * not be in the text: for a column past the end of the line its end, for one inside a character or
 * a surrogate pair the start of that, for a line past the last one the end of the text. Refused:
 * RANGE, if `bits` is another number; `position` is then not changed.
 */
uint32_t rope_search_clamp(rope_search *session, uint32_t bits, size_t line, size_t column,
                           rope_search_position *position);

/*
 * Writes the length of a line without its break, in the unit of `bits`. Refused: RANGE, if there is
 * no such line, or `bits` is another number; `len` is then not changed.
 */
uint32_t rope_search_line_len(rope_search *session, size_t line, uint32_t bits, size_t *len);

/*
 * Copies a line without its break to the front of `out`, and returns whether it did: there must be
 * such a line, and it must fit. Otherwise `out` is not changed.
 */
bool rope_search_copy_line(rope_search *session, size_t line, uint8_t *out, size_t out_len);

/* The number of rows of the report: one for each line of the text, or 0 without a pattern. */
size_t rope_search_rows(rope_search *session);

/* The number of matches in the rows `from` up to `to`; rows past the last one have none. */
size_t rope_search_count_matches(rope_search *session, size_t from, size_t to);

/*
 * Copies the matches of rows `from` up to `to` to the front of `out`, as many as fit, and returns
 * how many there are. The rest of `out` is not changed.
 */
size_t rope_search_copy_matches(rope_search *session, size_t from, size_t to, rope_search_span *out,
                                size_t out_len);

/*
 * The same with columns in the unit of `bits`, as above. For another number it returns 0, and `out`
 * is not changed.
 */
size_t rope_search_copy_matches_in(rope_search *session, uint32_t bits, size_t from, size_t to,
                                   rope_search_span *out, size_t out_len);

/*
 * Copies the groups 0 to 9 of a match to the front of `out`, as many as fit: of match `number`,
 * from 0, in row `line`. Group 0 is the match. A group that is not part of the match, or that the
 * pattern doesn't have, isn't found. A report has no groups: the line is searched once more, and
 * counted. Refused: NONE, RANGE, if there is no such row, or no such match in it, MEMORY; `out` is
 * then not changed.
 */
uint32_t rope_search_groups_at(rope_search *session, size_t line, size_t number,
                               rope_search_group *out, size_t out_len);

/*
 * The first match of the report that starts at a position or after it, and the last one that starts
 * before it. They return whether there is one; without one, and without a pattern, `match` is not
 * changed. The position need not be in the text. Nothing is searched: the time is linear in the
 * rows between the position and the match, and in the matches of the position's row.
 */
bool rope_search_listed_from(rope_search *session, rope_search_position position,
                             rope_search_listed *match);
bool rope_search_listed_before(rope_search *session, rope_search_position position,
                               rope_search_listed *match);

/*
 * Writes how many matches the report lists before one, given by its line and its number in the row,
 * from 0, and how many it lists in all: it is match `index` + 1 of `count`. Returns whether there
 * is such a match; otherwise both are not changed. The time is linear in the rows of the report.
 */
bool rope_search_list_index(rope_search *session, size_t line, size_t number, size_t *index,
                            size_t *count);

/*
 * The rows of the report that the last accepted command on the chosen buffer replaced, of those
 * that may replace rows: set_text, edit and its like, undo, redo, set_pattern, off, replace and its
 * like. An edit adds at most as many rows as the inserted text has lines; without a pattern there
 * are none. An editor paints these rows, and moves those after them.
 */
rope_search_stretch rope_search_changed(rope_search *session);

/*
 * Copies the ranges of bytes in which the last accepted call on the chosen buffer replaced its text
 * to the front of `out`, as many as fit, and returns the number of ranges: for set_text, edit,
 * undo, redo, replace and their like, also without a pattern. The old text with each old range
 * replaced by the text of the new range is the new text. The ranges ascend; two may touch, and they
 * are never merged. Apply them to a copy of the old text from the last one to the first, each at
 * its old start. An edit has one range, a replacement one for each match, set_text one, and a new
 * buffer none. Linear in their number. The rest of `out` is not changed.
 */
size_t rope_search_text_changes(rope_search *session, rope_search_text_change *out, size_t out_len);

/* ---- a text that arrives in parts ---- */

/*
 * A text of which all parts are passed before it is set, such as a file that is read in slices. It
 * is kept once, in the form of a buffer's text:
 *
 *     rope_search_begin_text(&session);
 *     while ((len = fread(part, 1, sizeof part, file)) > 0)
 *         if (rope_search_append_part(&session, part, len) != ROPE_SEARCH_DONE)
 *             break;                                      (end_text says why)
 *     if (rope_search_end_text(&session) != ROPE_SEARCH_DONE) ...
 *
 * A session has at most one such text, whichever buffer is chosen. Until end_text, the buffers have
 * their texts and reports, all other calls use these, and none of them but open and close changes
 * the text that arrives.
 */

/*
 * Begins a text, with no bytes so far. What arrived of one that was begun before is dropped. Never
 * refused.
 */
uint32_t rope_search_begin_text(rope_search *session);

/*
 * Adds the next bytes to the text that arrives. They may end inside a character, and there may be
 * none. Returns DONE; NONE, if no text was begun; or, as soon as it is known that end_text will
 * refuse the text: SIZE, if the bytes so far are more than the session's limit, whether or not they
 * are UTF-8; UTF8, if no text begins with them; MEMORY. The bytes are then dropped, and each further
 * part has the same answer: end_text, cancel_text or begin_text comes next. If the bytes are too
 * many and not UTF-8, end_text returns UTF8.
 */
uint32_t rope_search_append_part(rope_search *session, const uint8_t *part, size_t len);

/*
 * Sets the text of the chosen buffer to the one that arrived, as set_text of all its bytes does.
 * Refused: NONE, if no text was begun; UTF8, SIZE, MEMORY, after which the buffer is as it was. In
 * each case no text arrives any more: what arrived is set or dropped.
 */
uint32_t rope_search_end_text(rope_search *session);

/* Drops the text that arrives, if one was begun. Never refused. */
uint32_t rope_search_cancel_text(rope_search *session);

/* ---- a pending pattern of the chosen buffer ---- */

/*
 * A pattern whose report is made in slices, so that no call takes longer than one slice. Until all
 * lines are done, the buffer's pattern and its report stay, and follow all edits:
 *
 *     bool done = false;
 *     if (rope_search_begin_pattern(&session, pattern, len) != ROPE_SEARCH_DONE) ...
 *     rope_search_window(&session, first, last, spans, room, &count);   (paint these)
 *     while (!done) {
 *         ...                                                          (the editor's own events)
 *         if (rope_search_advance(&session, 4000, &done) != ROPE_SEARCH_DONE) ...
 *     }
 *
 * The rows that are done are always the first rows of the report of the current text under the
 * pending pattern. A call that changes the text keeps those before the first line that it changes,
 * and drops the others; it searches nothing for the pending pattern. set_pattern and off drop the
 * pending pattern, unless they are refused; a fork has none.
 *
 * set_text, undo and redo make the report of the buffer's pattern before they return. To make it in
 * slices too, call off, then one of them, then begin_pattern.
 */

/*
 * Makes a pattern pending, in place of any other, with no line done. Nothing is searched. Refused:
 * UTF8, PATTERN, LIMIT, MEMORY; what was pending then stays.
 */
uint32_t rope_search_begin_pattern(rope_search *session, const uint8_t *pattern, size_t len);

/*
 * Searches up to `max_lines` further lines, from the first that is not done. Each is searched
 * whole, however long it is. If all lines are then done, the session is as set_pattern of the same
 * bytes would have left it, and `changed` returns all rows; otherwise the report, `changed` and
 * `text_changes` stay. `done` is written unless the session is closed: whether all lines are done,
 * or false if the call is refused: NONE, MEMORY.
 */
uint32_t rope_search_advance(rope_search *session, size_t max_lines, bool *done);

/* Drops the pending pattern, if there is one. The pattern and the report stay. */
uint32_t rope_search_cancel(rope_search *session);

/*
 * Returns whether a pattern is pending. If so, writes to `lines` the number of lines that are done;
 * otherwise `lines` is not changed.
 */
bool rope_search_pending(rope_search *session, size_t *lines);

/*
 * Return the matches of the lines `from` up to `to` that are done: their number, and copied to the
 * front of `out`, as many as fit. `count` is written unless the session is closed: how many there
 * are, or 0 if the call is refused: NONE. The rest of `out` is not changed.
 */
uint32_t rope_search_count_pending(rope_search *session, size_t from, size_t to, size_t *count);
uint32_t rope_search_copy_pending(rope_search *session, size_t from, size_t to,
                                  rope_search_span *out, size_t out_len, size_t *count);

/*
 * Copies the matches of lines `from` up to `to` of the current text under the pending pattern to
 * the front of `out`, as many as fit. Lines that are not done are searched: each is counted as one
 * row, and its matches are not kept. `count` is written unless the session is closed: how many
 * there are, or 0 if the call is refused: NONE, MEMORY. The rest of `out` is not changed.
 */
uint32_t rope_search_window(rope_search *session, size_t from, size_t to, rope_search_span *out,
                            size_t out_len, size_t *count);

/* What the session counted. */
rope_search_counts rope_search_counted(rope_search *session);

#ifdef __cplusplus
}
#endif
#endif
