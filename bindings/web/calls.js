/**
 * The calls of include/rope_search.h, a row each: what a call is given after the session, and what it
 * returns. Session has a method for each row, `set_text` as `setText`. A new call is a new row here, a
 * declaration in rope-search.d.ts, and a structure below if it has one of its own.
 *
 * What a call is given:
 *
 * - `size`: a whole number from 0
 * - `bool`: a boolean
 * - `bits`: what columns count, 8, 16 or 32; in JavaScript the last argument, and 16 if it is left out
 * - `position`: a position, passed as two sizes
 * - `text`: a string or its UTF-8, passed with its length
 * - `edits`: edits that are made as one, passed with their number, then their texts with their length
 *
 * What it returns:
 *
 * - `status`: nothing, or what it writes through its last pointers: a structure by its name, `size`, `bool`,
 *   or a size by a name of its own. Several are given as an object. A refusal is thrown.
 * - `found`: the same if it returns true, and else null
 * - `value`: a number or a boolean, as it returns it
 * - `structure`: a structure, which it writes through its first pointer
 * - `copies`: an array of structures, or of bytes, of which it returns the number, or writes it through its
 *   last pointer and returns a status
 * - `first`: an array of at most as many structures as the last argument says, of which it writes the number
 *   through its last pointer and returns a status
 * - `filled`: an array of a length that is known before. A call that returns no status refuses a range.
 */
const status = (...writes) => ({ form: "status", writes });
const found = (...writes) => ({ form: "found", writes });
const value = (kind) => ({ form: "value", kind });
const structure = (kind) => ({ form: "structure", kind });
const copies = (kind, returns = "count") => ({ form: "copies", kind, returns });
const first = (kind, count) => ({ form: "first", kind, count, returns: "status" });
const filled = (kind, count, returns = "bool") => ({ form: "filled", kind, count, returns });

/** How long arrays are that calls fill. */
const bytesBetween = (_, from, to) => to - from;
const roomAfter = (_, __, room = 1_024) => room;
const bytesOfLine = (session, line) => session.lineLen(line, 8);

export const CALLS = {
  close: ["", value("nothing")],
  set_text: ["text", status()],
  edit: ["position position text", status()],
  edit_all: ["edits", status()],
  edit_bytes: ["size size text", status()],
  undo: ["", status()],
  redo: ["", status()],
  set_pattern: ["text", status()],
  off: ["", status()],
  next: ["position", status("match")],
  next_all: ["position", first("text_match", roomAfter)],
  replace: ["text", status("size")],
  fork: ["", status("size")],
  choose: ["size", status()],
  forget: ["", status()],
  keep: ["size", status()],
  join: ["size", status()],
  replace_match: ["size size text", status()],
  replace_listed: ["size size text", status("size")],
  buffers: ["", value("size")],
  chosen: ["", value("size")],
  can_undo: ["", value("bool")],
  can_redo: ["", value("bool")],
  undo_steps: ["", value("size")],
  redo_steps: ["", value("size")],
  text_len: ["", value("size")],
  text_lines: ["", value("size")],
  copy_text: ["size size", filled("byte", bytesBetween)],
  byte_of: ["position", status("size")],
  position_of: ["size", status("position")],
  column_in: ["bits position", status("size")],
  position_in: ["bits position", status("position")],
  clamp: ["bits position", status("position")],
  line_len: ["size bits", status("size")],
  copy_line: ["size", filled("byte", bytesOfLine)],
  rows: ["", value("size")],
  count_matches: ["size size", value("size")],
  copy_matches: ["size size", copies("span")],
  copy_matches_in: ["bits size size", copies("span")],
  groups_at: ["size size", filled("group", () => 10, "status")],
  listed_from: ["position", found("listed")],
  listed_before: ["position", found("listed")],
  list_index: ["size size", found("index", "count")],
  changed: ["", structure("stretch")],
  text_changes: ["", copies("text_change")],
  begin_text: ["", status()],
  append_part: ["text", status()],
  end_text: ["", status()],
  cancel_text: ["", status()],
  begin_pattern: ["text", status()],
  advance: ["size", status("bool")],
  cancel: ["", status()],
  pending: ["", found("size")],
  count_pending: ["size size", status("size")],
  copy_pending: ["size size", copies("span", "status")],
  window: ["size size", copies("span", "status")],
  counted: ["", structure("counts")],
};

/** The calls without a session. */
export const FREE_CALLS = {
  version: ["", value("u32")],
  pattern_error: ["text", status("pattern_reason")],
  escape: ["text", copies("byte", "status")],
};

/** The structures of the header, each with the kinds of its fields. */
export const STRUCTURES = {
  counts: { rows: "size", wholes: "size" },
  position: { line: "size", column: "size" },
  match: { found: "bool", start: "position", stop: "position" },
  text_match: { start: "position", stop: "position" },
  span: { line: "size", start: "size", stop: "size" },
  group: { found: "bool", line: "size", start: "size", stop: "size" },
  listed: { line: "size", number: "size", start: "size", stop: "size" },
  pattern_reason: { reason: "u32", place: "size" },
  text_edit: { from: "position", to: "position", len: "size" },
  stretch: { first: "size", removed: "size", added: "size" },
  text_change: { old_start: "size", old_end: "size", new_start: "size", new_end: "size" },
};

/** Why a call is refused, by its status from 1 on: the name of the exception, and what it says. */
export const REFUSALS = {
  Nothing: "there is no such buffer, no pattern, or no text to go back or forward to",
  Range: "a position is nowhere in the text, or positions are out of order",
  Utf8: "the text is not UTF-8: it has a lone surrogate, or other bytes",
  Pattern: "the text is no pattern",
  Limit: "the pattern is too long, or weighs too much",
  Size: "the text or the template would be too long",
  Memory: "out of memory",
  Closed: "the session is closed",
};

/** Why a text is no pattern, by its reason from 1 on. */
export const REASONS = Object.freeze([
  "the pattern is nested too deeply",
  "a group isn't closed",
  "a parenthesis closes no group",
  "there is nothing to repeat",
  "a count isn't finished, or isn't one",
  "a count is above 65,535",
  "the greatest number of a count is below the least one",
  "an escape isn't finished, or isn't one",
  "the number of an escape is no character's",
  "a class isn't closed",
  "a class has no such item",
  "a range of characters runs backwards",
  "the head of a group isn't finished, or isn't one",
  "two groups have one name",
  "`.` stands beside a line terminator that isn't an ASCII byte",
]);
