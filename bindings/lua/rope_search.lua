-- A regular expression kept live over a text that is edited, undone and forked: the library of
-- include/rope_search.h, by LuaJIT's ffi, as in Neovim.
--
--     local rope_search = require("rope_search")
--     local session = assert(rope_search.open())
--     assert(session:set_text("one two\none"))
--     assert(session:set_pattern("one"))
--     for _, match in ipairs(session:matches()) do print(match.line, match.start, match.stop) end
--
-- Lines and columns count from 0; a column counts UTF-16 code units. A call that is refused returns
-- nil and the word of the reason, one of rope_search.faults, and leaves the session as it was. A
-- session stays on the thread that opened it, and ends by `close`, or when it is collected.
-- docs/protocol.md says what each command does, docs/patterns.md has the syntax of patterns.
--
-- The library is the file that the environment's ROPE_SEARCH_LIBRARY names, otherwise that in bin/ or
-- lib/ above this file, otherwise the system's.
local ffi = require("ffi")

ffi.cdef([[
typedef struct { void *at; bool is_open; } rope_search;
typedef struct { uint64_t rows, wholes; } rope_search_counts;
typedef struct { size_t line, column; } rope_search_position;
typedef struct { bool found; rope_search_position start, stop; } rope_search_match;
typedef struct { rope_search_position start, stop; } rope_search_text_match;
typedef struct { size_t line, start, stop; } rope_search_span;
typedef struct { bool found; size_t line, start, stop; } rope_search_group;
typedef struct { size_t line, number, start, stop; } rope_search_listed;
typedef struct { uint32_t reason; size_t place; } rope_search_pattern_reason;
typedef struct { rope_search_position from, to; size_t len; } rope_search_text_edit;
typedef struct { size_t first, removed, added; } rope_search_stretch;
typedef struct { size_t old_start, old_end, new_start, new_end; } rope_search_text_change;
uint32_t rope_search_version(void);
uint32_t rope_search_open(size_t, rope_search *);
void rope_search_close(rope_search *);
uint32_t rope_search_set_text(rope_search *, const uint8_t *, size_t);
uint32_t rope_search_edit(rope_search *, rope_search_position, rope_search_position, const uint8_t *, size_t);
uint32_t rope_search_edit_all(rope_search *, const rope_search_text_edit *, size_t, const uint8_t *, size_t);
uint32_t rope_search_edit_bytes(rope_search *, size_t, size_t, const uint8_t *, size_t);
uint32_t rope_search_undo(rope_search *);
uint32_t rope_search_redo(rope_search *);
uint32_t rope_search_set_pattern(rope_search *, const uint8_t *, size_t);
uint32_t rope_search_pattern_error(const uint8_t *, size_t, rope_search_pattern_reason *);
uint32_t rope_search_escape(const uint8_t *, size_t, uint8_t *, size_t, size_t *);
uint32_t rope_search_off(rope_search *);
uint32_t rope_search_next(rope_search *, rope_search_position, rope_search_match *);
uint32_t rope_search_next_all(rope_search *, rope_search_position, rope_search_text_match *, size_t, size_t *);
uint32_t rope_search_replace(rope_search *, const uint8_t *, size_t, size_t *);
uint32_t rope_search_replace_match(rope_search *, size_t, size_t, const uint8_t *, size_t);
uint32_t rope_search_replace_listed(rope_search *, size_t, size_t, const uint8_t *, size_t, size_t *);
uint32_t rope_search_fork(rope_search *, size_t *);
uint32_t rope_search_choose(rope_search *, uint64_t);
uint32_t rope_search_forget(rope_search *);
uint32_t rope_search_keep(rope_search *, size_t);
uint32_t rope_search_join(rope_search *, size_t);
size_t rope_search_buffers(rope_search *);
size_t rope_search_chosen(rope_search *);
bool rope_search_can_undo(rope_search *);
bool rope_search_can_redo(rope_search *);
size_t rope_search_undo_steps(rope_search *);
size_t rope_search_redo_steps(rope_search *);
uint32_t rope_search_byte_of(rope_search *, rope_search_position, size_t *);
uint32_t rope_search_position_of(rope_search *, size_t, rope_search_position *);
uint32_t rope_search_column_in(rope_search *, uint32_t, rope_search_position, size_t *);
uint32_t rope_search_position_in(rope_search *, uint32_t, size_t, size_t, rope_search_position *);
uint32_t rope_search_clamp(rope_search *, uint32_t, size_t, size_t, rope_search_position *);
uint32_t rope_search_line_len(rope_search *, size_t, uint32_t, size_t *);
bool rope_search_copy_line(rope_search *, size_t, uint8_t *, size_t);
size_t rope_search_text_len(rope_search *);
size_t rope_search_text_lines(rope_search *);
bool rope_search_copy_text(rope_search *, size_t, size_t, uint8_t *, size_t);
size_t rope_search_rows(rope_search *);
size_t rope_search_count_matches(rope_search *, size_t, size_t);
size_t rope_search_copy_matches(rope_search *, size_t, size_t, rope_search_span *, size_t);
size_t rope_search_copy_matches_in(rope_search *, uint32_t, size_t, size_t, rope_search_span *, size_t);
uint32_t rope_search_groups_at(rope_search *, size_t, size_t, rope_search_group *, size_t);
bool rope_search_listed_from(rope_search *, rope_search_position, rope_search_listed *);
bool rope_search_listed_before(rope_search *, rope_search_position, rope_search_listed *);
bool rope_search_list_index(rope_search *, size_t, size_t, size_t *, size_t *);
rope_search_stretch rope_search_changed(rope_search *);
size_t rope_search_text_changes(rope_search *, rope_search_text_change *, size_t);
uint32_t rope_search_begin_text(rope_search *);
uint32_t rope_search_append_part(rope_search *, const uint8_t *, size_t);
uint32_t rope_search_end_text(rope_search *);
uint32_t rope_search_cancel_text(rope_search *);
uint32_t rope_search_begin_pattern(rope_search *, const uint8_t *, size_t);
uint32_t rope_search_advance(rope_search *, size_t, bool *);
uint32_t rope_search_cancel(rope_search *);
bool rope_search_pending(rope_search *, size_t *);
uint32_t rope_search_count_pending(rope_search *, size_t, size_t, size_t *);
uint32_t rope_search_copy_pending(rope_search *, size_t, size_t, rope_search_span *, size_t, size_t *);
uint32_t rope_search_window(rope_search *, size_t, size_t, rope_search_span *, size_t, size_t *);
rope_search_counts rope_search_counted(rope_search *);
]])

local M = {}

-- Why a call is refused, by the status that it returns.
M.faults = { "none", "range", "utf8", "pattern", "limit", "size", "memory", "closed" }

-- Why a text is no pattern, as `pattern_error` returns it.
M.reasons = {
  "the pattern is nested too deeply",
  "a group isn't closed",
  "a parenthesis closes no group",
  "there is nothing to repeat",
  "a count isn't finished, or isn't one",
  "a count is above 65,535",
  "the greatest number of a count is below the least one",
  "an escape isn't finished, or isn't one",
  "the number of an escape is no character's",
  "a class isn't closed",
  "a class has no such item",
  "a range of characters runs backwards",
  "the head of a group isn't finished, or isn't one",
  "two groups have one name",
  "`.` stands beside a line terminator that isn't an ASCII byte",
}

local function is_there(path)
  local file = io.open(path, "rb")
  return file ~= nil and file:close()
end

local function library_path()
  local top = (debug.getinfo(1, "S").source:match("^@(.*[/\\])") or "./") .. "../../"
  -- bin/ of the repository, or lib/ of an installation or release.
  local built, installed = top .. "bin/librope_search.so", top .. "lib/librope_search.so"
  return os.getenv("ROPE_SEARCH_LIBRARY") or (is_there(built) and built)
    or (is_there(installed) and installed) or "rope_search"
end

local calls
-- The version of the header that is declared above.
M.version = 2000

local function library()
  if not calls then
    local opened = ffi.load(library_path())
    local version = opened.rope_search_version()
    if math.floor(version / 1000) ~= math.floor(M.version / 1000) then
      error(("the library has the version %d, not %d"):format(version, M.version))
    end
    calls = opened
  end
  return calls
end

-- Returns true for the status of a call that is done; nil and the reason for one that is refused.
local function told(status, answer)
  if status ~= 0 then
    return nil, M.faults[status]
  end
  return answer == nil and true or answer
end

local function position(spot)
  return ffi.new("rope_search_position", spot[1] or spot.line, spot[2] or spot.column)
end

local function spot(of)
  return { line = tonumber(of.line), column = tonumber(of.column) }
end

-- Returns the first matches of a buffer, each with its line and its two columns.
local function spans(out, count)
  local matches = {}
  for i = 0, count - 1 do
    local span = out[i]
    matches[i + 1] = { line = tonumber(span.line), start = tonumber(span.start), stop = tonumber(span.stop) }
  end
  return matches
end

local ALL = ffi.cast("size_t", -1)
-- How C names what columns count.
local BITS = { ["utf-8"] = 8, ["utf-16"] = 16, ["utf-32"] = 32 }

local Session = {}
Session.__index = Session

-- Opens a session whose texts have at most `limit` bytes, by default 1 GiB.
function M.open(limit)
  local handle = ffi.gc(ffi.new("rope_search"), library().rope_search_close)
  return told(calls.rope_search_open(limit or 2 ^ 30, handle), setmetatable({ handle = handle }, Session))
end

-- Returns where and why a text is no pattern, if set_pattern refuses it with "pattern": { place, reason },
-- the byte offset of the first character that can't be there and one of rope_search.reasons. Otherwise
-- false. Needs no session.
function M.pattern_error(pattern)
  local told_of = ffi.new("rope_search_pattern_reason")
  local status = library().rope_search_pattern_error(pattern, #pattern, told_of)
  local reason = M.reasons[told_of.reason]
  return told(status, reason ~= nil and { place = tonumber(told_of.place), reason = reason })
end

-- Returns a pattern that matches that text only: the text with a backslash before each character that
-- has a special meaning in patterns. Needs no session. Refused with "limit" if the pattern would have
-- more than 65,536 bytes.
function M.escape(text)
  -- A pattern never has more bytes than this.
  local room = math.min(2 * #text, 65536)
  local out, len = ffi.new("uint8_t[?]", math.max(1, room)), ffi.new("size_t[1]")
  local status = library().rope_search_escape(text, #text, out, room, len)
  return told(status, ffi.string(out, tonumber(len[0])))
end

-- Ends the session: all further calls are refused with "closed". May be called again.
function Session:close()
  calls.rope_search_close(self.handle)
end

function Session:is_open()
  return self.handle.is_open
end

-- Sets a new text and starts a new history.
function Session:set_text(text)
  return told(calls.rope_search_set_text(self.handle, text, #text))
end

-- Replaces the text between two positions, each { line, column }.
function Session:edit(start, stop, text)
  return told(calls.rope_search_edit(self.handle, position(start), position(stop), text, #text))
end

-- Makes several edits as one undo step, each { start, stop, text }, in ascending order, with positions
-- in the text before any of them; two may touch.
function Session:edit_all(edits)
  local given = ffi.new("rope_search_text_edit[?]", math.max(1, #edits))
  local texts = {}
  for i, edit in ipairs(edits) do
    given[i - 1] = { position(edit[1] or edit.start), position(edit[2] or edit.stop), #(edit[3] or edit.text) }
    texts[i] = edit[3] or edit.text
  end
  local text = table.concat(texts)
  return told(calls.rope_search_edit_all(self.handle, given, #edits, text, #text))
end

-- Replaces the bytes from one offset to another: "range" also if one is inside a character, or between
-- a CR and its LF.
function Session:edit_bytes(start, stop, text)
  return told(calls.rope_search_edit_bytes(self.handle, start, stop, text, #text))
end

function Session:undo()
  return told(calls.rope_search_undo(self.handle))
end

function Session:redo()
  return told(calls.rope_search_redo(self.handle))
end

function Session:set_pattern(pattern)
  return told(calls.rope_search_set_pattern(self.handle, pattern, #pattern))
end

-- Drops the pattern, if there is one.
function Session:off()
  return told(calls.rope_search_off(self.handle))
end

-- Returns the first match in the whole text that starts at a position or after it, as its two
-- positions, or false.
function Session:next(start)
  local match = ffi.new("rope_search_match")
  local status = calls.rope_search_next(self.handle, position(start), match)
  return told(status, match.found and { start = spot(match.start), stop = spot(match.stop) })
end

-- Returns the first matches in the whole text that start at a position or after it, each as its two
-- positions, at most `room`, by default 1024: of those that `replace` replaces, found from the text's
-- start in one search.
function Session:next_all(start, room)
  room = room or 1024
  local out, count = ffi.new("rope_search_text_match[?]", math.max(1, room)), ffi.new("size_t[1]")
  local status = calls.rope_search_next_all(self.handle, position(start), out, room, count)
  local matches = {}
  for i = 0, tonumber(count[0]) - 1 do
    matches[i + 1] = { start = spot(out[i].start), stop = spot(out[i].stop) }
  end
  return told(status, matches)
end

-- Replaces all matches, and returns their number.
function Session:replace(template)
  local count = ffi.new("size_t[1]")
  local status = calls.rope_search_replace(self.handle, template, #template, count)
  return told(status, tonumber(count[0]))
end

-- Replaces one match of the report, by its line and its number in that row, from 0, with the groups
-- that the search of the line finds: "range" if no such match is listed.
function Session:replace_match(line, number, template)
  return told(calls.rope_search_replace_match(self.handle, line, number, template, #template))
end

-- Replaces the matches that the report lists in the lines `from` up to, not including, `to`, with the
-- groups that the search of each line finds, and returns their number.
function Session:replace_listed(from, to, template)
  local count = ffi.new("size_t[1]")
  local status = calls.rope_search_replace_listed(self.handle, from, to, template, #template, count)
  return told(status, tonumber(count[0]))
end

-- Adds a buffer with the current text, no history and no pattern, and returns its number.
function Session:fork()
  local number = ffi.new("size_t[1]")
  return told(calls.rope_search_fork(self.handle, number), tonumber(number[0]))
end

-- Chooses a buffer by its number, from 0.
function Session:choose(number)
  return told(calls.rope_search_choose(self.handle, number))
end

-- Drops the history: only the current text is left.
function Session:forget()
  return told(calls.rope_search_forget(self.handle))
end

-- Drops all undo steps but the last ones, and what could be redone.
function Session:keep(steps)
  return told(calls.rope_search_keep(self.handle, steps))
end

-- Makes the last `steps` undo steps one.
function Session:join(steps)
  return told(calls.rope_search_join(self.handle, steps))
end

-- Return the number of buffers, and the number of the chosen one.
function Session:buffers()
  return tonumber(calls.rope_search_buffers(self.handle))
end

function Session:chosen()
  return tonumber(calls.rope_search_chosen(self.handle))
end

-- Return whether there is a text to go back to, and one to go forward to.
function Session:can_undo()
  return calls.rope_search_can_undo(self.handle)
end

function Session:can_redo()
  return calls.rope_search_can_redo(self.handle)
end

-- Return the number of texts to go back to, and to go forward to.
function Session:undo_steps()
  return tonumber(calls.rope_search_undo_steps(self.handle))
end

function Session:redo_steps()
  return tonumber(calls.rope_search_redo_steps(self.handle))
end

-- Return the byte offset of a position, and the position of a byte offset.
function Session:byte_of(at)
  local byte = ffi.new("size_t[1]")
  return told(calls.rope_search_byte_of(self.handle, position(at), byte), tonumber(byte[0]))
end

function Session:position_of(byte)
  local at = ffi.new("rope_search_position")
  return told(calls.rope_search_position_of(self.handle, byte, at), spot(at))
end

-- Return the column of a position, in bytes for "utf-8", in code units for "utf-16", in characters for
-- "utf-32", and the position of a line and such a column.
function Session:column_in(encoding, at)
  local column = ffi.new("size_t[1]")
  local status = calls.rope_search_column_in(self.handle, BITS[encoding] or 0, position(at), column)
  return told(status, tonumber(column[0]))
end

function Session:position_in(encoding, line, column)
  local at = ffi.new("rope_search_position")
  return told(calls.rope_search_position_in(self.handle, BITS[encoding] or 0, line, column, at), spot(at))
end

-- Returns the position nearest to a line and a column in an encoding, by default "utf-16", that need
-- not be in the text: the end of the line's text for a column past it, the start of a character or
-- surrogate pair for a column inside, the text's end for a line past the last one.
function Session:clamp(line, column, encoding)
  local at = ffi.new("rope_search_position")
  return told(calls.rope_search_clamp(self.handle, BITS[encoding or "utf-16"] or 0, line, column, at), spot(at))
end

-- Return the length of a line's text in an encoding, and that text, without its break.
function Session:line_len(line, encoding)
  local len = ffi.new("size_t[1]")
  local status = calls.rope_search_line_len(self.handle, line, BITS[encoding or "utf-16"] or 0, len)
  return told(status, tonumber(len[0]))
end

function Session:line_text(line)
  local room, why = self:line_len(line, "utf-8")
  if not room then
    return nil, why
  end
  local out = ffi.new("uint8_t[?]", math.max(1, room))
  if not calls.rope_search_copy_line(self.handle, line, out, room) then
    return nil, "range"
  end
  return ffi.string(out, room)
end

-- Return the number of bytes of the text, and of its lines.
function Session:text_len()
  return tonumber(calls.rope_search_text_len(self.handle))
end

function Session:text_lines()
  return tonumber(calls.rope_search_text_lines(self.handle))
end

-- Returns the text, or its bytes from one offset to another: nil and "range" if they aren't in the
-- text, or split a character.
function Session:text(start, stop)
  start, stop = start or 0, stop or self:text_len()
  local room = math.max(0, math.min(stop, self:text_len()) - start)
  local out = ffi.new("uint8_t[?]", math.max(1, room))
  if not calls.rope_search_copy_text(self.handle, start, stop, out, room) then
    return nil, self:is_open() and "range" or "closed"
  end
  return ffi.string(out, room)
end

-- Returns the number of rows of the report: the text's lines, or 0 without a pattern.
function Session:rows()
  return tonumber(calls.rope_search_rows(self.handle))
end

-- Returns the number of matches in the rows from one line up to, not including, another; by default in
-- all.
function Session:count_matches(start, stop)
  return tonumber(calls.rope_search_count_matches(self.handle, start or 0, stop or ALL))
end

-- Returns these matches, each with its line and its two columns in an encoding, by default "utf-16";
-- none for another word.
function Session:matches(start, stop, encoding)
  local count = self:count_matches(start, stop)
  local out = ffi.new("rope_search_span[?]", math.max(1, count))
  if (encoding or "utf-16") == "utf-16" then
    calls.rope_search_copy_matches(self.handle, start or 0, stop or ALL, out, count)
  else
    local bits = BITS[encoding] or 0
    count = tonumber(calls.rope_search_copy_matches_in(self.handle, bits, start or 0, stop or ALL, out, count))
  end
  return spans(out, count)
end

-- Returns the groups of match `number` in row `line`, both from 0: [0] is the whole match, [1] to [9]
-- are nil if they aren't in it; each with its line and its two columns.
function Session:groups_at(line, number)
  local out = ffi.new("rope_search_group[10]")
  local status = calls.rope_search_groups_at(self.handle, line, number, out, 10)
  local groups = {}
  for k = 0, 9 do
    local group = out[k]
    if group.found then
      groups[k] = { line = tonumber(group.line), start = tonumber(group.start), stop = tonumber(group.stop) }
    end
  end
  return told(status, groups)
end

local function listed(found, match)
  if not found then
    return nil
  end
  local copy = {}
  for _, name in ipairs({ "line", "number", "start", "stop" }) do
    copy[name] = tonumber(match[name])
  end
  return copy
end

-- Return the first match of the report that starts at a position or after it, and the last one that
-- starts before it: its line, its number in that row, from 0, and its two columns; or nil.
function Session:listed_from(at)
  local match = ffi.new("rope_search_listed")
  return listed(calls.rope_search_listed_from(self.handle, position(at), match), match)
end

function Session:listed_before(at)
  local match = ffi.new("rope_search_listed")
  return listed(calls.rope_search_listed_before(self.handle, position(at), match), match)
end

-- Returns the number of matches that the report lists before match `number`, from 0, of a row, and the
-- number of all; or nil if there is no such match.
function Session:list_index(line, number)
  local index, count = ffi.new("size_t[1]"), ffi.new("size_t[1]")
  if not calls.rope_search_list_index(self.handle, line, number, index, count) then
    return nil
  end
  return tonumber(index[0]), tonumber(count[0])
end

-- Returns which rows the last accepted command on the chosen buffer replaced: from row `first` on,
-- `removed` old rows by `added` new ones.
function Session:changed()
  local stretch = calls.rope_search_changed(self.handle)
  return { first = tonumber(stretch.first), removed = tonumber(stretch.removed), added = tonumber(stretch.added) }
end

-- Returns the ranges of bytes that the last accepted call on the chosen buffer replaced in its text:
-- each with the four offsets that C has, in ascending order.
function Session:text_changes()
  local count = tonumber(calls.rope_search_text_changes(self.handle, ffi.new("rope_search_text_change[1]"), 0))
  local out = ffi.new("rope_search_text_change[?]", math.max(1, count))
  calls.rope_search_text_changes(self.handle, out, count)
  local changes = {}
  for i = 0, count - 1 do
    local one = out[i]
    changes[i + 1] = {
      old_start = tonumber(one.old_start),
      old_end = tonumber(one.old_end),
      new_start = tonumber(one.new_start),
      new_end = tonumber(one.new_end),
    }
  end
  return changes
end

-- Begins a text that arrives in parts, and drops what arrived of one that was begun before. The text of the
-- buffer stays until `end_text`.
function Session:begin_text()
  return told(calls.rope_search_begin_text(self.handle))
end

-- Adds the next bytes, which may end inside a character. Refused as soon as it is known that `end_text` will be.
function Session:append_part(part)
  return told(calls.rope_search_append_part(self.handle, part, #part))
end

-- Sets the text to the one that arrived, as `set_text` does. After this none arrives, also if it is refused.
function Session:end_text()
  return told(calls.rope_search_end_text(self.handle))
end

-- Drops the text that arrives, if one does.
function Session:cancel_text()
  return told(calls.rope_search_cancel_text(self.handle))
end

-- Makes a pattern pending: `advance` makes its report in slices. Until then the pattern and the report
-- stay.
function Session:begin_pattern(pattern)
  return told(calls.rope_search_begin_pattern(self.handle, pattern, #pattern))
end

-- Searches up to `max_lines` further lines for the pending pattern, and returns whether all are done:
-- it is then the pattern, as set_pattern would have made it.
function Session:advance(max_lines)
  local done = ffi.new("bool[1]")
  local status = calls.rope_search_advance(self.handle, max_lines, done)
  return told(status, done[0])
end

-- Drops the pending pattern, if there is one.
function Session:cancel()
  return told(calls.rope_search_cancel(self.handle))
end

-- Returns the number of lines that are done for the pending pattern; nil without one.
function Session:pending()
  local lines = ffi.new("size_t[1]")
  return calls.rope_search_pending(self.handle, lines) and tonumber(lines[0]) or nil
end

-- Return the number of matches of the pending pattern in the lines that are done, from one up to, not
-- including, another, by default in all, and these matches.
function Session:count_pending(start, stop)
  local count = ffi.new("size_t[1]")
  local status = calls.rope_search_count_pending(self.handle, start or 0, stop or ALL, count)
  return told(status, tonumber(count[0]))
end

function Session:pending_matches(start, stop)
  local room, why = self:count_pending(start, stop)
  if not room then
    return nil, why
  end
  local out, count = ffi.new("rope_search_span[?]", math.max(1, room)), ffi.new("size_t[1]")
  local status = calls.rope_search_copy_pending(self.handle, start or 0, stop or ALL, out, room, count)
  return told(status, spans(out, room))
end

-- Returns the matches of the pending pattern in the lines from one up to, not including, another. Lines
-- that are not done are searched: twice, if there are more matches than `room`, by default 1024.
function Session:window(start, stop, room)
  room = math.max(1, room or 1024)
  local count = ffi.new("size_t[1]")
  while true do
    local out = ffi.new("rope_search_span[?]", room)
    local status = calls.rope_search_window(self.handle, start, stop, out, room, count)
    local found = tonumber(count[0])
    if found <= room then
      return told(status, spans(out, found))
    end
    room = found
  end
end

-- Returns the counts of rows that were made so far, and of searches of a whole text.
function Session:counted()
  local counts = calls.rope_search_counted(self.handle)
  return { rows = tonumber(counts.rows), wholes = tonumber(counts.wholes) }
end

return M
