-- A live search over a buffer of Neovim: the matches in its windows are highlighted and counted while
-- you type and undo. It uses bindings/lua, and needs the shared library that `make lib` builds. Matches
-- are those of docs/patterns.md, line by line.
--
-- The session's text is the buffer's lines, each followed by an LF. So the last line of the session,
-- after the last LF, is no line of the buffer, and matches in it aren't shown. Positions are passed
-- between Neovim and the session as byte offsets of that text: a CR ends a line of the session, but not
-- of Neovim. Neovim keeps the history, so the session keeps none.
local rope_search = require("rope_search")

local M = {}

-- A pattern is searched in slices of this number of lines, between Neovim's own events, so nothing
-- waits longer than one slice; a line is searched whole, however long it is.
M.slice = 4000
-- The number of lines that are read together in a search for one match.
M.few = 100

local NAMESPACE = vim.api.nvim_create_namespace("live_search")
local GROUP = vim.api.nvim_create_augroup("live_search", { clear = true })
-- The session of each searched buffer, whether its text is stale, and whether it already has the text
-- that the buffer is being edited to.
local sessions, stale, ahead = {}, {}, {}
-- The rows of Neovim that are highlighted for each buffer, by window; and the rows of the session that
-- were replaced since, or nil if all have to be highlighted.
local painted, replaced = {}, {}
-- The pattern of each buffer, and the timer that searches it in slices, while it is pending.
local patterns, timers = {}, {}

local function text_of(buffer)
  return table.concat(vim.api.nvim_buf_get_lines(buffer, 0, -1, true), "\n") .. "\n"
end

-- The offset at which a row begins. Neovim has none for an empty buffer.
local function offset_of(buffer, row)
  return math.max(0, vim.api.nvim_buf_get_offset(buffer, row))
end

local function end_timer(buffer)
  if timers[buffer] then
    timers[buffer]:stop()
    timers[buffer]:close()
    timers[buffer] = nil
  end
end

-- Searches another slice, and highlights the windows when all lines are done.
local function advance(buffer)
  local session = sessions[buffer]
  if not session or not session:pending() then
    return end_timer(buffer)
  end
  local done, why = session:advance(M.slice)
  if done == nil then
    end_timer(buffer)
    return vim.notify("refused: " .. why, vim.log.levels.WARN)
  end
  if done then
    end_timer(buffer)
    replaced[buffer] = nil
    M.paint_windows(buffer)
  end
end

-- Begins a pattern, and searches the first slice; the others are searched when Neovim is idle.
local function begin(buffer, pattern)
  local session = sessions[buffer]
  local done, why = session:begin_pattern(pattern)
  if not done then
    return nil, why
  end
  patterns[buffer], replaced[buffer] = pattern, nil
  done, why = session:advance(M.slice)
  if done == false and not timers[buffer] then
    timers[buffer] = vim.loop.new_timer()
    timers[buffer]:start(1, 1, vim.schedule_wrap(function()
      advance(buffer)
    end))
  end
  return done ~= nil or nil, why
end

-- The session of a buffer, with the buffer's text. If that is set again, it is searched in slices too.
local function session_of(buffer)
  local session = sessions[buffer]
  if session and stale[buffer] then
    session:off()
    assert(session:set_text(text_of(buffer)))
    stale[buffer] = nil
    if patterns[buffer] then
      assert(begin(buffer, patterns[buffer]))
    end
  end
  return session
end

-- The number of the session's lines that are the buffer's.
local function lines_of(session)
  return session:text_lines() - 1
end

-- The number of bytes of that text.
local function length_of(buffer)
  local last = vim.api.nvim_buf_line_count(buffer) - 1
  local line = vim.api.nvim_buf_get_lines(buffer, last, last + 1, true)[1]
  return offset_of(buffer, last) + #line + 1
end

-- The offset at which a row of Neovim begins, or, after the last row, at which the text ends.
local function byte_of_row(buffer, row)
  if row < vim.api.nvim_buf_line_count(buffer) then
    return offset_of(buffer, row)
  end
  return sessions[buffer]:text_len()
end

-- The row and the column of Neovim for an offset in the text, among rows from `first` on.
local function place_of(buffer, byte, first)
  local row, last = first, vim.api.nvim_buf_line_count(buffer) - 1
  while row < last do
    local middle = math.ceil((row + last) / 2)
    if offset_of(buffer, middle) <= byte then
      row = middle
    else
      last = middle - 1
    end
  end
  return row, byte - offset_of(buffer, row)
end

-- The matches in some lines of the session, with columns in bytes; while a pattern is pending, its
-- matches, for which lines that aren't done are searched.
local function matches_of(session, first, last)
  if not session:pending() then
    return session:matches(first, last, "utf-8")
  end
  local matches = assert(session:window(first, last))
  for _, match in ipairs(matches) do
    local start, stop = { match.line, match.start }, { match.line, match.stop }
    match.start, match.stop = session:column_in("utf-8", start), session:column_in("utf-8", stop)
  end
  return matches
end

-- The matches in one line of the session, with columns in UTF-16 code units.
local function matches_in(session, line)
  if session:pending() then
    return assert(session:window(line, line + 1))
  end
  return session:matches(line, line + 1)
end

-- The matches in some rows of Neovim, each as rows and columns in bytes.
function M.matches(buffer, first_row, last_row)
  local session = session_of(buffer)
  if not session or (session:rows() == 0 and not session:pending()) then
    return {}
  end
  local first = session:position_of(byte_of_row(buffer, first_row))
  local last = session:position_of(byte_of_row(buffer, last_row + 1))
  local found, line, start = {}, nil, 0
  for i, match in ipairs(matches_of(session, first.line, last.line)) do
    if match.line ~= line then
      line, start = match.line, session:byte_of({ match.line, 0 })
    end
    local row, column = place_of(buffer, start + match.start, first_row)
    local to_row, to_column = place_of(buffer, start + match.stop, row)
    found[i] = { row = row, column = column, to_row = to_row, to_column = to_column }
  end
  return found
end

-- Highlights the matches in some rows, and removes the old highlights there.
local function paint_rows(buffer, first_row, last_row)
  if first_row > last_row then
    return
  end
  vim.api.nvim_buf_clear_namespace(buffer, NAMESPACE, first_row, last_row + 1)
  for _, match in ipairs(M.matches(buffer, first_row, last_row)) do
    vim.api.nvim_buf_set_extmark(buffer, NAMESPACE, match.row, match.column, {
      end_row = match.to_row,
      end_col = match.to_column,
      hl_group = "Search",
    })
  end
end

-- Highlights the matches in some rows, and removes all old highlights.
function M.paint(buffer, first_row, last_row)
  vim.api.nvim_buf_clear_namespace(buffer, NAMESPACE, 0, -1)
  paint_rows(buffer, first_row, last_row)
  painted[buffer] = nil
end

-- The rows of Neovim that contain replaced rows of the session.
local function replaced_rows(buffer)
  local session, rows = sessions[buffer], replaced[buffer]
  local first_row = place_of(buffer, session:byte_of({ rows.first, 0 }), 0)
  return first_row, (place_of(buffer, session:byte_of({ rows.last - 1, 0 }), first_row))
end

-- Highlights the matches in a buffer's windows; if the same rows are visible as before and none has
-- moved, only in the replaced rows.
function M.paint_windows(buffer)
  local session = session_of(buffer)
  if not session or not vim.api.nvim_buf_is_valid(buffer) then
    return
  end
  local windows, shown = {}, ""
  for i, window in ipairs(vim.fn.win_findbuf(buffer)) do
    windows[i] = vim.fn.getwininfo(window)[1]
    shown = ("%s %d-%d"):format(shown, windows[i].topline, windows[i].botline)
  end
  local rows = painted[buffer] == shown and not session:pending() and replaced[buffer]
  if not rows then
    vim.api.nvim_buf_clear_namespace(buffer, NAMESPACE, 0, -1)
    for _, window in ipairs(windows) do
      paint_rows(buffer, window.topline - 1, window.botline - 1)
    end
  elseif rows.first < rows.last then
    local first_row, last_row = replaced_rows(buffer)
    for _, window in ipairs(windows) do
      paint_rows(buffer, math.max(first_row, window.topline - 1), math.min(last_row, window.botline - 1))
    end
  end
  painted[buffer], replaced[buffer] = shown, { first = math.huge, last = 0 }
end

-- Records which rows of the session an edit replaced.
local function note_replaced(buffer)
  local rows, changed = replaced[buffer], sessions[buffer]:changed()
  if not rows or stale[buffer] or sessions[buffer]:pending() or changed.removed ~= changed.added then
    replaced[buffer] = nil
  else
    rows.first = math.min(rows.first, changed.first)
    rows.last = math.max(rows.last, changed.first + changed.added)
  end
end

-- The text that an edit inserts, or nil if it can't be determined.
local function inserted(buffer, row, column, rows, columns)
  local to_row = row + rows
  local to_column = (rows == 0 and column or 0) + columns
  if to_row >= vim.api.nvim_buf_line_count(buffer) then
    return nil
  end
  local done, lines = pcall(vim.api.nvim_buf_get_text, buffer, row, column, to_row, to_column, {})
  return done and table.concat(lines, "\n") or nil
end

-- Makes the session follow an edit of the buffer. If one of its offsets is between a CR and an LF, or
-- the buffer has changed further before its edits are reported, as in `:move`, the whole text is set
-- again when it is needed.
local function follow(buffer, row, column, byte, old_len, rows, columns, new_len)
  local session = sessions[buffer]
  local text = inserted(buffer, row, column, rows, columns)
  local done = text and #text == new_len and session:edit_bytes(byte, byte + old_len, text)
  stale[buffer] = not done or session:text_len() ~= length_of(buffer) or nil
  note_replaced(buffer)
  session:forget()
end

local function on_bytes(_, buffer, _, row, column, byte, _, _, old_len, rows, columns, new_len)
  if not sessions[buffer] then
    return true
  end
  if ahead[buffer] then
    return
  end
  if not stale[buffer] then
    follow(buffer, row, column, byte, old_len, rows, columns, new_len)
  end
  vim.schedule(function()
    M.paint_windows(buffer)
  end)
end

local function end_search(buffer)
  end_timer(buffer)
  if sessions[buffer] then
    sessions[buffer]:close()
    sessions[buffer], stale[buffer], patterns[buffer] = nil, nil, nil
    painted[buffer], replaced[buffer] = nil, nil
  end
end

-- Why a pattern is refused, with the offset of the mistake.
local function told_of(pattern, why)
  local found = why == "pattern" and rope_search.pattern_error(pattern)
  return found and ("%s, at byte %d"):format(found.reason, found.place) or why
end

-- Searches a buffer for a pattern, live. It returns true, or nil and why the pattern is refused.
function M.search(buffer, pattern)
  if not sessions[buffer] then
    local session = assert(rope_search.open())
    local done, why = session:set_text(text_of(buffer))
    if not done then
      return nil, why
    end
    sessions[buffer] = session
    vim.api.nvim_buf_attach(buffer, false, {
      on_bytes = on_bytes,
      on_reload = function()
        stale[buffer], replaced[buffer] = true, nil
      end,
      on_detach = function()
        end_search(buffer)
      end,
    })
    vim.api.nvim_create_autocmd({ "WinScrolled", "BufWinEnter" }, {
      group = GROUP,
      buffer = buffer,
      callback = function()
        M.paint_windows(buffer)
      end,
    })
  end
  session_of(buffer)
  local done, why = begin(buffer, pattern)
  M.paint_windows(buffer)
  return done, told_of(pattern, why)
end

-- Whether a pattern of a buffer is pending.
function M.pending(buffer)
  local session = sessions[buffer]
  return session ~= nil and session:pending() ~= nil
end

-- Ends the search of a buffer.
function M.stop(buffer)
  vim.api.nvim_clear_autocmds({ group = GROUP, buffer = buffer })
  vim.api.nvim_buf_clear_namespace(buffer, NAMESPACE, 0, -1)
  end_search(buffer)
end

-- The number of matches that start at or before the cursor, and of all; and whether there may be more
-- because lines remain to be searched: then those of the lines that are done are counted.
function M.count(window)
  local session = session_of(vim.api.nvim_win_get_buf(window))
  if not session then
    return 0, 0, false
  end
  local at, done = M.position(window), session:pending()
  local count = done and session.count_pending or session.count_matches
  local before = count(session, 0, at.line)
  for _, match in ipairs((not done or at.line < done) and matches_in(session, at.line) or {}) do
    before = before + (match.start <= at.column and 1 or 0)
  end
  return before, count(session, 0, lines_of(session)), done ~= nil
end

-- The cursor's position in the session.
function M.position(window)
  local buffer = vim.api.nvim_win_get_buf(window)
  local cursor = vim.api.nvim_win_get_cursor(window)
  -- Before Neovim has begun there is no row.
  local row = math.max(0, cursor[1] - 1)
  local text = vim.api.nvim_buf_get_lines(buffer, row, row + 1, true)[1]
  return session_of(buffer):position_of(offset_of(buffer, row) + math.min(cursor[2], #text))
end

local function go_to(window, match)
  local buffer = vim.api.nvim_win_get_buf(window)
  local row, column = place_of(buffer, sessions[buffer]:byte_of({ match.line, match.start }), 0)
  vim.api.nvim_win_set_cursor(window, { row + 1, column })
end

-- The first match of a pending pattern after a position, in a slice of lines, and the last one before
-- it.
local function pending_behind(session, at)
  local stop = math.min(lines_of(session), at.line + M.slice)
  for line = at.line, stop - 1, M.few do
    for _, match in ipairs(assert(session:window(line, math.min(line + M.few, stop)))) do
      if match.line > at.line or match.start > at.column then
        return match
      end
    end
  end
end

local function pending_before(session, at)
  local stop = math.max(0, at.line + 1 - M.slice)
  for line = at.line + 1, stop + 1, -M.few do
    local matches = assert(session:window(math.max(stop, line - M.few), line))
    for i = #matches, 1, -1 do
      if matches[i].line < at.line or matches[i].start < at.column then
        return matches[i]
      end
    end
  end
end

-- Goes to the first match after the cursor, or, without one, to the first of all; while a pattern is
-- pending, to one in a slice of lines. A match after the last LF is no match of the buffer.
function M.next(window)
  local session, at = session_of(vim.api.nvim_win_get_buf(window)), M.position(window)
  local lines, match = lines_of(session), nil
  if session:pending() then
    match = pending_behind(session, at) or pending_behind(session, { line = 0, column = -1 })
  else
    match = session:listed_from({ at.line, at.column + 1 })
    if not match or match.line >= lines then
      match = session:listed_from({ 0, 0 })
    end
  end
  if match and match.line < lines then
    go_to(window, match)
  end
end

-- Goes to the last match before the cursor, or, without one, to the last of all, in the same way.
function M.previous(window)
  local session, at = session_of(vim.api.nvim_win_get_buf(window)), M.position(window)
  local lines, match = lines_of(session), nil
  local behind = { line = lines, column = 0 }
  if session:pending() then
    match = pending_before(session, at) or pending_before(session, behind)
  else
    match = session:listed_before(at) or session:listed_before(behind)
  end
  if match then
    go_to(window, match)
  end
end

-- Replaces texts of the buffer by those of the session, from the last one to the first.
local function put_changes(buffer, session)
  local changes = session:text_changes()
  for i = #changes, 1, -1 do
    local change = changes[i]
    local row, column = place_of(buffer, change.old_start, 0)
    local to_row, to_column = place_of(buffer, change.old_end, row)
    local lines = vim.split(session:text(change.new_start, change.new_end), "\n", { plain = true })
    vim.api.nvim_buf_set_text(buffer, row, column, to_row, to_column, lines)
  end
end

-- Replaces the matches that are listed in some rows, or in all, each by the expansion of the template
-- with the groups of its line, as one undo step, and returns their number. The session makes the edits,
-- and the buffer follows it.
function M.replace(buffer, template, first_row, last_row)
  local session = session_of(buffer)
  -- The last pattern lists no match before all lines are done.
  while session:pending() do
    assert(session:advance(M.slice) ~= nil)
  end
  local first = session:position_of(byte_of_row(buffer, first_row or 0)).line
  local behind = (last_row or vim.api.nvim_buf_line_count(buffer) - 1) + 1
  local count, why = session:replace_listed(first, session:position_of(byte_of_row(buffer, behind)).line, template)
  if not count then
    return nil, why
  end
  ahead[buffer] = true
  local done, wrong = pcall(put_changes, buffer, session)
  ahead[buffer] = nil
  stale[buffer] = not done or session:text_len() ~= length_of(buffer) or nil
  replaced[buffer] = nil
  session:forget()
  M.paint_windows(buffer)
  if not done then
    error(wrong)
  end
  return count
end

return M
